"""What an iteration's events show: legs, trips, links by hour, stops, calls, who was stuck."""

from __future__ import annotations

from dataclasses import dataclass
from pathlib import Path
from typing import Any

import numpy as np
import pandas as pd
from numpy.typing import NDArray

from qsim_tools import report_events as ev
from qsim_tools.files import (
    FileFault,
    Network,
    Schedule,
    Settings,
    read_network,
    read_schedule,
    read_settings,
)
from qsim_tools.report_events import Day, Ints, Texts, ordered_by

Frame = Any
HISTOGRAM_SECONDS = 300
# the mode of a trip of several legs: the first of these that it has
MAIN_MODES = ("pt", "car", "ride", "bike", "walk")


@dataclass
class Scenario:
    """The files of a folder, and the columns of links.csv by the link's number."""

    folder: Path
    network: Network
    schedule: Schedule
    settings: Settings

    def __post_init__(self) -> None:
        links = list(self.network.links.values())
        nodes = self.network.nodes
        self.length = np.array([link.length for link in links])
        self.speed = np.array([link.speed for link in links])
        self.capacity = np.array([link.capacity for link in links])
        # a vehicle that enters in second t leaves in t + free seconds + 1 at the earliest
        self.least = np.array([link.free_seconds + 1 for link in links])
        self.ends = np.array([(nodes[x.end].x, nodes[x.end].y) for x in links]).reshape(-1, 2)
        self.factor = self.settings.flow_permille / 1_000


def read_scenario(folder: Path) -> Scenario:
    """Read the network, the timetable and the settings of a folder."""
    network = read_network(folder)
    schedule = read_schedule(folder, network.links)
    return Scenario(folder, network, schedule, read_settings(folder / "settings.json"))


@dataclass
class Legs:
    """Each leg with the seconds of its beginning and end, by person and then in turn."""

    person: Ints
    mode: Ints
    start: Ints
    end: Ints
    from_link: Ints
    to_link: Ints
    stuck: NDArray[np.bool_]

    def by_mode(self, texts: Texts) -> dict[str, tuple[int, int, float]]:
        """For each mode the legs, those that arrived, and their mean seconds."""
        found = {}
        for mode in np.unique(self.mode):
            mine = self.mode == mode
            came = mine & ~self.stuck
            seconds = (self.end - self.start)[came]
            mean = float(seconds.mean()) if len(seconds) else float("nan")
            found[texts.of(np.array([mode]))[0]] = int(mine.sum()), int(came.sum()), mean
        return dict(sorted(found.items()))


def legs_of(path: Path, day: Day) -> Legs:
    """Join each departure with the arrival or the stuckAndAbort behind it."""
    rows = day.where(ev.DEPARTURE, ev.ARRIVAL, ev.STUCK)
    rows = rows[ordered_by(day.person[rows])]
    starts, ends = rows[0::2], rows[1::2]
    paired = len(rows) % 2 == 0 and bool(
        (day.word[starts] == ev.DEPARTURE).all()
        and (day.word[ends] != ev.DEPARTURE).all()
        and (day.person[starts] == day.person[ends]).all()
    )
    if not paired:
        came, left = len(day.where(ev.DEPARTURE)), len(day.where(ev.ARRIVAL, ev.STUCK))
        reason = f"{came} departures, but {left} ends of legs, or not in turn; was the run stopped?"
        raise FileFault(path, f"iteration {day.iteration}", reason)
    return Legs(
        day.person[starts],
        day.more[starts],
        day.second[starts],
        day.second[ends],
        day.link[starts],
        day.link[ends],
        day.word[ends] == ev.STUCK,
    )


def histogram(legs: Legs, texts: Texts, end_second: int) -> Frame:
    """Departures, arrivals, stuck and en route by five minutes and mode."""
    bins = max(int(legs.end.max(initial=0)), end_second) // HISTOGRAM_SECONDS + 1
    frames = []
    for mode in np.unique(legs.mode):
        mine = legs.mode == mode

        def count(seconds: Ints) -> Ints:
            return np.bincount(seconds // HISTOGRAM_SECONDS, minlength=bins)

        frame = pd.DataFrame({"second": np.arange(bins) * HISTOGRAM_SECONDS})
        frame["mode"] = texts.of(np.array([mode]))[0]
        frame["departures"] = count(legs.start[mine])
        frame["arrivals"] = count(legs.end[mine & ~legs.stuck])
        frame["stuck"] = count(legs.end[mine & legs.stuck])
        ended = frame["arrivals"] + frame["stuck"]
        frame["en_route"] = (frame["departures"] - ended).cumsum()
        frames.append(frame)
    names = ["second", "mode", "departures", "arrivals", "stuck", "en_route"]
    return pd.concat(frames, ignore_index=True) if frames else pd.DataFrame(columns=names)


@dataclass
class LinkHours:
    """For each link and hour: vehicles that entered, buses of these, and cars seen to leave."""

    vehicles: Ints
    buses: Ints
    seen: Ints
    seconds: Ints


def link_hours(day: Day, scenario: Scenario, transit: NDArray[np.bool_]) -> LinkHours:
    """Count `entered link` and `vehicle enters traffic`, and time cars to their `left link`.

    As in the program's own travel times, a car is seen where its next event behind
    `entered link` is `left link` of the same link; the hour is that of the entry.
    """
    links = len(scenario.length)
    hours = max(24, int(day.second.max(initial=0)) // 3_600 + 1)

    def count(rows: Ints, weights: Ints | None = None) -> Ints:
        keys = day.link[rows].astype(np.int64) * hours + day.second[rows] // 3_600
        counted = np.bincount(keys, weights=weights, minlength=links * hours)
        return counted.astype(np.int64).reshape(links, hours)

    into = day.where(ev.ENTERED, ev.ENTERS_TRAFFIC)
    buses = into[transit[day.vehicle[into]]]
    moves = np.flatnonzero(day.vehicle >= 0)
    moves = moves[~transit[day.vehicle[moves]]]
    moves = moves[ordered_by(day.vehicle[moves])]
    now, then = moves[:-1], moves[1:]
    seen = (day.word[now] == ev.ENTERED) & (day.word[then] == ev.LEFT)
    seen &= (day.vehicle[now] == day.vehicle[then]) & (day.link[now] == day.link[then])
    now, then = now[seen], then[seen]
    return LinkHours(
        count(into), count(buses), count(now), count(now, day.second[then] - day.second[now])
    )


def link_hour_table(hours: LinkHours, scenario: Scenario) -> Frame:
    """A row for each link and hour with any vehicle: volumes and speeds."""
    link, hour = np.nonzero(hours.vehicles + hours.seen)
    seen = hours.seen[link, hour]
    with np.errstate(divide="ignore", invalid="ignore"):
        mean = np.where(seen > 0, hours.seconds[link, hour] / seen, np.nan)
    names = list(scenario.network.links)
    free = scenario.speed[link] * 0.036
    return pd.DataFrame(
        {
            "link": [names[k] for k in link],
            "hour": hour,
            "vehicles": hours.vehicles[link, hour],
            "buses": hours.buses[link, hour],
            "cars_seen": seen,
            "mean_seconds": mean.round(2),
            "least_seconds": scenario.least[link],
            "free_kmh": free.round(1),
            "speed_kmh": (free * scenario.least[link] / mean).round(1),
            "speed_share": (scenario.least[link] / mean).round(4),
        }
    )


def link_table(hours: LinkHours, scenario: Scenario) -> Frame:
    """A row for each link: the day's vehicles, the fullest hour, and what cars lost there."""
    lost = hours.seconds - hours.seen * scenario.least[:, None]
    seen = hours.seen.sum(axis=1)
    peak = hours.vehicles.max(axis=1)
    capacity = scenario.capacity * scenario.factor
    with np.errstate(divide="ignore", invalid="ignore"):
        share = np.where(seen > 0, scenario.least * seen / hours.seconds.sum(axis=1), np.nan)
    return pd.DataFrame(
        {
            "link": list(scenario.network.links),
            "vehicles": hours.vehicles.sum(axis=1),
            "buses": hours.buses.sum(axis=1),
            "fullest_hour": hours.vehicles.argmax(axis=1),
            "vehicles_then": peak,
            "share_of_capacity": (peak / capacity).round(3),
            "lost_hours": (lost.sum(axis=1) / 3_600).round(3),
            "speed_share": share.round(4),
        }
    )


def stuck_table(day: Day, texts: Texts, transit: NDArray[np.bool_], end_second: int) -> Frame:
    """Everybody who was stuck: when, where, and what he was doing."""
    rows = day.where(ev.DEPARTURE, ev.WAITS, ev.BOARDS, ev.STUCK)
    rows = rows[ordered_by(day.person[rows])]
    at = np.flatnonzero(day.word[rows] == ev.STUCK)
    before = rows[np.maximum(at - 1, 0)]
    stuck = rows[at]
    riding = np.zeros(len(at), dtype=bool)
    boarded = day.word[before] == ev.BOARDS
    riding[boarded] = transit[day.vehicle[before[boarded]]]
    state = np.where(boarded, np.where(riding, "riding", "driving"), "teleporting")
    state[day.word[before] == ev.WAITS] = "waiting"
    late = day.second[stuck] >= end_second
    frame = pd.DataFrame(
        {
            "second": day.second[stuck],
            "person": texts.of(day.person[stuck]),
            "mode": texts.of(day.more[stuck]),
            "link": texts.of(day.link[stuck]),
            "state": state,
            "why": np.where(late, "day ended", "removed"),
        }
    )
    return frame.sort_values("second", kind="stable", ignore_index=True)


def _stages(names: list[str], more: list[str]) -> NDArray[np.bool_]:
    """For each text, whether an activity of this kind only joins two legs of a trip."""
    return np.array([x.endswith("interaction") or x in more for x in names] + [False], dtype=bool)


def trips_table(
    path: Path, day: Day, legs: Legs, texts: Texts, scenario: Scenario, stages: list[str]
) -> Frame:
    """Each trip: its legs up to the next activity that is more than a change between legs."""
    kinds = day.where(ev.ACT_END)
    kinds = kinds[ordered_by(day.person[kinds])]
    came = day.where(ev.ACT_START)
    came = came[ordered_by(day.person[came])]
    arrived = ~legs.stuck
    if len(kinds) != len(legs.person) or len(came) != int(arrived.sum()):
        reason = "departures and actend, or arrivals and actstart, differ in number"
        raise FileFault(path, f"iteration {day.iteration}", reason)
    from_kind = day.more[kinds]
    to_kind = np.full(len(from_kind), -1)
    to_kind[arrived] = day.more[came]
    first = np.ones(len(from_kind), dtype=bool)
    first[1:] = legs.person[1:] != legs.person[:-1]
    first |= ~_stages(texts.names, stages)[from_kind]
    begin = np.flatnonzero(first)
    last = np.append(begin[1:], len(first)) - 1 if len(begin) else begin
    trip = np.cumsum(first) - 1
    return _trip_rows(legs, texts, scenario, (begin, last, trip), (from_kind, to_kind), day)


def _trip_rows(
    legs: Legs,
    texts: Texts,
    scenario: Scenario,
    spans: tuple[Ints, Ints, Ints],
    kinds: tuple[Ints, Ints],
    day: Day,
) -> Frame:
    """The rows of the trips from the first legs, the last legs, and the trip of each leg."""
    begin, last, trip = spans
    new = np.ones(len(begin), dtype=bool)
    new[1:] = legs.person[begin][1:] != legs.person[begin][:-1]
    starts = np.maximum.accumulate(np.where(new, np.arange(len(begin)), 0))
    a, b = (scenario.ends[x] / 100 for x in (legs.from_link[begin], legs.to_link[last]))
    metres = np.bincount(trip, weights=driven(day, legs, scenario), minlength=len(begin))
    return pd.DataFrame(
        {
            "person": texts.of(legs.person[begin]),
            "trip": np.arange(len(begin)) - starts,
            "departure": legs.start[begin],
            "seconds": legs.end[last] - legs.start[begin],
            "mode": _main_modes(legs, texts, trip, len(begin)),
            "legs": last - begin + 1,
            "from_kind": texts.of(kinds[0][begin]),
            "to_kind": texts.of(kinds[1][last]),
            "from_link": texts.of(legs.from_link[begin]),
            "to_link": texts.of(legs.to_link[last]),
            "beeline_m": np.hypot(*(b - a).T).round().astype(np.int64),
            "driven_m": (metres / 100).round().astype(np.int64),
            "status": np.where(legs.stuck[last], "stuck", "arrived"),
        }
    )


def _main_modes(legs: Legs, texts: Texts, trip: Ints, trips: int) -> NDArray[np.str_]:
    """The mode of each trip."""
    mode = np.full(trips, "", dtype="<U4")
    for name in reversed(MAIN_MODES):
        mode[trip[legs.mode == texts.numbers.get(name, -2)]] = name
    return mode


def driven(day: Day, legs: Legs, scenario: Scenario) -> Ints:
    """For each leg the length, in cm, of the links that the person's own car entered."""
    rows = day.where(ev.DEPARTURE, ev.ENTERED)
    who = np.where(day.word[rows] == ev.DEPARTURE, day.person[rows], day.vehicle[rows])
    cars = np.isin(who, legs.person)
    rows, who = rows[cars], who[cars]
    rows = rows[ordered_by(who)]
    leg = np.cumsum(day.word[rows] == ev.DEPARTURE) - 1
    into = day.word[rows] == ev.ENTERED
    lengths = scenario.length[day.link[rows[into]]]
    total = np.bincount(leg[into], weights=lengths, minlength=len(legs.person))
    return total.astype(np.int64)
