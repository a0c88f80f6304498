"""What an iteration's events show of transit: calls, lateness, loads, boardings, waiting."""

from __future__ import annotations

from dataclasses import dataclass
from pathlib import Path
from typing import Any

import numpy as np
import pandas as pd
from numpy.typing import NDArray

from qsim_tools import report_events as ev
from qsim_tools.files import FileFault, Schedule
from qsim_tools.report_events import Day, Ints, Texts, ordered_by

Frame = Any
CALL_COLUMNS = [
    "departure", "line", "route", "call", "stop", "planned", "arrival", "left",
    "late_seconds", "boardings", "alightings", "load", "seats",
]  # fmt: skip


@dataclass
class Served:
    """Each served call: the event, the vehicle, the number within its route, and who moved."""

    row: Ints
    vehicle: Ints
    number: Ints
    left: Ints
    boardings: Ints
    alightings: Ints
    load: Ints


def _served(path: Path, day: Day, transit: NDArray[np.bool_]) -> Served:
    """Give each boarding, alighting and departure to the call before it of its vehicle."""
    rows = day.where(ev.ARRIVES, ev.DEPARTS, ev.BOARDS, ev.ALIGHTS)
    rows = rows[transit[day.vehicle[rows]]]
    rows = rows[ordered_by(day.vehicle[rows])]
    word, vehicle = day.word[rows], day.vehicle[rows]
    arrives = word == ev.ARRIVES
    call = np.cumsum(arrives) - 1
    heads = np.flatnonzero(arrives)
    own = call >= 0
    own[own] = vehicle[heads[call[own]]] == vehicle[own]
    if not own.all():
        name = f"event {rows[np.argmin(own)] + 1} of iteration {day.iteration}"
        raise FileFault(path, name, "a vehicle is boarded or left before its first call")
    count = len(heads)
    up = np.bincount(call[word == ev.BOARDS], minlength=count)
    down = np.bincount(call[word == ev.ALIGHTS], minlength=count)
    left = np.full(count, -1)
    left[call[word == ev.DEPARTS]] = day.second[rows[word == ev.DEPARTS]]
    owner = vehicle[heads]
    new = np.ones(count, dtype=bool)
    new[1:] = owner[1:] != owner[:-1]
    first = np.maximum.accumulate(np.where(new, np.arange(count), 0))
    total = np.cumsum(up - down)
    load = total - np.where(first > 0, total[first - 1], 0)
    return Served(rows[heads], owner, np.arange(count) - first, left, up, down, load)


def calls_table(
    path: Path, day: Day, texts: Texts, transit: NDArray[np.bool_], schedule: Schedule
) -> Frame:
    """Each served call against its timetable; lateness is that of the arrival."""
    served = _served(path, day, transit)
    vehicles, stops = texts.of(served.vehicle), texts.of(day.more[served.row])
    arrivals, numbers = day.second[served.row].tolist(), served.number.tolist()
    table = []
    for k, name in enumerate(vehicles):
        departure = schedule.departures.get(name[3:])
        if departure is None:
            raise FileFault(path, f"iteration {day.iteration}", f"no departure is named {name[3:]}")
        route = schedule.routes[departure.route]
        if numbers[k] >= len(route.calls) or route.calls[numbers[k]].stop != stops[k]:
            reason = f"call {numbers[k] + 1} of {name} at {stops[k]} is not that of its route"
            raise FileFault(path, f"iteration {day.iteration}", reason)
        planned = departure.second + route.calls[numbers[k]].offset
        table.append((departure.name, route.line, route.name, numbers[k], stops[k], planned))
    frame = pd.DataFrame(table, columns=CALL_COLUMNS[:6])
    frame["arrival"] = arrivals
    frame["left"] = pd.Series(served.left).astype("Int64").mask(pd.Series(served.left) < 0)
    frame["late_seconds"] = frame["arrival"] - frame["planned"]
    frame["boardings"], frame["alightings"] = served.boardings, served.alightings
    frame["load"] = served.load
    seats = [schedule.departures[name].seats for name in frame["departure"]]
    frame["seats"] = np.array(seats, dtype=np.int64)
    return frame


def waits_table(day: Day, texts: Texts) -> Frame:
    """Each wait at a stop that ended by boarding: stop, line's vehicle, second, seconds."""
    rows = day.where(ev.WAITS, ev.BOARDS)
    rows = rows[ordered_by(day.person[rows])]
    now, then = rows[:-1], rows[1:]
    done = (day.word[now] == ev.WAITS) & (day.word[then] == ev.BOARDS)
    done &= day.person[now] == day.person[then]
    now, then = now[done], then[done]
    return pd.DataFrame(
        {
            "stop": texts.of(day.more[now]),
            "second": day.second[now],
            "wait_seconds": day.second[then] - day.second[now],
        }
    )


def stops_table(calls: Frame, waits: Frame, schedule: Schedule) -> Frame:
    """Boardings, alightings, calls, lateness and waiting by stop, in the order of stops.csv."""
    frame = pd.DataFrame({"stop": list(schedule.stops)})
    frame["link"] = [stop.link for stop in schedule.stops.values()]
    grouped = calls.groupby("stop")
    for name in ("boardings", "alightings"):
        frame[name] = frame["stop"].map(grouped[name].sum()).fillna(0).astype(np.int64)
    frame["calls"] = frame["stop"].map(grouped.size()).fillna(0).astype(np.int64)
    frame["mean_late_seconds"] = frame["stop"].map(grouped["late_seconds"].mean()).round(1)
    waited = waits.groupby("stop")["wait_seconds"]
    frame["mean_wait_seconds"] = frame["stop"].map(waited.mean()).round(1)
    frame["longest_wait_seconds"] = frame["stop"].map(waited.max()).astype("Int64")
    return frame


def late_summary(calls: Frame, key: str) -> Frame:
    """Mean, 95th percentile and worst lateness in seconds by a column of the calls."""
    grouped = calls.groupby(key, sort=True)["late_seconds"]
    frame = pd.DataFrame({"calls": grouped.size(), "mean": grouped.mean().round(1)})
    frame["p95"] = grouped.quantile(0.95).round(0)
    frame["worst"] = grouped.max()
    return frame.reset_index()


def vehicles_table(calls: Frame, schedule: Schedule) -> Frame:
    """Each departure: calls served of those planned, boardings, and the largest load."""
    frame = pd.DataFrame({"departure": list(schedule.departures)})
    rows = list(schedule.departures.values())
    frame["line"] = [schedule.routes[row.route].line for row in rows]
    frame["route"] = [row.route for row in rows]
    frame["second"] = [row.second for row in rows]
    frame["seats"] = [row.seats for row in rows]
    frame["calls_planned"] = [len(schedule.routes[row.route].calls) for row in rows]
    grouped = calls.groupby("departure")
    columns = {"calls_served": grouped.size(), "boardings": grouped["boardings"].sum()}
    for name, values in {**columns, "max_load": grouped["load"].max()}.items():
        frame[name] = frame["departure"].map(values).fillna(0).astype(np.int64)
    frame["worst_late_seconds"] = (
        frame["departure"].map(grouped["late_seconds"].max()).astype("Int64")
    )
    return frame
