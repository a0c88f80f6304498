"""The command qsim-gtfs: a timetable from GTFS, for the network of a folder."""

from __future__ import annotations

import argparse
import csv
import io
import math
from dataclasses import dataclass, field
from datetime import date, datetime
from pathlib import Path

from qsim_tools import cli
from qsim_tools.cli import progress
from qsim_tools.files import Call, Departure, FileFault, Limits, Route, Schedule, Staged, Stop
from qsim_tools.files import read_network, read_text, stage_schedule
from qsim_tools.gtfs_feed import Feed, Place, Trip, read_feed
from qsim_tools.gtfs_match import Matcher
from qsim_tools.matsim_ids import IDS_HEADER, Ids
from qsim_tools.matsim_losses import LOSSES_HEADER, Losses

BUSES = "3,11,200-299,700-799,800"
KINDS = ("stop", "line", "route", "departure")


@dataclass(slots=True)
class Pattern:
    """Trips of a route with the same stops, offsets and shape."""

    route: str
    shape: str
    calls: tuple[tuple[str, int, bool], ...]
    trips: list[Trip] = field(default_factory=list)


def patterns_of(feed: Feed, types: set[int] | None, losses: Losses) -> list[Pattern]:
    """The patterns of a feed, in the order of their first trips; other types are left out."""
    found: dict[object, Pattern] = {}
    for trip in feed.trips:
        kind = feed.types[trip.route]
        if types is not None and kind not in types:
            losses.note(f"trip of a route of type {kind} left out", trip.id)
            continue
        start = trip.calls[0][2]
        if any(b[1] < a[2] for a, b in zip(trip.calls, trip.calls[1:])):
            losses.note("trip whose times fall dropped", trip.id)
            continue
        calls = tuple((stop, leaves - start, waits) for stop, _, leaves, waits in trip.calls)
        key = trip.route, trip.shape, calls
        found.setdefault(key, Pattern(trip.route, trip.shape, calls)).trips.append(trip)
    return list(found.values())


class Timetable:
    """Makes stops, routes and departures of patterns."""

    def __init__(self, feed: Feed, matcher: Matcher, seats: int, losses: Losses) -> None:
        self.feed, self.matcher, self.seats, self.losses = feed, matcher, seats, losses
        self.schedule, self.ids = Schedule(), Ids()
        self.ids.of["stop"].reserve(feed.stops)
        self.ids.of["line"].reserve(feed.types)
        self.ids.of["departure"].reserve(trip.id for trip in feed.trips)
        self.places: dict[str, Place] = {}
        self.shapes: dict[str, set[str]] = {}
        self._matched: dict[object, tuple[list[str], list[str], list[int]] | None] = {}
        self._first: dict[str, str] = {}

    def project(self, crs: str) -> None:
        """Bring stops and shapes to the CRS of the network."""
        from pyproj import CRS, Transformer
        from pyproj.exceptions import CRSError

        try:
            change = Transformer.from_crs(CRS.from_epsg(4326), CRS(crs), always_xy=True)
        except CRSError:
            raise FileFault(crs, None, "no known CRS") from None
        for stop, place in self.feed.stops.items():
            self.places[stop] = change.transform(*place)
        for shape, points in self.feed.shapes.items():
            places = [change.transform(*point) for point in points]
            line = [place for place in places if all(map(math.isfinite, place))]
            if len(line) > 1:
                self.shapes[shape] = self.matcher.on_shape(line)

    def take(self, pattern: Pattern) -> None:
        """Take a pattern, if its way fits."""
        key = pattern.shape, tuple(call[0] for call in pattern.calls)
        if key not in self._matched:
            self._matched[key] = self._match(pattern)
        match = self._matched[key]
        example = f"{pattern.route}, trip {pattern.trips[0].id}"
        count = len(pattern.trips)
        if match is None:
            self.losses.note("trip without a way along the links dropped", example, count)
            return
        links, chosen, kept = match
        if len(links) > Limits.ROUTE_LINKS or len(chosen) > Limits.CALLS:
            self.losses.note("trip with too many links or calls dropped", example, count)
            return
        if len(self.schedule.routes) == Limits.ROUTES:
            self.losses.note("trip of a route beyond the limit dropped", example, count)
            return
        lead = pattern.calls[kept[0]][1]
        rows = [pattern.calls[place] for place in kept]
        calls = [
            Call(self._stop(stop, link), offset - lead, waits)
            for (stop, offset, waits), link in zip(rows, chosen)
        ]
        line = self.ids.of["line"].name(pattern.route)
        number = sum(route.line == line for route in self.schedule.routes.values())
        name = self.ids.of["route"].name(f"{pattern.route}_{number}")
        self.schedule.routes[name] = Route(line, name, tuple(links), tuple(calls))
        for trip in pattern.trips:
            self._departures(trip, name, lead)

    def _match(self, pattern: Pattern) -> tuple[list[str], list[str], list[int]] | None:
        """The links, the link of each stop that is kept, and the places of these."""
        near, kept = [], []
        for place, (stop, _, _) in enumerate(pattern.calls):
            candidates = self.matcher.near(self.places[stop])
            if candidates:
                near.append(candidates)
                kept.append(place)
            else:
                self.losses.note("stop without a link nearby left out", stop)
        if len(near) < 2:
            return None
        found = self.matcher.way(near, self.shapes.get(pattern.shape))
        return None if found is None else (*found, kept)

    def _stop(self, stop: str, link: str) -> str:
        """The stop on a link; a stop that is on several links becomes several stops."""
        first = self._first.setdefault(stop, link)
        name = self.ids.of["stop"].name(stop if first == link else (stop, link, stop))
        if name not in self.schedule.stops:
            if first != link:
                self.losses.note("stop on several links becomes several stops", stop)
            self.schedule.stops[name] = Stop(name, link)
        return name

    def _departures(self, trip: Trip, route: str, lead: int) -> None:
        """The departures of a trip."""
        for number, start in enumerate(trip.starts):
            second = start + lead
            if not 0 <= second <= Limits.SECOND or (
                len(self.schedule.departures) == Limits.DEPARTURES
            ):
                self.losses.note("departure out of range or beyond the limit dropped", trip.id)
                continue
            key = trip.id if len(trip.starts) == 1 else f"{trip.id}_{number}"
            name = self.ids.of["departure"].name(key)
            self.schedule.departures[name] = Departure(name, route, second, self.seats)


def _old_ids(path: Path) -> list[tuple[str, str, str]]:
    """The rows of ids.csv that are not of a timetable."""
    if not path.exists():
        return []
    rows = [tuple(row) for row in csv.reader(io.StringIO(read_text(path), newline=""))][1:]
    return [(row[0], row[1], row[2]) for row in rows if len(row) == 3 and row[0] not in KINDS]


def make(words: argparse.Namespace, day: date, types: set[int] | None) -> str:
    """Make stops.csv, routes.csv, departures.csv and gtfs.csv; return a summary."""
    folder, losses = words.folder, Losses()
    crs = words.crs
    if crs is None:
        if not (folder / "crs.txt").exists():
            raise FileFault(folder / "crs.txt", None, "no such file, and --crs is not given")
        crs = read_text(folder / "crs.txt").strip()
    network = read_network(folder)
    feed = read_feed(words.feed, day, losses)
    matcher = Matcher(network, words.within, words.left, words.worth)
    table = Timetable(feed, matcher, words.seats, losses)
    table.project(crs)
    for pattern in progress(patterns_of(feed, types, losses), "patterns"):
        table.take(pattern)
    schedule = table.schedule
    if not schedule.departures:
        raise FileFault(words.feed, None, "no trip fits the network")
    with Staged(folder) as staged:
        stage_schedule(staged, schedule)
        rows = [*_old_ids(folder / "ids.csv"), *(r for r in table.ids.rows() if r[0] in KINDS)]
        staged.rows("ids.csv", IDS_HEADER, rows)
        staged.rows("gtfs.csv", LOSSES_HEADER, losses.rows())
    counts = len(schedule.stops), len(schedule.routes), len(schedule.departures)
    head = "written: {:,} stops, {:,} routes, {:,} departures".format(*counts)
    return losses.report(head)


def _types(text: str) -> set[int] | None:
    """Route types as 3,700-799; `all` is None."""
    if text == "all":
        return None
    found: set[int] = set()
    for part in text.split(","):
        low, _, high = part.partition("-")
        found.update(range(int(low), int(high or low) + 1))
    return found


def _day(text: str) -> date:
    """A date as 20260131 or 2026-01-31."""
    return datetime.strptime(text.replace("-", ""), "%Y%m%d").date()


def main() -> None:
    """Run the command qsim-gtfs."""
    about = "Makes stops.csv, routes.csv and departures.csv of a date from a GTFS feed."
    parser = cli.parser("qsim-gtfs", about)
    parser.add_argument("feed", type=cli.existing_file, metavar="FEED.zip")
    parser.add_argument("day", metavar="DATE", type=_day, help="as 20261201")
    parser.add_argument("folder", type=cli.existing_folder, metavar="DIR")
    parser.add_argument("--crs", help="CRS of the network, in place of DIR/crs.txt")
    parser.add_argument("--seats", type=int, default=70, help="places of each vehicle, 1 to 1000")
    parser.add_argument("--types", type=_types, default=BUSES, help="GTFS route types, or all")
    far = "how far a stop may be from its link, in m"
    parser.add_argument("--within", type=float, default=250.0, help=far)
    parser.add_argument("--left", action="store_true", help="traffic keeps to the left")
    worth = "how many seconds on the way a metre between stop and link is worth"
    parser.add_argument("--worth", type=float, default=1.0, help=worth)
    words = parser.parse_args()
    if not 1 <= words.seats <= Limits.SEATS:
        parser.error(f"--seats is none of 1 to {Limits.SEATS}")
    print(make(words, words.day, words.types))
