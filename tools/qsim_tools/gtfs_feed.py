"""A GTFS feed: the trips of a date, with their stops and shapes."""

from __future__ import annotations

import csv
import io
import math
import zipfile
from collections.abc import Iterator
from dataclasses import dataclass, field
from datetime import date
from pathlib import Path

from qsim_tools.cli import progress
from qsim_tools.files import FileFault
from qsim_tools.matsim_losses import Losses

DAYS = ("monday", "tuesday", "wednesday", "thursday", "friday", "saturday", "sunday")
Place = tuple[float, float]  # longitude, latitude


@dataclass(slots=True)
class Trip:
    """A trip: its route, its shape, and its calls (stop, arrival, departure, awaited)."""

    id: str
    route: str
    shape: str
    calls: list[tuple[str, int, int, bool]] = field(default_factory=list)
    starts: list[int] = field(default_factory=list)  # seconds of departure, in the place of its own


@dataclass(slots=True)
class Feed:
    """What a feed has for a date."""

    stops: dict[str, Place] = field(default_factory=dict)
    types: dict[str, int] = field(default_factory=dict)
    trips: list[Trip] = field(default_factory=list)
    shapes: dict[str, list[Place]] = field(default_factory=dict)


class Reader:
    """Reads the tables of a feed; faults name the file within the zip and the line."""

    def __init__(self, path: Path, zipped: zipfile.ZipFile) -> None:
        self.path, self.zipped = path, zipped
        self.names = {name.rsplit("/", 1)[-1]: name for name in zipped.namelist()}

    def rows(self, name: str, *needed: str) -> Iterator[tuple[int, dict[str, str]]]:
        """The rows of a table with their lines; a table that is not there has none."""
        if name not in self.names:
            return
        with self.zipped.open(self.names[name]) as source:
            text = io.TextIOWrapper(source, encoding="utf-8-sig", errors="replace", newline="")
            reader = csv.DictReader(text, skipinitialspace=True)
            for key in needed:
                if key not in (reader.fieldnames or ()):
                    raise self.fault(name, 1, f"there is no column {key}")
            for row in reader:
                yield reader.line_num, {k: (v or "").strip() for k, v in row.items() if k}

    def must(self, name: str) -> None:
        """Refuse a feed without a table."""
        if name not in self.names:
            raise FileFault(self.path, None, f"there is no {name}")

    def fault(self, name: str, line: int, reason: str) -> FileFault:
        """The fault of a line."""
        return FileFault(f"{self.path}: {name}", f"line {line}", reason)

    def time(self, name: str, line: int, text: str) -> int | None:
        """A time H:MM:SS, also beyond 24 hours; None where it is empty."""
        if not text:
            return None
        parts = text.split(":")
        if len(parts) != 3 or not all(part.isdecimal() for part in parts):
            raise self.fault(name, line, f"{text!r} is no time")
        return int(parts[0]) * 3600 + int(parts[1]) * 60 + int(parts[2])

    def number(self, name: str, line: int, text: str) -> float:
        """A number."""
        try:
            value = float(text)
        except ValueError:
            value = math.nan
        if not math.isfinite(value):
            raise self.fault(name, line, f"{text!r} is no number")
        return value


def services(reader: Reader, day: date) -> set[str]:
    """The services of a date."""
    if "calendar.txt" not in reader.names:
        reader.must("calendar_dates.txt")
    text = day.strftime("%Y%m%d")
    found = set()
    for _, row in reader.rows("calendar.txt", "service_id", "start_date", "end_date", *DAYS):
        if row["start_date"] <= text <= row["end_date"] and row[DAYS[day.weekday()]] == "1":
            found.add(row["service_id"])
    needed = "service_id", "date", "exception_type"
    for _, row in reader.rows("calendar_dates.txt", *needed):
        if row["date"] == text and row["exception_type"] == "1":
            found.add(row["service_id"])
        elif row["date"] == text:
            found.discard(row["service_id"])
    return found


def _stops(reader: Reader, feed: Feed) -> None:
    """Read the stops."""
    name = "stops.txt"
    for line, row in reader.rows(name, "stop_id", "stop_lat", "stop_lon"):
        if row["stop_lat"] and row["stop_lon"]:
            place = [reader.number(name, line, row[key]) for key in ("stop_lon", "stop_lat")]
            feed.stops[row["stop_id"]] = place[0], place[1]


def _trips(reader: Reader, feed: Feed, day: date) -> dict[str, Trip]:
    """Read routes and the trips of the date."""
    for line, row in reader.rows("routes.txt", "route_id", "route_type"):
        feed.types[row["route_id"]] = int(reader.number("routes.txt", line, row["route_type"]))
    active = services(reader, day)
    trips = {}
    for line, row in reader.rows("trips.txt", "route_id", "service_id", "trip_id"):
        if row["route_id"] not in feed.types:
            raise reader.fault("trips.txt", line, f"there is no route {row['route_id']}")
        if row["service_id"] in active:
            trip = Trip(row["trip_id"], row["route_id"], row.get("shape_id", ""))
            trips[trip.id] = trip
    return trips


def _calls(reader: Reader, feed: Feed, trips: dict[str, Trip], losses: Losses) -> None:
    """Read the calls of the trips."""
    name = "stop_times.txt"
    needed = "trip_id", "stop_id", "stop_sequence", "arrival_time", "departure_time"
    rows: dict[str, list[tuple[int, str, int | None, int | None, bool]]] = {}
    for line, row in progress(reader.rows(name, *needed), "stop times"):
        if row["trip_id"] not in trips:
            continue
        if row["stop_id"] not in feed.stops:
            raise reader.fault(name, line, f"there is no stop {row['stop_id']} with a place")
        place = int(reader.number(name, line, row["stop_sequence"]))
        times = [reader.time(name, line, row[key]) for key in ("arrival_time", "departure_time")]
        arrival = times[0] if times[0] is not None else times[1]
        departure = times[1] if times[1] is not None else arrival
        waits = row.get("timepoint", "") != "0"
        rows.setdefault(row["trip_id"], []).append(
            (place, row["stop_id"], arrival, departure, waits)
        )
    for trip, calls in rows.items():
        calls.sort(key=lambda call: call[0])
        trips[trip].calls = _timed(calls, trip, losses)
        if trips[trip].calls:
            trips[trip].starts = [trips[trip].calls[0][2]]


def _timed(
    calls: list[tuple[int, str, int | None, int | None, bool]], trip: str, losses: Losses
) -> list[tuple[str, int, int, bool]]:
    """Calls with their times; those without are put evenly between those that have them."""
    known = [place for place, call in enumerate(calls) if call[3] is not None]
    if not known or known[0] != 0 or known[-1] != len(calls) - 1:
        losses.note("trip without times at its first or last stop dropped", trip)
        return []
    timed = []
    for place, (_, stop, arrival, departure, waits) in enumerate(calls):
        if arrival is None or departure is None:
            low = max(spot for spot in known if spot < place)
            high = min(spot for spot in known if spot > place)
            start, end = calls[low][3] or 0, calls[high][2] or 0
            arrival = departure = start + (end - start) * (place - low) // (high - low)
            waits = False
            losses.note("time of a call put between its neighbours", trip)
        timed.append((stop, arrival, departure, waits))
    return timed


def _frequencies(reader: Reader, trips: dict[str, Trip]) -> None:
    """Let the trips with headways start again and again."""
    name = "frequencies.txt"
    seen: dict[str, list[int]] = {}
    for line, row in reader.rows(name, "trip_id", "start_time", "end_time", "headway_secs"):
        start = reader.time(name, line, row["start_time"])
        end = reader.time(name, line, row["end_time"])
        step = int(reader.number(name, line, row["headway_secs"]))
        if start is None or end is None or step <= 0:
            raise reader.fault(name, line, "no start, end and headway")
        seen.setdefault(row["trip_id"], []).extend(range(start, end, step))
    for trip, starts in seen.items():
        if trip in trips:
            trips[trip].starts = starts


def _shapes(reader: Reader, feed: Feed, used: set[str]) -> None:
    """Read the shapes that trips use."""
    name = "shapes.txt"
    needed = "shape_id", "shape_pt_lat", "shape_pt_lon", "shape_pt_sequence"
    rows: dict[str, list[tuple[float, float, float]]] = {}
    for line, row in reader.rows(name, *needed):
        if row["shape_id"] in used:
            keys = ("shape_pt_sequence", "shape_pt_lon", "shape_pt_lat")
            point = [reader.number(name, line, row[key]) for key in keys]
            rows.setdefault(row["shape_id"], []).append((point[0], point[1], point[2]))
    for shape, points in rows.items():
        feed.shapes[shape] = [(x, y) for _, x, y in sorted(points)]


def read_feed(path: Path, day: date, losses: Losses) -> Feed:
    """Read what a feed has for a date."""
    feed = Feed()
    try:
        with zipfile.ZipFile(path) as zipped:
            reader = Reader(path, zipped)
            for name in ("stops.txt", "routes.txt", "trips.txt", "stop_times.txt"):
                reader.must(name)
            _stops(reader, feed)
            trips = _trips(reader, feed, day)
            _calls(reader, feed, trips, losses)
            _frequencies(reader, trips)
            _shapes(reader, feed, {trip.shape for trip in trips.values() if trip.shape})
    except (zipfile.BadZipFile, EOFError) as error:
        raise FileFault(path, None, f"the zip file is damaged: {error}") from None
    for trip in trips.values():
        if len(trip.calls) < 2:
            losses.note("trip with fewer than two calls dropped", trip.id)
        else:
            feed.trips.append(trip)
    if not feed.trips:
        raise FileFault(path, None, f"no trip on {day.isoformat()}")
    return feed
