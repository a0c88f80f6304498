"""Typed readers and writers of the files of qsim.

Every reader checks the form of each row (number of fields, names, numbers and their ranges) and
raises FileFault with the file, the row and the reason. Row 0 is the header and row 1 the first row
of data, as in the reports of qsim. `qsim check` decides whether a whole scenario is valid.
"""

from __future__ import annotations

import csv
import json
import os
import re
from collections.abc import Iterable, Iterator, Sequence
from contextlib import contextmanager
from dataclasses import asdict, dataclass, field, fields
from pathlib import Path
from typing import IO, Any, NamedTuple

NODES_HEADER = ("node", "x", "y")
LINKS_HEADER = ("link", "from", "to", "length", "speed", "capacity", "lanes")
PLANS_HEADER = ("person", "plan", "kind", "name", "link", "time", "route")
STOPS_HEADER = ("stop", "link")
ROUTES_HEADER = ("line", "route", "links", "stops")
DEPARTURES_HEADER = ("departure", "route", "second", "seats")
SIGNALS_HEADER = ("kind", "link", "other", "cycle", "offset", "greens")
MODES = ("car", "walk", "bike", "ride", "pt")
TELEPORTED = ("walk", "bike", "ride")


class Limits:
    """The limits of docs/files.md that the tools must respect."""

    NODES = 131_072
    LINKS = 262_144
    LINKS_INTO_NODE = 16
    PERSONS = 65_536
    PLANS = 5
    LEGS = 8
    ROUTE_LINKS = 1_000
    STOPS = 16_384
    ROUTES = 4_096
    CALLS = 200
    DEPARTURES = 65_536
    COORDINATE = 1_000_000_000
    LENGTH = 10_000_000
    SPEED = 10_000
    CAPACITY = 100_000
    LANES = 20
    SECOND = 172_800
    SEATS = 1_000
    NAME = 64
    FILE_BYTES = 2**28


class FileFault(Exception):
    """A fault of a file: the text names the file, the row or line, and the reason."""

    def __init__(self, path: Path | str, place: int | str | None, reason: str) -> None:
        self.path, self.place, self.reason = str(path), place, reason
        where = f"row {place}: " if isinstance(place, int) else f"{place}: " if place else ""
        super().__init__(f"{path}: {where}{reason}")


# ---------------------------------------------------------------- rows


@dataclass(frozen=True, slots=True)
class Node:
    """A node; coordinates in cm."""

    name: str
    x: int
    y: int


@dataclass(frozen=True, slots=True)
class Link:
    """A link; length in cm, speed in cm/s, capacity in vehicles an hour."""

    name: str
    start: str
    end: str
    length: int
    speed: int
    capacity: int
    lanes: int

    @property
    def free_seconds(self) -> int:
        """The free travel time, rounded down, at least one second."""
        return max(1, self.length // self.speed)


@dataclass(frozen=True, slots=True)
class Act:
    """An activity with its planned end in seconds, or None."""

    kind: str
    link: str
    end: int | None


@dataclass(frozen=True, slots=True)
class Leg:
    """A leg: seconds of a teleported mode, links of a car, or (line, access, egress) of pt."""

    mode: str
    seconds: int | None
    route: tuple[str, ...]


Element = Act | Leg


@dataclass(frozen=True, slots=True)
class Person:
    """A person with his plans; each plan alternates activities and legs."""

    name: str
    plans: list[list[Element]]


@dataclass(frozen=True, slots=True)
class Stop:
    """A transit stop on a link."""

    name: str
    link: str


@dataclass(frozen=True, slots=True)
class Call:
    """A call of a route at a stop: offset from the departure in seconds."""

    stop: str
    offset: int
    wait: bool


@dataclass(frozen=True, slots=True)
class Route:
    """A transit route of a line."""

    line: str
    name: str
    links: tuple[str, ...]
    calls: tuple[Call, ...]


@dataclass(frozen=True, slots=True)
class Departure:
    """A departure of a transit route."""

    name: str
    route: str
    second: int
    seats: int


@dataclass(frozen=True, slots=True)
class Signal:
    """The signal of a link; greens are spans (from, to) of the cycle."""

    link: str
    cycle: int
    offset: int
    greens: tuple[tuple[int, int], ...]


@dataclass(frozen=True, slots=True)
class Conflict:
    """Two links into one node that no second may have both green."""

    link: str
    other: str


class Event(NamedTuple):
    """A line of events.csv; fields that the word does not use are empty."""

    second: int
    word: str
    person: str
    vehicle: str
    link: str
    more: str


class Score(NamedTuple):
    """A line of scores.csv: the score, in micro-utils, of the plan that the person followed."""

    iteration: int
    person: str
    plan: int
    score: int


@dataclass(frozen=True, slots=True)
class Worth:
    """What a leg of a mode adds: a constant and so much for each second, in micro-utils."""

    constant: int = 0
    per_second: int = -1_666


@dataclass(frozen=True, slots=True)
class Table:
    """What an activity of a kind adds by its duration, and the last second to begin in time."""

    kind: str
    points: list[tuple[int, int]]
    latest: int | None = None


@dataclass(slots=True)
class Settings:
    """settings.json with the defaults of the program."""

    seed: int = 4711
    end_second: int = 108_000
    flow_permille: int = 1_000
    storage_permille: int = 1_000
    stuck_seconds: int = 10
    stuck_push: int = 0
    hole_speed: int | None = None
    dwell_open: int = 4
    dwell_alight: int = 1
    dwell_board: int = 2
    last_iteration: int = 0
    memory_size: int = 5
    weight_keep: int = 1
    weight_best: int = 0
    weight_random: int = 0
    weight_logit: int = 0
    weight_reroute: int = 0
    weight_time: int = 0
    logit_unit: int = 1_000_000
    mutation_range: int = 1_800
    innovation_last: int = 1_000
    late_per_second: int = -5_000
    stuck: int = -100_000_000
    modes: dict[str, Worth] = field(default_factory=dict)
    tables: list[Table] = field(default_factory=list)

    def worth(self, mode: str) -> Worth:
        """What a leg of the mode adds."""
        return self.modes.get(mode, Worth())

    def as_json(self) -> str:
        """The text of settings.json: one line for each key that is not the default."""
        plain = Settings()
        rows = []
        for key in fields(self):
            value = getattr(self, key.name)
            if value != getattr(plain, key.name):
                rows.append(f"{json.dumps(key.name)}: {json.dumps(plain_json(value))}")
        return "{\n " + ",\n ".join(rows) + "\n}\n" if rows else "{}\n"


def plain_json(value: Any) -> Any:
    """Turn modes and tables into what JSON has."""
    if isinstance(value, dict):
        return {key: plain_json(item) for key, item in value.items()}
    if isinstance(value, list):
        return [plain_json(item) for item in value]
    if isinstance(value, Worth):
        return asdict(value)
    if isinstance(value, Table):
        points = [list(point) for point in value.points]
        latest = {} if value.latest is None else {"latest": value.latest}
        return {"kind": value.kind, "points": points, **latest}
    return value


@dataclass(slots=True)
class Network:
    """Nodes and links by name, in the order of their files."""

    nodes: dict[str, Node]
    links: dict[str, Link]


@dataclass(slots=True)
class Schedule:
    """Stops, routes and departures by name, in the order of their files."""

    stops: dict[str, Stop] = field(default_factory=dict)
    routes: dict[str, Route] = field(default_factory=dict)
    departures: dict[str, Departure] = field(default_factory=dict)


# ---------------------------------------------------------------- fields

_NAME = re.compile(r"[A-Za-z0-9_.\-]{1,64}\Z")
_DIGITS = re.compile(r"-?[0-9]{1,20}\Z")


def is_name(text: str) -> bool:
    """Whether a text is a name by docs/files.md."""
    return _NAME.match(text) is not None


class _Row:
    """A row of a file with its number; takes fields and names what is wrong."""

    __slots__ = ("path", "number", "fields")

    def __init__(self, path: Path, number: int, values: Sequence[str]) -> None:
        self.path, self.number, self.fields = path, number, values

    def fault(self, reason: str) -> FileFault:
        """The fault of this row."""
        return FileFault(self.path, self.number, reason)

    def name(self, place: int, what: str) -> str:
        """A field that is a name."""
        text = self.fields[place]
        if not is_name(text):
            raise self.fault(f"{what} {text!r} is no name")
        return text

    def number_in(self, place: int, what: str, low: int, high: int) -> int:
        """A field that is a whole number from low to high."""
        return self.number_of(self.fields[place], what, low, high)

    def number_of(self, text: str, what: str, low: int, high: int) -> int:
        """A text that is a whole number from low to high."""
        if _DIGITS.match(text) is None or not low <= int(text) <= high:
            raise self.fault(f"{what} {text!r} is no whole number from {low} to {high}")
        return int(text)

    def names(self, place: int, what: str) -> tuple[str, ...]:
        """A field that is a list of names."""
        text = self.fields[place]
        if not text:
            return ()
        parts = tuple(text.split(" "))
        for part in parts:
            if not is_name(part):
                raise self.fault(f"{what} {part!r} is no name")
        return parts


def _records(path: Path) -> Iterator[tuple[int, list[str]]]:
    """The records of a CSV file with their row numbers from 0."""
    with open(path, encoding="utf-8-sig", errors="surrogateescape", newline="") as source:
        reader = csv.reader(source)
        number = 0
        try:
            for values in reader:
                if values:
                    yield number, values
                    number += 1
        except csv.Error as error:
            raise FileFault(path, number, str(error)) from None


def _rows(path: Path, header: tuple[str, ...]) -> Iterator[_Row]:
    """The rows behind the header, each with the right number of fields."""
    for number, values in _records(path):
        if number == 0:
            if tuple(values) != header:
                raise FileFault(path, 0, f"the header is not {','.join(header)}")
            continue
        row = _Row(path, number, values)
        if len(values) != len(header):
            raise row.fault(f"{len(values)} fields in place of {len(header)}")
        yield row


# ---------------------------------------------------------------- readers


def read_nodes(path: Path) -> dict[str, Node]:
    """Read nodes.csv."""
    nodes: dict[str, Node] = {}
    limit = Limits.COORDINATE
    for row in _rows(path, NODES_HEADER):
        name = row.name(0, "node")
        if name in nodes:
            raise row.fault(f"node {name} is there twice")
        x, y = (row.number_in(k, f"coordinate {'xy'[k - 1]}", -limit, limit) for k in (1, 2))
        nodes[name] = Node(name, x, y)
    return nodes


def read_links(path: Path, nodes: dict[str, Node] | None = None) -> dict[str, Link]:
    """Read links.csv; with nodes, each end must be one of them."""
    links: dict[str, Link] = {}
    for row in _rows(path, LINKS_HEADER):
        name = row.name(0, "link")
        if name in links:
            raise row.fault(f"link {name} is there twice")
        ends = row.name(1, "node"), row.name(2, "node")
        for end in ends:
            if nodes is not None and end not in nodes:
                raise row.fault(f"there is no node {end}")
        links[name] = Link(
            name,
            *ends,
            row.number_in(3, "length", 1, Limits.LENGTH),
            row.number_in(4, "speed", 1, Limits.SPEED),
            row.number_in(5, "capacity", 1, Limits.CAPACITY),
            row.number_in(6, "lanes", 1, Limits.LANES),
        )
    return links


def read_network(folder: Path) -> Network:
    """Read nodes.csv and links.csv of a folder."""
    nodes = read_nodes(folder / "nodes.csv")
    return Network(nodes, read_links(folder / "links.csv", nodes))


def read_stops(path: Path, links: dict[str, Link] | None = None) -> dict[str, Stop]:
    """Read stops.csv; with links, each stop must be on one of them."""
    stops: dict[str, Stop] = {}
    for row in _rows(path, STOPS_HEADER):
        name, link = row.name(0, "stop"), row.name(1, "link")
        if name in stops:
            raise row.fault(f"stop {name} is there twice")
        if links is not None and link not in links:
            raise row.fault(f"there is no link {link}")
        stops[name] = Stop(name, link)
    return stops


def _call(row: _Row, text: str) -> Call:
    """A stop call STOP:OFFSET or STOP:OFFSET:wait."""
    parts = text.split(":")
    if len(parts) not in (2, 3) or not is_name(parts[0]) or parts[2:] not in ([], ["wait"]):
        raise row.fault(f"{text!r} is no stop call")
    offset = row.number_of(parts[1], "offset", 0, Limits.SECOND)
    return Call(parts[0], offset, len(parts) == 3)


def read_routes(
    path: Path, links: dict[str, Link] | None = None, stops: dict[str, Stop] | None = None
) -> dict[str, Route]:
    """Read routes.csv; with links and stops, each that is named must be one of them."""
    routes: dict[str, Route] = {}
    for row in _rows(path, ROUTES_HEADER):
        line, name = row.name(0, "line"), row.name(1, "route")
        if name in routes:
            raise row.fault(f"route {name} is there twice")
        way = row.names(2, "link")
        calls = tuple(_call(row, text) for text in row.fields[3].split(" ") if text)
        for link in way:
            if links is not None and link not in links:
                raise row.fault(f"there is no link {link}")
        for call in calls:
            if stops is not None and call.stop not in stops:
                raise row.fault(f"there is no stop {call.stop}")
        routes[name] = Route(line, name, way, calls)
    return routes


def read_departures(path: Path, routes: dict[str, Route] | None = None) -> dict[str, Departure]:
    """Read departures.csv; with routes, each departure must be of one of them."""
    departures: dict[str, Departure] = {}
    for row in _rows(path, DEPARTURES_HEADER):
        name, route = row.name(0, "departure"), row.name(1, "route")
        if name in departures:
            raise row.fault(f"departure {name} is there twice")
        if routes is not None and route not in routes:
            raise row.fault(f"there is no route {route}")
        departures[name] = Departure(
            name,
            route,
            row.number_in(2, "second", 0, Limits.SECOND),
            row.number_in(3, "seats", 1, Limits.SEATS),
        )
    return departures


def read_schedule(folder: Path, links: dict[str, Link] | None = None) -> Schedule:
    """Read stops.csv, routes.csv and departures.csv of a folder; a missing file has no rows."""
    paths = [folder / f"{word}.csv" for word in ("stops", "routes", "departures")]
    stops = read_stops(paths[0], links) if paths[0].exists() else {}
    routes = read_routes(paths[1], links, stops) if paths[1].exists() else {}
    departures = read_departures(paths[2], routes) if paths[2].exists() else {}
    return Schedule(stops, routes, departures)


def _spans(row: _Row) -> tuple[tuple[int, int], ...]:
    """The green spans FROM-TO of a signal."""
    spans = []
    for text in row.fields[5].split(" ") if row.fields[5] else []:
        parts = text.split("-")
        if len(parts) != 2:
            raise row.fault(f"{text!r} is no span")
        low, high = (row.number_of(part, "second of a span", 0, 3_600) for part in parts)
        spans.append((low, high))
    return tuple(spans)


def read_signals(path: Path) -> list[Signal | Conflict]:
    """Read signals.csv."""
    rows: list[Signal | Conflict] = []
    for row in _rows(path, SIGNALS_HEADER):
        link = row.name(1, "link")
        if row.fields[0] == "conflict":
            rows.append(Conflict(link, row.name(2, "other link")))
        elif row.fields[0] == "signal":
            cycle = row.number_in(3, "cycle", 1, 3_600)
            offset = row.number_in(4, "offset", 0, cycle - 1)
            rows.append(Signal(link, cycle, offset, _spans(row)))
        else:
            raise row.fault(f"kind {row.fields[0]!r} is neither signal nor conflict")
    return rows


def _element(row: _Row) -> Element:
    """The activity or the leg of a row of plans.csv."""
    _, _, kind, name, link, time, route = row.fields
    if kind == "act":
        end = row.number_of(time, "end", 0, Limits.SECOND) if time else None
        if route:
            raise row.fault("an activity has no route")
        return Act(row.name(3, "kind of activity"), row.name(4, "link"), end)
    if kind != "leg":
        raise row.fault(f"kind {kind!r} is neither act nor leg")
    if name not in MODES:
        raise row.fault(f"mode {name!r} is none of {' '.join(MODES)}")
    if link:
        raise row.fault("a leg has no link")
    if name in TELEPORTED:
        if route:
            raise row.fault(f"a leg by {name} has no route")
        return Leg(name, row.number_of(time, "duration", 1, Limits.SECOND), ())
    if time:
        raise row.fault(f"a leg by {name} has no time")
    names = row.names(6, "name")
    if name == "pt" and len(names) != 3:
        raise row.fault("the route of a pt leg is not line, access stop and egress stop")
    return Leg(name, None, names)


def _follow(row: _Row, plan: list[Element], element: Element) -> None:
    """Refuse an element that may not come behind what the plan has."""
    if isinstance(element, Leg) and (not plan or isinstance(plan[-1], Leg)):
        raise row.fault("a leg is not behind an activity")
    if isinstance(element, Act) and plan and isinstance(plan[-1], Act):
        raise row.fault("an activity is behind an activity")


def _refer(row: _Row, element: Element, links: dict[str, Link]) -> None:
    """Refuse an element that names a link that is not there."""
    if isinstance(element, Act):
        names: tuple[str, ...] = (element.link,)
    else:
        names = element.route if element.mode == "car" else ()
    for link in names:
        if link not in links:
            raise row.fault(f"there is no link {link}")


def read_plans(path: Path, links: dict[str, Link] | None = None) -> Iterator[Person]:
    """Read plans.csv or plans_out.csv, a person at a time; with links, each must be one of them."""
    person: Person | None = None
    row = None
    for row in _rows(path, PLANS_HEADER):
        name = row.fields[0]
        plan = row.number_in(1, "plan", 0, Limits.PLANS - 1)
        if person is None or person.name != name:
            if person is not None:
                _ended(row, person, row.number - 1)
                yield person
            person = Person(row.name(0, "person"), [])
        if plan not in (len(person.plans), len(person.plans) - 1):
            raise row.fault(f"plan {plan} is out of order")
        if plan == len(person.plans):
            if person.plans:
                _ended(row, person, row.number - 1)
            person.plans.append([])
        element = _element(row)
        _follow(row, person.plans[-1], element)
        if links is not None:
            _refer(row, element, links)
        person.plans[-1].append(element)
    if person is not None and row is not None:
        _ended(row, person, row.number)
        yield person


def _ended(row: _Row, person: Person, number: int) -> None:
    """Refuse a plan that ends with a leg."""
    if isinstance(person.plans[-1][-1], Leg):
        raise FileFault(row.path, number, "a plan ends with a leg")


def read_events(path: Path) -> Iterator[tuple[int, Iterator[Event]]]:
    """Read events.csv: each iteration's number with its events, one after the other.

    The events of an iteration must be used up (or left) before the next one is asked for.
    """
    records = _records(path)
    ahead: list[int] = []

    def day() -> Iterator[Event]:
        """The events up to the next line of an iteration."""
        for number, values in records:
            if len(values) == 6:
                try:
                    second = int(values[0])
                except ValueError:
                    raise FileFault(path, number, f"{values[0]!r} is no second") from None
                yield Event(second, *values[1:])
            else:
                ahead.append(_iteration(path, number, values))
                return

    for number, values in records:
        ahead.append(_iteration(path, number, values))
        while ahead:
            events = day()
            yield ahead.pop(), events
            for _ in events:
                pass


def _iteration(path: Path, number: int, values: list[str]) -> int:
    """The number of a line iteration,K."""
    if len(values) != 2 or values[0] != "iteration" or not values[1].isdecimal():
        raise FileFault(path, number, "neither an event nor a line iteration,K")
    return int(values[1])


def read_scores(path: Path) -> Iterator[Score]:
    """Read scores.csv."""
    for number, values in _records(path):
        row = _Row(path, number, values)
        if len(values) != 4:
            raise row.fault(f"{len(values)} fields in place of 4")
        yield Score(
            row.number_in(0, "iteration", 0, 1_000),
            row.name(1, "person"),
            row.number_in(2, "plan", 0, Limits.PLANS),
            row.number_in(3, "score", -(2**63), 2**63 - 1),
        )


def read_text(path: Path) -> str:
    """Read a small file of UTF-8."""
    try:
        return path.read_text(encoding="utf-8")
    except UnicodeDecodeError:
        raise FileFault(path, None, "no UTF-8") from None


def read_settings(path: Path) -> Settings:
    """Read settings.json; a missing or an empty file has all defaults."""
    if not path.exists() or path.stat().st_size == 0:
        return Settings()
    try:
        given = json.loads(read_text(path))
    except json.JSONDecodeError as error:
        raise FileFault(path, f"line {error.lineno}", error.msg) from None
    if not isinstance(given, dict):
        raise FileFault(path, None, "no JSON object")
    settings = Settings()
    known = {key.name for key in fields(settings)}
    for key, value in given.items():
        if key not in known:
            raise FileFault(path, None, f"key {key!r} is none of the program")
        setattr(settings, key, _setting(path, key, value))
    return settings


def _setting(path: Path, key: str, value: Any) -> Any:
    """The value of a key."""
    try:
        if key == "modes":
            return {mode: Worth(**worth) for mode, worth in value.items()}
        if key == "tables":
            return [
                Table(row["kind"], [(s, v) for s, v in row["points"]], row.get("latest"))
                for row in value
            ]
        if isinstance(value, int) and not isinstance(value, bool):
            return value
    except (TypeError, KeyError, ValueError, AttributeError):
        pass
    raise FileFault(path, None, f"key {key!r} has a value that it may not have")


# ---------------------------------------------------------------- writers


@contextmanager
def replacing(path: Path) -> Iterator[IO[bytes]]:
    """Write a file under a temporary name; it takes its own name only when all is written."""
    part = path.with_name(f".{path.name}.{os.getpid()}.part")
    try:
        with open(part, "wb") as target:
            yield target
        os.replace(part, path)
    except BaseException:
        part.unlink(missing_ok=True)
        raise


class Staged:
    """Several files of one folder that appear together, or not at all.

    Files are written under temporary names; the block's end renames them, a fault removes them.
    """

    def __init__(self, folder: Path) -> None:
        self.folder = folder
        self._parts: dict[Path, Path] = {}
        self._made: list[Path] = []

    def __enter__(self) -> Staged:
        return self

    def _make(self, folder: Path) -> None:
        """Make a folder and remember it."""
        if not folder.exists():
            self._make(folder.parent)
            folder.mkdir()
            self._made.append(folder)

    def path(self, name: str) -> Path:
        """The temporary path of a file; it may have folders of its own."""
        final = self.folder / name
        self._make(final.parent)
        part = final.with_name(f".{final.name}.{os.getpid()}.part")
        self._parts[final] = part
        return part

    def write(self, name: str, text: str) -> None:
        """Write a whole text."""
        self.path(name).write_text(text, encoding="utf-8", newline="")

    def rows(self, name: str, header: Sequence[str], rows: Iterable[Sequence[object]]) -> int:
        """Write a header and rows of CSV; the number of rows comes back."""
        count = 0
        with open(self.path(name), "w", encoding="utf-8", newline="") as target:
            writer = csv.writer(target, lineterminator="\n")
            writer.writerow(header)
            for count, row in enumerate(rows, 1):
                writer.writerow(row)
        return count

    def __exit__(self, kind: type[BaseException] | None, *rest: object) -> None:
        for final, part in self._parts.items():
            if kind is None:
                os.replace(part, final)
            else:
                part.unlink(missing_ok=True)
        for folder in reversed(self._made) if kind is not None else ():
            folder.rmdir()


def node_row(node: Node) -> tuple[object, ...]:
    """A row of nodes.csv."""
    return node.name, node.x, node.y


def link_row(link: Link) -> tuple[object, ...]:
    """A row of links.csv."""
    ends = link.name, link.start, link.end
    return *ends, link.length, link.speed, link.capacity, link.lanes


def stop_row(stop: Stop) -> tuple[object, ...]:
    """A row of stops.csv."""
    return stop.name, stop.link


def call_text(call: Call) -> str:
    """The text of a stop call."""
    return f"{call.stop}:{call.offset}" + (":wait" if call.wait else "")


def route_row(route: Route) -> tuple[object, ...]:
    """A row of routes.csv."""
    calls = " ".join(map(call_text, route.calls))
    return route.line, route.name, " ".join(route.links), calls


def departure_row(departure: Departure) -> tuple[object, ...]:
    """A row of departures.csv."""
    return departure.name, departure.route, departure.second, departure.seats


def signal_row(row: Signal | Conflict) -> tuple[object, ...]:
    """A row of signals.csv."""
    if isinstance(row, Conflict):
        return "conflict", row.link, row.other, "", "", ""
    greens = " ".join(f"{low}-{high}" for low, high in row.greens)
    return "signal", row.link, "", row.cycle, row.offset, greens


def person_rows(person: Person) -> Iterator[tuple[object, ...]]:
    """The rows of plans.csv of a person."""
    for number, plan in enumerate(person.plans):
        for element in plan:
            head = person.name, number
            if isinstance(element, Act):
                end = "" if element.end is None else element.end
                yield *head, "act", element.kind, element.link, end, ""
            else:
                seconds = "" if element.seconds is None else element.seconds
                yield *head, "leg", element.mode, "", seconds, " ".join(element.route)


def plan_rows(persons: Iterable[Person]) -> Iterator[tuple[object, ...]]:
    """The rows of plans.csv."""
    for person in persons:
        yield from person_rows(person)


def stage_network(staged: Staged, network: Network) -> None:
    """Write nodes.csv and links.csv."""
    staged.rows("nodes.csv", NODES_HEADER, map(node_row, network.nodes.values()))
    staged.rows("links.csv", LINKS_HEADER, map(link_row, network.links.values()))


def stage_schedule(staged: Staged, schedule: Schedule) -> None:
    """Write stops.csv, routes.csv and departures.csv."""
    staged.rows("stops.csv", STOPS_HEADER, map(stop_row, schedule.stops.values()))
    staged.rows("routes.csv", ROUTES_HEADER, map(route_row, schedule.routes.values()))
    rows = map(departure_row, schedule.departures.values())
    staged.rows("departures.csv", DEPARTURES_HEADER, rows)
