"""The days of events.csv, and what a day shows of each person's legs."""

from __future__ import annotations

import mmap
from collections.abc import Iterator
from dataclasses import dataclass, field
from pathlib import Path

from qsim_tools.files import FileFault, Network
from qsim_tools.matsim_ids import Back

_MARK = b"iteration,"
FACTOR = 1.3  # by which a teleported way is longer than the beeline, as MATSim's default


@dataclass(frozen=True, slots=True)
class Day:
    """An iteration's lines of events.csv: bytes from start to end, after some rows."""

    path: Path
    iteration: int
    start: int
    end: int
    row: int

    def lines(self) -> Iterator[list[str]]:
        """The six fields of each event."""
        left = self.end - self.start
        with open(self.path, "rb") as source:
            source.seek(self.start)
            for number, line in enumerate(source, self.row + 1):
                if left <= 0:
                    return
                left -= len(line)
                row = line.decode("utf-8", "replace").rstrip("\r\n").split(",")
                if len(row) != 6 or not row[0].isdecimal():
                    raise FileFault(self.path, number, "no event")
                yield row


def days(path: Path) -> list[Day]:
    """The iterations of events.csv."""
    if path.stat().st_size == 0:
        return []
    found: list[tuple[int, int, int]] = []
    with open(path, "rb") as source, mmap.mmap(source.fileno(), 0, access=mmap.ACCESS_READ) as data:
        place = 0 if data[: len(_MARK)] == _MARK else -1
        if place < 0:
            raise FileFault(path, 0, "no line iteration,K")
        while place >= 0:
            stop = data.find(b"\n", place)
            stop = len(data) if stop < 0 else stop + 1
            text = data[place + len(_MARK) : stop].strip()
            if not text.isdigit():
                raise FileFault(path, None, f"no line iteration,K at byte {place}")
            found.append((int(text), place, stop))
            place = data.find(b"\n" + _MARK, stop - 1)
            place = place + 1 if place >= 0 else -1
        ends = [row[1] for row in found[1:]] + [len(data)]
    result, row, last = [], 0, 0
    for (iteration, place, stop), end in zip(found, ends):
        row += _newlines(path, last, place)
        last = place
        result.append(Day(path, iteration, stop, end, row))
    return result


def _newlines(path: Path, start: int, end: int) -> int:
    """The lines between two places of a file."""
    count = 0
    with open(path, "rb") as source:
        source.seek(start)
        while start < end:
            chunk = source.read(min(1 << 20, end - start))
            if not chunk:
                break
            count += chunk.count(b"\n")
            start += len(chunk)
    return count


@dataclass(slots=True)
class LegSeen:
    """A leg as a day shows it; what was not seen is None or empty."""

    mode: str
    start: int
    start_link: str
    end: int | None = None
    end_link: str = ""
    boarded: int | None = None
    vehicle: str = ""
    access: str = ""
    egress: str = ""
    metres: float = 0.0
    kind: str = ""  # of the activity behind it
    routing: str = ""
    stuck: bool = False


@dataclass(slots=True)
class Seen:
    """What a day shows of a person: the kind of the first activity, and his legs."""

    first: str = ""
    legs: list[LegSeen] = field(default_factory=list)


class Watch:
    """Goes through a day once and collects the legs of all persons."""

    def __init__(self, network: Network, departures: set[str], back: Back) -> None:
        self.departures, self.back = departures, back
        self.length = {link.name: link.length / 100 for link in network.links.values()}
        self.middle: dict[str, tuple[float, float]] = {}
        for name, link in network.links.items():
            a, b = network.nodes[link.start], network.nodes[link.end]
            self.middle[name] = (a.x + b.x) / 200, (a.y + b.y) / 200
        self.persons: dict[str, Seen] = {}
        self._driven: dict[str, float] = {}
        self._boarded: dict[str, float] = {}
        self._stop: dict[str, str] = {}

    def distance(self, start: str, end: str) -> float:
        """The beeline between the middles of two links, in m."""
        (ax, ay), (bx, by) = self.middle[start], self.middle[end]
        return float(((ax - bx) ** 2 + (ay - by) ** 2) ** 0.5)

    def look(self, day: Day) -> dict[str, Seen]:
        """Collect the legs of a day."""
        for number, row in enumerate(day.lines(), day.row + 1):
            word = row[1]
            try:
                if word == "entered link":
                    self._driven[row[3]] = self._driven.get(row[3], 0.0) + self.length[row[4]]
                elif word in _TAKE:
                    _TAKE[word](self, row)
                if row[4]:
                    self._on(row)
            except (KeyError, IndexError):
                reason = f"{word!r} of a person without a leg, or with an unknown link or vehicle"
                raise FileFault(day.path, number, reason) from None
        for seen in self.persons.values():
            _route_modes(seen, self.back)
        return self.persons

    def _on(self, row: list[str]) -> None:
        """Refuse an unknown link."""
        if row[4] not in self.length:
            raise KeyError(row[4])

    def _leg(self, row: list[str]) -> LegSeen:
        """The leg that a person is on."""
        return self.persons[row[2]].legs[-1]

    def _actend(self, row: list[str]) -> None:
        """The first activity of a person shows its kind."""
        if row[2] not in self.persons:
            self.persons[row[2]] = Seen(row[5])

    def _departure(self, row: list[str]) -> None:
        """A leg begins."""
        self._on(row)
        leg = LegSeen(row[5], int(row[0]), row[4])
        self.persons.setdefault(row[2], Seen()).legs.append(leg)

    def _enters(self, row: list[str]) -> None:
        """A driver or a passenger gets in."""
        leg = self._leg(row)
        leg.boarded, leg.vehicle = int(row[0]), row[3]
        if row[3].startswith("pt:"):
            self._starts(row)
        self._boarded[row[2]] = self._driven.get(row[3], 0.0)

    def _starts(self, row: list[str]) -> None:
        """Refuse a vehicle of no departure."""
        if row[3][3:] not in self.departures:
            raise KeyError(row[3])

    def _leaves(self, row: list[str]) -> None:
        """A driver or a passenger gets out."""
        leg = self._leg(row)
        leg.metres = self._driven.get(row[3], 0.0) - self._boarded.pop(row[2], 0.0)
        leg.egress = self._stop.get(row[3], "") if row[3].startswith("pt:") else ""

    def _waits(self, row: list[str]) -> None:
        """A passenger waits at a stop."""
        self._leg(row).access = row[5]

    def _stops(self, row: list[str]) -> None:
        """A vehicle is at a stop."""
        self._stop[row[3]] = row[5]

    def _arrival(self, row: list[str]) -> None:
        """A leg ends; a teleported one is as long as the beeline times a factor."""
        self._on(row)
        leg = self._leg(row)
        leg.end, leg.end_link = int(row[0]), row[4]
        if leg.vehicle == "":
            leg.metres = self.distance(leg.start_link, leg.end_link) * FACTOR

    def _actstart(self, row: list[str]) -> None:
        """An activity begins."""
        self._leg(row).kind = row[5]

    def _stuck(self, row: list[str]) -> None:
        """A person is stuck."""
        self._leg(row).stuck = True


_TAKE = {
    "actend": Watch._actend,
    "departure": Watch._departure,
    "PersonEntersVehicle": Watch._enters,
    "PersonLeavesVehicle": Watch._leaves,
    "TransitDriverStarts": Watch._starts,
    "waitingForPt": Watch._waits,
    "VehicleArrivesAtFacility": Watch._stops,
    "arrival": Watch._arrival,
    "actstart": Watch._actstart,
    "stuckAndAbort": Watch._stuck,
}


def trips_of(legs: list[LegSeen], back: Back) -> Iterator[list[LegSeen]]:
    """The legs of each trip: from one activity to the next that is no interaction."""
    trip: list[LegSeen] = []
    for leg in legs:
        trip.append(leg)
        if not back.is_within_trip(leg.kind):
            yield trip
            trip = []
    if trip:
        yield trip


def main_mode(modes: list[str]) -> str:
    """The mode of a trip: pt, car, ride, bike or walk, the first of these that it has."""
    return next((mode for mode in ("pt", "car", "ride", "bike", "walk") if mode in modes), "")


def _route_modes(seen: Seen, back: Back) -> None:
    """Give each leg the main mode of its trip."""
    for trip in trips_of(seen.legs, back):
        mode = main_mode([leg.mode for leg in trip])
        for leg in trip:
            leg.routing = mode
