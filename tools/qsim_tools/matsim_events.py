"""events.csv as MATSim's events.xml, output_trips.csv and output_legs.csv.

Each line of events.csv becomes one event. What MATSim tells and a line does not have is joined from
departures.csv, routes.csv and the legs of the day. MATSim's events of transit drivers (departure,
PersonEntersVehicle, PersonLeavesVehicle, arrival) are not made up.
"""

from __future__ import annotations

import csv
import gzip
import io
import math
from collections.abc import Callable, Iterator
from contextlib import contextmanager
from pathlib import Path
from typing import IO, cast
from xml.sax.saxutils import quoteattr

from qsim_tools.cli import progress
from qsim_tools.files import FileFault, Network, Schedule
from qsim_tools.matsim_day import Day, LegSeen, Seen, Watch, main_mode, trips_of
from qsim_tools.matsim_ids import Back
from qsim_tools.matsim_units import clock, half_up

LEGS_HEADER = (
    "person;trip_id;dep_time;trav_time;wait_time;distance;mode;start_link;start_x;start_y;"
    "end_link;end_x;end_y;access_stop_id;egress_stop_id;transit_line;transit_route;vehicle_id"
).split(";")
TRIPS_HEADER = (
    "person;trip_number;trip_id;dep_time;trav_time;wait_time;traveled_distance;euclidean_distance;"
    "main_mode;longest_distance_mode;modes;start_activity_type;end_activity_type;"
    "start_facility_id;start_link;start_x;start_y;end_facility_id;end_link;end_x;end_y;"
    "first_pt_boarding_stop;last_pt_egress_stop"
).split(";")


def vehicle_id(departure: str) -> str:
    """MATSim's id of the vehicle of a departure (by its name, which is unique)."""
    return f"veh_{departure}"


def driver_id(departure: str) -> str:
    """MATSim's id of the driver of a departure."""
    return f"pt_{vehicle_id(departure)}_bus"


@contextmanager
def zipped(path: Path) -> Iterator[IO[bytes]]:
    """A gz file to write, the same bytes for the same content."""
    with open(path, "wb") as raw:
        with gzip.GzipFile("", "wb", compresslevel=4, fileobj=raw, mtime=0) as target:
            yield cast(IO[bytes], target)


class Telling:
    """Writes the events of days as XML."""

    def __init__(self, network: Network, schedule: Schedule, back: Back) -> None:
        self.network, self.schedule, self.back = network, schedule, back
        self._quoted: dict[tuple[str, str], str] = {}
        self._calls: dict[str, int] = {}
        self._legs: dict[str, Iterator[LegSeen]] = {}
        self._leg: dict[str, LegSeen] = {}

    def day(self, day: Day, seen: dict[str, Seen], target: IO[bytes]) -> int:
        """Write a day; the number of events comes back."""
        self._calls, self._leg = {}, {}
        self._legs = {name: iter(person.legs) for name, person in seen.items()}
        target.write(b'<?xml version="1.0" encoding="utf-8"?>\n<events version="1.0">\n')
        count, buffer = 0, []
        for row in progress(day.lines(), f"events of iteration {day.iteration}"):
            count += 1
            try:
                text = _TELL[row[1]](self, row)
            except (KeyError, IndexError, StopIteration):
                reason = f"{row[1]!r} is no event that fits the files"
                raise FileFault(day.path, day.row + count, reason) from None
            buffer.append(f'\t<event time="{row[0]}.0" type="{row[1]}" {text}  />\n')
            if len(buffer) == 20_000:
                target.write("".join(buffer).encode())
                buffer.clear()
        target.write("".join(buffer).encode() + b"</events>\n")
        return count

    def id(self, kind: str, name: str) -> str:
        """An id in quotes."""
        key = kind, name
        text = self._quoted.get(key)
        if text is None:
            text = self._quoted[key] = quoteattr(self.back.id(kind, name))
        return text

    def vehicle(self, name: str) -> str:
        """A vehicle's id in quotes: a car has that of its person."""
        if name.startswith("pt:"):
            return f'"{vehicle_id(name[3:])}"'
        return self.id("person", name)

    def driver(self, row: list[str]) -> str:
        """Who drives, in quotes."""
        if row[3].startswith("pt:"):
            return f'"{driver_id(row[3][3:])}"'
        return self.id("person", row[2])

    def act(self, row: list[str]) -> str:
        """actend, actstart."""
        kind = self.id("kind", row[5])
        return f"person={self.id('person', row[2])} link={self.id('link', row[4])} actType={kind}"

    def departure(self, row: list[str]) -> str:
        """departure."""
        leg = self._leg[row[2]] = next(self._legs[row[2]])
        who = f"person={self.id('person', row[2])} link={self.id('link', row[4])}"
        return f'{who} legMode="{row[5]}" computationalRoutingMode="{leg.routing}"'

    def moded(self, row: list[str]) -> str:
        """arrival, stuckAndAbort."""
        who = f"person={self.id('person', row[2])} link={self.id('link', row[4])}"
        return f'{who} legMode="{row[5]}"'

    def travelled(self, row: list[str]) -> str:
        """travelled: the distance is 1.3 times the beeline of the leg."""
        leg = self._leg[row[2]]
        return f'person={self.id("person", row[2])} distance="{leg.metres:.1f}" mode="{leg.mode}"'

    def riding(self, row: list[str]) -> str:
        """PersonEntersVehicle, PersonLeavesVehicle."""
        return f"person={self.id('person', row[2])} vehicle={self.vehicle(row[3])}"

    def traffic(self, row: list[str]) -> str:
        """vehicle enters traffic, vehicle leaves traffic."""
        who = f"person={self.driver(row)} link={self.id('link', row[4])}"
        return f'{who} vehicle={self.vehicle(row[3])} networkMode="car" relativePosition="1.0"'

    def passing(self, row: list[str]) -> str:
        """left link, entered link, vehicle aborts."""
        return f"vehicle={self.vehicle(row[3])} link={self.id('link', row[4])}"

    def waiting(self, row: list[str]) -> str:
        """waitingForPt."""
        leg = self._leg[row[2]]
        stops = f"atStop={self.id('stop', row[5])} destinationStop={self.id('stop', leg.egress)}"
        return f"agent={self.id('person', row[2])} {stops}"

    def starting(self, row: list[str]) -> str:
        """TransitDriverStarts."""
        name = row[3][3:]
        departure = self.schedule.departures[name]
        route = self.schedule.routes[departure.route]
        return (
            f'driverId="{driver_id(name)}" vehicleId="{vehicle_id(name)}" '
            f"transitLineId={self.id('line', route.line)} "
            f"transitRouteId={self.id('route', route.name)} "
            f"departureId={self.id('departure', name)}"
        )

    def facility(self, row: list[str]) -> str:
        """VehicleArrivesAtFacility, VehicleDepartsAtFacility with the delay."""
        departure = self.schedule.departures[row[3][3:]]
        place = self._calls.get(row[3], 0)
        call = self.schedule.routes[departure.route].calls[place]
        if row[1] == "VehicleDepartsAtFacility":
            self._calls[row[3]] = place + 1
        delay = int(row[0]) - departure.second - call.offset
        what = f"vehicle={self.vehicle(row[3])} facility={self.id('stop', row[5])}"
        return f'{what} delay="{delay}.0"'


_TELL: dict[str, Callable[[Telling, list[str]], str]] = {
    "actend": Telling.act,
    "actstart": Telling.act,
    "departure": Telling.departure,
    "arrival": Telling.moded,
    "stuckAndAbort": Telling.moded,
    "travelled": Telling.travelled,
    "PersonEntersVehicle": Telling.riding,
    "PersonLeavesVehicle": Telling.riding,
    "vehicle enters traffic": Telling.traffic,
    "vehicle leaves traffic": Telling.traffic,
    "left link": Telling.passing,
    "entered link": Telling.passing,
    "vehicle aborts": Telling.passing,
    "waitingForPt": Telling.waiting,
    "TransitDriverStarts": Telling.starting,
    "VehicleArrivesAtFacility": Telling.facility,
    "VehicleDepartsAtFacility": Telling.facility,
}


class Tables:
    """Writes the legs and trips of a day as MATSim's tables."""

    def __init__(self, watch: Watch, schedule: Schedule, back: Back) -> None:
        self.watch, self.schedule, self.back = watch, schedule, back

    def write(self, seen: dict[str, Seen], legs: Path, trips: Path) -> None:
        """Write output_legs.csv.gz and output_trips.csv.gz; trips that did not end are left out."""
        with zipped(legs) as one, zipped(trips) as two:
            first = io.TextIOWrapper(one, encoding="utf-8", newline="")
            second = io.TextIOWrapper(two, encoding="utf-8", newline="")
            leg_rows = csv.writer(first, delimiter=";", lineterminator="\n")
            trip_rows = csv.writer(second, delimiter=";", lineterminator="\n")
            leg_rows.writerow(LEGS_HEADER)
            trip_rows.writerow(TRIPS_HEADER)
            for name, person in seen.items():
                kind = person.first
                for number, trip in enumerate(trips_of(person.legs, self.back), 1):
                    if trip[-1].end is None:
                        break
                    trip_rows.writerow(self._trip(name, number, kind, trip))
                    for leg in trip:
                        leg_rows.writerow(self._leg(name, number, leg))
                    kind = trip[-1].kind
            first.flush()
            second.flush()
            first.detach()
            second.detach()

    def _place(self, link: str) -> list[str]:
        """The id and the middle of a link."""
        x, y = self.watch.middle[link]
        return [self.back.id("link", link), f"{x:.2f}", f"{y:.2f}"]

    def _waited(self, leg: LegSeen) -> int:
        """How long a passenger waited."""
        return leg.boarded - leg.start if leg.mode == "pt" and leg.boarded is not None else 0

    def _leg(self, name: str, number: int, leg: LegSeen) -> list[str]:
        """A row of output_legs.csv."""
        person = self.back.id("person", name)
        stops, line, route, vehicle = ["", ""], "", "", ""
        if leg.mode == "pt" and leg.vehicle:
            departure = self.schedule.departures[leg.vehicle[3:]]
            way = self.schedule.routes[departure.route]
            line, route = self.back.id("line", way.line), self.back.id("route", way.name)
            stops = [self.back.id("stop", leg.access), self.back.id("stop", leg.egress)]
            vehicle = vehicle_id(leg.vehicle[3:])
        elif leg.vehicle:
            vehicle = self.back.id("person", leg.vehicle)
        times = [leg.start, (leg.end or leg.start) - leg.start, self._waited(leg)]
        head = [person, f"{person}_{number}", *map(clock, times)]
        middle = [str(half_up(leg.metres)), leg.mode]
        places = [*self._place(leg.start_link), *self._place(leg.end_link)]
        return [*head, *middle, *places, *stops, line, route, vehicle]

    def _trip(self, name: str, number: int, kind: str, trip: list[LegSeen]) -> list[str]:
        """A row of output_trips.csv."""
        person = self.back.id("person", name)
        first, last = trip[0], trip[-1]
        waited = sum(map(self._waited, trip))
        times = [first.start, (last.end or first.start) - first.start, waited]
        modes = [leg.mode for leg in trip]
        beeline = math.dist(self.watch.middle[first.start_link], self.watch.middle[last.end_link])
        distance = half_up(sum(leg.metres for leg in trip))
        longest = max(trip, key=lambda leg: leg.metres).mode
        buses = [leg for leg in trip if leg.mode == "pt"]
        return [
            *(person, str(number), f"{person}_{number}"),
            *map(clock, times),
            *(str(distance), str(half_up(beeline))),
            *(main_mode(modes), longest, "-".join(modes)),
            *(self.back.id("kind", kind), self.back.id("kind", last.kind)),
            *("", *self._place(first.start_link), "", *self._place(last.end_link)),
            self.back.id("stop", buses[0].access) if buses else "",
            self.back.id("stop", buses[-1].egress) if buses else "",
        ]
