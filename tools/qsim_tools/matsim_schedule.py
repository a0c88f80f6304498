"""MATSim's transit schedule (v1, v2) and transit vehicles (v1, v2) as the program's timetable."""

from __future__ import annotations

from dataclasses import dataclass, field
from pathlib import Path
from typing import TypeVar

from qsim_tools.files import Call, Departure, FileFault, Limits, Network, Route, Schedule, Stop
from qsim_tools.matsim_ids import Ids
from qsim_tools.matsim_losses import Losses
from qsim_tools.matsim_units import decimal, half_up, seconds
from qsim_tools.matsim_xml import Xml, local, needed, root_of, taken

T = TypeVar("T")


@dataclass(slots=True)
class RawRoute:
    """A route with MATSim's ids."""

    line: str
    id: str
    links: list[str]
    calls: list[tuple[str, int, bool]]
    departures: list[tuple[str, int, str | None]]


@dataclass(slots=True)
class RawSchedule:
    """A schedule as its file gives it: stops with their links, and routes."""

    stops: dict[str, str] = field(default_factory=dict)
    routes: list[RawRoute] = field(default_factory=list)
    orders: dict[str, list[str]] = field(default_factory=dict)

    def links(self) -> set[str]:
        """The links that routes use."""
        return {link for route in self.routes for link in route.links}


@dataclass(slots=True)
class RawVehicles:
    """Places by vehicle, and the seconds of each who boards and who alights by type."""

    places: dict[str, int] = field(default_factory=dict)
    board: dict[str, int] = field(default_factory=dict)
    alight: dict[str, int] = field(default_factory=dict)
    types: dict[str, int] = field(default_factory=dict)


def read_schedule_xml(path: Path, losses: Losses) -> RawSchedule:
    """Read a transit schedule."""
    root = root_of(path)
    if local(root) != "transitSchedule":
        raise FileFault(path, f"line {root.sourceline}", "no transitSchedule")
    schedule = RawSchedule()
    for element in root.iter("stopFacility"):
        link = element.get("linkRefId")
        if link is None:
            losses.note("stop without a link dropped", element.get("id", ""))
        else:
            schedule.stops[needed(path, element, "id")] = link
    for line in root.iter("transitLine"):
        for route in line.iter("transitRoute"):
            schedule.routes.append(_route(path, needed(path, line, "id"), route))
    for row in root.iterfind("attributes/attribute"):
        schedule.orders[row.get("name", "")] = (row.text or "").split()
    losses.note("minimal transfer time dropped", "", len(list(root.iter("relation"))))
    return schedule


def _route(path: Path, line: str, element: Xml) -> RawRoute:
    """Read a route."""
    route = RawRoute(line, needed(path, element, "id"), [], [], [])
    for link in element.iterfind("route/link"):
        route.links.append(needed(path, link, "refId"))
    for stop in element.iterfind("routeProfile/stop"):
        text = stop.get("departureOffset") or stop.get("arrivalOffset")
        offset = taken(path, stop, seconds, text) or 0
        wait = stop.get("awaitDeparture", "false").lower() == "true"
        route.calls.append((needed(path, stop, "refId"), offset, wait))
    for departure in element.iterfind("departures/departure"):
        text = needed(path, departure, "departureTime")
        second = taken(path, departure, seconds, text)
        vehicle = departure.get("vehicleRefId")
        route.departures.append((needed(path, departure, "id"), second or 0, vehicle))
    return route


def read_vehicles_xml(path: Path) -> RawVehicles:
    """Read transit vehicles: places are seats and standing room together."""
    root = root_of(path)
    if local(root) != "vehicleDefinitions":
        raise FileFault(path, f"line {root.sourceline}", "no vehicleDefinitions")
    places: dict[str, int] = {}
    vehicles = RawVehicles()
    for element in root.iter():
        name = local(element)
        if name == "vehicleType":
            kind = needed(path, element, "id")
            places[kind] = _places(path, element)
            _dwell(path, element, kind, vehicles)
        elif name == "vehicle":
            kind = needed(path, element, "type")
            if kind not in places:
                raise FileFault(path, f"line {element.sourceline}", f"no vehicleType {kind}")
            vehicles.places[needed(path, element, "id")] = places[kind]
            vehicles.types[kind] = vehicles.types.get(kind, 0) + 1
    return vehicles


def whole(text: str) -> int:
    """A number, rounded half up."""
    return half_up(decimal(text))


def _places(path: Path, element: Xml) -> int:
    """The seats and the standing room of a type."""
    total = 0
    for part in element.iter():
        name = local(part)
        if name in ("seats", "standingRoom"):
            texts = [part.get("persons", "0")]
        elif name == "capacity":
            texts = [part.get("seats", "0"), part.get("standingRoomInPersons", "0")]
        else:
            continue
        for text in texts:
            total += taken(path, part, whole, text)
    return total


def _dwell(path: Path, element: Xml, kind: str, vehicles: RawVehicles) -> None:
    """The seconds of each who boards and who alights."""
    for part in element.iter():
        name = part.get("name") if local(part) == "attribute" else local(part)
        text = part.text if local(part) == "attribute" else part.get("secondsPerPerson")
        if text is None:
            continue
        if name in ("accessTime", "accessTimeInSecondsPerPerson"):
            vehicles.board[kind] = taken(path, part, whole, text)
        elif name in ("egressTime", "egressTimeInSecondsPerPerson"):
            vehicles.alight[kind] = taken(path, part, whole, text)


class _Builder:
    """Makes the program's timetable of MATSim's."""

    def __init__(self, network: Network, ids: Ids, losses: Losses) -> None:
        self.network, self.ids, self.losses = network, ids, losses
        self.links = {text: name for name, text in ids.of["link"].rows()}
        self.schedule = Schedule()

    def stops(self, raw: RawSchedule) -> None:
        """Take the stops on links that are kept."""
        self.ids.of["stop"].reserve(raw.stops)
        for text, link in raw.stops.items():
            if link not in self.links:
                self.losses.note("stop on a link that is not kept dropped", text)
            elif len(self.schedule.stops) == Limits.STOPS:
                self.losses.note("stop beyond the limit dropped", text)
            else:
                name = self.ids.of["stop"].name(text)
                self.schedule.stops[name] = Stop(name, self.links[link])

    def why_not(self, raw: RawRoute, stops: dict[str, str]) -> str | None:
        """Why a route does not fit, if it does not."""
        if not raw.links or any(link not in self.links for link in raw.links):
            return "without links or on links that are not kept"
        way = [self.network.links[self.links[link]] for link in raw.links]
        if any(a.end != b.start for a, b in zip(way, way[1:])):
            return "with links that do not join"
        if len(way) > Limits.ROUTE_LINKS or len(raw.calls) > Limits.CALLS:
            return "with too many links or calls"
        if any(not 0 <= offset <= Limits.SECOND for _, offset, _ in raw.calls):
            return "with an offset that is out of range"
        place = 0
        for stop, _, _ in raw.calls:
            if stop not in stops:
                return "with a stop that is not kept"
            name = self.schedule.stops[stops[stop]].link
            while place < len(way) and way[place].name != name:
                place += 1
            if place == len(way):
                return "with a stop that is not on its way"
        return None if raw.calls else "without stops"

    def routes(self, raw: RawSchedule, vehicles: RawVehicles) -> None:
        """Take the routes that fit, and their departures."""
        stops = {text: name for name, text in self.ids.of["stop"].rows()}
        self.ids.of["line"].reserve(route.line for route in raw.routes)
        self.ids.of["route"].reserve(route.id for route in raw.routes)
        self.ids.of["departure"].reserve(d[0] for route in raw.routes for d in route.departures)
        for route in raw.routes:
            reason = self.why_not(route, stops)
            if reason is None and len(self.schedule.routes) == Limits.ROUTES:
                reason = "beyond the limit"
            if reason is not None:
                self.losses.note(f"transit route {reason} dropped", f"{route.line} {route.id}")
                continue
            name = self.ids.of["route"].name((route.line, route.id))
            way = tuple(self.links[link] for link in route.links)
            calls = tuple(Call(stops[s], offset, wait) for s, offset, wait in route.calls)
            line = self.ids.of["line"].name(route.line)
            self.schedule.routes[name] = Route(line, name, way, calls)
            for departure in route.departures:
                self.departure(name, route, departure, vehicles)

    def departure(
        self, name: str, route: RawRoute, row: tuple[str, int, str | None], vehicles: RawVehicles
    ) -> None:
        """Take a departure; its places are those of its vehicle."""
        text, second, vehicle = row
        if not 0 <= second <= Limits.SECOND or len(self.schedule.departures) == Limits.DEPARTURES:
            self.losses.note("departure out of range or beyond the limit dropped", text)
            return
        seats = vehicles.places.get(vehicle or "")
        if seats is None:
            self.losses.note("departure without a known vehicle gets 50 places", text)
            seats = 50
        if not 1 <= seats <= Limits.SEATS:
            self.losses.note("places of a departure cut to the range 1 to 1000", text)
            seats = min(max(seats, 1), Limits.SEATS)
        key = self.ids.of["departure"].name((route.line, route.id, text))
        self.schedule.departures[key] = Departure(key, name, second, seats)


def named_schedule(
    raw: RawSchedule, vehicles: RawVehicles, network: Network, ids: Ids, losses: Losses
) -> Schedule:
    """The stops, routes and departures of the program, by its names."""
    builder = _Builder(network, ids, losses)
    builder.stops(raw)
    builder.routes(raw, vehicles)
    schedule = builder.schedule
    schedule.routes = _ordered(schedule.routes, raw.orders.get("qsimRoutes"))
    schedule.departures = _ordered(schedule.departures, raw.orders.get("qsimDepartures"))
    return schedule


def _ordered(rows: dict[str, T], order: list[str] | None) -> dict[str, T]:
    """Rows in the order that an export noted, where it noted that of just these rows."""
    if order is None or sorted(order) != sorted(rows):
        return rows
    return {name: rows[name] for name in order}
