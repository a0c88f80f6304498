"""The export: the files of a folder of qsim become MATSim's output folder."""

from __future__ import annotations

import json
import os
from collections.abc import Iterable, Iterator
from pathlib import Path
from typing import IO
from xml.sax.saxutils import escape, quoteattr

from qsim_tools.cli import progress
from qsim_tools.files import Act, Element, Leg, Network, Person, Route, Schedule, Settings, Staged
from qsim_tools.files import read_network, read_plans, read_schedule, read_scores, read_settings
from qsim_tools.files import read_text
from qsim_tools.matsim_day import FACTOR, Seen, Watch, days, main_mode
from qsim_tools.matsim_events import Tables, Telling, vehicle_id, zipped
from qsim_tools.matsim_ids import Back
from qsim_tools.matsim_losses import LOSSES_HEADER, Losses
from qsim_tools.matsim_output_config import config_lines
from qsim_tools.matsim_units import clock, metres

DECLARED = '<?xml version="1.0" encoding="UTF-8"?>\n'
DTD = "http://www.matsim.org/files/dtd"


def doctype(root: str, name: str) -> str:
    """The declaration and the document type of a file."""
    return f'{DECLARED}<!DOCTYPE {root} SYSTEM "{DTD}/{name}.dtd">\n'


def write_lines(target: IO[bytes], lines: Iterable[str]) -> None:
    """Write lines in blocks."""
    block: list[str] = []
    for line in lines:
        block.append(line)
        if len(block) == 10_000:
            target.write("".join(block).encode())
            block.clear()
    target.write("".join(block).encode())


def network_lines(network: Network, back: Back, crs: str | None) -> Iterator[str]:
    """output_network.xml (v2)."""
    yield doctype("network", "network_v2") + "<network>\n"
    if crs:
        name = 'name="coordinateReferenceSystem" class="java.lang.String"'
        yield f"<attributes>\n\t<attribute {name}>{escape(crs)}</attribute>\n</attributes>\n"
    yield "<nodes>\n"
    for node in network.nodes.values():
        place = f'x="{metres(node.x)}" y="{metres(node.y)}"'
        yield f"\t<node id={quoteattr(back.id('node', node.name))} {place}/>\n"
    yield '</nodes>\n<links capperiod="01:00:00" effectivecellsize="7.5" '
    yield 'effectivelanewidth="3.75">\n'
    for link in network.links.values():
        ends = [quoteattr(back.id("node", name)) for name in (link.start, link.end)]
        yield (
            f"\t<link id={quoteattr(back.id('link', link.name))} from={ends[0]} to={ends[1]} "
            f'length="{metres(link.length)}" freespeed="{metres(link.speed)}" '
            f'capacity="{link.capacity}.0" permlanes="{link.lanes}.0" oneway="1" modes="car"/>\n'
        )
    yield "</links>\n</network>\n"


def schedule_lines(
    schedule: Schedule, back: Back, middle: dict[str, tuple[float, float]]
) -> Iterator[str]:
    """output_transitSchedule.xml (v2)."""
    yield doctype("transitSchedule", "transitSchedule_v2") + "<transitSchedule>\n"
    yield from _orders(schedule)
    yield "<transitStops>\n"
    for stop in schedule.stops.values():
        x, y = middle[stop.link]
        text = quoteattr(back.id("stop", stop.name))
        link = quoteattr(back.id("link", stop.link))
        yield f'\t<stopFacility id={text} x="{x:.2f}" y="{y:.2f}" linkRefId={link} '
        yield f'name={text} isBlocking="false"/>\n'
    yield "</transitStops>\n"
    for line in dict.fromkeys(route.line for route in schedule.routes.values()):
        yield f"<transitLine id={quoteattr(back.id('line', line))}>\n"
        for route in schedule.routes.values():
            if route.line == line:
                yield from _route_lines(schedule, route, back)
        yield "</transitLine>\n"
    yield "</transitSchedule>\n"


def _grouped(schedule: Schedule) -> tuple[list[str], list[str]]:
    """Routes by line, and departures by route in that order."""
    lines = dict.fromkeys(route.line for route in schedule.routes.values())
    place = {line: number for number, line in enumerate(lines)}
    routes = sorted(schedule.routes, key=lambda name: place[schedule.routes[name].line])
    spot = {name: number for number, name in enumerate(routes)}
    rows = sorted(schedule.departures, key=lambda name: spot[schedule.departures[name].route])
    return routes, rows


def _orders(schedule: Schedule) -> Iterator[str]:
    """The order of routes and of departures, where the file's own order is another one."""
    routes, rows = _grouped(schedule)
    texts = []
    for key, grouped, order in (
        ("qsimRoutes", routes, list(schedule.routes)),
        ("qsimDepartures", rows, list(schedule.departures)),
    ):
        if grouped != order:
            head = f'<attribute name="{key}" class="java.lang.String">'
            texts.append(f"\t{head}{' '.join(order)}</attribute>\n")
    if texts:
        yield "<attributes>\n" + "".join(texts) + "</attributes>\n"


def _route_lines(schedule: Schedule, route: Route, back: Back) -> Iterator[str]:
    """A transit route."""
    yield f"\t<transitRoute id={quoteattr(back.id('route', route.name))}>\n"
    yield "\t\t<transportMode>bus</transportMode>\n\t\t<routeProfile>\n"
    for call in route.calls:
        stop, time = quoteattr(back.id("stop", call.stop)), clock(call.offset)
        offsets = f'arrivalOffset="{time}" departureOffset="{time}"'
        wait = "true" if call.wait else "false"
        yield f'\t\t\t<stop refId={stop} {offsets} awaitDeparture="{wait}"/>\n'
    yield "\t\t</routeProfile>\n\t\t<route>\n"
    for link in route.links:
        yield f"\t\t\t<link refId={quoteattr(back.id('link', link))}/>\n"
    yield "\t\t</route>\n\t\t<departures>\n"
    for row in schedule.departures.values():
        if row.route == route.name:
            text = quoteattr(back.id("departure", row.name))
            rest = f'departureTime="{clock(row.second)}" vehicleRefId="{vehicle_id(row.name)}"'
            yield f"\t\t\t<departure id={text} {rest}/>\n"
    yield "\t\t</departures>\n\t</transitRoute>\n"


def vehicle_lines(schedule: Schedule, settings: Settings) -> Iterator[str]:
    """output_transitVehicles.xml (v1): a type for each number of seats."""
    schema = f'xsi:schemaLocation="{DTD} {DTD}/vehicleDefinitions_v1.0.xsd"'
    yield f'{DECLARED}<vehicleDefinitions xmlns="{DTD}" '
    yield f'xmlns:xsi="http://www.w3.org/2001/XMLSchema-instance" {schema}>\n'
    for seats in sorted({row.seats for row in schedule.departures.values()}):
        yield f'\t<vehicleType id="bus_{seats}">\n'
        room = '<standingRoom persons="0"/>'
        yield f'\t\t<capacity><seats persons="{seats}"/>{room}</capacity>\n'
        yield '\t\t<length meter="7.5"/>\n\t\t<width meter="2.5"/>\n'
        yield f'\t\t<accessTime secondsPerPerson="{settings.dwell_board}.0"/>\n'
        yield f'\t\t<egressTime secondsPerPerson="{settings.dwell_alight}.0"/>\n'
        yield '\t\t<doorOperation mode="serial"/>\n'
        yield '\t\t<passengerCarEquivalents pce="1.0"/>\n\t</vehicleType>\n'
    for row in schedule.departures.values():
        yield f'\t<vehicle id="{vehicle_id(row.name)}" type="bus_{row.seats}"/>\n'
    yield "</vehicleDefinitions>\n"


class Plans:
    """Writes the population (v6)."""

    def __init__(self, schedule: Schedule, watch: Watch, back: Back) -> None:
        self.schedule, self.watch, self.back = schedule, watch, back
        self._routes: dict[tuple[str, ...], str] = {}

    def lines(self, persons: Iterable[Person], scores: dict[str, int]) -> Iterator[str]:
        """The population; the score is that of the selected plan."""
        yield doctype("population", "population_v6") + "<population>\n"
        for person in persons:
            yield f"<person id={quoteattr(self.back.id('person', person.name))}>\n"
            for number, plan in enumerate(person.plans):
                score = scores.get(person.name) if number == 0 else None
                text = "" if score is None else f' score="{score / 1_000_000!r}"'
                yield f'\t<plan{text} selected="{"no" if number else "yes"}">\n'
                yield from self._plan(plan)
                yield "\t</plan>\n"
            yield "</person>\n"
        yield "</population>\n"

    def _plan(self, plan: list[Element]) -> Iterator[str]:
        """The activities and legs of a plan."""
        routing = self._routing(plan)
        for place, item in enumerate(plan):
            if isinstance(item, Act):
                kind = quoteattr(self.back.id("kind", item.kind))
                end = "" if item.end is None else f' end_time="{clock(item.end)}"'
                link = quoteattr(self.back.id("link", item.link))
                yield f"\t\t<activity type={kind} link={link}{end}/>\n"
                continue
            start, end_ = plan[place - 1], plan[place + 1]
            assert isinstance(start, Act) and isinstance(end_, Act)
            time = "" if item.seconds is None else f' trav_time="{clock(item.seconds)}"'
            attribute = '<attribute name="routingMode" class="java.lang.String">'
            yield (
                f'\t\t<leg mode="{item.mode}"{time}>\n\t\t\t<attributes>{attribute}'
                f"{routing[place]}</attribute></attributes>\n"
                f"{self._route(item, start.link, end_.link)}\t\t</leg>\n"
            )

    def _routing(self, plan: list[Element]) -> dict[int, str]:
        """The main mode of the trip of each leg."""
        modes: dict[int, str] = {}
        trip: list[int] = []
        for place, item in enumerate(plan):
            if isinstance(item, Leg):
                trip.append(place)
            elif trip and (item is plan[-1] or not self.back.is_within_trip(item.kind)):
                mode = main_mode([plan[k].mode for k in trip])  # type: ignore[union-attr]
                modes.update((k, mode) for k in trip)
                trip = []
        return modes

    def _route(self, leg: Leg, start: str, end: str) -> str:
        """The route of a leg; a car leg without one has none."""
        ends = f"start_link={quoteattr(self.back.id('link', start))} "
        ends += f"end_link={quoteattr(self.back.id('link', end))}"
        if leg.mode == "pt":
            body = self._transit(leg.route)
            return f'\t\t\t<route type="default_pt" {ends}>{body}</route>\n'
        if leg.mode == "car":
            if not leg.route:
                return ""
            length = sum(self.watch.length[link] for link in leg.route[1:])
            body = " ".join(escape(self.back.id("link", link)) for link in leg.route)
            return f'\t\t\t<route type="links" {ends} distance="{length:.2f}">{body}</route>\n'
        distance = self.watch.distance(start, end) * FACTOR
        time = f'trav_time="{clock(leg.seconds or 0)}" distance="{distance:.2f}"'
        return f'\t\t\t<route type="generic" {ends} {time}/>\n'

    def _transit(self, key: tuple[str, ...]) -> str:
        """The text of a transit route: the first route of the line that serves the stops."""
        if key not in self._routes:
            line, access, egress = key
            found = ""
            for route in self.schedule.routes.values():
                calls = [call.stop for call in route.calls] if route.line == line else []
                if not found and access in calls and egress in calls[calls.index(access) + 1 :]:
                    found = route.name
            row = {
                "transitRouteId": self.back.id("route", found),
                "boardingTime": "undefined",
                "transitLineId": self.back.id("line", line),
                "accessFacilityId": self.back.id("stop", access),
                "egressFacilityId": self.back.id("stop", egress),
            }
            text = ",".join(f"{_json(name)}:{_json(value)}" for name, value in row.items())
            self._routes[key] = escape("{" + text + "}")
        return self._routes[key]


def _json(text: str) -> str:
    """A text as JSON."""
    return json.dumps(text, ensure_ascii=False)


class Export:
    """An export on its way."""

    def __init__(self, folder: Path, within: list[str]) -> None:
        self.folder = folder
        self.back = Back(folder / "ids.csv")
        self.back.within_trips(within)
        self.network = read_network(folder)
        self.schedule = read_schedule(folder, self.network.links)
        self.settings = read_settings(folder / "settings.json")
        crs = folder / "crs.txt"
        self.crs = read_text(crs).strip() if crs.exists() else None
        self.losses = Losses()
        self.counts: dict[str, int] = {}

    def run(self, out: Path, last_only: bool) -> None:
        """Read all, then let the files appear together."""
        with Staged(out) as staged:
            watch = self._watch()
            self._network(staged, watch)
            kinds = self._plans(staged, watch)
            self._events(staged, last_only)
            transit = bool(self.schedule.routes)
            lines = config_lines(self.settings, self.back, kinds, self.crs, transit)
            staged.write("output_config.xml", "".join(lines))
            if (self.folder / "signals.csv").exists():
                self.losses.note("signals are not exported", "signals.csv")
            staged.rows("export.csv", LOSSES_HEADER, self.losses.rows())

    def _watch(self) -> Watch:
        """What collects the legs of a day."""
        return Watch(self.network, set(self.schedule.departures), self.back)

    def _gz(self, staged: Staged, name: str, lines: Iterable[str]) -> None:
        """Write a gz file."""
        with zipped(staged.path(name)) as target:
            write_lines(target, lines)

    def _network(self, staged: Staged, watch: Watch) -> None:
        """Write network, schedule and vehicles."""
        lines = network_lines(self.network, self.back, self.crs)
        self._gz(staged, "output_network.xml.gz", lines)
        self.counts.update(nodes=len(self.network.nodes), links=len(self.network.links))
        if self.schedule.stops:
            lines = schedule_lines(self.schedule, self.back, watch.middle)
            self._gz(staged, "output_transitSchedule.xml.gz", lines)
            lines = vehicle_lines(self.schedule, self.settings)
            self._gz(staged, "output_transitVehicles.xml.gz", lines)
            self.counts.update(departures=len(self.schedule.departures))

    def _plans(self, staged: Staged, watch: Watch) -> set[str]:
        """Write the plans that a run left, or else those that it begins with."""
        path = self.folder / "plans_out.csv"
        if not path.exists() or path.stat().st_size == 0:
            path = self.folder / "plans.csv"
            self.losses.note("no plans_out.csv: the plans are those of plans.csv", "")
        kinds: set[str] = set()
        plans = Plans(self.schedule, watch, self.back)

        def seen() -> Iterator[Person]:
            """The persons, counted on the way."""
            for person in progress(read_plans(path, self.network.links), "plans"):
                self.counts["persons"] = self.counts.get("persons", 0) + 1
                for plan in person.plans:
                    kinds.update(item.kind for item in plan if isinstance(item, Act))
                yield person

        scores = self._scores() if path.name == "plans_out.csv" else {}
        self._gz(staged, "output_plans.xml.gz", plans.lines(seen(), scores))
        return kinds

    def _scores(self) -> dict[str, int]:
        """The scores of the last iteration."""
        path = self.folder / "scores.csv"
        last, scores = -1, dict[str, int]()
        for row in read_scores(path) if path.exists() else ():
            if row.iteration != last:
                last, scores = row.iteration, {}
            scores[row.person] = row.score
        return scores

    def _events(self, staged: Staged, last_only: bool) -> None:
        """Write the events of each iteration, and of the last one trips and legs too."""
        path = self.folder / "events.csv"
        found = days(path) if path.exists() else []
        if not found:
            self.losses.note("no events.csv: no events, trips and legs", "")
            return
        telling = Telling(self.network, self.schedule, self.back)
        total = 0
        for day in found[-1:] if last_only else found:
            watch = self._watch()
            seen = watch.look(day)
            number = day.iteration
            part = staged.path(f"ITERS/it.{number}/{number}.events.xml.gz")
            with zipped(part) as target:
                total += telling.day(day, seen, target)
            if day is found[-1]:
                _same(part, staged.path("output_events.xml.gz"))
                self._tables(staged, watch, seen)
        self.counts.update(iterations=len(found), events=total)

    def _tables(self, staged: Staged, watch: Watch, seen: dict[str, Seen]) -> None:
        """Write trips and legs."""
        tables = Tables(watch, self.schedule, self.back)
        legs, trips = (staged.path(f"output_{what}.csv.gz") for what in ("legs", "trips"))
        tables.write(seen, legs, trips)

    def summary(self) -> str:
        """What was written, and what was lost."""
        head = ", ".join(f"{count:,} {what}" for what, count in self.counts.items())
        return self.losses.report(f"written: {head}")


def _same(source: Path, target: Path) -> None:
    """Let a file have a second name."""
    target.unlink(missing_ok=True)
    os.link(source, target)
