"""MATSim's population (v6, v5, v4) as plans.csv, a person at a time."""

from __future__ import annotations

import json
import math
from collections.abc import Iterator
from dataclasses import dataclass, field, replace
from pathlib import Path

from qsim_tools.cli import progress
from qsim_tools.files import TELEPORTED, Act, Element, FileFault, Leg, Limits, Network, Person
from qsim_tools.files import Schedule
from qsim_tools.matsim_config import Config
from qsim_tools.matsim_ids import Ids
from qsim_tools.matsim_losses import Losses
from qsim_tools.matsim_network import Places, RawNetwork
from qsim_tools.matsim_units import decimal, half_up, seconds
from qsim_tools.matsim_xml import Xml, elements, fault, needed, scan_ids, taken

WALKS = ("walk", "transit_walk", "access_walk", "egress_walk", "non_network_walk")
SAME = {"bicycle": "bike", **{walk: "walk" for walk in WALKS}}
INTERACTION = " interaction"
PT_INTERACTION = "pt interaction"
ELEMENTS = ("act", "activity", "leg")


class Lost(Exception):
    """A plan that does not fit; the text says why."""


@dataclass(slots=True)
class Teleport:
    """Speeds along the beeline, in m/s, and the factor by which ways are longer than it."""

    speed: dict[str, float] = field(
        default_factory=lambda: {"walk": 3 / 3.6, "bike": 15 / 3.6, "ride": 50 / 3.6}
    )
    factor: dict[str, float] = field(default_factory=dict)

    def seconds(self, mode: str, metres: float) -> int:
        """The seconds of a leg."""
        whole = half_up(metres * self.factor.get(mode, 1.3) / self.speed[mode])
        return min(max(whole, 1), Limits.SECOND)


def teleport_of(config: Config | None) -> Teleport:
    """MATSim's defaults, or what the routing module of a config says."""
    teleport = Teleport()
    if config is None:
        return teleport
    module = config.module("planscalcroute")
    for group in module.of_kind("teleportedModeParameters"):
        mode = SAME.get(group.text("mode") or "", group.text("mode") or "")
        speed = group.value("teleportedModeSpeed", decimal, None)
        if speed is not None and speed > 0:
            teleport.speed[mode] = float(speed)
        factor = group.value("beelineDistanceFactor", decimal, None)
        if factor is not None and factor > 0:
            teleport.factor[mode] = float(factor)
    return teleport


@dataclass(slots=True)
class RawLeg:
    """A leg as its file gives it."""

    mode: str
    seconds: int | None
    kind: str
    route: str
    element: Xml = None


class Population:
    """Turns persons of MATSim into persons of the program."""

    def __init__(
        self,
        path: Path,
        raw: RawNetwork,
        places: Places,
        schedule: Schedule,
        ids: Ids,
        losses: Losses,
        teleport: Teleport,
        network: Network,
    ) -> None:
        self.path, self.raw, self.places, self.schedule = path, raw, places, schedule
        self.ids, self.losses, self.teleport = ids, losses, teleport
        self.starts = {link.name: link.start for link in network.links.values()}
        self.ends = {link.name: link.end for link in network.links.values()}
        self.links = {text: name for name, text in ids.of["link"].rows()}
        self.stops = {text: name for name, text in ids.of["stop"].rows()}
        self.lines = {text: name for name, text in ids.of["line"].rows()}
        self.kinds: dict[str, tuple[str, int]] = {}
        self.persons = 0
        self._served: dict[tuple[str, str, str], bool] = {}
        self._moved: dict[tuple[str, str, str], str] = {}
        self._nodes_routes = False
        persons, kinds = scan_ids(path)
        ids.of["person"].reserve(persons)
        ids.of["kind"].reserve(kinds)

    # ------------------------------------------------------------ persons

    def read(self) -> Iterator[Person]:
        """Read the file; persons without a plan that fits are left out."""
        seen: set[str] = set()
        found = False
        for element in progress(elements(self.path, ("person",), ("plans", "population")), "plans"):
            found = True
            if element.tag != "person":
                self._nodes_routes = element.tag == "plans"
                continue
            text = needed(self.path, element, "id")
            if text in seen:
                raise fault(self.path, element, f"person {text} is there twice")
            seen.add(text)
            person = self._person(text, element)
            if person is not None:
                self.persons += 1
                yield person
        if not found:
            raise FileFault(self.path, None, "no population")

    def _person(self, text: str, element: Xml) -> Person | None:
        """A person, or None where no plan of his fits or he is beyond the limit."""
        plans = [child for child in element if child.tag == "plan"]
        if not plans:
            self.losses.note("person without a plan lost", text)
            return None
        if self.persons == Limits.PERSONS:
            self.losses.note(f"person beyond the limit of {Limits.PERSONS} lost", text)
            return None
        if any(len(child) for child in element if child.tag == "attributes"):
            self.losses.note("attributes of a person dropped", text)
        plans.sort(key=lambda plan: bool(plan.get("selected", "no") != "yes"))
        kept: list[list[Element]] = []
        for place, plan in enumerate(plans):
            if len(kept) == Limits.PLANS:
                self.losses.note(f"plan beyond the limit of {Limits.PLANS} dropped", text)
                continue
            try:
                kept.append(self._plan(plan))
            except Lost as lost:
                self.losses.note(f"plan lost: {lost}", text)
                self.losses.note("selected plan lost", text, int(place == 0))
        self.losses.note("score of a plan dropped", text, sum("score" in p.attrib for p in plans))
        if not kept:
            self.losses.note("person lost: no plan fits", text)
            return None
        name = self.ids.of["person"].name(text)
        self.losses.note("person renamed", f"{text} is {name}", int(name != text))
        for plan in kept:
            for item in plan:
                if isinstance(item, Act):
                    self._count_kind(item.kind)
        return Person(name, [[self._named(item) for item in plan] for plan in kept])

    def _count_kind(self, text: str) -> None:
        """Count a type of activity."""
        known = self.kinds.get(text)
        name, count = known if known else (self.ids.of["kind"].name(text), 0)
        self.kinds[text] = name, count + 1

    def _named(self, item: Element) -> Element:
        """An activity with the name of its type."""
        return replace(item, kind=self.kinds[item.kind][0]) if isinstance(item, Act) else item

    # ------------------------------------------------------------ a plan

    def _plan(self, element: Xml) -> list[Element]:
        """A plan; activities still have MATSim's types."""
        parts = [part for part in element if part.tag in ELEMENTS]
        acts, legs = parts[0::2], parts[1::2]
        if not parts or any(part.tag == "leg" for part in acts):
            raise fault(self.path, element, "a plan does not begin with an activity")
        if len(parts) % 2 == 0 or any(part.tag != "leg" for part in legs):
            raise fault(self.path, element, "activities and legs do not alternate")
        kinds = [needed(self.path, act, "type") for act in acts]
        links = [self._link(act) for act in acts]
        raw = [self._raw_leg(leg) for leg in legs]
        plan = self._elements(acts, kinds, links, raw)
        if len(plan) // 2 > Limits.LEGS:
            plan = self._folded(plan)
        if len(plan) // 2 > Limits.LEGS:
            raise Lost(f"more than {Limits.LEGS} legs")
        return plan

    def _link(self, act: Xml) -> str:
        """The link of an activity; where it is not kept, the nearest one."""
        text = act.get("link")
        if text is not None:
            name = self.links.get(text)
            if name is not None:
                return name
            if text not in self.raw.links:
                raise fault(self.path, act, f"there is no link {text}")
        key = text or "", act.get("x") or "", act.get("y") or ""
        if key not in self._moved:
            self._moved[key] = self._nearest(act, text)
        what = "activity on a link that is not kept" if text else "activity without a link"
        self.losses.note(f"{what} moved to the nearest link", text or key[1])
        return self._moved[key]

    def _nearest(self, act: Xml, text: str | None) -> str:
        """The kept car link that is nearest to an activity."""
        if act.get("x") is not None and act.get("y") is not None:
            x, y = (float(taken(self.path, act, decimal, act.get(axis))) * 100 for axis in "xy")
            return self.places.nearest(x, y)
        if text is None:
            raise Lost("an activity has neither a link nor coordinates")
        link = self.raw.links[text]
        ends = self.raw.nodes[link.start], self.raw.nodes[link.end]
        return self.places.nearest(*(sum(end[k] for end in ends) / 2 for k in (0, 1)))

    def _raw_leg(self, leg: Xml) -> RawLeg:
        """A leg; its mode is one of the program's."""
        mode = needed(self.path, leg, "mode")
        route = next((child for child in leg if child.tag == "route"), None)
        text = leg.get("trav_time")
        if text is None and route is not None:
            text = route.get("trav_time")
        lasts = taken(self.path, leg, seconds, text)
        kind = "" if route is None else route.get("type", "links")
        body = "" if route is None or route.text is None else route.text.strip()
        own = SAME.get(mode, mode)
        if own not in ("car", "pt", *TELEPORTED):
            own = "car" if kind == "links" and body else "ride"
            self.losses.note(f"leg of mode {mode} becomes {own}", "")
        return RawLeg(own, lasts, kind, body, leg)

    def _elements(
        self, acts: list[Xml], kinds: list[str], links: list[str], legs: list[RawLeg]
    ) -> list[Element]:
        """The elements with their times; a second walks along the day."""
        plan: list[Element] = []
        now = 0
        for place, act in enumerate(acts):
            end = self._end(act, now, place + 1 == len(acts))
            plan.append(Act(kinds[place], links[place], end))
            if place == len(legs):
                break
            now = max(now, end or 0)
            there = links[place + 1]
            if legs[place].mode == "pt":
                added, links[place + 1] = self._transit(plan, legs[place], kinds[place + 1], there)
            elif legs[place].mode == "car":
                added = [self._car(legs[place], links[place], there)]
            else:
                added = [self._teleported(legs[place], links[place], there)]
            plan.extend(added)
            now += legs[place].seconds or self._guess(added, links[place], there)
        self._check_cars(plan)
        return plan

    def _end(self, act: Xml, now: int, last: bool) -> int | None:
        """The planned end of an activity that begins about now."""
        end = taken(self.path, act, seconds, act.get("end_time"))
        if end is None and not last:
            text = act.get("max_dur", act.get("dur"))
            lasts = taken(self.path, act, seconds, text)
            if lasts is None:
                raise Lost("an activity that is not the last one has no end")
            end = 0 if lasts == 0 else now + lasts
            self.losses.note("max_dur of an activity becomes an end", act.get("type"), int(end > 0))
        if end is not None and not 0 <= end <= Limits.SECOND:
            self.losses.note("end of an activity cut to the range 0 to 48 hours", act.get("type"))
            end = min(max(end, 0), Limits.SECOND)
        return end

    def _guess(self, added: list[Element], start: str, end: str) -> int:
        """About how long a leg takes whose travel time is not given."""
        total = 0
        for item in added:
            if isinstance(item, Leg):
                total += item.seconds or 0
        if total:
            return total
        return self.teleport.seconds("ride", self._distance(start, end))

    def _distance(self, start: str, end: str) -> float:
        """The beeline between the middles of two links, in m."""
        return math.dist(self.places.middle(start), self.places.middle(end)) / 100

    # ------------------------------------------------------------ legs

    def _teleported(self, leg: RawLeg, start: str, end: str) -> Leg:
        """A walk, a bike ride or a ride."""
        lasts = leg.seconds
        if lasts is None:
            lasts = self.teleport.seconds(leg.mode, self._distance(start, end))
            self.losses.note(f"seconds of a leg by {leg.mode} taken from the beeline", str(lasts))
        elif not 1 <= lasts <= Limits.SECOND:
            self.losses.note("seconds of a leg cut to the range 1 to 172800", str(lasts))
            lasts = min(max(lasts, 1), Limits.SECOND)
        return Leg(leg.mode, lasts, ())

    def _car(self, leg: RawLeg, start: str, end: str) -> Leg:
        """A car leg with its route where the network has it, and otherwise without one."""
        texts = [] if self._nodes_routes or leg.kind != "links" else leg.route.split()
        route = tuple(filter(None, map(self.links.get, texts)))
        if len(route) < len(texts):
            for text in texts:
                if text not in self.raw.links:
                    raise fault(self.path, leg.element, f"there is no link {text}")
            self.losses.note("car route over links that are not kept emptied", start)
            return Leg("car", None, ())
        if not route:
            return Leg("car", None, ())
        if route[0] != start or route[-1] != end:
            self.losses.note("car route that does not join its activities emptied", start)
        elif len(route) > Limits.ROUTE_LINKS:
            self.losses.note(f"car route of more than {Limits.ROUTE_LINKS} links emptied", start)
        elif not self._joins(route):
            self.losses.note("car route whose links do not join emptied", start)
        else:
            return Leg("car", None, route)
        return Leg("car", None, ())

    def _joins(self, route: tuple[str, ...]) -> bool:
        """Whether each link but the first begins where the one before it ends."""
        ends = map(self.ends.__getitem__, route[:-1])
        return list(ends) == list(map(self.starts.__getitem__, route[1:]))

    def _check_cars(self, plan: list[Element]) -> None:
        """Empty car routes beside activities that moved to a stop."""
        for place in range(1, len(plan), 2):
            leg, before, behind = plan[place], plan[place - 1], plan[place + 1]
            assert isinstance(leg, Leg) and isinstance(before, Act) and isinstance(behind, Act)
            if leg.mode == "car" and leg.route:
                if (leg.route[0], leg.route[-1]) != (before.link, behind.link):
                    self.losses.note("car route that does not join its activities emptied", "")
                    plan[place] = Leg("car", None, ())

    def _transit(
        self, plan: list[Element], leg: RawLeg, kind: str, link: str
    ) -> tuple[list[Element], str]:
        """A transit leg, with walks where its stops are elsewhere; and the next activity's link."""
        before = plan[-1]
        assert isinstance(before, Act)
        if not self.schedule.routes:
            self.losses.note("pt leg without a schedule becomes a ride", "")
            ride = RawLeg("ride", leg.seconds, "", "")
            return [self._teleported(ride, before.link, link)], link
        line, access, egress = self._stops(leg)
        start, end = self.schedule.stops[access].link, self.schedule.stops[egress].link
        added: list[Element] = []
        if before.link != start and before.kind.endswith(INTERACTION):
            plan[-1] = replace(before, link=start)
        elif before.link != start:
            self.losses.note("walk to a stop added", line)
            walk = RawLeg("walk", None, "", "")
            added += [self._teleported(walk, before.link, start), Act(PT_INTERACTION, start, 0)]
        added.append(Leg("pt", None, (line, access, egress)))
        if link != end and kind.endswith(INTERACTION):
            link = end
        elif link != end:
            self.losses.note("walk from a stop added", line)
            walk = RawLeg("walk", None, "", "")
            added += [Act(PT_INTERACTION, end, 0), self._teleported(walk, end, link)]
        return added, link

    def _stops(self, leg: RawLeg) -> tuple[str, str, str]:
        """Line, access stop and egress stop of a transit leg."""
        if not leg.route:
            raise Lost("a pt leg has no route")
        if leg.route.startswith("{"):
            try:
                row = json.loads(leg.route)
                texts = row["transitLineId"], row["accessFacilityId"], row["egressFacilityId"]
            except (json.JSONDecodeError, KeyError, TypeError):
                raise Lost("the route of a pt leg has an unknown form") from None
        else:
            parts = leg.route.split("===")
            if len(parts) != 5 or parts[0] != "PT1":
                raise Lost("the route of a pt leg has an unknown form")
            texts = parts[2], parts[1], parts[4]
        line, access, egress = self.lines.get(texts[0]), *map(self.stops.get, texts[1:])
        if line is None or access is None or egress is None:
            raise Lost("a pt leg names a line or a stop that is not kept")
        if not self._serves(line, access, egress):
            raise Lost("no route of the line of a pt leg serves its stops")
        return line, access, egress

    def _serves(self, line: str, access: str, egress: str) -> bool:
        """Whether some route of the line calls at the one stop and later at the other."""
        key = line, access, egress
        if key not in self._served:
            found = False
            for route in self.schedule.routes.values():
                calls = [call.stop for call in route.calls] if route.line == line else []
                if access in calls and egress in calls[calls.index(access) + 1 :]:
                    found = True
            self._served[key] = found
        return self._served[key]

    # ------------------------------------------------------------ folding

    def _folded(self, plan: list[Element]) -> list[Element]:
        """A plan in which trips by car have no walks to and from the car."""
        result: list[Element] = [plan[0]]
        place = 0
        while place + 1 < len(plan):
            behind = place + 2
            while behind + 1 < len(plan) and self._is_interaction(plan[behind]):
                behind += 2
            legs = [item for item in plan[place + 1 : behind] if isinstance(item, Leg)]
            cars = [leg for leg in legs if leg.mode == "car"]
            first, last = plan[place], plan[behind]
            assert isinstance(first, Act) and isinstance(last, Act)
            if len(cars) == 1 and len(legs) > 1 and all(g.mode in ("car", "walk") for g in legs):
                self.losses.note("walks to and from a car folded into the trip", "", len(legs) - 1)
                result.append(self._from_to(cars[0], first.link, last.link))
            else:
                result.extend(plan[place + 1 : behind])
            result.append(last)
            place = behind
        return result

    def _is_interaction(self, item: Element) -> bool:
        """Whether an element is an activity within a trip."""
        return isinstance(item, Act) and item.kind.endswith(INTERACTION)

    def _from_to(self, leg: Leg, start: str, end: str) -> Leg:
        """A car leg between two links; a route that does not join them is emptied."""
        if leg.route and (leg.route[0], leg.route[-1]) != (start, end):
            self.losses.note("car route that does not join its activities emptied", start)
            return Leg("car", None, ())
        return leg
