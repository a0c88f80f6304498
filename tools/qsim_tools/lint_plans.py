"""What is probably not meant in plans.csv."""

from __future__ import annotations

import math
from collections.abc import Iterator
from pathlib import Path

from qsim_tools.cli import progress
from qsim_tools.files import Act, Element, Leg, Network, Schedule, Settings, read_plans
from qsim_tools.lint import Finding
from qsim_tools.lint_schedule import LastDepartures, least_seconds

# metres a second by beeline: the slowest and the fastest that is likely
SPEEDS = {"walk": (0.2, 3.5), "bike": (0.5, 12.0), "ride": (0.5, 40.0)}
# shorter ways say little, as a leg takes a second at least and links are not points
SHORT_METRES = 500.0


class _Plans:
    """Goes through plans with what they refer to."""

    def __init__(self, network: Network, schedule: Schedule, settings: Settings) -> None:
        self.network, self.settings = network, settings
        self.last = LastDepartures(schedule, settings)

    def of_plan(self, plan: list[Element]) -> Iterator[tuple[int, str, str]]:
        """The place in the plan, the rule and the values of each finding."""
        now = before = 0
        for place, element in enumerate(plan):
            if isinstance(element, Act):
                if place == len(plan) - 1 or element.end is None:
                    return
                yield from self._of_act(place, element, before, now)
                before = max(before, element.end)
                now = max(now + 1 if place else 0, element.end)
                continue
            a, b = plan[place - 1], plan[place + 1]
            assert isinstance(a, Act) and isinstance(b, Act)
            yield from self._of_leg(place, element, (a, b), now)
            now += self._seconds(element)

    def _of_act(
        self, place: int, act: Act, before: int, now: int
    ) -> Iterator[tuple[int, str, str]]:
        """The rules that an activity with a planned end breaks; an end of 0 means at once."""
        assert act.end is not None
        ends = f"{act.kind} is planned to end at {act.end}"
        if act.end >= self.settings.end_second:
            yield place, "ends-too-late", f"{ends}, the day ends at {self.settings.end_second}"
        elif 0 < act.end < before:
            yield place, "ends-in-past", f"{ends}, an activity before it at {before}"
        elif 0 < act.end < now:
            yield place, "no-room", f"{ends}, reached at {now} at free speed"

    def _of_leg(
        self, place: int, leg: Leg, ends: tuple[Act, Act], now: int
    ) -> Iterator[tuple[int, str, str]]:
        """The rules that a leg breaks."""
        if leg.mode == "pt":
            last = self.last.last(leg.route)
            if now > last:
                line, access, _ = leg.route
                when = f"the last one of line {line} is due at {last}"
                when = when if last >= 0 else f"no departure of line {line} calls at both stops"
                yield place, "last-bus-gone", f"at stop {access} from {now} on; {when}"
        elif leg.seconds is not None:
            metres = self._beeline(ends[0].link, ends[1].link)
            low, high = SPEEDS[leg.mode]
            speed = metres / leg.seconds
            if metres > SHORT_METRES and not low <= speed <= high:
                values = f"{leg.mode} of {metres:,.0f} m in {leg.seconds:,} s: {speed:.2f} m/s"
                yield place, "speed-of-leg", values

    def _beeline(self, a: str, b: str) -> float:
        """Metres between the nearest ends of two links, since nobody knows where on them."""
        if a == b:
            return 0.0
        nodes = self.network.nodes
        places = [
            [(nodes[x].x, nodes[x].y) for x in (link.start, link.end)]
            for link in (self.network.links[a], self.network.links[b])
        ]
        return min(math.dist(p, q) for p in places[0] for q in places[1]) / 100

    def _seconds(self, leg: Leg) -> int:
        """The least seconds of a leg: of a car with a route, or of a teleported leg."""
        if leg.seconds is not None:
            return leg.seconds
        return least_seconds(leg.route[1:], self.network) if leg.mode == "car" else 0


def plan_findings(
    path: Path, network: Network, schedule: Schedule, settings: Settings
) -> Iterator[Finding]:
    """The findings of plans.csv."""
    plans = _Plans(network, schedule, settings)
    row = 1
    for person in progress(read_plans(path, network.links), "persons"):
        for number, plan in enumerate(person.plans):
            for place, rule, values in plans.of_plan(plan):
                where = f"{person.name} plan {number}" if number else person.name
                yield Finding("plans.csv", row + place, where, rule, values)
            row += len(plan)
