"""What is probably not meant in routes.csv and departures.csv."""

from __future__ import annotations

from collections.abc import Iterator

from qsim_tools.files import Network, Route, Schedule, Settings
from qsim_tools.lint import Finding


def call_places(route: Route, schedule: Schedule) -> list[int]:
    """The place in the route's links where each call is served; the calls that can be served."""
    places: list[int] = []
    place = 0
    for call in route.calls:
        link = schedule.stops[call.stop].link
        while place < len(route.links) and route.links[place] != link:
            place += 1
        if place == len(route.links):
            break
        places.append(place)
    return places


def least_seconds(links: tuple[str, ...], network: Network) -> int:
    """From the end of a link to the end of the last of these behind it, at free speed.

    A vehicle needs a second over each node, and the free seconds of each link.
    """
    return sum(network.links[name].free_seconds + 1 for name in links)


def schedule_findings(
    network: Network, schedule: Schedule, settings: Settings
) -> Iterator[Finding]:
    """The findings of routes, and then of departures."""
    for row, route in enumerate(schedule.routes.values(), 1):
        places = call_places(route, schedule)
        before, left = 0, 0
        for call, place in zip(route.calls, places):
            least = least_seconds(route.links[before + 1 : place + 1], network)
            if call.offset - left < least:
                values = (
                    f"{call.offset - left} s planned up to stop {call.stop} at {call.offset} s, "
                    f"{least} s needed at free speed"
                )
                yield Finding("routes.csv", row, route.name, "fast-timetable", values)
            before, left = place, call.offset
    for row, departure in enumerate(schedule.departures.values(), 1):
        if departure.second >= settings.end_second:
            values = f"second {departure.second}, the day ends at {settings.end_second}"
            yield Finding("departures.csv", row, departure.name, "departs-too-late", values)


class LastDepartures:
    """The last planned second in which a line calls at a stop and later at another one."""

    def __init__(self, schedule: Schedule, settings: Settings) -> None:
        self._last: dict[str, int] = {}
        for departure in schedule.departures.values():
            if departure.second < settings.end_second:
                last = max(self._last.get(departure.route, -1), departure.second)
                self._last[departure.route] = last
        self._lines: dict[str, list[Route]] = {}
        for route in schedule.routes.values():
            self._lines.setdefault(route.line, []).append(route)
        self._known: dict[tuple[str, ...], int] = {}

    def last(self, way: tuple[str, ...]) -> int:
        """The second for a line, an access stop and an egress stop; -1 where there is none."""
        if way not in self._known:
            line, access, egress = way
            found = [
                self._last[route.name] + offset
                for route in self._lines.get(line, [])
                if route.name in self._last
                for offset in _offsets(route, access, egress)
            ]
            self._known[way] = max(found, default=-1)
        return self._known[way]


def _offsets(route: Route, access: str, egress: str) -> Iterator[int]:
    """The offsets of calls at the one stop that a call at the other one follows."""
    for number, call in enumerate(route.calls):
        if call.stop == access and any(x.stop == egress for x in route.calls[number + 1 :]):
            yield call.offset
