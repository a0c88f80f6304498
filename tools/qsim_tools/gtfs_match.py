"""Ways of buses along the links, from the places of their stops and their shapes.

Each stop has some links nearby. Of all choices of one link for each stop, the matcher takes the one
with the least sum of the ways between the links and of the penalties of the links. A way counts its
seconds at free speed, and twenty times as much off the shape where there is one. A link that is `m`
metres away has a penalty of `m + m * m / 50` seconds, times what a metre is worth (1 by default).
It counts as 20 m farther away where the stop is on the wrong side of it.
"""

from __future__ import annotations

import heapq
import math
from dataclasses import dataclass

import numpy as np
from scipy.spatial import cKDTree
from shapely.geometry import LineString, Point

from qsim_tools.files import Network

Place = tuple[float, float]
NEAR = 6
WRONG_SIDE = 20.0
OFF_SHAPE = 20.0
SHAPE_METRES = 20.0
TOO_FAR = 72_000.0


@dataclass(slots=True)
class Candidate:
    """A link near a stop, and what it costs to take it."""

    link: str
    penalty: float


class Matcher:
    """Finds links near stops and ways between them."""

    def __init__(self, network: Network, within: float, left: bool, worth: float = 1.0) -> None:
        self.network, self.within, self.worth = network, within, worth
        self.side = -1.0 if left else 1.0
        self.names = list(network.links)
        self.ends: dict[str, tuple[Place, Place]] = {}
        self.out: dict[str, list[tuple[str, str, float]]] = {}
        points, owners = [], []
        for number, name in enumerate(self.names):
            link = network.links[name]
            start, end = (self._place(node) for node in (link.start, link.end))
            self.ends[name] = start, end
            seconds = link.length / link.speed
            self.out.setdefault(link.start, []).append((name, link.end, seconds))
            for point in _along(start, end, 50.0):
                points.append(point)
                owners.append(number)
        self._tree, self._owners = cKDTree(np.array(points)), owners

    def _place(self, node: str) -> Place:
        """The place of a node in m."""
        row = self.network.nodes[node]
        return row.x / 100, row.y / 100

    def near(self, place: Place) -> list[Candidate]:
        """The nearest links to a stop, at most six, the cheapest first."""
        if not all(map(math.isfinite, place)):
            return []
        spots = self._tree.query_ball_point(place, self.within + 25.0)
        found = []
        for number in sorted({self._owners[spot] for spot in spots}):
            name = self.names[number]
            start, end = self.ends[name]
            shape = LineString([start, end]) if start != end else Point(start)
            metres = Point(place).distance(shape)
            if metres > self.within:
                continue
            across = (end[0] - start[0]) * (place[1] - start[1])
            across -= (end[1] - start[1]) * (place[0] - start[0])
            wrong = WRONG_SIDE if across * self.side > 0 else 0.0
            away = metres + wrong
            found.append(Candidate(name, (away + away * away / 50) * self.worth))
        found.sort(key=lambda row: row.penalty)
        return found[:NEAR]

    def on_shape(self, shape: list[Place]) -> set[str]:
        """The links whose ends and middle are near a shape."""
        line = LineString(shape)
        low_x, low_y, high_x, high_y = line.bounds
        nodes = set()
        for name, node in self.network.nodes.items():
            x, y = node.x / 100, node.y / 100
            if low_x - 30 < x < high_x + 30 and low_y - 30 < y < high_y + 30:
                if line.distance(Point(x, y)) <= SHAPE_METRES:
                    nodes.add(name)
        found = set()
        for name, (start, end) in self.ends.items():
            row = self.network.links[name]
            middle = Point((start[0] + end[0]) / 2, (start[1] + end[1]) / 2)
            if row.start in nodes and row.end in nodes and line.distance(middle) <= SHAPE_METRES:
                found.add(name)
        return found

    def way(
        self, stops: list[list[Candidate]], shape: set[str] | None
    ) -> tuple[list[str], list[str]] | None:
        """The links of a way and the link of each stop; None where no way joins the stops."""
        best = [{row.link: (row.penalty, "", [row.link]) for row in stops[0]}]
        for row in stops[1:]:
            here: dict[str, tuple[float, str, list[str]]] = {}
            for before, (cost, _, _) in best[-1].items():
                for link, (seconds, way) in self._ways(before, row, shape).items():
                    penalty = next(item.penalty for item in row if item.link == link)
                    total = cost + seconds + penalty
                    if link not in here or total < here[link][0]:
                        here[link] = total, before, way
            if not here:
                return None
            best.append(here)
        last = min(best[-1], key=lambda link: (best[-1][link][0], link))
        chosen, ways = [last], [best[-1][last][2]]
        for place in range(len(best) - 1, 0, -1):
            chosen.append(best[place][chosen[-1]][1])
            ways.append(best[place - 1][chosen[-1]][2])
        links = [link for way in reversed(ways) for link in way]
        return links, chosen[::-1]

    def _ways(
        self, start: str, ends: list[Candidate], shape: set[str] | None
    ) -> dict[str, tuple[float, list[str]]]:
        """The least ways from the end of a link to each of some links, with these; not with it."""
        found: dict[str, tuple[float, list[str]]] = {}
        wanted: dict[str, list[str]] = {}
        for row in ends:
            if row.link == start:
                found[start] = 0.0, []
            else:
                wanted.setdefault(self.network.links[row.link].start, []).append(row.link)
        source = self.network.links[start].end
        least, back = {source: 0.0}, dict[str, str]()
        heap = [(0.0, source)]
        while heap and wanted:
            cost, node = heapq.heappop(heap)
            if cost > least[node]:
                continue
            if cost > TOO_FAR:
                break
            for link in wanted.pop(node, []):
                way = self._back(back, source, node)
                found[link] = cost + self._cost(link, shape), [*way, link]
            for link, end, seconds in self.out.get(node, []):
                total = cost + seconds * (OFF_SHAPE if shape and link not in shape else 1.0)
                if total < least.get(end, math.inf):
                    least[end], back[end] = total, link
                    heapq.heappush(heap, (total, end))
        return found

    def _cost(self, link: str, shape: set[str] | None) -> float:
        """The seconds of a link, more off the shape."""
        row = self.network.links[link]
        return row.length / row.speed * (OFF_SHAPE if shape and link not in shape else 1.0)

    def _back(self, back: dict[str, str], source: str, node: str) -> list[str]:
        """The links from a node to another one."""
        links = []
        while node != source:
            links.append(back[node])
            node = self.network.links[back[node]].start
        return links[::-1]


def _along(start: Place, end: Place, step: float) -> list[Place]:
    """Points on a line, both ends among them, at most a step apart."""
    count = max(1, math.ceil(math.dist(start, end) / step))
    return [
        (start[0] + (end[0] - start[0]) * k / count, start[1] + (end[1] - start[1]) * k / count)
        for k in range(count + 1)
    ]
