"""MATSim's network (v1 and v2) as nodes.csv and links.csv."""

from __future__ import annotations

from dataclasses import dataclass, field
from decimal import Decimal
from pathlib import Path

import numpy as np
from scipy.sparse import csr_matrix
from scipy.sparse.csgraph import connected_components
from scipy.spatial import cKDTree

from qsim_tools.cli import progress
from qsim_tools.files import FileFault, Limits, Link, Network, Node
from qsim_tools.matsim_ids import Ids
from qsim_tools.matsim_losses import Losses
from qsim_tools.matsim_units import decimal, half_up, scaled, seconds
from qsim_tools.matsim_xml import Xml, elements, fault, needed, taken

HOUR = 3_600


@dataclass(slots=True)
class RawLink:
    """A link with MATSim's id and ends and the program's numbers."""

    id: str
    start: str
    end: str
    length: int
    speed: int
    capacity: int
    lanes: int
    car: bool


@dataclass(slots=True)
class RawNetwork:
    """A network as its file gives it."""

    nodes: dict[str, tuple[int, int]] = field(default_factory=dict)
    links: dict[str, RawLink] = field(default_factory=dict)
    crs: str | None = None
    path: Path = Path("network")


def read_network_xml(path: Path, losses: Losses) -> RawNetwork:
    """Read a network file; numbers are rounded half up and cut to their ranges."""
    network = RawNetwork(path=path)
    period, found = HOUR, False
    tags, heads = ("node", "link", "attribute"), ("network", "links")
    for element in progress(elements(path, tags, heads), "network"):
        found = True
        if element.tag == "links":
            text = element.get("capperiod", "01:00:00")
            period = taken(path, element, seconds, text) or 0
            if period <= 0:
                raise fault(path, element, f"capperiod {text!r} is no period")
        elif element.tag == "node":
            _take_node(path, element, network)
        elif element.tag == "link":
            _take_link(path, element, network, period, losses)
        elif element.tag == "attribute" and element.get("name") == "coordinateReferenceSystem":
            network.crs = element.text
    if not found or not network.links:
        raise FileFault(path, None, "no network with links")
    return network


def _take_node(path: Path, element: Xml, network: RawNetwork) -> None:
    """Take a node."""
    name = needed(path, element, "id")
    if name in network.nodes:
        raise fault(path, element, f"node {name} is there twice")
    place = []
    for axis in "xy":
        value = taken(path, element, decimal, needed(path, element, axis)) * 100
        if not abs(value) <= Limits.COORDINATE:
            raise fault(path, element, f"{axis} of node {name} is beyond 10,000 km")
        place.append(half_up(value))
    network.nodes[name] = (place[0], place[1])


def _take_link(
    path: Path, element: Xml, network: RawNetwork, period: int, losses: Losses
) -> None:
    """Take a link; its nodes must be there."""
    name, start, end = (needed(path, element, key) for key in ("id", "from", "to"))
    if name in network.links:
        raise fault(path, element, f"link {name} is there twice")
    for node in (start, end):
        if node not in network.nodes:
            raise fault(path, element, f"link {name}: there is no node {node}")
    modes = [mode.strip() for mode in element.get("modes", "car").split(",")]

    def number(key: str, factor: int, high: int) -> int:
        """A value of the link, scaled and cut to its range."""
        text = needed(path, element, key)
        value, cut = taken(path, element, lambda text: scaled(text, factor, 1, high), text)
        if cut:
            losses.note(f"link {key} cut to the range 1 to {high}", f"{name}: {text}")
        return value

    network.links[name] = RawLink(
        name,
        start,
        end,
        number("length", 100, Limits.LENGTH),
        number("freespeed", 100, Limits.SPEED),
        _capacity(path, element, name, period, losses),
        number("permlanes", 1, Limits.LANES),
        "car" in modes,
    )


def _capacity(path: Path, element: Xml, name: str, period: int, losses: Losses) -> int:
    """The capacity of an hour."""
    text = needed(path, element, "capacity")
    value = taken(path, element, decimal, text)
    hourly = value * HOUR / Decimal(period)
    low = hourly < Decimal("0.5")
    if low or hourly > Limits.CAPACITY:
        losses.note("link capacity cut to the range 1 to 100000", f"{name}: {text}")
        return 1 if low else Limits.CAPACITY
    return half_up(hourly)


def largest_part(network: RawNetwork, ids: list[str]) -> set[str]:
    """The nodes of the largest strongly connected part of some links (the first of equals)."""
    names: dict[str, int] = {}
    for name in ids:
        link = network.links[name]
        names.setdefault(link.start, len(names))
        names.setdefault(link.end, len(names))
    starts = [names[network.links[name].start] for name in ids]
    ends = [names[network.links[name].end] for name in ids]
    size = len(names)
    graph = csr_matrix((np.ones(len(ids)), (starts, ends)), shape=(size, size))
    _, labels = connected_components(graph, connection="strong")
    first = np.bincount(labels).argmax() if size else 0
    return {name for name, place in names.items() if labels[place] == first}


def kept_links(
    network: RawNetwork, transit: set[str], whole: bool, losses: Losses
) -> list[RawLink]:
    """The links that the program gets, in the order of the file.

    These are the links open to cars within the largest strongly connected part, and links without
    cars that a transit route uses and that touch no node of that part.
    """
    cars = [name for name, link in network.links.items() if link.car]
    if not cars:
        raise FileFault(network.path, None, "no link is open to cars")
    nodes = {end for name in cars for end in _ends(network.links[name])}
    part = nodes if whole else largest_part(network, cars)
    kept = []
    into: dict[str, int] = {}
    for name, link in network.links.items():
        inside = link.start in part and link.end in part
        apart = link.start not in part and link.end not in part
        if link.car and not inside:
            losses.note("car link outside the largest strongly connected part dropped", name)
        elif not link.car and not (name in transit and apart):
            losses.note("link without mode car dropped", name)
        elif into.get(link.end, 0) == Limits.LINKS_INTO_NODE:
            losses.note("link dropped: 16 other links enter its end node", name)
        else:
            if not link.car:
                losses.note("link without mode car kept for transit routes", name)
            into[link.end] = into.get(link.end, 0) + 1
            kept.append(link)
    if not any(link.car for link in kept):
        reason = "no links lead there and back between any nodes; --whole keeps all links"
        raise FileFault(network.path, None, reason)
    return kept


def _ends(link: RawLink) -> tuple[str, str]:
    """The nodes of a link."""
    return link.start, link.end


def named_network(
    network: RawNetwork, links: list[RawLink], ids: Ids, whole: bool, losses: Losses
) -> Network:
    """The nodes and links of the program, by its names."""
    used = {end for link in links for end in _ends(link)}
    nodes = [name for name in network.nodes if whole or name in used]
    lost = len(network.nodes) - len(nodes)
    losses.note("node without a link that is kept dropped", "", lost)
    ids.of["node"].reserve(nodes)
    ids.of["link"].reserve(link.id for link in links)
    result = Network({}, {})
    for text in nodes:
        name = ids.of["node"].name(text)
        result.nodes[name] = Node(name, *network.nodes[text])
    for link in links:
        name = ids.of["link"].name(link.id)
        ends = ids.of["node"].name(link.start), ids.of["node"].name(link.end)
        numbers = link.length, link.speed, link.capacity, link.lanes
        result.links[name] = Link(name, *ends, *numbers)
    for what, size, limit in (
        ("nodes", len(result.nodes), Limits.NODES),
        ("links", len(result.links), Limits.LINKS),
    ):
        if size > limit:
            raise FileFault(network.path, None, f"{size} {what} remain, {limit} is the limit")
    return result


class Places:
    """Where the links are, and the nearest link to a place."""

    def __init__(self, network: Network, cars: set[str]) -> None:
        self._middles: dict[str, tuple[float, float]] = {}
        for name, link in network.links.items():
            ends = network.nodes[link.start], network.nodes[link.end]
            self._middles[name] = sum(end.x for end in ends) / 2, sum(end.y for end in ends) / 2
        self._names = [name for name in self._middles if name in cars]
        self._tree = cKDTree(np.array([self._middles[name] for name in self._names]))

    def middle(self, link: str) -> tuple[float, float]:
        """The middle of a link, in cm."""
        return self._middles[link]

    def nearest(self, x: float, y: float) -> str:
        """The car link whose middle is nearest to a place, in cm."""
        return self._names[int(self._tree.query((x, y))[1])]
