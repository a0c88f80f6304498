"""What is probably not meant in nodes.csv and links.csv."""

from __future__ import annotations

import math
from collections.abc import Iterator

from qsim_tools.files import Link, Network, Settings
from qsim_tools.lint import Finding

VEHICLE_CM = 750
MOST_OF_LANE, LEAST_OF_LANE = 2_200, 300


def storage(link: Link, settings: Settings) -> int:
    """How many vehicles a link holds, by the rule of docs/day.md."""
    places = link.length * link.lanes * settings.storage_permille // (VEHICLE_CM * 1_000)
    filled = link.free_seconds * link.capacity * settings.flow_permille
    return max(1, places, -(-filled // 3_600_000))


def most_flow(link: Link, settings: Settings) -> float:
    """How many vehicles an hour the places let through: each is taken for some seconds.

    A vehicle takes its place for the free seconds at least, and the place is free again after
    the hole's seconds.
    """
    hole = max(1, link.length // settings.hole_speed) if settings.hole_speed else 1
    return storage(link, settings) * 3_600 / (link.free_seconds + hole)


def network_findings(network: Network, settings: Settings) -> Iterator[Finding]:
    """The findings of links, and then of nodes."""
    for row, link in enumerate(network.links.values(), 1):
        for rule, values in _of_link(link, network, settings):
            yield Finding("links.csv", row, link.name, rule, values)
    yield from _of_nodes(network)


def _of_link(link: Link, network: Network, settings: Settings) -> Iterator[tuple[str, str]]:
    """The rules that a link breaks."""
    room = storage(link, settings)
    flow, capacity = most_flow(link, settings), link.capacity * settings.flow_permille / 1_000
    size = f"{link.length / 100:g} m, {link.lanes} lanes"
    if room == 1:
        yield "short-link", f"storage 1 vehicle ({size}): at most {flow:,.0f} vehicles an hour"
    if flow < capacity:
        yield "choked-link", (
            f"storage {room} ({size}) lets {flow:,.0f} vehicles an hour through, "
            f"but the capacity is {capacity:,.0f}"
        )
    lane = link.capacity / link.lanes
    if not LEAST_OF_LANE <= lane <= MOST_OF_LANE:
        yield "lane-capacity", f"{lane:,.0f} vehicles an hour and lane ({link.lanes} lanes)"
    a, b = network.nodes[link.start], network.nodes[link.end]
    beeline = math.hypot(a.x - b.x, a.y - b.y)
    if link.length < beeline / 2:
        yield "short-of-beeline", f"{link.length / 100:g} m long, beeline {beeline / 100:.1f} m"
    if link.start == link.end:
        yield "loop", f"from {link.start} to {link.end}"


def _of_nodes(network: Network) -> Iterator[Finding]:
    """Dead ends, and nodes outside the largest strongly connected part."""
    into = {link.end for link in network.links.values()}
    out = {link.start for link in network.links.values()}
    part = _largest_part(network)
    for row, name in enumerate(network.nodes, 1):
        if name not in into or name not in out:
            ways = [word for word, has in (("into", into), ("out of", out)) if name not in has]
            values = f"there is no link {' or '.join(ways)} it"
            yield Finding("nodes.csv", row, name, "dead-end", values)
        elif name not in part:
            values = f"not strongly connected with the {len(part):,} nodes of the largest part"
            yield Finding("nodes.csv", row, name, "apart", values)


def _largest_part(network: Network) -> set[str]:
    """The nodes of the largest strongly connected part."""
    import numpy as np
    from scipy.sparse import coo_matrix
    from scipy.sparse.csgraph import connected_components

    names = list(network.nodes)
    if not names:
        return set()
    numbers = {name: number for number, name in enumerate(names)}
    starts = [numbers[link.start] for link in network.links.values()]
    ends = [numbers[link.end] for link in network.links.values()]
    shape = (len(names), len(names))
    graph = coo_matrix((np.ones(len(starts)), (starts, ends)), shape=shape)
    _, label = connected_components(graph, directed=True, connection="strong")
    largest = int(np.bincount(label).argmax())
    return {name for name, part in zip(names, label.tolist()) if part == largest}
