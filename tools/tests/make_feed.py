#!/usr/bin/python3
"""Make a GTFS feed of the timetable of a folder, to read it back with qsim-gtfs.

A stop is put 3 m to the right of the middle of its link; a shape follows the links.
"""

from __future__ import annotations

import argparse
import csv
import io
import sys
import zipfile
from collections.abc import Iterable, Sequence
from pathlib import Path

from pyproj import Transformer

sys.path.insert(0, str(Path(__file__).resolve().parent.parent))

from qsim_tools.files import Network, Schedule, read_network, read_schedule  # noqa: E402

DAYS = "monday,tuesday,wednesday,thursday,friday,saturday,sunday".split(",")


def text(header: Sequence[str], rows: Iterable[Sequence[object]]) -> str:
    """A table of CSV."""
    target = io.StringIO()
    writer = csv.writer(target, lineterminator="\r\n")
    writer.writerow(header)
    writer.writerows(rows)
    return target.getvalue()


def clock(second: int) -> str:
    """A time."""
    return f"{second // 3600}:{second // 60 % 60:02d}:{second % 60:02d}"


def beside(network: Network, link: str) -> tuple[float, float]:
    """The place 3 m to the right of the middle of a link, in m."""
    row = network.links[link]
    a, b = network.nodes[row.start], network.nodes[row.end]
    right, up = (b.x - a.x) / 100, (b.y - a.y) / 100
    size = (right**2 + up**2) ** 0.5 or 1.0
    return (a.x + b.x) / 200 + 3 * up / size, (a.y + b.y) / 200 - 3 * right / size


def tables(network: Network, schedule: Schedule, crs: str, shapes: bool) -> dict[str, str]:
    """The tables of the feed."""
    back = Transformer.from_crs(crs, "EPSG:4326", always_xy=True)
    stops, trips, times, points = [], [], [], []
    for stop in schedule.stops.values():
        x, y = back.transform(*beside(network, stop.link))
        stops.append((stop.name, stop.name, f"{y:.7f}", f"{x:.7f}"))
    for row in schedule.departures.values():
        route = schedule.routes[row.route]
        trips.append((route.line, "daily", row.name, route.name if shapes else ""))
        for place, call in enumerate(route.calls):
            at = clock(row.second + call.offset)
            times.append((row.name, at, at, call.stop, place + 1, int(call.wait)))
    for route in schedule.routes.values() if shapes else ():
        nodes = [network.links[route.links[0]].start]
        nodes += [network.links[link].end for link in route.links]
        for place, name in enumerate(nodes):
            node = network.nodes[name]
            x, y = back.transform(node.x / 100, node.y / 100)
            points.append((route.name, f"{y:.7f}", f"{x:.7f}", place))
    lines = dict.fromkeys(route.line for route in schedule.routes.values())
    times_header = "trip_id,arrival_time,departure_time,stop_id,stop_sequence,timepoint"
    shapes_header = "shape_id,shape_pt_lat,shape_pt_lon,shape_pt_sequence"
    result = {
        "stops.txt": text("stop_id,stop_name,stop_lat,stop_lon".split(","), stops),
        "routes.txt": text(
            "route_id,route_short_name,route_type".split(","), [(x, x, 3) for x in lines]
        ),
        "trips.txt": text("route_id,service_id,trip_id,shape_id".split(","), trips),
        "stop_times.txt": text(times_header.split(","), times),
        "calendar.txt": text(
            ["service_id", *DAYS, "start_date", "end_date"],
            [("daily", *[1] * 7, "20260101", "20261231")],
        ),
    }
    return {**result, "shapes.txt": text(shapes_header.split(","), points)} if shapes else result


def write(network: Network, schedule: Schedule, crs: str, path: Path, shapes: bool) -> None:
    """Write the feed."""
    with zipfile.ZipFile(path, "w", zipfile.ZIP_DEFLATED) as zipped:
        for name, content in tables(network, schedule, crs, shapes).items():
            zipped.writestr(name, content)


def main() -> None:
    """Make the feed of a folder."""
    parser = argparse.ArgumentParser(description=__doc__)
    parser.add_argument("network", type=Path, help="folder of nodes.csv, links.csv and crs.txt")
    parser.add_argument("timetable", type=Path, help="folder of stops, routes and departures")
    parser.add_argument("feed", type=Path)
    parser.add_argument("--no-shapes", action="store_true")
    words = parser.parse_args()
    network = read_network(words.network)
    schedule = read_schedule(words.timetable, network.links)
    crs = (words.network / "crs.txt").read_text().strip()
    write(network, schedule, crs, words.feed, not words.no_shapes)


if __name__ == "__main__":
    main()
