"""GTFS: a small feed against a timetable made by hand, and feeds made of random timetables."""

from __future__ import annotations

import csv
import random
import zipfile
from pathlib import Path

import pytest
from make_feed import write
from matsim_fixtures import Program, Run, program, tool
from pyproj import Transformer

from qsim_tools.files import Call, Departure, Network, Node, Link, Route, Schedule, Staged, Stop
from qsim_tools.files import read_network, read_schedule, stage_network

__all__ = ["program", "tool"]
CRS = "EPSG:32632"
X, Y = 540_000, 5_220_000  # m, in Liechtenstein

FEED = {
    "agency.txt": "agency_id,agency_name\n1,Buses\n",
    "routes.txt": "route_id,route_short_name,route_type\nline 1,1,3\nmetro,M,1\n",
    "calendar.txt": "service_id,monday,tuesday,wednesday,thursday,friday,saturday,sunday,"
    "start_date,end_date\nweek,1,1,1,1,1,0,0,20260101,20261231\n"
    "sunday,0,0,0,0,0,0,1,20260101,20261231\nold,1,1,1,1,1,1,1,20250101,20251231\n",
    "calendar_dates.txt": "service_id,date,exception_type\nweek,20261225,2\nsunday,20261225,1\n",
    "trips.txt": "route_id,service_id,trip_id\nline 1,week,east\nline 1,week,east late\n"
    "line 1,week,west\nline 1,sunday,free\nline 1,old,gone\nmetro,week,under\nline 1,week,often\n",
    "stop_times.txt": "trip_id,stop_id,stop_sequence,arrival_time,departure_time,timepoint\n"
    "east,E3,30,8:04:00,8:04:00,1\neast,E1,10,08:00:00,08:00:20,1\neast,E2,20,,,\n"
    "east late,E1,1,24:10:00,24:10:20,1\neast late,E2,2,,,\neast late,E3,3,24:14:00,24:14:00,1\n"
    "west,W3,1,09:00:00,09:00:00,0\nwest,W1,2,09:05:00,09:05:00,1\nwest,far,3,9:06:00,9:06:00,1\n"
    "free,E1,1,10:00:00,10:00:00,1\nfree,E3,2,10:05:00,10:05:00,1\n"
    "under,E1,1,10:00:00,10:00:00,1\nunder,E3,2,10:05:00,10:05:00,1\n"
    "often,E1,1,00:00:00,00:00:00,1\noften,E3,2,00:05:00,00:05:00,1\n",
    "frequencies.txt": "trip_id,start_time,end_time,headway_secs\noften,12:00:00,12:30:00,900\n",
}
# E1, E2, E3 are south of the street, W3 and W1 north of it: traffic keeps to the right.
PLACES = {"E1": (100, -4), "E2": (300, -4), "E3": (500, -4), "W3": (500, 4), "W1": (100, 4)}
ROUTES = """line,route,links,stops
line.1,line.1_0,e0 e1 e2,E1:0:wait E2:110 E3:220:wait
line.1,line.1_1,w2 w1 w0,W3:0 W1:300:wait
line.1,line.1_2,e0 e1 e2,E1:0:wait E3:300:wait
"""
DEPARTURES = """departure,route,second,seats
east,line.1_0,28820,44
east.late,line.1_0,87020,44
west,line.1_1,32400,44
often_0,line.1_2,43200,44
often_1,line.1_2,44100,44
"""


def street() -> Network:
    """A street of three links each way."""
    network = Network({}, {})
    for k in range(4):
        network.nodes[f"n{k}"] = Node(f"n{k}", (X + 200 * k) * 100, Y * 100)
    for k in range(3):
        network.links[f"e{k}"] = Link(f"e{k}", f"n{k}", f"n{k + 1}", 20_000, 1_000, 900, 1)
        network.links[f"w{k}"] = Link(f"w{k}", f"n{k + 1}", f"n{k}", 20_000, 1_000, 900, 1)
    return network


def folder_of(network: Network, folder: Path) -> Path:
    """A folder with a network and its CRS."""
    with Staged(folder) as staged:
        stage_network(staged, network)
        staged.write("crs.txt", f"{CRS}\n")
        staged.write("ids.csv", "kind,qsim,matsim\nlink,e0,e 0\nline,old,old\n")
    return folder


def feed_of(path: Path, **changed: str | None) -> Path:
    """The feed, with some tables changed or left out."""
    back = Transformer.from_crs(CRS, "EPSG:4326", always_xy=True)
    rows = ["stop_id,stop_lat,stop_lon", "far,0.0,0.0"]
    for name, (right, up) in PLACES.items():
        longitude, latitude = back.transform(X + right, Y + up)
        rows.append(f"{name},{latitude:.8f},{longitude:.8f}")
    tables: dict[str, str | None] = {**FEED, "stops.txt": "\n".join(rows) + "\n"}
    tables.update({f"{name}.txt": content for name, content in changed.items()})
    with zipfile.ZipFile(path, "w") as zipped:
        for name, content in tables.items():
            if content is not None:
                zipped.writestr(name, content)
    return path


def test_timetable_of_a_day(tool: Run, tmp_path: Path) -> None:
    """Services of the date, times between stops, headways, sides of the street."""
    folder = folder_of(street(), tmp_path / "town")
    feed = feed_of(tmp_path / "feed.zip")
    done = tool("qsim-gtfs", feed, "20261201", folder, "--seats", "44")  # a Tuesday
    assert done.returncode == 0, done.stderr
    assert (folder / "routes.csv").read_text() == ROUTES
    assert (folder / "departures.csv").read_text() == DEPARTURES
    stops = (folder / "stops.csv").read_text().splitlines()
    assert set(stops[1:]) == {"E1,e0", "E2,e1", "E3,e2", "W3,w2", "W1,w0"}
    with open(folder / "gtfs.csv", newline="") as source:
        lost = {row["what"]: row["count"] for row in csv.DictReader(source)}
    assert lost["trip of a route of type 1 left out"] == "1"
    assert lost["stop without a link nearby left out"] == "1"
    assert lost["time of a call put between its neighbours"] == "2"
    ids = (folder / "ids.csv").read_text().splitlines()
    assert "link,e0,e 0" in ids and "line,line.1,line 1" in ids and "line,old,old" not in ids
    assert "departure,east.late,east late" in ids


def test_other_days(tool: Run, tmp_path: Path) -> None:
    """A day that calendar_dates changes, and one without any trip."""
    folder = folder_of(street(), tmp_path / "town")
    feed = feed_of(tmp_path / "feed.zip")
    assert tool("qsim-gtfs", feed, "2026-12-25", folder).returncode == 0
    rows = (folder / "departures.csv").read_text().splitlines()
    assert rows[1:] == ["free,line.1_0,36000,70"]
    done = tool("qsim-gtfs", feed, "20261226", folder)
    assert done.returncode == 1 and "no trip on 2026-12-26" in done.stderr


def test_program_takes_it(tool: Run, tmp_path: Path, program: Program) -> None:
    """The program finds no fault in the timetable."""
    folder = folder_of(street(), tmp_path / "town")
    assert tool("qsim-gtfs", feed_of(tmp_path / "f.zip"), "20261201", folder).returncode == 0
    header = "person,plan,kind,name,link,time,route\n"
    (folder / "plans.csv").write_text(f"{header}p,0,act,home,e0,,\n")
    assert program(folder, "check") == "valid,4,6,1,5,3,5\n"


def grid(size: int) -> Network:
    """A grid of two-way streets, 150 m apart."""
    network = Network({}, {})
    for row in range(size):
        for column in range(size):
            name = f"n{row}_{column}"
            x, y = X + 150 * column + 7 * row, Y + 150 * row
            network.nodes[name] = Node(name, x * 100, y * 100)
    for a in network.nodes.values():
        for b in network.nodes.values():
            if a is not b and abs(a.x - b.x) + abs(a.y - b.y) < 16_500:
                name = f"{a.name}-{b.name}"
                network.links[name] = Link(name, a.name, b.name, 15_000, 1_000, 900, 1)
    return network


def walk(network: Network, draw: random.Random) -> list[str]:
    """A way that never turns round and never comes to a node twice."""
    way = [draw.choice(list(network.links))]
    seen = {network.links[way[0]].start, network.links[way[0]].end}
    while len(way) < 14:
        here = network.links[way[-1]].end
        rest = [x for x in network.links.values() if x.start == here and x.end not in seen]
        if not rest:
            break
        link = draw.choice(rest)
        way.append(link.name)
        seen.add(link.end)
    return way


@pytest.mark.parametrize("seed", range(8))
def test_feed_of_a_timetable_comes_back(seed: int, tool: Run, tmp_path: Path) -> None:
    """With shapes, the links, stops, offsets and departures of random lines come back."""
    network, draw = grid(8), random.Random(seed)
    schedule = Schedule()
    while len(schedule.routes) < 4:
        way = walk(network, draw)
        if len(way) < 8:
            continue
        name = f"L{len(schedule.routes)}_0"
        calls = []
        for place in sorted({0, len(way) - 1, *draw.sample(range(len(way)), 3)}):
            stop = f"s_{way[place]}"
            schedule.stops[stop] = Stop(stop, way[place])
            calls.append(Call(stop, 40 * place, draw.random() < 0.5))
        schedule.routes[name] = Route(name[:-2], name, tuple(way), tuple(calls))
        for k in range(3):
            row = Departure(f"{name}_{k}", name, 20_000 + 900 * k, 70)
            schedule.departures[row.name] = row
    folder = folder_of(network, tmp_path / "town")
    write(network, schedule, CRS, tmp_path / "feed.zip", True)
    done = tool("qsim-gtfs", tmp_path / "feed.zip", "20260704", folder)
    assert done.returncode == 0, done.stderr
    back = read_schedule(folder, read_network(folder).links)
    assert set(back.departures) == set(schedule.departures)
    for name, row in schedule.departures.items():
        route, other = schedule.routes[row.route], back.routes[back.departures[name].route]
        assert back.departures[name].second == row.second and other.line == route.line
        assert other.links == route.links
        found = [(back.stops[c.stop].link, c.offset, c.wait) for c in other.calls]
        assert found == [(schedule.stops[c.stop].link, c.offset, c.wait) for c in route.calls]


FAULTS: dict[str, tuple[dict[str, str | None], str]] = {
    "no table": ({"trips": None}, "there is no trips.txt"),
    "no column": ({"stop_times": "trip_id,stop_id\n"}, "stop_times.txt: line 1: there is no"),
    "no number": ({"routes": FEED["routes.txt"].replace(",3", ",bus")}, "routes.txt: line 2"),
    "no stop": ({"stop_times": FEED["stop_times.txt"].replace("E2", "E9")}, "times.txt: line 4"),
    "no time": ({"stop_times": FEED["stop_times.txt"].replace("8:04:00", "8.04")}, "line 2"),
    "no route": ({"trips": FEED["trips.txt"].replace("metro", "tube")}, "trips.txt: line 7"),
    "no calendar": ({"calendar": None, "calendar_dates": None}, "there is no calendar_dates.txt"),
}


@pytest.mark.parametrize("case", FAULTS)
def test_faults(case: str, tool: Run, tmp_path: Path) -> None:
    """One line with file and place, status 1, and nothing written."""
    changed, place = FAULTS[case]
    folder = folder_of(street(), tmp_path / "town")
    before = sorted(path.name for path in folder.iterdir())
    done = tool("qsim-gtfs", feed_of(tmp_path / "feed.zip", **changed), "20261201", folder)
    assert (done.returncode, done.stdout) == (1, "")
    assert done.stderr.count("\n") == 1 and "feed.zip" in done.stderr
    assert place in done.stderr, done.stderr
    assert sorted(path.name for path in folder.iterdir()) == before


def test_damaged_zip(tool: Run, tmp_path: Path) -> None:
    """A zip file that is cut off, and a folder without a CRS."""
    folder = folder_of(street(), tmp_path / "town")
    feed = feed_of(tmp_path / "feed.zip")
    feed.write_bytes(feed.read_bytes()[:-40])
    done = tool("qsim-gtfs", feed, "20261201", folder)
    assert done.returncode == 1 and "the zip file is damaged" in done.stderr
    (folder / "crs.txt").unlink()
    done = tool("qsim-gtfs", feed, "20261201", folder)
    assert done.returncode == 1 and "crs.txt" in done.stderr
    done = tool("qsim-gtfs", feed, "20261201", folder, "--crs", "EPSG:1")
    assert done.returncode == 1 and done.stderr.count("\n") == 1
