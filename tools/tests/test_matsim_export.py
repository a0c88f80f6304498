"""The export of runs: valid files that say what the run says and come back as they were."""

from __future__ import annotations

import csv
import gzip
import json
import shutil
import subprocess
from pathlib import Path
from typing import Any

import pytest
from lxml import etree
from matsim_fixtures import EXAMPLE, Program, Run, example, program, tool

from qsim_tools.files import Settings, read_network, read_settings
from qsim_tools.matsim_day import days

__all__ = ["example", "program", "tool"]
DTD = Path(__file__).parent / "dtd"
FILES = ("nodes", "links", "stops", "routes", "departures")

# A town of two links: one person drives, the other one walks to a stop and takes a bus that is to
# leave it 10 s after 7:00. The events are written by hand.
TOWN = {
    "nodes.csv": "node,x,y\na,0,0\nb,30000,0\nc,30000,40000\n",
    "links.csv": "link,from,to,length,speed,capacity,lanes\n"
    "one,a,b,30000,1389,1800,1\ntwo,b,c,40005,1389,1800,1\n",
    "stops.csv": "stop,link\ns1,one\ns2,two\n",
    "routes.csv": "line,route,links,stops\nbus,east,one two,s1:10:wait s2:60\n",
    "departures.csv": "departure,route,second,seats\nd1,east,25200,40\n",
    "plans.csv": "person,plan,kind,name,link,time,route\n"
    "car,0,act,home,one,25199,\ncar,0,leg,car,,,one two\ncar,0,act,work,two,,\n"
    "bus,0,act,home,one,25000,\nbus,0,leg,walk,,100,\nbus,0,act,pt.interaction,one,0,\n"
    "bus,0,leg,pt,,,bus s1 s2\nbus,0,act,work,two,,\n",
    "ids.csv": "kind,qsim,matsim\nkind,pt.interaction,pt interaction\nlink,two,two&half\n"
    "route,east,east bound\nperson,bus,Dan <bus>\n",
    "crs.txt": "EPSG:32632\n",
}
EVENTS = """iteration,0
24000,actend,bus,,one,home
24000,departure,bus,,one,walk
25100,travelled,bus,,,1100
25100,arrival,bus,,one,walk
25100,actstart,bus,,one,pt.interaction
25101,actend,bus,,one,pt.interaction
25101,departure,bus,,one,pt
25101,waitingForPt,bus,,one,s1
25199,actend,car,,one,home
25199,departure,car,,one,car
25199,PersonEntersVehicle,car,car,,
25199,vehicle enters traffic,car,car,one,
25200,TransitDriverStarts,,pt:d1,one,bus
25200,left link,,car,one,
25200,entered link,,car,two,
25200,vehicle enters traffic,,pt:d1,one,
25200,VehicleArrivesAtFacility,,pt:d1,one,s1
25200,PersonEntersVehicle,bus,pt:d1,,
25212,VehicleDepartsAtFacility,,pt:d1,one,s1
25213,left link,,pt:d1,one,
25213,entered link,,pt:d1,two,
25229,vehicle leaves traffic,car,car,two,
25229,PersonLeavesVehicle,car,car,,
25229,arrival,car,,two,car
25229,actstart,car,,two,work
25265,VehicleArrivesAtFacility,,pt:d1,two,s2
25265,PersonLeavesVehicle,bus,pt:d1,,
25265,arrival,bus,,two,pt
25265,actstart,bus,,two,work
"""
# Which attributes MATSim's events of a type have, besides time and type.
ATTRIBUTES = {
    "actend": "person link actType",
    "departure": "person link legMode computationalRoutingMode",
    "travelled": "person distance mode",
    "arrival": "person link legMode",
    "actstart": "person link actType",
    "PersonEntersVehicle": "person vehicle",
    "PersonLeavesVehicle": "person vehicle",
    "vehicle enters traffic": "person link vehicle networkMode relativePosition",
    "vehicle leaves traffic": "person link vehicle networkMode relativePosition",
    "left link": "vehicle link",
    "entered link": "vehicle link",
    "waitingForPt": "agent atStop destinationStop",
    "TransitDriverStarts": "driverId vehicleId transitLineId transitRouteId departureId",
    "VehicleArrivesAtFacility": "vehicle facility delay",
    "VehicleDepartsAtFacility": "vehicle facility delay",
    "vehicle aborts": "vehicle link",
    "stuckAndAbort": "person link legMode",
}


def town(folder: Path) -> Path:
    """Write the small town."""
    folder.mkdir()
    for name, text in TOWN.items():
        (folder / name).write_text(text)
    (folder / "events.csv").write_text(EVENTS)
    return folder


def parsed(path: Path) -> Any:
    """The root of an XML file."""
    data = path.read_bytes()
    return etree.fromstring(gzip.decompress(data) if path.suffix == ".gz" else data)


def valid(path: Path, name: str) -> Any:
    """The root of a file that is valid by a DTD."""
    root = parsed(path)
    dtd = etree.DTD(str(DTD / f"{name}.dtd"))
    assert dtd.validate(root), dtd.error_log
    return root


def all_valid(out: Path, transit: bool = True) -> None:
    """Validate every XML file of an export."""
    valid(out / "output_network.xml.gz", "network_v2")
    valid(out / "output_plans.xml.gz", "population_v6")
    valid(out / "output_config.xml", "config_v2")
    valid(out / "output_events.xml.gz", "events_v1")
    if transit:
        valid(out / "output_transitSchedule.xml.gz", "transitSchedule_v2")


def table(path: Path) -> list[dict[str, str]]:
    """The rows of a table of MATSim."""
    with gzip.open(path, "rt", newline="") as source:
        return list(csv.DictReader(source, delimiter=";"))


def test_events_say_what_the_lines_say(tool: Run, tmp_path: Path) -> None:
    """Every line becomes an event with MATSim's attributes, joined from the other files."""
    done = tool("qsim-matsim", "export", town(tmp_path / "town"), tmp_path / "out")
    assert done.returncode == 0, done.stderr
    all_valid(tmp_path / "out")
    events = [dict(row.attrib) for row in parsed(tmp_path / "out" / "output_events.xml.gz")]
    lines = [line.split(",") for line in EVENTS.splitlines()[1:]]
    assert [(row["time"], row["type"]) for row in events] == [(f"{x[0]}.0", x[1]) for x in lines]
    for row in events:
        assert set(row) == {"time", "type", *ATTRIBUTES[row["type"]].split()}
    find = {(row["type"], row["time"]): row for row in events}
    walk = find["departure", "24000.0"]
    assert (walk["person"], walk["legMode"]) == ("Dan <bus>", "walk")
    assert walk["computationalRoutingMode"] == "pt"  # the walk is a part of the trip by bus
    starts = find["TransitDriverStarts", "25200.0"]
    assert (starts["transitLineId"], starts["transitRouteId"]) == ("bus", "east bound")
    assert starts["departureId"] == "d1"
    assert find["waitingForPt", "25101.0"]["destinationStop"] == "s2"
    assert find["VehicleArrivesAtFacility", "25200.0"]["delay"] == "-10.0"  # planned at 25210
    assert find["VehicleDepartsAtFacility", "25212.0"]["delay"] == "2.0"
    assert find["VehicleArrivesAtFacility", "25265.0"]["delay"] == "5.0"  # planned at 25260
    assert find["travelled", "25100.0"]["distance"] == "0.0"  # from a link to itself
    assert find["actstart", "25100.0"]["actType"] == "pt interaction"
    assert find["entered link", "25213.0"]["vehicle"] == starts["vehicleId"]
    assert find["vehicle leaves traffic", "25229.0"]["person"] == "car"


def test_trips_and_legs(tool: Run, tmp_path: Path) -> None:
    """Distances, waits, stops and modes of the last iteration."""
    done = tool("qsim-matsim", "export", town(tmp_path / "town"), tmp_path / "out")
    assert done.returncode == 0, done.stderr
    walk, ride, car = sorted(
        table(tmp_path / "out" / "output_legs.csv.gz"), key=lambda row: (row["mode"] == "car")
    )
    assert (walk["mode"], walk["trav_time"], walk["trip_id"]) == ("walk", "00:18:20", "Dan <bus>_1")
    assert (ride["dep_time"], ride["trav_time"]) == ("06:58:21", "00:02:44")
    assert (ride["wait_time"], ride["distance"]) == ("00:01:39", "400")  # 400.05 m
    assert (ride["access_stop_id"], ride["egress_stop_id"]) == ("s1", "s2")
    assert (ride["transit_line"], ride["transit_route"]) == ("bus", "east bound")
    assert (car["distance"], car["vehicle_id"], car["end_link"]) == ("400", "car", "two&half")
    assert (car["start_x"], car["start_y"]) == ("150.00", "0.00")
    assert (car["end_x"], car["end_y"]) == ("300.00", "200.00")
    trips = {row["person"]: row for row in table(tmp_path / "out" / "output_trips.csv.gz")}
    bus = trips["Dan <bus>"]
    assert (bus["main_mode"], bus["modes"]) == ("pt", "walk-pt")
    assert (bus["trav_time"], bus["wait_time"]) == ("00:21:05", "00:01:39")
    assert (bus["euclidean_distance"], bus["traveled_distance"]) == ("250", "400")
    assert (bus["start_activity_type"], bus["end_activity_type"]) == ("home", "work")
    assert (bus["first_pt_boarding_stop"], bus["last_pt_egress_stop"]) == ("s1", "s2")
    assert (trips["car"]["trip_number"], trips["car"]["modes"]) == ("1", "car")


def test_interaction(tool: Run, tmp_path: Path) -> None:
    """A kind that --interaction names is an activity within a trip, and otherwise is not."""
    folder = town(tmp_path / "town")
    (folder / "ids.csv").unlink()
    for name in ("plans.csv", "events.csv"):
        (folder / name).write_text((folder / name).read_text().replace("pt.interaction", "change"))
    found: dict[int, list[str]] = {}
    choices: list[list[str]] = [[], ["--interaction", "change"]]
    for words in choices:
        done = tool("qsim-matsim", "export", *words, folder, tmp_path / "out")
        assert done.returncode == 0, done.stderr
        rows = table(tmp_path / "out" / "output_trips.csv.gz")
        found[len(words)] = sorted(row["modes"] for row in rows)
    assert found == {0: ["car", "pt", "walk"], 2: ["car", "walk-pt"]}


def test_comes_back(tool: Run, tmp_path: Path) -> None:
    """Ids, order and coordinates of the small town come back, and the CRS."""
    tool("qsim-matsim", "export", town(tmp_path / "town"), tmp_path / "out")
    config = tmp_path / "out" / "output_config.xml"
    done = tool("qsim-matsim", "import", "--whole", config, tmp_path / "back")
    assert done.returncode == 0, done.stderr
    names = {"two.half": "two", "Dan..bus.": "bus", "bus.east.bound": "east"}
    for name in (*FILES, "plans"):
        text = (tmp_path / "back" / f"{name}.csv").read_text()
        for new, old in names.items():
            text = text.replace(new, old)
        assert text == TOWN[f"{name}.csv"]
    assert (tmp_path / "back" / "crs.txt").read_text() == TOWN["crs.txt"]


def test_order_comes_back(tool: Run, tmp_path: Path) -> None:
    """Routes of several lines and departures of several routes in turn keep their order."""
    folder = town(tmp_path / "town")
    rows = ["b,r1,one,s1:0", "a,r2,one,s1:0", "b,r3,one,s1:0"]
    (folder / "routes.csv").write_text("line,route,links,stops\n" + "\n".join(rows) + "\n")
    rows = ["1,r3,5,9", "2,r1,7,9", "3,r3,1,8"]
    text = "\n".join(["departure,route,second,seats", *rows, ""])
    (folder / "departures.csv").write_text(text)
    (folder / "plans.csv").write_text(TOWN["plans.csv"].split("bus,0")[0])
    (folder / "events.csv").unlink()
    tool("qsim-matsim", "export", folder, tmp_path / "out")
    config = tmp_path / "out" / "output_config.xml"
    done = tool("qsim-matsim", "import", "--whole", config, tmp_path / "back")
    assert done.returncode == 0, done.stderr
    for name in ("routes.csv", "departures.csv"):
        back = (tmp_path / "back" / name).read_text().replace("two.half", "two")
        assert back == (folder / name).read_text()


def test_run_of_the_example(tool: Run, example: Path, program: Program, tmp_path: Path) -> None:
    """A run of the stored example: valid files, every CSV to the byte, scores, stuck persons."""
    settings = Settings(end_second=28_800, flow_permille=100, storage_permille=100)
    settings.stuck_seconds, settings.last_iteration, settings.weight_time = 120, 3, 1
    (example / "settings.json").write_text(settings.as_json())
    program(example, "run")
    done = tool("qsim-matsim", "export", example, tmp_path / "out")
    assert done.returncode == 0, done.stderr
    all_valid(tmp_path / "out")
    config = tmp_path / "out" / "output_config.xml"
    done = tool("qsim-matsim", "import", "--whole", config, tmp_path / "back")
    assert done.returncode == 0, done.stderr
    for name in FILES:
        path = f"{name}.csv"
        assert (tmp_path / "back" / path).read_bytes() == (EXAMPLE / path).read_bytes()
    plans = (example / "plans_out.csv").read_bytes()
    assert (tmp_path / "back" / "plans.csv").read_bytes() == plans
    assert program(tmp_path / "back", "check") == "valid,5,4,5,2,1,1\n"
    found = days(example / "events.csv")
    assert [day.iteration for day in found] == [0, 1, 2, 3]
    for day in found:
        number = day.iteration
        events = tmp_path / "out" / "ITERS" / f"it.{number}" / f"{number}.events.xml.gz"
        assert len(valid(events, "events_v1")) == len(list(day.lines()))
    last = [line.split(",") for line in (example / "scores.csv").read_text().splitlines()[-5:]]
    scores = {row[1]: int(row[3]) / 1e6 for row in last}
    for person in parsed(tmp_path / "out" / "output_plans.xml.gz"):
        first = person.find("plan")
        assert first.get("selected") == "yes"
        assert float(first.get("score")) == pytest.approx(scores[person.get("id")])


def test_import_export_import(tool: Run, tmp_path: Path) -> None:
    """What an import made of MATSim's ids and values, a second one makes of its export."""
    first, second = tmp_path / "first", tmp_path / "second"
    config = Path(__file__).parent / "data" / "matsim" / "config.xml"
    assert tool("qsim-matsim", "import", config, first).returncode == 0
    assert tool("qsim-matsim", "export", first, tmp_path / "out").returncode == 0
    config = tmp_path / "out" / "output_config.xml"
    done = tool("qsim-matsim", "import", "--whole", config, second)
    assert done.returncode == 0, done.stderr
    for name in (*FILES, "plans", "ids"):
        path = f"{name}.csv"
        assert (second / path).read_bytes() == (first / path).read_bytes(), name
    assert read_settings(second / "settings.json") == read_settings(first / "settings.json")
    ids = {row.get("id") for row in parsed(tmp_path / "out" / "output_network.xml.gz").iter("link")}
    assert "da#1" in ids and "da.1" in ids
    persons = valid(tmp_path / "out" / "output_plans.xml.gz", "population_v6").findall("person")
    assert persons[0].get("id") == "walks to the car"


def test_one_way_network(tool: Run, example: Path, tmp_path: Path) -> None:
    """The example has no way back, so an import without --whole has nothing to keep."""
    assert tool("qsim-matsim", "export", example, tmp_path / "out").returncode == 0
    config = tmp_path / "out" / "output_config.xml"
    done = tool("qsim-matsim", "import", config, tmp_path / "back")
    assert done.returncode == 1 and done.stderr.count("\n") == 1
    assert "output_network.xml.gz" in done.stderr and "--whole" in done.stderr
    assert not (tmp_path / "back").exists()


@pytest.mark.skipif(shutil.which("netconvert") is None, reason="netconvert is not installed")
def test_netconvert_reads_it(tool: Run, example: Path, tmp_path: Path) -> None:
    """netconvert finds the same links in the exported network."""
    assert tool("qsim-matsim", "export", example, tmp_path / "out").returncode == 0
    data = gzip.decompress((tmp_path / "out" / "output_network.xml.gz").read_bytes())
    (tmp_path / "network.xml").write_bytes(data)
    words = ["netconvert", "--xml-validation", "never", "--matsim-files", "network.xml"]
    words += ["--matsim.keep-length", "-o", "town.net.xml", "--plain-output-prefix", "town"]
    subprocess.run(words, cwd=tmp_path, capture_output=True, check=True)
    edges = {row.get("id"): row for row in parsed(tmp_path / "town.edg.xml").iter("edge")}
    links = read_network(example).links
    assert set(edges) == set(links)
    for name, link in links.items():
        row = edges[name]
        assert (row.get("from"), row.get("to")) == (link.start, link.end)
        assert int(row.get("numLanes")) == link.lanes
        assert round(float(row.get("speed")) * 100) == link.speed
        assert round(float(row.get("length")) * 100) == link.length


SETTINGS = [
    {},
    {"seed": 2**64 - 1, "end_second": 172_800, "flow_permille": 1, "storage_permille": 2_000},
    {"stuck_seconds": 172_800, "stuck_push": 1, "hole_speed": 600, "dwell_open": 0},
    {"dwell_alight": 3, "dwell_board": 0, "last_iteration": 7, "innovation_last": 3},
    {"weight_keep": 0, "weight_logit": 70, "weight_reroute": 15, "weight_time": 15},
    {"weight_keep": 0, "weight_best": 3, "weight_random": 1_000_000, "memory_size": 1},
    {"logit_unit": 693_147, "mutation_range": 0, "late_per_second": -999_999, "stuck": 0},
    {"logit_unit": 999_999_999_999, "stuck": -1},
    {"logit_unit": 1, "modes": {"car": {"constant": -12_345_678, "per_second": -1}}},
    {"tables": [{"kind": "home", "points": [[0, -3], [7, 5]]}, {"kind": "w", "points": [[0, 1]]}]},
    {"tables": [{"kind": "work", "points": [[0, -3], [7, 5]], "latest": 30_600}]},
]


@pytest.mark.parametrize("given", SETTINGS, ids=lambda given: "-".join(given) or "none")
def test_settings_come_back(
    given: dict[str, object], tool: Run, example: Path, tmp_path: Path
) -> None:
    """Every value of settings.json comes back through config.xml."""
    (example / "settings.json").write_text(json.dumps(given))
    assert tool("qsim-matsim", "export", example, tmp_path / "out").returncode == 0
    config = tmp_path / "out" / "output_config.xml"
    valid(config, "config_v2")
    done = tool("qsim-matsim", "import", "--whole", config, tmp_path / "back")
    assert done.returncode == 0, done.stderr
    first = read_settings(example / "settings.json")
    second = read_settings(tmp_path / "back" / "settings.json")
    modes = {mode: first.worth(mode) for mode in ("car", "walk", "bike", "ride", "pt")}
    assert {mode: second.worth(mode) for mode in modes} == modes
    first.modes = second.modes = {}
    assert second == first


FAULTS = {
    "cut off": (EVENTS[:-20], "events.csv: row 29"),
    "no iteration": (EVENTS.split("\n", 1)[1], "events.csv: row 0"),
    "unknown link": (EVENTS.replace("entered link,,car,two", "entered link,,car,zz"), "row 15"),
    "unknown bus": (EVENTS.replace("pt:d1", "pt:d9"), "row 13"),
    "no leg": (EVENTS.replace("25199,departure,car,,one,car\n", ""), "row 10"),
}


@pytest.mark.parametrize("case", FAULTS)
def test_faults(case: str, tool: Run, tmp_path: Path) -> None:
    """One line with file and row, status 1, and nothing written."""
    text, place = FAULTS[case]
    folder = town(tmp_path / "town")
    (folder / "events.csv").write_text(text)
    done = tool("qsim-matsim", "export", folder, tmp_path / "out")
    assert done.returncode == 1 and done.stdout == ""
    assert done.stderr.count("\n") == 1, done.stderr
    assert "events.csv" in done.stderr and place in done.stderr
    assert not (tmp_path / "out").exists()
