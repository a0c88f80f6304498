"""The import of a small scenario in MATSim's files, against values computed by hand."""

from __future__ import annotations

import csv
import gzip
import math
import subprocess
from collections.abc import Callable
from pathlib import Path

import pytest
from matsim_fixtures import TOOLS, Program, Run, program, tool

from qsim_tools.files import Limits, Worth, read_settings
from qsim_tools.matsim_ids import Names
from qsim_tools.matsim_schedule import read_vehicles_xml
from qsim_tools.matsim_scoring import points_of, zero_duration
from qsim_tools.matsim_units import scaled, seconds

__all__ = ["program", "tool"]
DATA = Path(__file__).parent / "data" / "matsim"

# Lengths and speeds are times 100, capacities times 4 (of 15 minutes), all rounded half up.
LINKS = """link,from,to,length,speed,capacity,lanes
ab,A,B,100000,1389,1800,2
bc,B,C,1,10000,100000,1
cd,C,D,25001,1,1,1
da.1_2,D,A,10000,1000,1000,1
da.1,D,A,10000,1000,1000,1
rail,P,Q,100000,2000,1000,1
"""
NODES = """node,x,y
A,0,0
B,100001,0
C,100000,100000
D,0,100000
P,0,500000
Q,100000,500000
"""
# The three trips of the first person have 9 legs, so the walks to the car go. The second one leaves
# work at 8:00:00 + 10 min + 1 s + 4 h. His ride from cd to ab: 1,000 m between the middles of the
# links, times 1.3, at 50 km/h take 93.6 s. Walks are 1.3 times the beeline at 3 km/h: 1,000 m take
# 1,560 s.
PLANS = """person,plan,kind,name,link,time,route
walks.to.the.car,0,act,home,ab,25200,
walks.to.the.car,0,leg,car,,,ab bc cd
walks.to.the.car,0,act,work,cd,43200,
walks.to.the.car,0,leg,car,,,cd da.1_2 ab
walks.to.the.car,0,act,home,ab,61200,
walks.to.the.car,0,leg,car,,,
walks.to.the.car,0,act,shop,bc,,
two,0,act,home,ab,28800,
two,0,leg,car,,,ab bc cd
two,0,act,car.interaction,cd,0,
two,0,leg,walk,,1,
two,0,act,work,cd,43801,
two,0,leg,ride,,94,
two,0,act,home,ab,,
two,1,act,home,ab,25200,
two,1,leg,bike,,600,
two,1,act,work,cd,,
moved,0,act,home,bc,25200,
moved,0,leg,car,,,
moved,0,act,work,ab,172800,
moved,0,leg,walk,,1560,
moved,0,act,home,cd,,
rider,0,act,home,ab,25200,
rider,0,leg,walk,,300,
rider,0,act,pt.interaction,rail,0,
rider,0,leg,pt,,,T.1 P1 Q1
rider,0,act,pt.interaction,rail,0,
rider,0,leg,walk,,300,
rider,0,act,work,cd,57600,
rider,0,leg,walk,,6240,
rider,0,act,pt.interaction,rail,0,
rider,0,leg,pt,,,T.1 P1 Q1
rider,0,act,pt.interaction,rail,0,
rider,0,leg,walk,,7800,
rider,0,act,home,ab,,
"""
LOST = {
    "car link outside the largest strongly connected part dropped": 1,
    "link without mode car dropped": 1,
    "link without mode car kept for transit routes": 1,
    "walks to and from a car folded into the trip": 6,
    "leg of mode scooter becomes ride": 1,
    "person lost: no plan fits": 1,
    "plan lost: a pt leg has no route": 1,
    "plan lost: an activity that is not the last one has no end": 1,
    "transit route with links that do not join dropped": 1,
    "stop without a link dropped": 1,
    "stop on a link that is not kept dropped": 1,
    "config: strategy without counterpart dropped": 1,
    "config: monetaryDistanceRate dropped": 1,
    "activity without a link moved to the nearest link": 1,
    "link capacity cut to the range 1 to 100000": 2,
}


@pytest.fixture
def imported(tool: Run, tmp_path: Path, monkeypatch: pytest.MonkeyPatch) -> Path:
    """The folder of the scenario, imported as if a plan could have eight legs."""
    monkeypatch.setattr(Limits, "LEGS", 8)
    done = tool("qsim-matsim", "import", DATA / "config.xml", tmp_path / "town")
    assert done.returncode == 0, done.stderr
    assert done.stdout.startswith("written: 6 nodes, 6 links, 4 persons, 2 stops, 2 routes")
    return tmp_path / "town"


def test_network_and_plans(imported: Path) -> None:
    """Rounding, the strongly connected part, names, folding, times."""
    assert (imported / "nodes.csv").read_text() == NODES
    assert (imported / "links.csv").read_text() == LINKS
    assert (imported / "plans.csv").read_text() == PLANS
    assert (imported / "crs.txt").read_text() == "EPSG:32632\n"


def test_timetable(imported: Path) -> None:
    """Ids that are unique only within a line or a route, places, offsets."""
    assert (imported / "stops.csv").read_text() == "stop,link\nP1,rail\nQ1,rail\n"
    routes = "line,route,links,stops\nT.1,r1,rail,P1:10:wait Q1:60\nT2,T2.r1,rail,P1:0\n"
    assert (imported / "routes.csv").read_text() == routes
    departures = "departure,route,second,seats\n1,r1,25500,60\n2,r1,57600,60\n"
    assert (imported / "departures.csv").read_text() == departures + "T2.r1.1,T2.r1,28800,50\n"


def test_list_of_losses(imported: Path) -> None:
    """import.csv counts what was lost."""
    with open(imported / "import.csv", newline="") as source:
        rows = {row["what"]: int(row["count"]) for row in csv.DictReader(source)}
    for what, count in LOST.items():
        assert rows.get(what) == count, what


def test_ids_go_both_ways(imported: Path) -> None:
    """No two ids of a kind have one name, and every name has its id."""
    with open(imported / "ids.csv", newline="") as source:
        rows = [(row["kind"], row["qsim"], row["matsim"]) for row in csv.DictReader(source)]
    assert len({row[:2] for row in rows}) == len(rows)
    assert ("link", "da.1_2", "da#1") in rows and ("link", "da.1", "da.1") in rows
    assert ("person", "walks.to.the.car", "walks to the car") in rows
    assert ("route", "T2.r1", "r1") in rows and ("route", "r1", "r1") in rows


def test_settings(imported: Path) -> None:
    """Factors, strategies and scoring of the config."""
    settings = read_settings(imported / "settings.json")
    assert (settings.seed, settings.end_second, settings.last_iteration) == (4712, 108_000, 10)
    assert (settings.flow_permille, settings.storage_permille) == (11, 30)  # 10.5 is rounded up
    assert (settings.stuck_seconds, settings.stuck_push, settings.hole_speed) == (30, 1, 417)
    assert (settings.memory_size, settings.innovation_last) == (3, 8)  # 0.85 of 10
    weights = settings.weight_keep, settings.weight_logit, settings.weight_reroute
    assert (*weights, settings.weight_time) == (0, 70, 15, 0)
    assert settings.logit_unit == 346_574  # ln 2 / 2 utils
    assert (settings.late_per_second, settings.stuck) == (-5_000, -18 * 24 * 1_000_000)
    assert settings.modes["car"].constant == -500_000
    assert settings.modes["car"].per_second == -1_667  # -6 an hour
    assert settings.modes["pt"].per_second == 250  # 0.9 an hour
    assert (settings.dwell_board, settings.dwell_alight) == (2, 0)  # 1.5 and 0.4
    assert settings.mutation_range == 900


def test_tables(imported: Path) -> None:
    """Worths of activities: -6 t at 0 by the slope, 6 t ln(d / z) behind the zero duration."""
    tables = {table.kind: table for table in read_settings(imported / "settings.json").tables}
    assert set(tables) == {"work", "home"}
    work = dict(tables["work"].points)
    assert tables["work"].latest == 9 * 3600
    assert work[0] == -48_000_000
    assert work[172_800] == round(48 * (math.log(6) + 1) * 1e6)  # z is 8 h / e
    home = dict(tables["home"].points)
    assert home[172_800] == round(72 * (math.log(4) + 10 / 12) * 1e6)  # z is 12 h exp(-10 / 12)
    assert len(work) <= 32 and len(home) <= 32


def test_table_is_near_the_logarithm() -> None:
    """The straight lines miss the logarithm by six hundredths of a util at most."""
    zero = zero_duration(8.0, 1.0, False)
    points = points_of(6.0, 8.0, zero)
    for (low, below), (high, above) in zip(points[1:], points[2:]):
        middle = (low + high) / 2
        exact = 48 * math.log(middle / 3600 / zero)
        assert abs((below + above) / 2e6 - exact) < 0.06


def test_program_takes_it(imported: Path, program: Program) -> None:
    """The program finds no fault in what was imported."""
    assert program(imported, "check") == "valid,6,6,4,2,2,3\n"


def _values(module: str, values: dict[str, object]) -> str:
    """A module of a config."""
    rows = [f'<param name="{key}" value="{value}"/>' for key, value in values.items()]
    return f'<module name="{module}">{"".join(rows)}</module>'


def test_old_config(tool: Run, tmp_path: Path) -> None:
    """A config without parametersets: numbered strategies and activities, one value by mode."""
    strategy = {"Module_1": "ReRoute", "ModuleProbability_1": 0.1}
    strategy |= {"Module_2": "org.matsim.core.SelectExpBeta", "ModuleProbability_2": 0.9}
    scoring: dict[str, object] = {"traveling": -4.5, "travelingWalk": -9, "constantCar": 1}
    scoring |= {"lateArrival": -36, "performing": 6, "BrainExpBeta": 1}
    scoring |= {"activityType_0": "work", "activityTypicalDuration_0": "08:00:00"}
    scoring |= {"activityLatestStartTime_0": "09:30:00"}
    scoring |= {"activityType_1": "home", "activityTypicalDuration_1": "12:00:00"}
    parts = [
        _values("network", {"inputNetworkFile": DATA / "network.xml"}),
        _values("plans", {"inputPlansFile": DATA / "plans.xml"}),
        _values("controler", {"lastIteration": 20}),
        _values("strategy", strategy),
        _values("planCalcScore", scoring),
    ]
    (tmp_path / "config.xml").write_text(f"<config>{''.join(parts)}</config>")
    done = tool("qsim-matsim", "import", tmp_path / "config.xml", tmp_path / "town")
    assert done.returncode == 0, done.stderr
    settings = read_settings(tmp_path / "town" / "settings.json")
    assert (settings.weight_keep, settings.weight_reroute, settings.weight_logit) == (0, 1, 9)
    assert (settings.late_per_second, settings.stuck) == (-10_000, -36 * 24 * 1_000_000)
    assert settings.modes["car"] == Worth(1_000_000, -1_250)
    assert settings.modes["walk"] == Worth(0, -2_500)
    assert settings.logit_unit == 693_147  # ln 2
    tables = {table.kind: table for table in settings.tables}
    assert set(tables) == {"work", "home"} and tables["work"].latest == 34_200
    assert settings.seed == 4711 and settings.innovation_last == 1000


def test_numbers_and_times() -> None:
    """Half up, exactly, and every form of a time."""
    assert scaled("0.125", 100, 1, 99) == (13, False)
    assert scaled("-0.125", 100, -99, 99) == (-12, False)
    assert scaled("1e30", 1, 1, 99) == (99, True)
    assert scaled("Infinity", 1, 1, 99) == (99, True)
    assert seconds("30:00:01") == 108_001
    assert seconds("07:30") == 27_000
    assert seconds("00:00:00.5") == 1
    assert seconds("12.4") == 12
    assert seconds("undefined") is None
    with pytest.raises(ValueError):
        seconds("soon")


def test_names_never_meet() -> None:
    """Ids that differ have names that differ, and an id that is a name keeps it."""
    names = Names()
    ids = ["a b", "a#b", "a.b", "ä" * 70, "ä" * 71, "x" * 65, "", "a.b_2"]
    names.reserve(ids)
    given = [names.name(text) for text in ids]
    assert len(set(given)) == len(ids)
    assert names.name("a.b") == "a.b" and names.name("a.b_2") == "a.b_2"
    assert all(1 <= len(name) <= 64 for name in given)
    assert [names.name(text) for text in ids] == given


def _zip(path: Path, cut: int | None = None) -> bytes:
    """A file in gz, perhaps cut off."""
    data = gzip.compress(path.read_bytes())
    return data if cut is None else data[:cut]


FAULTS: dict[str, tuple[str, Callable[[bytes], bytes], str]] = {
    "malformed": ("network.xml", lambda text: text.replace(b"</nodes>", b""), "line"),
    "unknown node": ("network.xml", lambda text: text.replace(b'to="C"', b'to="X"'), "line 19"),
    "no number": ("network.xml", lambda text: text.replace(b'"13.8', b'"fast'), "line 18"),
    "missing": ("network.xml", lambda text: text.replace(b'length="100"', b""), "line 21"),
    "twice": ("network.xml", lambda text: text.replace(b'id="bc"', b'id="ab"'), "line 19"),
    "link of a plan": ("plans.xml", lambda t: t.replace(b'link="bc"', b'link="zz"'), "line 23"),
    "link of a route": ("plans.xml", lambda t: t.replace(b">ab bc cd", b">ab zz cd"), "line 10"),
    "two legs": ("plans.xml", lambda t: t.replace(b'<leg mode="pt"/>', b"<leg/><leg/>"), "line 67"),
    "end of file": ("plans.xml", lambda text: text[:2000], "line"),
    "config": ("config.xml", lambda text: text.replace(b'"0.0105"', b'"some"'), "line 15"),
    "no xml": ("schedule.xml", lambda text: b"stop,link\n", "line 1"),
    "vehicle": ("vehicles.xml", lambda t: t.replace(b'type="train"', b'type="bus"'), "line 9"),
}


@pytest.mark.parametrize("case", FAULTS)
def test_faults(case: str, tool: Run, tmp_path: Path) -> None:
    """One line with file and place, status 1, and nothing written."""
    name, change, place = FAULTS[case]
    for path in DATA.iterdir():
        data = path.read_bytes()
        (tmp_path / path.name).write_bytes(change(data) if path.name == name else data)
    done = tool("qsim-matsim", "import", tmp_path / "config.xml", tmp_path / "new" / "town")
    assert done.returncode == 1 and done.stdout == ""
    assert done.stderr.count("\n") == 1, done.stderr
    assert name in done.stderr and place in done.stderr
    assert not (tmp_path / "new").exists()


def test_cut_gz(tool: Run, tmp_path: Path) -> None:
    """A gz file that is cut off, and one whose bytes are changed."""
    (tmp_path / "network.xml.gz").write_bytes(_zip(DATA / "network.xml"))
    town = tmp_path / "town"
    for cut in (200, len(_zip(DATA / "plans.xml")) - 4):
        (tmp_path / "plans.xml.gz").write_bytes(_zip(DATA / "plans.xml", cut))
        words = ["--network", tmp_path / "network.xml.gz", "--plans", tmp_path / "plans.xml.gz"]
        done = tool("qsim-matsim", "import", *words, town)
        assert done.returncode == 1 and done.stderr.count("\n") == 1
        assert "plans.xml.gz" in done.stderr and "gz" in done.stderr
        assert not town.exists()


def test_gz_is_the_same(tool: Run, tmp_path: Path) -> None:
    """Files in gz give what plain ones give."""
    for way, zipped in (("plain", False), ("gz", True)):
        words: list[object] = []
        for option in ("network", "plans", "schedule", "vehicles"):
            path = tmp_path / f"{option}.xml{'.gz' if zipped else ''}"
            plain = DATA / f"{option}.xml"
            path.write_bytes(_zip(plain) if zipped else plain.read_bytes())
            words += [f"--{option}", path]
        done = tool("qsim-matsim", "import", *words, tmp_path / way)
        assert done.returncode == 0, done.stderr
    names = sorted(path.name for path in (tmp_path / "plain").iterdir())
    assert names == sorted(path.name for path in (tmp_path / "gz").iterdir())
    for name in names:
        assert (tmp_path / "plain" / name).read_bytes() == (tmp_path / "gz" / name).read_bytes()


def test_vehicles_v2(tmp_path: Path) -> None:
    """Transit vehicles v2: seats, standing room and dwell times as attributes."""
    kind = '<vehicleType id="tram"><attributes><attribute name="accessTimeInSecondsPerPerson" '
    kind += 'class="java.lang.Double">0.5</attribute><attribute name="egressTimeInSecondsPerPerson"'
    kind += ' class="java.lang.Double">3.2</attribute></attributes>'
    kind += '<capacity seats="30" standingRoomInPersons="12"/></vehicleType>'
    space = 'xmlns="http://www.matsim.org/files/dtd"'
    text = f'<vehicleDefinitions {space}>{kind}<vehicle id="a" type="tram"/></vehicleDefinitions>'
    (tmp_path / "vehicles.xml").write_text(text)
    vehicles = read_vehicles_xml(tmp_path / "vehicles.xml")
    assert vehicles.places == {"a": 42}
    assert (vehicles.board, vehicles.alight) == ({"tram": 1}, {"tram": 3})


def test_too_many_legs(tool: Run, tmp_path: Path) -> None:
    """A plan whose legs do not fit is lost, and the person with it."""
    day = '<activity type="h" link="ab" end_time="06:00"/><leg mode="walk" trav_time="00:01"/>'
    plans = ""
    for name, legs in (("fits", Limits.LEGS), ("lost", Limits.LEGS + 1)):
        plan = f'{day * legs}<activity type="h" link="ab"/>'
        plans += f'<person id="{name}"><plan selected="yes">{plan}</plan></person>'
    (tmp_path / "plans.xml").write_text(f"<population>{plans}</population>")
    words = ["--network", DATA / "network.xml", "--plans", tmp_path / "plans.xml"]
    done = tool("qsim-matsim", "import", *words, tmp_path / "town")
    assert done.returncode == 0, done.stderr
    rows = (tmp_path / "town" / "plans.csv").read_text().splitlines()[1:]
    assert {row.split(",")[0] for row in rows} == {"fits"}
    assert len(rows) == 2 * Limits.LEGS + 1
    lost = (tmp_path / "town" / "import.csv").read_text()
    assert f"plan lost: more than {Limits.LEGS} legs,1,lost" in lost
    assert "person lost: no plan fits,1,lost" in lost


def test_command_by_itself(tmp_path: Path) -> None:
    """The command runs as a program of its own, and its help names its words."""
    done = subprocess.run([TOOLS / "qsim-matsim", "--help"], capture_output=True, text=True)
    assert done.returncode == 0 and "import" in done.stdout and "export" in done.stdout
    command = str(TOOLS / "qsim-matsim")
    words = [command, "import", "--network", "none.xml", str(tmp_path / "town")]
    done = subprocess.run(words, capture_output=True, text=True)
    line = "qsim-matsim: none.xml: No such file or directory\n"
    assert (done.returncode, done.stdout, done.stderr) == (1, "", line)


def test_missing_file(tool: Run, tmp_path: Path) -> None:
    """A file that is not there."""
    done = tool("qsim-matsim", "import", "--network", tmp_path / "none.xml", tmp_path / "town")
    assert done.returncode == 1 and "none.xml: No such file" in done.stderr
    assert done.stderr.count("\n") == 1 and not (tmp_path / "town").exists()


def test_old_formats(tool: Run, tmp_path: Path) -> None:
    """A network v1 (capperiod of a link file, no modes) and plans v5 (act, dur)."""
    network = '<network><nodes><node id="1" x="0" y="0"/><node id="2" x="9" y="0"/></nodes>'
    rest = 'length="9" freespeed="3" capacity="50" permlanes="1"/>'
    network += f'<links capperiod="00:30:00"><link id="a" from="1" to="2" {rest}'
    network += f'<link id="b" from="2" to="1" {rest}</links></network>'
    plans = '<population><person id="p" sex="f"><plan selected="yes"><act type="h" link="a" '
    plans += 'end_time="06:00"/><leg num="0" mode="car" trav_time="00:00:09"><route type="links">'
    plans += 'a b</route></leg><act type="w" link="b" dur="01:00"/><leg mode="walk" '
    plans += 'trav_time="00:00:20"/><act type="h" link="a"/></plan></person></population>'
    (tmp_path / "n.xml").write_text(network)
    (tmp_path / "p.xml").write_text(plans)
    words = ["--network", tmp_path / "n.xml", "--plans", tmp_path / "p.xml"]
    done = tool("qsim-matsim", "import", *words, tmp_path / "town")
    assert done.returncode == 0, done.stderr
    assert "a,1,2,900,300,100,1" in (tmp_path / "town" / "links.csv").read_text()
    rows = "p,0,act,h,a,21600,\np,0,leg,car,,,a b\np,0,act,w,b,25209,\np,0,leg,walk,,20,\n"
    assert rows in (tmp_path / "town" / "plans.csv").read_text()
