"""qsim-lint: each rule on a row made for it, with values worked out by hand."""

from __future__ import annotations

import csv
from pathlib import Path

import pytest

from made_report import FILES, made, tool
from qsim_tools.files import Link, Settings
from qsim_tools.lint import Finding, findings, main
from qsim_tools.lint_network import most_flow, storage

GOOD_LINKS = FILES["links.csv"] + "da,d,a,40000,1000,1000,1\n"
SOUND = {
    "links.csv": GOOD_LINKS,
    "routes.csv": "line,route,links,stops\nbus,east,ab bc cd,s1:10 s2:60:wait s3:100\n",
    "plans.csv": "person,plan,kind,name,link,time,route\n"
    "p,0,act,home,ab,100,\np,0,leg,car,,,ab bc cd\np,0,act,work,cd,200,\n"
    "p,0,leg,walk,,300,\np,0,act,home,ab,,\n",
}


def lint(folder: Path, name: str = "", text: str = "") -> list[Finding]:
    """The findings of a sound scenario in which one file has another text."""
    made(folder)
    for file, sound in (SOUND | ({name: text} if name else {})).items():
        (folder / file).write_text(sound)
    return list(findings(folder))


def test_a_sound_scenario(tmp_path: Path) -> None:
    """Nothing is found."""
    assert lint(tmp_path) == []


@pytest.mark.parametrize(
    "length, capacity, lanes, speed, places, flow",
    [
        # 20 cm: one place, taken for 1 s and free a second later: 1,800 vehicles an hour
        (20, 3600, 2, 1000, 1, 1800),
        # 7 m in one lane: the same; 8 m in two: two places, so 3,600
        (700, 3600, 1, 1000, 1, 1800),
        (800, 3600, 2, 1000, 2, 3600),
        # 75 m in one lane, 7 s: ten places
        (7500, 1000, 1, 1000, 10, 4500),
        # 100 m in 100 s at 2,000 an hour: 13 vehicles by length, 56 by flow, for 101 s each
        (10000, 2000, 1, 100, 56, 56 * 3600 / 101),
    ],
)
def test_storage(
    length: int, capacity: int, lanes: int, speed: int, places: int, flow: float
) -> None:
    """Storage by the rule of docs/day.md, and what the places let through."""
    link = Link("x", "a", "b", length, speed, capacity, lanes)
    assert storage(link, Settings()) == places
    assert most_flow(link, Settings()) == pytest.approx(flow)


def test_storage_of_samples_and_holes() -> None:
    """A tenth of 75 m is one place; a hole of 4.17 m/s takes 17 s to go 75 m upstream."""
    link = Link("x", "a", "b", 7500, 1000, 1000, 1)
    assert storage(link, Settings(storage_permille=100, flow_permille=100)) == 1
    assert most_flow(link, Settings(hole_speed=417)) == pytest.approx(10 * 3600 / (7 + 17))


ROUTE = "line,route,links,stops\nbus,east,ab bc cd,"
PLAN = "person,plan,kind,name,link,time,route\np,0,act,home,ab,"


@pytest.mark.parametrize(
    "name, text, rule, row, words",
    [
        (
            "links.csv",
            GOOD_LINKS + "sh,a,b,700,1000,2000,1\n",
            "short-link",
            5,
            "storage 1 vehicle (7 m, 1 lanes): at most 1,800 vehicles an hour",
        ),
        # half of 4,000 in this sample, but a place is taken for 2 s
        ("links.csv", GOOD_LINKS + "sh,a,b,700,1000,4000,1\n", "choked-link", 5, "is 2,000"),
        ("links.csv", GOOD_LINKS + "ba,b,a,10000,1000,2500,1\n", "lane-capacity", 5, "2,500"),
        ("links.csv", GOOD_LINKS + "ba,b,a,10000,1000,500,2\n", "lane-capacity", 5, "250"),
        (
            "links.csv",
            GOOD_LINKS + "ac,a,c,300,1000,500,1\n",
            "short-of-beeline",
            5,
            "3 m long, beeline 300.0 m",
        ),
        ("links.csv", GOOD_LINKS + "aa,a,a,10000,1000,500,1\n", "loop", 5, "from a to a"),
        ("links.csv", FILES["links.csv"], "dead-end", 1, "there is no link into it"),
        ("nodes.csv", FILES["nodes.csv"] + "e,0,0\n", "dead-end", 5, "no link into or out of it"),
        # from ab to bc a second over the node and 20 s; 20 are planned
        (
            "routes.csv",
            ROUTE + "s1:0 s2:20 s3:31\n",
            "fast-timetable",
            1,
            "20 s planned up to stop s2 at 20 s, 21 s needed",
        ),
        (
            "departures.csv",
            "departure,route,second,seats\nd1,east,3700,2\n",
            "departs-too-late",
            1,
            "second 3700, the day ends at 3700",
        ),
        (
            "plans.csv",
            PLAN + "3700,\np,0,leg,walk,,9,\np,0,act,work,cd,,\n",
            "ends-too-late",
            1,
            "home is planned to end at 3700",
        ),
        (
            "plans.csv",
            PLAN + "100,\np,0,leg,walk,,9,\np,0,act,work,cd,50,\np,0,leg,walk,,9,\n"
            "p,0,act,home,ab,,\n",
            "ends-in-past",
            3,
            "work is planned to end at 50, an activity before it at 100",
        ),
        # over b and c and along bc and cd: 21 + 11 s
        (
            "plans.csv",
            PLAN + "100,\np,0,leg,car,,,ab bc cd\np,0,act,work,cd,131,\np,0,leg,walk,,9,\n"
            "p,0,act,home,ab,,\n",
            "no-room",
            3,
            "work is planned to end at 131, reached at 132 at free speed",
        ),
        # the bus leaves at 3500 and calls at s1 10 s later
        (
            "plans.csv",
            PLAN + "3511,\np,0,leg,pt,,,bus s1 s2\np,0,act,work,bc,,\n",
            "last-bus-gone",
            2,
            "at stop s1 from 3511 on; the last one of line bus is due at 3510",
        ),
    ],
    ids=lambda value: value if isinstance(value, str) and "-" in value[:20] else "",
)
def test_rules(tmp_path: Path, name: str, text: str, rule: str, row: int, words: str) -> None:
    """The rule finds the row, and says the values."""
    found = [x for x in lint(tmp_path, name, text) if x.rule == rule]
    assert [x.row for x in found][:1] == [row]
    assert words in found[0].values


def test_parts(tmp_path: Path) -> None:
    """Of two rings the smaller one is apart."""
    nodes = FILES["nodes.csv"] + "e,0,100\nf,100,100\n"
    lint(tmp_path, "nodes.csv", nodes)
    (tmp_path / "links.csv").write_text(
        GOOD_LINKS + "ef,e,f,9000,1000,1000,1\nfe,f,e,9000,1000,1000,1\n"
    )
    found = [(x.row, x.name) for x in findings(tmp_path) if x.rule == "apart"]
    assert found == [(5, "e"), (6, "f")]


def test_speed_of_leg(tmp_path: Path) -> None:
    """From ab to a link a kilometre on: 1,000 m in 100 s on foot is too fast."""
    lint(tmp_path, "nodes.csv", FILES["nodes.csv"] + "e,110000,0\nf,120000,0\n")
    links = GOOD_LINKS + "ef,e,f,10000,1000,1000,1\n"
    (tmp_path / "links.csv").write_text(links)
    (tmp_path / "plans.csv").write_text(PLAN + "9,\np,0,leg,walk,,100,\np,0,act,work,ef,,\n")
    found = [x for x in findings(tmp_path) if x.rule == "speed-of-leg"]
    assert [(x.row, x.values) for x in found] == [(2, "walk of 1,000 m in 100 s: 10.00 m/s")]


def test_command(tmp_path: Path) -> None:
    """Lines, counts, CSV and status."""
    folder = tmp_path / "run"
    lint(folder, "links.csv", GOOD_LINKS + "sh,a,b,700,1000,2000,1\nsi,a,b,700,1000,900,1\n")
    out = tmp_path / "found.csv"
    done = tool(main, folder, "--csv", out, "--most", "1", "--rule", "short-link")
    assert (done.returncode, done.stderr) == (0, "")
    lines = done.stdout.splitlines()
    assert lines[0].startswith("links.csv:5: short-link sh: storage 1 vehicle")
    assert lines[1:] == ["2 short-link: a link that holds one vehicle only, 1 of them not shown"]
    with open(out, encoding="utf-8", newline="") as source:
        rows = list(csv.DictReader(source))
    assert [(row["file"], row["row"], row["name"]) for row in rows] == [
        ("links.csv", "5", "sh"),
        ("links.csv", "6", "si"),
    ]
    assert tool(main, folder, "--strict").returncode == 1
    assert tool(main, folder, "--strict", "--rule", "loop").returncode == 0
    (folder / "nodes.csv").write_text("node,x,y\na,0,zero\n")
    done = tool(main, folder)
    assert done.returncode == 1 and done.stderr.count("\n") == 1
    assert "nodes.csv: row 1: coordinate y 'zero' is no whole number" in done.stderr
