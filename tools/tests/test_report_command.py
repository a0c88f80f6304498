"""qsim-report as a command: its files, its faults, counts, maps, and the stored example."""

from __future__ import annotations

import csv
import json
import os
import subprocess
from pathlib import Path

import numpy as np
import pytest

from made_report import EVENTS, made, real_run, tool
from qsim_tools.report import main
from qsim_tools.report_compare import geh


def table(path: Path) -> list[dict[str, str]]:
    """The rows of a CSV file with a header."""
    with open(path, encoding="utf-8", newline="") as source:
        return list(csv.DictReader(source))


def test_report_of_the_made_run(tmp_path: Path) -> None:
    """All files are there; the page has every picture in itself, and the map its links."""
    folder = made(tmp_path / "run")
    done = tool(main, folder, "--crs", "EPSG:32632", "--out", tmp_path / "out")
    assert (done.returncode, done.stderr) == (0, "")
    out = tmp_path / "out"
    page = (out / "index.html").read_text(encoding="utf-8")
    pictures = sorted(out.rglob("*.png"))
    assert len(pictures) == 6 and page.count("data:image/png;base64,") == 6
    assert all(path.read_bytes()[:4] == b"\x89PNG" for path in pictures)
    rows = table(out / "it.0" / "linkhours.csv")
    assert [row["vehicles"] for row in rows] == ["3", "2", "1", "1"]
    shapes = json.loads((out / "it.0" / "links.geojson").read_text())["features"]
    assert [x["properties"]["vehicles"] for x in shapes] == [3, 2, 2]
    assert shapes[2]["properties"]["h00"] == 1 and shapes[2]["properties"]["h01"] == 1
    # (0 m, 0 m) of UTM zone 32 is on the equator, 4.511 degrees west of the meridian 9
    lon, lat = shapes[0]["geometry"]["coordinates"][0]
    assert lon == pytest.approx(4.5113, abs=1e-3) and lat == pytest.approx(0, abs=1e-6)
    assert [p.name for p in tmp_path.iterdir() if p.name.startswith(".")] == []


def test_counts(tmp_path: Path) -> None:
    """Volumes times 2 (half a sample) against counts; GEH by its formula."""
    folder = made(tmp_path)
    (tmp_path / "c.csv").write_text("link,hour,vehicles\nab,0,6\nbc,0,100\ncd,day,4\n")
    done = tool(main, folder, "--counts", tmp_path / "c.csv", "--out", tmp_path / "out")
    assert (done.returncode, done.stderr) == (0, "")
    rows = table(tmp_path / "out" / "counts.csv")
    assert [float(row["simulated"]) for row in rows] == [6, 4, 4]
    # sqrt(2 (4 - 100)^2 / 104) = sqrt(177.23)
    assert [float(row["geh"]) for row in rows] == [0, 13.313, 0]
    shares = {x["hour"]: float(x["geh_below_5"]) for x in table(tmp_path / "out" / "geh.csv")}
    assert shares == {"0": 0.5, "day": 1.0, "all": 0.6667}


def test_counts_without_buses(tmp_path: Path) -> None:
    """The bus of the made run, one of two vehicles on bc and on cd, is left out."""
    folder = made(tmp_path)
    (tmp_path / "c.csv").write_text("link,hour,vehicles\nbc,0,2\ncd,day,4\n")
    words = (folder, "--counts", tmp_path / "c.csv", "--out", tmp_path / "out")
    assert tool(main, *words, "--without-buses", "--scale", 2).returncode == 0
    rows = table(tmp_path / "out" / "counts.csv")
    assert [float(row["simulated"]) for row in rows] == [2, 2]


def test_geh() -> None:
    """Values worked out by hand: 2 (120 - 80)^2 / 200 = 16; nothing against nothing is 0."""
    assert geh(np.array([120.0, 0.0]), np.array([80.0, 0.0])).tolist() == [4, 0]


def test_against_itself(tmp_path: Path) -> None:
    """A run against itself: no difference, all GEH below 5."""
    folder = made(tmp_path / "run")
    done = tool(main, folder, "--against", folder, "--out", tmp_path / "out")
    assert (done.returncode, done.stderr) == (0, "")
    rows = table(tmp_path / "out" / "against.csv")
    assert [(row["this_run"], row["geh"]) for row in rows] == [
        ("6.0", "0.0"), ("4.0", "0.0"), ("2.0", "0.0"), ("2.0", "0.0"),
    ]  # fmt: skip
    modes = table(tmp_path / "out" / "against_modes.csv")
    assert [row["difference"] for row in modes] == ["0.0", "0.0", "0.0"]


@pytest.mark.parametrize(
    "name, text, fault",
    [
        ("events.csv", "", "events.csv: line 1: the file is empty"),
        ("events.csv", EVENTS[:700], "events.csv: line 25: the line is cut off"),
        ("scores.csv", "0,ann,0,1\n0,bob,0\n", "scores.csv: line 2: not iteration,person"),
        ("links.csv", "link\n", "links.csv: row 0: the header is not"),
        ("departures.csv", None, "no departure is named d1"),
        ("c.csv", "link,hour,vehicles\nzz,0,6\n", "c.csv: row 1: link zz is not in links.csv"),
        ("c.csv", "link,hour,vehicles\nab,0,6\nab,50,6\n", "c.csv: row 2: hour '50' is neither"),
        ("c.csv", "link,hour,vehicles\nab,0,many\n", "c.csv: row 1: vehicles 'many'"),
    ],
    ids=range(8),
)
def test_faults(tmp_path: Path, name: str, text: str | None, fault: str) -> None:
    """One line on standard error, status 1, and no report."""
    folder = made(tmp_path / "run")
    (tmp_path / "run" / "c.csv").write_text("link,hour,vehicles\nab,0,6\n")
    if text is None:
        (folder / name).unlink()
    else:
        (folder / name).write_text(text)
    done = tool(main, folder, "--counts", folder / "c.csv", "--out", tmp_path / "out")
    assert done.returncode == 1 and done.stderr.count("\n") == 1
    assert fault in done.stderr
    assert [path.name for path in tmp_path.iterdir()] == ["run"]


def test_other_faults(tmp_path: Path) -> None:
    """An iteration that is not there, a coordinate system that is none, a folder of other files."""
    folder = made(tmp_path / "run")
    for word, value, fault in (
        ("--iterations", "3", "there is no iteration '3'; it has 0 to 0"),
        ("--crs", "EPSG:1", "--crs EPSG:1: "),
        ("--out", str(folder), "holds files that are no report"),
    ):
        done = tool(main, folder, word, value)
        assert done.returncode == 1 and done.stderr.count("\n") == 1 and fault in done.stderr
    assert not (folder / "report").exists()


def test_a_report_is_replaced(tmp_path: Path) -> None:
    """A second report takes the place of the first one, whole."""
    folder = made(tmp_path)
    assert tool(main, folder).returncode == 0
    (folder / "report" / "old.png").write_text("")
    assert tool(main, folder).returncode == 0
    assert not (folder / "report" / "old.png").exists()


def test_stored_example(tmp_path: Path) -> None:
    """Volumes by hour are what awk counts; the bus is 76 s late at the market, as README says."""
    folder = real_run(tmp_path / "run")
    done = tool(main, folder, "--out", tmp_path / "out")
    assert (done.returncode, done.stderr) == (0, "")
    script = (
        '$2 == "entered link" || $2 == "vehicle enters traffic" {n[$5 "," int($1 / 3600)]++}'
        ' END {for (k in n) print k "," n[k]}'
    )
    counted = subprocess.run(
        ["awk", "-F,", script, folder / "events.csv"], capture_output=True, text=True, check=True
    )
    rows = table(tmp_path / "out" / "it.0" / "linkhours.csv")
    mine = {f"{row['link']},{row['hour']},{row['vehicles']}" for row in rows}
    assert mine == set(counted.stdout.split()) and len(mine) == 4
    calls = table(tmp_path / "out" / "it.0" / "calls.csv")
    assert [row["late_seconds"] for row in calls] == ["-10", "76"]


def test_many_days(tmp_path: Path) -> None:
    """Legs of all iterations, of which two are shown in full, keep their number."""
    settings = '{"end_second":28800,"flow_permille":100,"last_iteration":4,"weight_reroute":1}'
    folder = real_run(tmp_path / "run", settings)
    done = tool(main, folder, "--out", tmp_path / "out", "--iterations", "1,last")
    assert (done.returncode, done.stderr) == (0, "")
    days = [name for name in os.listdir(tmp_path / "out") if name.startswith("it.")]
    assert sorted(days) == ["it.1", "it.4"]
    rows = table(tmp_path / "out" / "modestats.csv")
    legs = [("car", "3"), ("pt", "1"), ("walk", "1")]
    assert [(r["iteration"], r["mode"], r["legs"]) for r in rows] == [
        (str(k), *leg) for k in range(5) for leg in legs
    ]
    assert len(table(tmp_path / "out" / "scorestats.csv")) == 5
