"""qsim-sweep: the jobs of a plan, and what comes of them by a shell as GNU parallel runs it."""

from __future__ import annotations

import csv
import json
import shutil
import subprocess
from pathlib import Path
from typing import Any

import pytest

from made_report import EXAMPLE, program, tool
from qsim_tools.sweep import main

PLAN: dict[str, Any] = {
    "scenarios": {"bridge": "data"},
    "seeds": [1, 2],
    "settings": {"stuck_push": [0, 1], "end_second": 28_800},
    "program": "qsim",
}


def planned(folder: Path, **changes: Any) -> Path:
    """Write a plan next to a copy of the stored example."""
    shutil.copytree(EXAMPLE, folder / "data")
    path = folder / "plan.json"
    path.write_text(json.dumps(PLAN | changes))
    return path


def table(path: Path) -> list[dict[str, str]]:
    """The rows of a CSV file with a header."""
    with open(path, encoding="utf-8", newline="") as source:
        return list(csv.DictReader(source))


def test_jobs(tmp_path: Path) -> None:
    """Two values and two seeds are four jobs, with links to the files and their own settings."""
    done = tool(main, planned(tmp_path), tmp_path / "out")
    assert (done.returncode, done.stderr) == (0, "")
    rows = table(tmp_path / "out" / "jobs.csv")
    assert [(x["job"], x["seed"], x["stuck_push"], x["end_second"]) for x in rows] == [
        ("0001-bridge-s1", "1", "0", "28800"),
        ("0002-bridge-s2", "2", "0", "28800"),
        ("0003-bridge-s1", "1", "1", "28800"),
        ("0004-bridge-s2", "2", "1", "28800"),
    ]
    folder = tmp_path / "out" / "0003-bridge-s1"
    settings = json.loads((folder / "settings.json").read_text())
    assert (settings["seed"], settings["stuck_push"]) == (1, 1)
    assert settings["flow_permille"] == 100  # that of the scenario's own settings.json
    assert (folder / "links.csv").is_symlink()
    assert (folder / "links.csv").read_bytes() == (EXAMPLE / "links.csv").read_bytes()
    assert len((tmp_path / "out" / "jobs.txt").read_text().splitlines()) == 4
    script = tmp_path / "out" / "array.sbatch"
    assert "#SBATCH --array=1-4\n" in script.read_text()
    subprocess.run(["bash", "-n", script], check=True)


@pytest.mark.parametrize(
    "changes, fault",
    [
        ({"seed": 1}, "key 'seed' is none of"),
        ({"scenarios": {"x": "nowhere"}}, "scenario x: there is no nodes.csv"),
        ({"seeds": [1, 1]}, "seeds is no list of different whole numbers"),
        ({"settings": {"speed": 1}}, "settings: 'speed' is no key that can be swept"),
        ({"settings": {"stuck_push": ["x"]}}, "0001-bridge-s1: key 'stuck_push' has a value"),
        ({"keep_events": 1}, "keep_events is neither true nor false"),
    ],
    ids=range(6),
)
def test_faults(tmp_path: Path, changes: dict[str, Any], fault: str) -> None:
    """One line, status 1, and no folder."""
    done = tool(main, planned(tmp_path, **changes), tmp_path / "out")
    assert done.returncode == 1 and done.stderr.count("\n") == 1 and fault in done.stderr
    assert sorted(x.name for x in tmp_path.iterdir()) == ["data", "plan.json"]


def test_no_folder_is_overwritten(tmp_path: Path) -> None:
    """A folder with anything in it is refused, and so is a plan that is no JSON."""
    plan = planned(tmp_path)
    done = tool(main, plan, tmp_path / "data")
    assert done.returncode == 1 and "is there already" in done.stderr
    plan.write_text('{"seeds": [1,}')
    done = tool(main, plan, tmp_path / "out")
    assert done.returncode == 1 and "plan.json: line 1: " in done.stderr


def test_run_and_collect(tmp_path: Path) -> None:
    """Two jobs done by a shell and one with a fault: scores, legs and the status of each."""
    qsim = program()
    plan = planned(tmp_path, program=qsim, settings={}, seeds=[1, 2, 3], keep_events=False)
    out = tmp_path / "out"
    assert tool(main, plan, out).returncode == 0
    lines = (out / "jobs.txt").read_text().splitlines()
    (out / "0002-bridge-s2" / "settings.json").write_text('{"flow_permille":0}')
    for line in lines[:2]:
        subprocess.run(["sh", "-c", line], check=False)
    done = tool(main, "--collect", out)
    assert (done.returncode, done.stderr) == (0, "")
    assert done.stdout == f"{out}/results.csv: 3 jobs, 1 done\n"
    rows = table(out / "results.csv")
    assert [row["status"] for row in rows] == ["0", "3", "not run"]
    first = rows[0]
    assert (first["iterations"], first["legs"], first["stuck"]) == ("1", "5", "0")
    assert [first[f"legs_{mode}"] for mode in ("car", "walk", "pt")] == ["3", "1", "1"]
    scores = (out / "0001-bridge-s1" / "scores.csv").read_text().split()
    mean = sum(int(line.rsplit(",", 1)[1]) for line in scores) / len(scores) / 1e6
    assert float(first["score"]) == pytest.approx(mean, abs=1e-6)
    assert not (out / "0001-bridge-s1" / "events.csv").exists()
    assert table(out / "spread.csv")[0]["jobs"] == "1"
