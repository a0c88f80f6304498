"""Memories replayed from scores.csv, by hand and against what a real run keeps."""

from __future__ import annotations

import json
import sqlite3
import subprocess
from pathlib import Path

import numpy as np
import pytest

from made_report import EXAMPLE, program
from qsim_tools.files import FileFault
from qsim_tools.report_scores import Memories, score_stats

PLANS = "person,plan,kind,name,link,time,route\n" + "".join(
    f"p,{plan},act,home,l,1,\np,{plan},leg,walk,,1,\np,{plan},act,work,l,,\n" for plan in (0, 1)
)


def stats(folder: Path, scores: str, size: int) -> list[list[float]]:
    """Executed, best, average and worst of each iteration."""
    (folder / "plans.csv").write_text(PLANS)
    (folder / "scores.csv").write_text(scores)
    frame = score_stats(folder / "scores.csv", folder / "plans.csv", size)
    found: list[list[float]] = frame.drop(columns="iteration").to_numpy().tolist()
    return found


def test_by_hand(tmp_path: Path) -> None:
    """Two plans, and copies of them; at most two are kept.

    0: plan 0 has 5. 1: plan 1 has 3. 2: a copy (2) has 4: 5, 3, 4. 3: the worst one, 3, is
    dropped; the plans are 5, 4, and a copy (2) has 1. 4: that one is dropped; plan 0 has 6.
    """
    micro = "0,p,0,5000000\n1,p,1,3000000\n2,p,2,4000000\n3,p,2,1000000\n4,p,0,6000000\n"
    assert stats(tmp_path, micro, 2) == [
        [5, 5, 5, 5],
        [3, 5, 4, 3],
        [4, 5, 4, 3],
        [1, 5, pytest.approx(10 / 3), 1],
        [6, 6, 5, 4],
    ]


def test_unscored_plans_go_first() -> None:
    """Of a plan without a score and one of a low score the former is dropped."""
    memories = Memories(np.array([3]), 2)
    assert memories.followed(np.array([0]), np.array([-9.0]))
    memories.reduce()
    memories.reduce()
    assert memories.counts.tolist() == [2] and memories.scores[0, 0] == -9
    assert memories.followed(np.array([1]), np.array([2.0]))
    assert memories.scores[0, :3].tolist()[:2] == [-9, 2]


def test_a_plan_that_cannot_be(tmp_path: Path) -> None:
    """A plan number past a new copy shows that the files do not belong together."""
    with pytest.raises(FileFault, match="iteration 1"):
        stats(tmp_path, "0,p,0,5\n1,p,3,5\n", 5)


def test_behind_resume(tmp_path: Path) -> None:
    """Where the first iterations are missing, only the executed plan is known."""
    rows = stats(tmp_path, "7,p,4,5000000\n", 5)
    assert rows[0][0] == 5 and np.isnan(rows[0][1:]).all()


def test_a_bad_line(tmp_path: Path) -> None:
    """The line is named."""
    with pytest.raises(FileFault, match="line 2"):
        stats(tmp_path, "0,p,0,5\n1,p,zero,5\n", 5)


def kept_scores(path: Path) -> list[list[int]]:
    """The scores that kept.db holds of each person, by the layout of docs/commands.md."""
    with sqlite3.connect(path) as keeper:
        body: bytes = keeper.execute("SELECT body FROM kept").fetchone()[0]
    persons: dict[bytes, list[int]] = {}
    place = 0

    def take(size: int) -> bytes:
        nonlocal place
        place += size
        return body[place - size : place]

    while place < len(body):
        name = take(int.from_bytes(take(8), "little"))
        take(5)
        scores = persons.setdefault(name, [])
        if take(1) == b"\x01":
            scores.append(int.from_bytes(take(8), "little", signed=True))
        take(int.from_bytes(take(8), "little"))
    return list(persons.values())


def test_against_what_a_run_keeps(tmp_path: Path) -> None:
    """After 30 days of the stored example the replayed memories are those of kept.db."""
    qsim = program()
    for file in EXAMPLE.iterdir():
        (tmp_path / file.name).write_bytes(file.read_bytes())
    settings = json.loads((EXAMPLE / "settings.json").read_text())
    learning = {"last_iteration": 30, "memory_size": 3, "weight_keep": 0, "mutation_range": 600}
    weights = {"weight_logit": 2, "weight_time": 1, "weight_reroute": 1, "weight_random": 1}
    (tmp_path / "settings.json").write_text(json.dumps(settings | learning | weights))
    subprocess.run([qsim, "run"], cwd=tmp_path, check=True, capture_output=True)
    frame = score_stats(tmp_path / "scores.csv", tmp_path / "plans.csv", 3)
    kept = kept_scores(tmp_path / "kept.db")
    last = frame.iloc[-1]
    assert len(frame) == 31 and len(kept) == 5 and max(map(len, kept)) >= 3
    assert last["best"] == pytest.approx(np.mean([max(x) for x in kept]) / 1e6)
    assert last["average"] == pytest.approx(np.mean([np.mean(x) for x in kept]) / 1e6)
    assert last["worst"] == pytest.approx(np.mean([min(x) for x in kept]) / 1e6)
