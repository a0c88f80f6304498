"""Scores over the iterations, as MATSim's scorestats: executed, best, average and worst.

scores.csv tells which plan of his memory each person followed and what it was worth. The whole
memory follows from that by the rules of replanning: before an iteration, while a person has more
plans than `memory_size`, his worst one is dropped; a plan number behind the last one is a new copy.
"""

from __future__ import annotations

from pathlib import Path
from typing import Any

import numpy as np
import pandas as pd
from numpy.typing import NDArray

from qsim_tools.files import FileFault

Frame = Any
UTILS = 1_000_000
PLACES = 6


def read_scores(path: Path) -> Frame:
    """Read scores.csv: iteration, person, plan, score in micro-utils."""
    names = ["iteration", "person", "plan", "score"]
    kinds: dict[str, Any] = {name: np.int64 for name in names}
    kinds["person"] = "category"
    try:
        frame = pd.read_csv(path, header=None, names=names, dtype=kinds, na_filter=False)
    except (ValueError, OverflowError):
        raise _fault(path) from None
    return frame


def _fault(path: Path) -> FileFault:
    """The first line of scores.csv that is none of it."""
    with open(path, encoding="utf-8", errors="replace") as source:
        for number, text in enumerate(source, 1):
            fields = text[:-1].split(",")
            numbers = [*fields[:1], *(x.removeprefix("-") for x in fields[2:])]
            if len(fields) != 4 or not all(x.isdecimal() for x in numbers):
                return FileFault(path, f"line {number}", "not iteration,person,plan,score")
    return FileFault(path, None, "the scores cannot be read")


def plan_counts(path: Path) -> dict[str, int]:
    """How many plans each person of plans.csv has."""
    try:
        kinds: dict[str, Any] = {"person": str, "plan": np.int64}
        frame = pd.read_csv(path, usecols=["person", "plan"], dtype=kinds, na_filter=False)
    except (ValueError, OverflowError):
        raise FileFault(path, None, "the columns person and plan cannot be read") from None
    counts: dict[str, int] = (frame.groupby("person")["plan"].max() + 1).to_dict()
    return counts


class Memories:
    """The scores in the memories of all persons; a place without a plan or a score is NaN."""

    def __init__(self, counts: NDArray[np.int64], size: int) -> None:
        self.size = size
        self.counts = counts.copy()
        self.scores = np.full((len(counts), PLACES), np.nan)

    def reduce(self) -> None:
        """Drop the worst plans: the first one without a score, else the first of the lowest."""
        while (full := np.flatnonzero(self.counts > self.size)).size:
            rows = self.scores[full]
            unused = np.arange(PLACES) >= self.counts[full, None]
            keys = np.where(np.isnan(rows), -np.inf, rows)
            worst = np.where(unused, np.inf, keys).argmin(axis=1)
            place = np.arange(PLACES - 1)
            place = place + (place >= worst[:, None])
            self.scores[full, :-1] = np.take_along_axis(rows, place, axis=1)
            self.scores[full, -1] = np.nan
            self.counts[full] -= 1

    def followed(self, plans: NDArray[np.int64], scores: NDArray[np.float64]) -> bool:
        """Give the followed plans their scores; False where one could not be in the memory."""
        if (plans > self.counts).any() or (plans >= PLACES).any():
            return False
        self.counts = np.maximum(self.counts, plans + 1)
        self.scores[np.arange(len(plans)), plans] = scores
        return True


def score_stats(path: Path, plans_path: Path, memory_size: int) -> Frame:
    """A row for each iteration: mean executed, best, average and worst score in utils.

    Best, average and worst are those of each person's plans that have a score. They stay empty
    where scores.csv does not begin with iteration 0, as behind `resume`.
    """
    frame = read_scores(path)
    whole = len(frame) > 0 and int(frame["iteration"].iloc[0]) == 0 and plans_path.exists()
    counts = plan_counts(plans_path) if whole else {}
    memories: Memories | None = None
    persons: list[str] = []
    rows: list[dict[str, float]] = []
    for iteration, day in frame.groupby("iteration", sort=False):
        names = day["person"].astype(str).tolist()
        scores = day["score"].to_numpy() / UTILS
        row: dict[str, float] = {"iteration": int(iteration), "executed": float(scores.mean())}
        if whole and memories is None:
            persons = names
            missing = [name for name in names if name not in counts]
            if missing:
                raise FileFault(path, None, f"person {missing[0]} is not in {plans_path.name}")
            start = np.array([counts[name] for name in names], dtype=np.int64)
            memories = Memories(start, memory_size)
        elif memories is not None:
            memories.reduce()
        if memories is not None:
            fits = names == persons and memories.followed(day["plan"].to_numpy(), scores)
            if not fits:
                reason = "plans are followed that nobody can remember; are these its files?"
                raise FileFault(path, f"iteration {iteration}", reason)
            row["best"] = float(np.nanmax(memories.scores, axis=1).mean())
            row["average"] = float(np.nanmean(memories.scores, axis=1).mean())
            row["worst"] = float(np.nanmin(memories.scores, axis=1).mean())
        rows.append(row)
    return pd.DataFrame(rows, columns=["iteration", "executed", "best", "average", "worst"])
