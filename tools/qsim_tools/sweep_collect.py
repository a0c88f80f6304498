"""What came of the jobs of a sweep: results.csv, and their spread over the seeds."""

from __future__ import annotations

from pathlib import Path
from typing import Any

import pandas as pd

from qsim_tools.files import MODES, FileFault, replacing

Frame = Any


def collect(out: Path) -> str:
    """Write results.csv and spread.csv; a word on the jobs that are not done comes back."""
    path = out / "jobs.csv"
    jobs = pd.read_csv(path, dtype=str, keep_default_na=False)
    if "job" not in jobs.columns or "seed" not in jobs.columns:
        raise FileFault(path, 0, "the header has no job and seed")
    rows = [_result(out / name) for name in jobs["job"]]
    came = pd.DataFrame(rows)
    for name in came.columns:
        if name in ("iterations", "stuck") or name.startswith("legs"):
            came[name] = came[name].astype("Int64")
    results = pd.concat([jobs, came], axis=1)
    _write(out / "results.csv", results)
    keys = [name for name in jobs.columns if name not in ("job", "seed")]
    _write(out / "spread.csv", _spread(results, keys))
    done = int((results["status"] == "0").sum())
    return f"{out}/results.csv: {len(jobs)} jobs, {done} done"


def _write(path: Path, frame: Frame) -> None:
    """Write a table in one step."""
    with replacing(path) as target:
        frame.to_csv(target, index=False)


def _result(folder: Path) -> dict[str, object]:
    """The row of a job; what is not there stays empty."""
    row: dict[str, object] = dict.fromkeys(
        ["status", "iterations", "score", "best_score", "legs", "mean_seconds", "stuck"]
    )
    status = folder / "status.txt"
    row["status"] = status.read_text().strip() if status.exists() else "not run"
    report = folder / "report"
    if row["status"] != "0" or not (report / "modestats.csv").exists():
        return row | {f"{kind}_{mode}": None for mode in MODES for kind in ("legs", "seconds")}
    modes = pd.read_csv(report / "modestats.csv")
    last = modes[modes["iteration"] == modes["iteration"].max()].set_index("mode")
    row["iterations"] = int(modes["iteration"].nunique())
    row["legs"], row["stuck"] = int(last["legs"].sum()), int(last["stuck"].sum())
    weighted = (last["mean_seconds"].fillna(0) * last["arrived"]).sum()
    row["mean_seconds"] = round(float(weighted) / max(int(last["arrived"].sum()), 1), 2)
    for mode in MODES:
        row[f"legs_{mode}"] = int(last["legs"].get(mode, 0))
        row[f"seconds_{mode}"] = last["mean_seconds"].get(mode)
    if (report / "scorestats.csv").exists():
        scores = pd.read_csv(report / "scorestats.csv").iloc[-1]
        row["score"], row["best_score"] = scores["executed"], scores["best"]
    return row


def _spread(results: Frame, keys: list[str]) -> Frame:
    """Mean and standard deviation over the seeds of each scenario with its settings."""
    done = results[results["status"] == "0"]
    grouped = done.groupby(keys, sort=False)
    columns = {"jobs": grouped.size()}
    for name in ("score", "mean_seconds", "stuck"):
        values = done[name].astype(float).groupby([done[key] for key in keys], sort=False)
        columns[f"{name}_mean"] = values.mean().round(4)
        columns[f"{name}_deviation"] = values.std().round(4)
    return pd.DataFrame(columns).reset_index()
