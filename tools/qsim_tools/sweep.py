"""qsim-sweep: scenarios, settings and seeds as a list of jobs, and a table of what came of them.

The list is for GNU parallel or a Slurm array; nothing is scheduled here. PLAN.json is one object:
`scenarios` (name to folder, from the plan's own folder), `seeds`, `settings` (key to a value, or
to a list of values, which are combined), `program`, `words` and `keep_events`.
"""

from __future__ import annotations

import argparse
import csv
import json
import os
import shlex
import shutil
import tempfile
from collections.abc import Iterator
from dataclasses import dataclass, fields
from itertools import product
from pathlib import Path
from typing import Any

from qsim_tools.cli import fail, parser
from qsim_tools.files import FileFault, Settings, is_name, read_settings

INPUTS = (
    "nodes.csv",
    "links.csv",
    "plans.csv",
    "stops.csv",
    "routes.csv",
    "departures.csv",
    "signals.csv",
    "crs.txt",
    "ids.csv",
)
KEYS = ("scenarios", "seeds", "settings", "program", "words", "keep_events")
REPORT = Path(__file__).resolve().parents[1] / "qsim-report"
SBATCH = """#!/bin/bash
#SBATCH --job-name=qsim-sweep
#SBATCH --array=1-{count}
#SBATCH --ntasks=1
#SBATCH --cpus-per-task=1
#SBATCH --output={out}/slurm-%a.log
# sbatch array.sbatch; add %N behind the array's range for N jobs at a time
exec bash -c "$(sed -n "${{SLURM_ARRAY_TASK_ID}}p" {jobs})"
"""


@dataclass
class Plan:
    """PLAN.json, checked."""

    path: Path
    scenarios: dict[str, Path]
    seeds: list[int]
    settings: dict[str, list[Any]]
    program: str
    words: list[str]
    keep_events: bool

    def jobs(self) -> Iterator[Job]:
        """All combinations, numbered from 1."""
        keys = list(self.settings)
        choices = product(self.scenarios, product(*self.settings.values()), self.seeds)
        for number, (scenario, values, seed) in enumerate(choices, 1):
            name = f"{number:04}-{scenario}-s{seed}"
            yield Job(name, scenario, seed, dict(zip(keys, values)))


@dataclass
class Job:
    """A run of the sweep."""

    name: str
    scenario: str
    seed: int
    settings: dict[str, Any]


def read_plan(path: Path) -> Plan:
    """Read PLAN.json."""
    try:
        given = json.loads(path.read_text(encoding="utf-8"))
    except UnicodeDecodeError:
        raise FileFault(path, None, "no UTF-8") from None
    except json.JSONDecodeError as error:
        raise FileFault(path, f"line {error.lineno}", error.msg) from None
    if not isinstance(given, dict):
        raise FileFault(path, None, "no JSON object")
    for key in given:
        if key not in KEYS:
            raise FileFault(path, None, f"key {key!r} is none of {' '.join(KEYS)}")
    return Plan(
        path,
        _scenarios(path, given.get("scenarios")),
        _seeds(path, given.get("seeds", [4711])),
        _settings(path, given.get("settings", {})),
        _program(path, given.get("program", os.environ.get("QSIM", "qsim"))),
        _words(path, given.get("words", [])),
        _flag(path, given.get("keep_events", True)),
    )


def _scenarios(path: Path, value: Any) -> dict[str, Path]:
    """The folders of the scenarios."""
    if not isinstance(value, dict) or not value:
        raise FileFault(path, None, "scenarios is no object of names and folders")
    found = {}
    for name, folder in value.items():
        if not is_name(name) or not isinstance(folder, str):
            raise FileFault(path, None, f"scenario {name!r} is no name with a folder")
        found[name] = (path.parent / folder).resolve()
        if not (found[name] / "nodes.csv").is_file():
            raise FileFault(path, None, f"scenario {name}: there is no nodes.csv in {found[name]}")
    return found


def _seeds(path: Path, value: Any) -> list[int]:
    """The seeds."""
    good = isinstance(value, list) and all(type(x) is int and 0 <= x < 2**64 for x in value)
    if not good or not value or len(set(value)) < len(value):
        raise FileFault(path, None, "seeds is no list of different whole numbers")
    return list(value)


def _settings(path: Path, value: Any) -> dict[str, list[Any]]:
    """For each key of settings.json its values; tables is a list by itself."""
    known = {key.name for key in fields(Settings)} - {"seed"}
    if not isinstance(value, dict):
        raise FileFault(path, None, "settings is no object")
    found = {}
    for key, values in value.items():
        if key not in known:
            raise FileFault(path, None, f"settings: {key!r} is no key that can be swept")
        many = isinstance(values, list)
        if many and key == "tables":
            many = bool(values) and isinstance(values[0], list)
        if many and not values:
            raise FileFault(path, None, f"settings: {key} has no value")
        found[key] = values if many else [values]
    return found


def _program(path: Path, value: Any) -> str:
    """The program; with a slash it is a path from the plan's folder."""
    if not isinstance(value, str) or not value:
        raise FileFault(path, None, "program is no text")
    return str((path.parent / value).resolve()) if "/" in value else value


def _words(path: Path, value: Any) -> list[str]:
    """The words behind `run`."""
    if not isinstance(value, list) or not all(isinstance(x, str) for x in value):
        raise FileFault(path, None, "words is no list of texts")
    return list(value)


def _flag(path: Path, value: Any) -> bool:
    """Whether events.csv is kept."""
    if not isinstance(value, bool):
        raise FileFault(path, None, "keep_events is neither true nor false")
    return value


def make(plan: Plan, out: Path) -> int:
    """Write the folders and lists of a sweep in one step; the number of jobs comes back."""
    if out.exists() and (not out.is_dir() or any(out.iterdir())):
        raise FileFault(out, None, "is there already; name another folder")
    final = out.resolve()
    final.parent.mkdir(parents=True, exist_ok=True)
    part = Path(tempfile.mkdtemp(prefix=f".{final.name}.", dir=final.parent))
    try:
        part.chmod(0o755)
        jobs = list(plan.jobs())
        for job in jobs:
            _make_job(plan, job, part / job.name, final / job.name)
        lines = [_line(plan, final / job.name) for job in jobs]
        (part / "jobs.txt").write_text("".join(f"{line}\n" for line in lines), encoding="utf-8")
        with open(part / "jobs.csv", "w", encoding="utf-8", newline="") as target:
            writer = csv.writer(target, lineterminator="\n")
            writer.writerow(["job", "scenario", "seed", *plan.settings])
            for job in jobs:
                values = [x if isinstance(x, int) else json.dumps(x) for x in job.settings.values()]
                writer.writerow([job.name, job.scenario, job.seed, *values])
        quoted = shlex.quote(str(final / "jobs.txt"))
        text = SBATCH.format(count=len(jobs), out=final, jobs=quoted)
        (part / "array.sbatch").write_text(text, encoding="utf-8")
        if out.exists():
            out.rmdir()
        part.rename(final)
    except BaseException:
        shutil.rmtree(part, ignore_errors=True)
        raise
    return len(jobs)


def _make_job(plan: Plan, job: Job, folder: Path, final: Path) -> None:
    """Link the scenario's files, and write the settings."""
    folder.mkdir()
    scenario = plan.scenarios[job.scenario]
    for name in INPUTS:
        if (scenario / name).exists():
            (folder / name).symlink_to(os.path.relpath(scenario / name, final))
    base = scenario / "settings.json"
    read_settings(base)
    given = json.loads(base.read_text(encoding="utf-8")) if base.exists() else {}
    given |= {"seed": job.seed, **job.settings}
    path = folder / "settings.json"
    path.write_text(json.dumps(given, indent=1) + "\n", encoding="utf-8")
    try:
        read_settings(path)
    except FileFault as fault:
        raise FileFault(plan.path, job.name, fault.args[0].split(": ", 1)[-1]) from None


def _line(plan: Plan, folder: Path) -> str:
    """The line of a job: run, note the status, report, and drop the events where asked."""
    run = shlex.join([plan.program, "run", *plan.words])
    report = shlex.join([str(REPORT), ".", "--iterations", "last"])
    parts = [
        f"cd {shlex.quote(str(folder))}",
        f"{{ {run} > report.txt 2> errors.txt; echo $? > status.txt; }}",
        'test "$(cat status.txt)" = 0',
        f"{report} >> errors.txt 2>&1",
    ]
    return " && ".join(parts if plan.keep_events else [*parts, "rm events.csv"])


def arguments() -> argparse.Namespace:
    """The words of the command line."""
    about = "Make a list of jobs for GNU parallel or Slurm, or collect what came of them."
    words = parser("qsim-sweep", about)
    words.add_argument("plan", metavar="PLAN.json", nargs="?", type=Path, help="what to sweep")
    words.add_argument("out", metavar="OUT", nargs="?", type=Path, help="folder of the sweep")
    words.add_argument("--collect", metavar="OUT", type=Path, help="write results.csv of a sweep")
    words.epilog = "parallel -j 4 < OUT/jobs.txt, or sbatch OUT/array.sbatch, runs the jobs."
    return words.parse_args()


def main() -> None:
    """Make a sweep, or collect one."""
    words = arguments()
    if words.collect:
        if words.plan or words.out:
            fail("--collect OUT goes without a plan")
        from qsim_tools.sweep_collect import collect

        print(collect(words.collect))
        return
    if not words.plan or not words.out:
        fail("give PLAN.json and OUT, or --collect OUT")
    plan = read_plan(words.plan)
    count = make(plan, words.out)
    print(f"{words.out}: {count} jobs; run them by: parallel -j 4 < {words.out}/jobs.txt")
