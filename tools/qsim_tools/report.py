"""qsim-report: tables, figures, maps and one page from what a run has written."""

from __future__ import annotations

import argparse
import shutil
import tempfile
from dataclasses import dataclass
from pathlib import Path
from typing import Any

import pandas as pd

from qsim_tools import report_plots
from qsim_tools.cli import existing_file, existing_folder, parser, progress
from qsim_tools.files import FileFault
from qsim_tools.report_compare import (
    geh_table,
    mode_table,
    read_counts,
    two_runs,
    with_counts,
)
from qsim_tools.report_dashboard import dashboard
from qsim_tools.report_days import Legs, Scenario, legs_of, read_scenario
from qsim_tools.report_events import EventsFile, Span
from qsim_tools.report_maps import to_wgs84
from qsim_tools.report_page import GENERATOR, Page
from qsim_tools.report_scores import score_stats
from qsim_tools.report_sections import (
    against_section,
    counts_section,
    day_section,
    over_iterations,
    overview,
)
from qsim_tools.report_tables import DayTables, tables_of, write_day

Frame = Any


@dataclass
class Run:
    """A folder's scenario and what was read of its run."""

    scenario: Scenario
    events: EventsFile
    modes: Frame
    days: list[DayTables]
    scores: Frame | None

    @property
    def last(self) -> DayTables:
        """The last iteration that was read in full."""
        return self.days[-1]


def chosen(spans: list[Span], words: str, path: Path) -> set[int]:
    """The iterations that are asked for: `first`, `last` or numbers."""
    known = [span.iteration for span in spans]
    found = set()
    for word in words.split(","):
        name = word.strip()
        if name in ("first", "last"):
            found.add(known[0 if name == "first" else -1])
        elif name.isdecimal() and int(name) in known:
            found.add(int(name))
        else:
            reason = f"there is no iteration {name!r}; it has {known[0]} to {known[-1]}"
            raise FileFault(path, None, reason)
    return found


def read_run(scenario: Scenario, iterations: str, stages: list[str]) -> Run:
    """Read a run: some iterations in full, of the others only the legs."""
    folder = scenario.folder
    path = folder / "events.csv"
    events = EventsFile(path, scenario.network.links)
    full = chosen(events.spans, iterations, path)
    days, rows = [], []
    for span in progress(events.spans, f"iterations of {folder}", len(events.spans)):
        day = events.day(span, legs_only=span.iteration not in full)
        legs = legs_of(path, day)
        rows += _mode_rows(span.iteration, legs, events)
        if span.iteration in full:
            days.append(tables_of(path, day, legs, events.texts, scenario, stages))
    names = ["iteration", "mode", "legs", "arrived", "stuck", "share", "mean_seconds"]
    modes = pd.DataFrame(rows, columns=names)
    scores_path = folder / "scores.csv"
    scores = None
    if scores_path.exists() and scores_path.stat().st_size:
        size = scenario.settings.memory_size
        scores = score_stats(scores_path, folder / "plans.csv", size)
    return Run(scenario, events, modes, days, scores)


def _mode_rows(iteration: int, legs: Legs, events: EventsFile) -> list[tuple[object, ...]]:
    """The rows of modestats.csv of an iteration."""
    total = max(len(legs.person), 1)
    return [
        (iteration, mode, count, came, count - came, round(count / total, 5), round(mean, 2))
        for mode, (count, came, mean) in legs.by_mode(events.texts).items()
    ]


def write_report(
    out: Path, run: Run, other: Run | None, counts: Frame | None, words: argparse.Namespace
) -> None:
    """Write all files of the report to an empty folder."""
    figures = _over_iterations(out, run)
    name = run.scenario.folder.resolve().name
    page = Page(f"qsim report: {name}", out, words.images == "embed")
    if words.note:
        page.text(words.note, "note")
    shown = {}
    for day in run.days:
        shown[day.iteration] = set(
            write_day(out / f"it.{day.iteration}", day, run.scenario, words.crs)
        )
    overview(page, run.scenario, run.days, [span.iteration for span in run.events.spans])
    over_iterations(page, run.scores, run.modes, figures)
    for day in run.days:
        day_section(page, day, run.scenario, shown[day.iteration])
    if counts is not None:
        _counts(out, page, run, counts, words)
    if other is not None:
        _against(out, page, run, other, str(words.against))
    laws = [(d.iteration, x.what, x.left, x.right) for d in run.days for x in d.laws]
    pd.DataFrame(laws, columns=["iteration", "law", "left", "right"]).to_csv(
        out / "laws.csv", index=False
    )
    text = dashboard(name, run.last.iteration, bool(len(run.last.stops)), run.scores is not None)
    (out / "dashboard-1.yaml").write_text(text, encoding="utf-8")
    (out / "index.html").write_text(page.html(), encoding="utf-8")


def _over_iterations(out: Path, run: Run) -> set[str]:
    """Write scores and modes; the names of their figures come back."""
    figures = set()
    run.modes.to_csv(out / "modestats.csv", index=False)
    wide = run.modes.pivot(index="iteration", columns="mode", values="legs")
    wide = wide.reindex(columns=["car", "pt", "walk", "bike", "ride"]).fillna(0).astype(int)
    wide.to_csv(out / "modestats_wide.csv")
    if run.scores is not None:
        run.scores.round(6).to_csv(out / "scorestats.csv", index=False)
    if len(run.events.spans) > 1:
        report_plots.modes(out / "modes.png", run.modes)
        figures.add("modes.png")
        if run.scores is not None and len(run.scores) > 1:
            report_plots.scores(out / "scores.png", run.scores)
            figures.add("scores.png")
    return figures


def _counts(out: Path, page: Page, run: Run, counts: Frame, words: argparse.Namespace) -> None:
    """Compare the last iteration with counts."""
    scale = words.scale or 1 / run.scenario.factor
    what, volumes = f"Volumes of iteration {run.last.iteration}", run.last.hours.vehicles
    if words.without_buses:
        what, volumes = f"{what}, without buses,", volumes - run.last.hours.buses
    frame = with_counts(counts, volumes * scale, run.scenario)
    table = geh_table(frame)
    frame.to_csv(out / "counts.csv", index=False)
    table.to_csv(out / "geh.csv", index=False)
    report_plots.scatter(out / "counts.png", frame, ("simulated", "counted"), "vehicles")
    counts_section(page, frame, table, f"{what} times {scale:g}")


def _against(out: Path, page: Page, run: Run, other: Run, name: str) -> None:
    """Compare the last iterations of two runs."""
    frame = two_runs((run.scenario, run.last.hours), (other.scenario, other.last.hours))
    table = geh_table(frame)
    modes = mode_table(
        run.last.legs.by_mode(run.events.texts), other.last.legs.by_mode(other.events.texts)
    )
    scores = None
    if run.scores is not None and other.scores is not None:
        ends = [run.scores.iloc[-1], other.scores.iloc[-1]]
        scores = pd.DataFrame(ends).reset_index(drop=True)
        scores["iteration"] = scores["iteration"].astype(int)
        scores.insert(0, "run", ["this run", "other run"])
    frame.rename(columns={"simulated": "this_run", "counted": "other_run"}).to_csv(
        out / "against.csv", index=False
    )
    table.rename(columns={"simulated": "this_run", "counted": "other_run"}).to_csv(
        out / "against_geh.csv", index=False
    )
    modes.to_csv(out / "against_modes.csv", index=False)
    report_plots.scatter(out / "against.png", frame, ("this run", "other run"), "vehicles an hour")
    against_section(page, name, frame, table, modes, scores)


def may_replace(out: Path) -> None:
    """Refuse a folder that holds anything but a report."""
    if not out.exists():
        return
    page = out / "index.html"
    mark = f'content="{GENERATOR}"'
    if not out.is_dir():
        raise FileFault(out, None, "is no folder")
    is_report = page.is_file() and mark in page.read_text(encoding="utf-8", errors="replace")[:500]
    if any(out.iterdir()) and not is_report:
        raise FileFault(out, None, "holds files that are no report; name another folder by --out")


def arguments() -> argparse.Namespace:
    """The words of the command line."""
    about = "Make tables, figures, maps and a page of what a run has written."
    words = parser("qsim-report", about)
    words.add_argument("dir", metavar="DIR", type=existing_folder, help="folder of the run")
    words.add_argument("--out", type=Path, help="folder of the report (DIR/report)")
    words.add_argument(
        "--iterations", default="first,last", help="those shown in full: first, last or numbers"
    )
    words.add_argument("--crs", default="", help="coordinate system of nodes.csv, as EPSG:32632")
    words.add_argument("--counts", type=existing_file, help="counts.csv: link,hour,vehicles")
    words.add_argument("--scale", type=float, help="counts / volumes (1 / flow factor)")
    words.add_argument("--without-buses", action="store_true", help="compare counts with cars only")
    words.add_argument("--against", type=existing_folder, help="folder of another run")
    words.add_argument(
        "--stage", action="append", default=[], help="kind of activity that only joins two legs"
    )
    words.add_argument("--note", default="", help="a note at the top of the page, as on the data")
    words.add_argument("--images", choices=("embed", "link"), default="embed", help="in the page")
    return words.parse_args()


def main() -> None:
    """Read a run and write its report in one step."""
    words = arguments()
    out: Path = words.out or words.dir / "report"
    may_replace(out)
    noted = words.dir / "crs.txt"
    if not words.crs and noted.exists():
        words.crs = noted.read_text(encoding="utf-8").strip()
    scenario = read_scenario(words.dir)
    counts = read_counts(words.counts, scenario) if words.counts else None
    if words.crs:
        to_wgs84(words.crs, scenario.ends / 100)
    run = read_run(scenario, words.iterations, words.stage)
    other = None
    if words.against:
        other = read_run(read_scenario(words.against), "last", words.stage)
    out.parent.mkdir(parents=True, exist_ok=True)
    part = Path(tempfile.mkdtemp(prefix=f".{out.name}.", dir=out.parent))
    try:
        part.chmod(0o755)
        write_report(part, run, other, counts, words)
        if out.exists():
            shutil.rmtree(out)
        part.rename(out)
    except BaseException:
        shutil.rmtree(part, ignore_errors=True)
        raise
    print(f"{out}/index.html: iterations {', '.join(str(d.iteration) for d in run.days)}")
