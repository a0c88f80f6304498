"""One day of a run in partitions and by workers: where its time went, by the moments at which
functions begin and end, and what it wrote."""
import hashlib
import os
import pathlib
import sys
import typing
from collections.abc import Sequence

from common import Run
from traced import Call, has_own, stolen, watched

DAY, MERGE = "parted_day::days::day_in_parts", "divided_day::days::merged_events"
SAVED = ("iterations::iterating::save_and_report", "iterations::saving::save",
         "keep::keeping::rows_of")
ITERATION = "iterations::iterating::do_iteration"
Came = tuple[bytes, dict[str, bytes]]


class Spell(typing.NamedTuple):
    """Seconds of the clock that a run takes for its day, for the merge, for scoring and writing,
    and in all; and seconds of processors that were stolen from the machine, in the day with its
    merge, and in all."""

    day: float
    merge: float
    writing: float
    whole: float
    stolen_in_day: float
    stolen: float


def saving_in(program: str) -> str:
    """The function at whose begin something is kept, the first one of these that the compiler has
    left a function of its own; where it has left none, the one at whose end it is kept."""
    return next((name for name in SAVED if has_own(program, name)), ITERATION)


def spell_of(run: Run, calls: Sequence[Call], saving: str, lost: float) -> Spell:
    """Where the time of a run of one day went."""
    by_name = {call.name: call for call in calls}
    day, merge = by_name[DAY].took(), by_name[MERGE].took().clock
    written = by_name[saving].left if saving == ITERATION else by_name[saving].entered
    after = written.since(by_name[DAY].left).clock
    return Spell(day.clock - merge, merge, after, run.wall, day.stolen, lost)


def sums_in(room: pathlib.Path, given: Sequence[str]) -> dict[str, bytes]:
    """A sum of each file that a run left, without those that it was given and what is kept. The
    files are removed."""
    sums = {}
    for path in sorted(room.iterdir()):
        if path.name in given:
            continue
        if not path.name.startswith("kept.db"):
            with path.open("rb") as file:
                sums[path.name] = hashlib.file_digest(file, "sha256").digest()
        path.unlink()
    return sums


def one_run(program: str, room: pathlib.Path, spread: str,
            given: Sequence[str]) -> tuple[Run, Spell, Came]:
    """A run in a spread, where its time went, and what came of it."""
    partitions, workers = spread.split("x")
    words = ["run", "--partitions", partitions, "--workers", workers]
    saving, before = saving_in(program), stolen()
    run, calls = watched([program, *words], room, (DAY, MERGE, saving))
    lost = stolen() - before
    if run.status != 0:
        sys.exit(f"{spread}: status {run.status}, {run.errors[:200]!r}")
    return run, spell_of(run, calls, saving, lost), (run.report, sums_in(room, given))


def copied(room: pathlib.Path, given: Sequence[str], copy: int) -> pathlib.Path:
    """A folder next to this one with what a run is given."""
    folder = room.parent / f"{room.name}_{copy}"
    folder.mkdir(exist_ok=True)
    for name in given:
        if not (folder / name).exists():
            os.link(room / name, folder / name)
    return folder
