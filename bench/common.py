"""What the measurements beside this file share: runs of the program, rows of tables, and files."""
import pathlib
import sys
from collections.abc import Iterable, Mapping

sys.path.append(str(pathlib.Path(__file__).resolve().parent.parent / "tests"))

from program import BUILT, TOP, Run, Words, arguments, program_at, ran  # noqa: E402

__all__ = ["BUILT", "TOP", "Run", "Words", "arguments", "program_at", "ran", "row", "head", "put_files",
           "cleared", "done"]
LEFT = ("events.csv", "scores.csv", "plans_out.csv", "kept.db", "kept.db-wal")
Cell = str | int | float


def row(*cells: Cell) -> None:
    """Prints a row of a table."""
    shown = (f"{it:.2f}" if isinstance(it, float) else str(it) for it in cells)
    print("| " + " | ".join(shown) + " |", flush=True)


def head(*columns: str) -> None:
    """Prints the head of a table."""
    row(*columns)
    print("|" + "---|" * len(columns), flush=True)


def put_files(folder: pathlib.Path, files: Mapping[str, Iterable[str]]) -> None:
    """Writes files, each of some lines, into a folder."""
    folder.mkdir(parents=True, exist_ok=True)
    for name, lines in files.items():
        with open(folder / name, "w", encoding="ascii") as file:
            file.writelines(line + "\n" for line in lines)


def cleared(folder: pathlib.Path) -> pathlib.Path:
    """A folder without what a run left there."""
    for name in LEFT:
        (folder / name).unlink(missing_ok=True)
    return folder


def done(command: Words, folder: pathlib.Path) -> Run:
    """A run that has to end with the status 0."""
    run = ran(command, folder, most_wall=3600)
    if run.status != 0:
        sys.exit(f"{' '.join(map(str, command))}: status {run.status}, {run.errors[:200]!r}")
    return run
