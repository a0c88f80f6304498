"""The program that is tried or measured: where it is, the words that name it, and runs of it."""
import argparse
import os
import pathlib
import resource
import subprocess
import tempfile
import threading
import time
import typing
from collections.abc import Mapping, Sequence

TOP = pathlib.Path(__file__).resolve().parent.parent
BUILT = TOP / "crates/qsim/out/qsim"
MIB = 1 << 20
Words = Sequence[str | int | pathlib.Path]


class Run(typing.NamedTuple):
    """What came of a run: its status (negative where a signal ended it), what it wrote, seconds of
    the processor and of the clock, and its peak of memory in MiB, which is no less than what this
    process holds when it starts the run."""

    status: int
    report: bytes
    errors: bytes
    seconds: float
    wall: float
    peak: float


def program_at(path: str) -> str:
    """The whole path of a program that is there."""
    if not os.access(path, os.X_OK) or os.path.isdir(path):
        raise argparse.ArgumentTypeError(f"{path} is no program")
    return os.path.abspath(path)


def arguments(doc: str | None, before: bool = False) -> argparse.ArgumentParser:
    """A parser of --program P, and of --before P for a comparison of two programs."""
    words = argparse.ArgumentParser(
        description=doc, formatter_class=argparse.RawDescriptionHelpFormatter)
    words.add_argument("--program", type=program_at, default=str(BUILT), metavar="P",
                       help="the program (crates/qsim/out/qsim, as the gate leaves it)")
    if before:
        words.add_argument("--before", type=program_at, required=True, metavar="P",
                           help="the program that it is compared with")
    return words


def bounded(bounds: Sequence[tuple[int, int]]) -> None:
    """Sets bounds of the process that calls it, as pairs of a RLIMIT and a number."""
    for bound, number in bounds:
        resource.setrlimit(bound, (number, number))


def ran(command: Words, folder: str | pathlib.Path, bounds: Sequence[tuple[int, int]] = (),
        most_wall: float = 600.0, environment: Mapping[str, str] | None = None,
        output: typing.IO[bytes] | None = None) -> Run:
    """Runs a command in a folder, within bounds; after `most_wall` seconds of the clock it is
    killed. Its standard output goes to `output` where that is given."""
    with tempfile.TemporaryFile() as report, tempfile.TemporaryFile() as errors:
        begun = time.monotonic()
        child = subprocess.Popen(
            [str(word) for word in command], cwd=folder, stdin=subprocess.DEVNULL,
            stdout=output or report, stderr=errors, env=environment,
            preexec_fn=lambda: bounded(bounds))
        alarm = threading.Timer(most_wall, child.kill)
        alarm.start()
        _, ended, used = os.wait4(child.pid, 0)
        alarm.cancel()
        child.returncode = os.waitstatus_to_exitcode(ended)
        wall = time.monotonic() - begun
        report.seek(0)
        errors.seek(0)
        seconds = used.ru_utime + used.ru_stime
        peak = used.ru_maxrss / 1024
        return Run(child.returncode, report.read(), errors.read(), seconds, wall, peak)
