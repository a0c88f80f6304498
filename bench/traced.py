"""How long the functions of a program take, by ptrace. Linux on x86-64 alone."""
import collections
import os
import pathlib
import signal
import subprocess
import sys
import tempfile
import threading
import time
import typing
from collections.abc import Sequence

from common import Run
from ptrace import (CONTINUE, ENDED_WITH_US, NEXT, SET_OPTIONS, STACK, STEP, registers_of,
                    set_registers, start, traced)

TRAP = b"\xcc"


def stolen() -> float:
    """Seconds of its processors, all together, that the machine has been denied since it began."""
    fields = pathlib.Path("/proc/stat").read_text().split(None, 9)
    return int(fields[8]) / os.sysconf("SC_CLK_TCK")


class Moment(typing.NamedTuple):
    """Seconds of the clock, of the processor that the program has had, and of processors that the
    machine has been denied."""

    clock: float
    processor: float
    stolen: float

    def since(self, earlier: "Moment") -> "Moment":
        return Moment(*(here - there for here, there in zip(self, earlier)))


class Call(typing.NamedTuple):
    """A call of a function."""

    name: str
    entered: Moment
    left: Moment

    def took(self) -> Moment:
        return self.left.since(self.entered)


def functions_of(program: str) -> dict[str, list[int]]:
    """Where the functions begin, from the start of the program in memory on; a function is named
    without what stands for its types."""
    found = collections.defaultdict[str, list[int]](list)
    listed = subprocess.run(["nm", program], capture_output=True, text=True, check=True)
    for line in listed.stdout.splitlines():
        place, kind, name = line.split(" ", 2) if line[0] != " " else ("0", "U", "")
        if kind in "tT":
            found[name.split("::<")[0]].append(int(place, 16))
    return found


def has_own(program: str, name: str) -> bool:
    """Whether the program has just one function of its own for this one: the compiler may have made
    several, or put it into its callers."""
    return len(functions_of(program).get(name, [])) == 1


def places_of(program: str, names: Sequence[str]) -> dict[int, str]:
    """Where these functions begin."""
    found = functions_of(program)
    if missing := [name for name in names if len(found.get(name, [])) != 1]:
        sys.exit(f"{program} has not just one function of its own for {', '.join(missing)}")
    return {found[name][0]: name for name in names}


class Stops:
    """The calls of some functions by the first thread of a program: it stops where they begin and
    where they come back."""

    def __init__(self, process: int, program: str, names: Sequence[str]) -> None:
        self.process = process
        self.under: dict[int, bytes] = {}
        self.open: list[tuple[str, Moment]] = []
        self.calls: list[Call] = []
        self.memory = os.open(f"/proc/{process}/mem", os.O_RDWR)
        begin = self.start_of(os.path.realpath(program))
        self.begins = {begin + place: name for place, name in places_of(program, names).items()}
        for place in self.begins:
            self.lay(place)

    def start_of(self, program: str) -> int:
        for line in pathlib.Path(f"/proc/{self.process}/maps").read_text().splitlines():
            if line.endswith(" " + program):
                return int(line.split("-")[0], 16) - int(line.split()[2], 16)
        raise ValueError(f"{program} is not in memory")

    def lay(self, place: int) -> None:
        self.under[place] = os.pread(self.memory, 1, place)
        os.pwrite(self.memory, TRAP, place)

    def lift(self, place: int) -> None:
        os.pwrite(self.memory, self.under.pop(place), place)

    def now(self) -> Moment:
        clock_of_process = ~self.process << 3 | 2
        return Moment(time.monotonic(), time.clock_gettime(clock_of_process), stolen())

    def at_stop(self) -> bool:
        """Whether the program is where a function begins or has come back; it is set to go on from
        there."""
        now, registers = self.now(), registers_of(self.process)
        place = registers.word[NEXT] - 1
        if place not in self.under:
            return False
        self.lift(place)
        registers.word[NEXT] = place
        set_registers(self.process, registers)
        if place in self.begins:
            back = int.from_bytes(os.pread(self.memory, 8, registers.word[STACK]), "little")
            self.open.append((self.begins[place], now))
            traced(STEP, self.process)
            os.waitpid(self.process, 0)
            self.lay(place)
            self.lay(back)
        else:
            self.calls.append(Call(*self.open.pop(), now))
        return True


def watched(words: Sequence[str | int], folder: pathlib.Path, names: Sequence[str],
            most_wall: float = 3600.0) -> tuple[Run, list[Call]]:
    """Runs a command, and gives each call of these functions, in the order in which they came back.
    Its other threads are left alone, so a function has to be one that its first thread alone calls,
    and not within itself."""
    command = [str(word) for word in words]
    with tempfile.TemporaryFile() as report, tempfile.TemporaryFile() as errors:
        begun = time.monotonic()
        child = start(command, str(folder), report.fileno(), errors.fileno())
        traced(SET_OPTIONS, child, 0, ENDED_WITH_US)
        stops = Stops(child, command[0], names)
        alarm = threading.Timer(most_wall, os.kill, (child, signal.SIGKILL))
        alarm.start()
        passed_on = 0
        while True:
            traced(CONTINUE, child, 0, passed_on)
            _, ended, used = os.wait4(child, 0)
            if os.WIFEXITED(ended) or os.WIFSIGNALED(ended):
                break
            is_ours = os.WSTOPSIG(ended) == signal.SIGTRAP and stops.at_stop()
            passed_on = 0 if is_ours else os.WSTOPSIG(ended)
        alarm.cancel()
        wall = time.monotonic() - begun
        report.seek(0)
        errors.seek(0)
        seconds, peak = used.ru_utime + used.ru_stime, used.ru_maxrss / 1024
        status = os.waitstatus_to_exitcode(ended)
        return Run(status, report.read(), errors.read(), seconds, wall, peak), stops.calls
