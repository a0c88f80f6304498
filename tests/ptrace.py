"""A program under ptrace: its registers, and the calls to the system at which it stops. Linux on
x86-64 alone."""
import ctypes
import os
import typing
from collections.abc import Mapping, Sequence

TRACE_ME, STEP, GET_REGISTERS, SET_REGISTERS = 0, 9, 12, 13
CONTINUE, CONTINUE_TO_CALL, SET_OPTIONS = 7, 24, 0x4200
ENDED_WITH_US = 0x100000  # nobody is left when this program ends
RESULT, LENGTH, FIRST, CALL, NEXT, STACK = 10, 12, 14, 15, 16, 19
LIBC = ctypes.CDLL(None, use_errno=True)
LIBC.ptrace.argtypes = [ctypes.c_long, ctypes.c_long, ctypes.c_void_p, ctypes.c_void_p]


class Registers(ctypes.Structure):
    _fields_ = [("word", ctypes.c_ulong * 27)]
    word: typing.Any


def traced(request: int, process: int, word: int = 0, data: int = 0) -> None:
    """A call of ptrace, which must not fail."""
    if LIBC.ptrace(request, process, word, data) < 0:
        raise OSError(ctypes.get_errno(), "ptrace")


def registers_of(thread: int) -> Registers:
    registers = Registers()
    traced(GET_REGISTERS, thread, 0, ctypes.addressof(registers))
    return registers


def set_registers(thread: int, registers: Registers) -> None:
    traced(SET_REGISTERS, thread, 0, ctypes.addressof(registers))


class Instruction(ctypes.Structure):
    """One of a filter of calls."""

    _fields_ = [("code", ctypes.c_ushort), ("if_so", ctypes.c_ubyte), ("if_not", ctypes.c_ubyte),
                ("word", ctypes.c_uint)]


class Filter(ctypes.Structure):
    _fields_ = [("length", ctypes.c_ushort), ("first", ctypes.POINTER(Instruction))]


def stop_at(calls: Sequence[int]) -> None:
    """Has this process, and all that it becomes, stop at these calls to the system alone, for its
    tracer."""
    number, equal, answer, stop, go_on = 0x20, 0x15, 0x06, 0x7FF00000, 0x7FFF0000
    looks = [(equal, len(calls) - place, 0, call) for place, call in enumerate(calls)]
    rows = [(number, 0, 0, 0), *looks, (answer, 0, 0, go_on), (answer, 0, 0, stop)]
    instructions = (Instruction * len(rows))(*(Instruction(*row) for row in rows))
    program = Filter(len(rows), instructions)
    if LIBC.prctl(38, 1, 0, 0, 0) or LIBC.prctl(22, 2, ctypes.byref(program), 0, 0):
        raise OSError(ctypes.get_errno(), "prctl")


def start(command: Sequence[str], folder: str, output: int, errors: int,
          environment: Mapping[str, str] | None = None, calls: Sequence[int] = ()) -> int:
    """Starts a command in a folder, stopped at its first instruction. It will stop at these calls,
    where there are any."""
    child = os.fork()
    if child == 0:
        os.chdir(folder)
        os.dup2(output, 1)
        os.dup2(errors, 2)
        traced(TRACE_ME, 0)
        if calls:
            stop_at(calls)
        os.execve(command[0], list(command), os.environ if environment is None else environment)
    os.waitpid(child, 0)
    return child
