"""Read events.csv into columns of numbers, an iteration at a time.

The file is mapped, cut into iterations at the lines `iteration,K`, and read by pandas in blocks.
Every text of an event becomes a number of one pool, which begins with the links of links.csv.
"""

from __future__ import annotations

import io
import mmap
import re
from collections.abc import Iterable, Iterator
from dataclasses import dataclass
from pathlib import Path
from typing import Any

import numpy as np
import pandas as pd
from numpy.typing import NDArray

from qsim_tools.files import FileFault

Ints = NDArray[np.int64]
BLOCK = 1 << 26

WORDS = (
    "actend",
    "departure",
    "travelled",
    "arrival",
    "actstart",
    "PersonEntersVehicle",
    "vehicle enters traffic",
    "left link",
    "entered link",
    "vehicle leaves traffic",
    "PersonLeavesVehicle",
    "waitingForPt",
    "TransitDriverStarts",
    "VehicleArrivesAtFacility",
    "VehicleDepartsAtFacility",
    "vehicle aborts",
    "stuckAndAbort",
)
(
    ACT_END,
    DEPARTURE,
    TRAVELLED,
    ARRIVAL,
    ACT_START,
    BOARDS,
    ENTERS_TRAFFIC,
    LEFT,
    ENTERED,
    LEAVES_TRAFFIC,
    ALIGHTS,
    WAITS,
    STARTS,
    ARRIVES,
    DEPARTS,
    ABORTS,
    STUCK,
) = range(len(WORDS))

COLUMNS = ("second", "word", "person", "vehicle", "link", "more")
# a line of the events that make a leg; the file has no carriage returns
_LEG = re.compile(rb"^\d+,(?:departure|arrival|stuckAndAbort),[^\n]*\n", re.M)


class Texts:
    """A pool of texts: each has a number, by first appearance."""

    def __init__(self, first: Iterable[str]) -> None:
        self.names: list[str] = []
        self.numbers: dict[str, int] = {}
        for name in first:
            self.number(name)

    def number(self, name: str) -> int:
        """The number of a text; -1 is that of the empty one."""
        if not name:
            return -1
        found = self.numbers.get(name)
        if found is None:
            found = self.numbers[name] = len(self.names)
            self.names.append(name)
        return found

    def of(self, numbers: Ints) -> list[str]:
        """The texts of numbers; that of -1 is empty."""
        return [self.names[k] if k >= 0 else "" for k in numbers.tolist()]

    def vehicles_of_lines(self) -> NDArray[np.bool_]:
        """For each text, whether it names a transit vehicle."""
        return np.array([name.startswith("pt:") for name in self.names], dtype=bool)


@dataclass(frozen=True)
class Span:
    """The bytes of an iteration's events in the file, and the number of its first line."""

    iteration: int
    start: int
    stop: int
    line: int


@dataclass(frozen=True)
class Day:
    """The events of an iteration, a column for each field."""

    iteration: int
    second: Ints
    word: Ints
    person: Ints
    vehicle: Ints
    link: Ints
    more: Ints

    def where(self, *words: int) -> Ints:
        """The places of the events with one of these words, in order."""
        found = self.word == words[0]
        for word in words[1:]:
            found |= self.word == word
        return np.flatnonzero(found)


class EventsFile:
    """events.csv, its iterations, and the pool of its texts."""

    def __init__(self, path: Path, links: Iterable[str]) -> None:
        self.path = path
        self.texts = Texts(links)
        self.links = len(self.texts.names)
        with open(path, "rb") as source:
            if path.stat().st_size == 0:
                raise FileFault(path, "line 1", "the file is empty")
            self._bytes = mmap.mmap(source.fileno(), 0, access=mmap.ACCESS_READ)
        self.spans = list(self._spans())

    def _spans(self) -> Iterator[Span]:
        """Cut the file at its lines iteration,K."""
        place, line = 0, 1
        while place < len(self._bytes):
            end = self._bytes.find(b"\n", place)
            head = self._bytes[place:end] if end >= 0 else self._bytes[place : place + 100]
            match = re.fullmatch(rb"iteration,(\d{1,4})", head)
            if match is None or end < 0:
                raise FileFault(self.path, f"line {line}", "not a line iteration,K")
            stop = self._bytes.find(b"\niteration,", end) + 1
            stop = stop if stop > 0 else len(self._bytes)
            yield Span(int(match[1]), end + 1, stop, line + 1)
            if stop < len(self._bytes):
                line += 1 + self._lines(end + 1, stop)
            place = stop

    def _lines(self, start: int, stop: int) -> int:
        """How many lines end between two places."""
        blocks = range(start, stop, BLOCK)
        return sum(self._bytes[k : min(k + BLOCK, stop)].count(b"\n") for k in blocks)

    def blocks(self, span: Span) -> Iterator[bytes]:
        """The bytes of an iteration in blocks of whole lines."""
        place = span.start
        while place < span.stop:
            end = min(place + BLOCK, span.stop)
            if end < span.stop:
                end = self._bytes.rfind(b"\n", place, end) + 1
                if end == 0:
                    raise self.fault_in(span)
            yield self._bytes[place:end]
            place = end

    def day(self, span: Span, legs_only: bool = False) -> Day:
        """The events of an iteration, or those of them that begin and end legs."""
        parts: list[list[Ints]] = []
        for block in self.blocks(span):
            if not block.endswith(b"\n"):
                raise self.fault_in(span)
            if block.count(b",") != 5 * block.count(b"\n"):
                raise self.fault_in(span)
            if legs_only:
                block = b"".join(_LEG.findall(block))
            if block:
                parts.append(self._columns(block, span))
        empty = [np.zeros(0, dtype=np.int32)] * 6
        columns = [np.concatenate(column) for column in zip(*parts)] if parts else empty
        return Day(span.iteration, *columns)

    def _columns(self, block: bytes, span: Span) -> list[Ints]:
        """The columns of a block of lines."""
        kinds: dict[str, Any] = {name: "category" for name in COLUMNS}
        kinds["second"] = np.int32
        try:
            frame = pd.read_csv(
                io.BytesIO(block),
                header=None,
                names=list(COLUMNS),
                dtype=kinds,
                keep_default_na=False,
                na_filter=False,
                quoting=3,
                encoding="utf-8",
                encoding_errors="surrogateescape",
            )
        except (ValueError, OverflowError):
            raise self.fault_in(span) from None
        words = {word: number for number, word in enumerate(WORDS)}
        numbers: list[int | None]
        columns: list[Ints] = [frame["second"].to_numpy()]
        for name in COLUMNS[1:]:
            texts = frame[name].cat.categories
            if name == "word":
                numbers = [words.get(text) for text in texts]
            else:
                numbers = [self.texts.number(str(text)) for text in texts]
            if name == "word" and None in numbers:
                raise self.fault_in(span)
            if name == "link" and any(k is not None and k >= self.links for k in numbers):
                raise self.fault_in(span)
            table = np.array(numbers, dtype=np.int8 if name == "word" else np.int32)
            columns.append(table[frame[name].cat.codes.to_numpy()])
        return columns

    def fault_in(self, span: Span) -> FileFault:
        """The first line of an iteration that is no event, found by reading it slowly."""
        self._bytes.seek(span.start)
        line = span.line
        for line in range(span.line, span.line + self._lines(span.start, span.stop) + 1):
            text = self._bytes.readline().decode("utf-8", "replace")
            reason = self._reason(text)
            if reason:
                return FileFault(self.path, f"line {line}", reason)
        return FileFault(self.path, f"line {line}", "the events cannot be read")

    def _reason(self, text: str) -> str:
        """What is wrong with a line, or nothing."""
        if not text.endswith("\n"):
            return "the line is cut off; was the run stopped?"
        fields = text[:-1].split(",")
        if len(fields) != 6:
            return f"{len(fields)} fields in place of 6"
        if not fields[0].isdecimal() or len(fields[0]) > 6:
            return f"{fields[0]!r} is no second"
        if fields[1] not in WORDS:
            return f"{fields[1]!r} is no event"
        if fields[4] and self.texts.numbers.get(fields[4], self.links) >= self.links:
            return f"link {fields[4]} is not in links.csv"
        return ""


def ordered_by(keys: Ints) -> Ints:
    """The places of keys in ascending order; equal keys keep their order."""
    return np.argsort(keys, kind="stable")
