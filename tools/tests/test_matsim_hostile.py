"""Damaged inputs: whatever is changed in them, a command is done or says one line."""

from __future__ import annotations

import os
import random
import re
import shutil
import zipfile
from collections.abc import Callable
from pathlib import Path

import pytest
from matsim_fixtures import Run, tool
from test_gtfs import feed_of, folder_of, street
from test_matsim_export import town

__all__ = ["tool"]
DATA = Path(__file__).parent / "data" / "matsim"
ROUNDS = int(os.environ.get("HOSTILE_ROUNDS", "15"))
WORDS = [b"", b"-1", b"0", b"1e999", b"NaN", b"x", b"99999999999", b"undefined", b"<", b"\xff"]


def damaged(data: bytes, draw: random.Random) -> bytes:
    """Data with a value changed, some bytes cut out, or a line taken away or put elsewhere."""
    way = draw.randrange(4)
    if way == 0:
        values = list(re.finditer(rb'"[^"]*"|(?<=[,\n])[^,\n]+(?=[,\n])', data))
        if values:
            value = draw.choice(values)
            text = draw.choice(WORDS)
            quoted = b'"' + text + b'"' if value[0].startswith(b'"') else text
            return data[: value.start()] + quoted + data[value.end() :]
    lines = data.splitlines(keepends=True)
    if way == 1:
        del lines[draw.randrange(len(lines))]
        return b"".join(lines)
    if way == 2:
        lines.insert(draw.randrange(len(lines)), lines.pop(draw.randrange(len(lines))))
        return b"".join(lines)
    place = draw.randrange(len(data))
    return data[:place] + data[place + draw.randrange(1, 30) :]


def endings(run: Callable[[random.Random], tuple[int, str, Path]], seed: int) -> set[int]:
    """Run a command again and again on damaged files; its statuses."""
    seen = set()
    for number in range(ROUNDS):
        status, errors, out = run(random.Random(1000 * seed + number))
        assert status in (0, 1), (seed, number, errors)
        assert errors.count("\n") == status, (seed, number, errors)
        assert out.exists() == (status == 0), (seed, number)
        seen.add(status)
    return seen


@pytest.mark.parametrize("name", ["network", "plans", "schedule", "vehicles", "config"])
def test_import(name: str, tool: Run, tmp_path: Path) -> None:
    """MATSim's files."""
    source, out = tmp_path / "source", tmp_path / "out"
    shutil.copytree(DATA, source)
    data = (DATA / f"{name}.xml").read_bytes()

    def run(draw: random.Random) -> tuple[int, str, Path]:
        """Import with one file damaged."""
        shutil.rmtree(out, ignore_errors=True)
        (source / f"{name}.xml").write_bytes(damaged(data, draw))
        done = tool("qsim-matsim", "import", source / "config.xml", out)
        return done.returncode, done.stderr, out

    assert endings(run, 1) == {0, 1}


FILES = ["nodes", "links", "plans", "stops", "routes", "departures", "events", "ids"]


@pytest.mark.parametrize("name", FILES)
def test_export(name: str, tool: Run, tmp_path: Path) -> None:
    """The program's files."""
    source, out = town(tmp_path / "town"), tmp_path / "out"
    data = (source / f"{name}.csv").read_bytes()

    def run(draw: random.Random) -> tuple[int, str, Path]:
        """Export with one file damaged."""
        shutil.rmtree(out, ignore_errors=True)
        (source / f"{name}.csv").write_bytes(damaged(data, draw))
        done = tool("qsim-matsim", "export", source, out)
        return done.returncode, done.stderr, out

    assert 1 in endings(run, 2)


TABLES = ["stops", "routes", "calendar", "calendar_dates", "trips", "stop_times", "frequencies"]


@pytest.mark.parametrize("name", TABLES)
def test_gtfs(name: str, tool: Run, tmp_path: Path) -> None:
    """A feed."""
    folder = folder_of(street(), tmp_path / "town")
    with zipfile.ZipFile(feed_of(tmp_path / "whole.zip")) as whole:
        data = whole.read(f"{name}.txt")

    def run(draw: random.Random) -> tuple[int, str, Path]:
        """Read a feed with one table damaged."""
        (folder / "routes.csv").unlink(missing_ok=True)
        text = damaged(data, draw).decode("latin-1")
        feed = feed_of(tmp_path / "feed.zip", **{name: text})
        done = tool("qsim-gtfs", feed, "20261201", folder)
        return done.returncode, done.stderr, folder / "routes.csv"

    assert 0 in endings(run, 3)
