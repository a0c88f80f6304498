"""What the tests of import, export, OSM and GTFS share: the commands and the program under test."""

from __future__ import annotations

import os
import runpy
import shutil
import subprocess
import sys
from collections.abc import Callable
from dataclasses import dataclass
from pathlib import Path

import pytest

TOOLS = Path(__file__).resolve().parent.parent
EXAMPLE = TOOLS.parent / "crates" / "qsim" / "data"


@dataclass(frozen=True)
class Done:
    """How a command ended."""

    returncode: int
    stdout: str
    stderr: str


Run = Callable[..., Done]
Program = Callable[[Path, str], str]


@pytest.fixture
def tool(capsys: pytest.CaptureFixture[str], monkeypatch: pytest.MonkeyPatch) -> Run:
    """Run a command of tools within this process; its status, output and errors come back."""

    def run(name: str, *words: object) -> Done:
        """Run a command."""
        capsys.readouterr()
        monkeypatch.setattr(sys, "argv", [name, *map(str, words)])
        status = 0
        try:
            runpy.run_path(str(TOOLS / name), run_name="__main__")
        except SystemExit as end:
            status = end.code if isinstance(end.code, int) else 0 if end.code is None else 1
        out, err = capsys.readouterr()
        return Done(status, out, err)

    return run


@pytest.fixture
def program() -> Program:
    """Run the program in a folder; the test is skipped where $QSIM does not name it."""
    path = os.environ.get("QSIM", "")
    if not path or not Path(path).is_file():
        pytest.skip("$QSIM does not name the program qsim")

    def run(folder: Path, command: str) -> str:
        """Run the program."""
        done = subprocess.run([path, command], cwd=folder, capture_output=True, text=True)
        assert done.returncode == 0, done.stdout + done.stderr
        return done.stdout

    return run


@pytest.fixture
def example(tmp_path: Path) -> Path:
    """A copy of the stored example."""
    folder = tmp_path / "example"
    shutil.copytree(EXAMPLE, folder)
    return folder
