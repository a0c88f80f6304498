"""What all commands share: errors in one line, progress on standard error, argument types."""

from __future__ import annotations

import argparse
import sys
from collections.abc import Callable, Iterable, Iterator
from importlib import import_module
from pathlib import Path
from typing import NoReturn, TypeVar

from qsim_tools.files import FileFault

T = TypeVar("T")


def fail(message: str) -> NoReturn:
    """Write one line to standard error and end with status 1."""
    line = " ".join(message.split())
    print(f"{Path(sys.argv[0]).name}: {line}", file=sys.stderr)
    raise SystemExit(1)


def guarded(main: Callable[[], None]) -> None:
    """Run a command; a fault of a file or of the system becomes one line and status 1."""
    try:
        main()
    except FileFault as fault:
        fail(str(fault))
    except OSError as error:
        place = f"{error.filename}: " if error.filename else ""
        fail(f"{place}{error.strerror or error}")
    except KeyboardInterrupt:
        fail("interrupted")


def progress(items: Iterable[T], label: str, total: int | None = None) -> Iterator[T]:
    """Pass items on and show how many have passed, where standard error is a terminal."""
    if not sys.stderr.isatty():
        yield from items
        return
    try:
        bar = import_module("tqdm").tqdm
    except ImportError:
        yield from _counted(items, label)
        return
    yield from bar(items, desc=label, total=total, unit="", file=sys.stderr, leave=False)


def _counted(items: Iterable[T], label: str) -> Iterator[T]:
    """Show a plain counter in steps of 10,000."""
    count = 0
    for count, item in enumerate(items, 1):
        if count % 10_000 == 0:
            print(f"\r{label}: {count:,}", end="", file=sys.stderr, flush=True)
        yield item
    if count >= 10_000:
        print(file=sys.stderr)


def parser(name: str, about: str) -> argparse.ArgumentParser:
    """Make the parser of a command."""
    return argparse.ArgumentParser(
        prog=name, description=about, formatter_class=argparse.ArgumentDefaultsHelpFormatter
    )


def existing_file(text: str) -> Path:
    """Take the path of a file that exists."""
    path = Path(text)
    if not path.is_file():
        raise argparse.ArgumentTypeError(f"there is no file {text}")
    return path


def existing_folder(text: str) -> Path:
    """Take the path of a folder that exists."""
    path = Path(text)
    if not path.is_dir():
        raise argparse.ArgumentTypeError(f"there is no folder {text}")
    return path
