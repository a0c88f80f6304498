"""Names for MATSim's ids, by a map that goes both ways.

An id that is a name by docs/files.md stays. Any other id becomes a name: each character that no
name may have becomes a dot, what is longer than a name is cut, and a number behind it keeps two ids
of one kind apart.
"""

from __future__ import annotations

import csv
import io
import re
from collections.abc import Iterable, Iterator
from pathlib import Path

from qsim_tools.files import FileFault, Limits, is_name, read_text

IDS_HEADER = ("kind", "qsim", "matsim")
KINDS = ("node", "link", "person", "kind", "stop", "line", "route", "departure")
_BAD = re.compile(r"[^A-Za-z0-9_.\-]")


class Names:
    """The names of the ids of one kind."""

    def __init__(self) -> None:
        self._by_key: dict[object, str] = {}
        self._ids: dict[str, str] = {}
        self._reserved: set[str] = set()

    def reserve(self, ids: Iterable[str]) -> None:
        """Keep the ids that are names free for those that have them."""
        self._reserved.update(text for text in ids if is_name(text))

    def name(self, key: str | tuple[str, ...]) -> str:
        """The name of an id; a tuple is an id that is unique only within what precedes it."""
        known = self._by_key.get(key)
        if known is not None:
            return known
        text = key if isinstance(key, str) else key[-1]
        name = self._free(text, key)
        self._by_key[key] = name
        self._ids[name] = text
        return name

    def _free(self, text: str, key: str | tuple[str, ...]) -> str:
        """A name that no other id has."""
        if is_name(text) and text not in self._ids:
            return text
        base = _BAD.sub(".", text if isinstance(key, str) else ".".join(key))[: Limits.NAME]
        base = base or "."
        name, number = base, 1
        while name in self._ids or name in self._reserved:
            number += 1
            tail = f"_{number}"
            name = base[: Limits.NAME - len(tail)] + tail
        return name

    def rows(self) -> Iterator[tuple[str, str]]:
        """Each name with its id, where they differ or not."""
        return iter(self._ids.items())

    def id_of(self, name: str) -> str:
        """The id of a name."""
        return self._ids[name]

    def changed(self) -> list[tuple[str, str]]:
        """The names that are not their ids."""
        return [(name, text) for name, text in self._ids.items() if name != text]


class Ids:
    """The names of all kinds."""

    def __init__(self) -> None:
        self.of = {kind: Names() for kind in KINDS}

    def rows(self) -> Iterator[tuple[str, str, str]]:
        """The rows of ids.csv."""
        for kind, names in self.of.items():
            for name, text in names.rows():
                yield kind, name, text


class Back:
    """MATSim's ids by the names in ids.csv; a name that is not there is its own id."""

    def __init__(self, path: Path) -> None:
        self._ids: dict[str, dict[str, str]] = {kind: {} for kind in KINDS}
        if not path.exists():
            return
        with io.StringIO(read_text(path), newline="") as source:
            for number, row in enumerate(csv.reader(source)):
                if number == 0 and tuple(row) != IDS_HEADER:
                    raise FileFault(path, 0, f"the header is not {','.join(IDS_HEADER)}")
                if number == 0:
                    continue
                if len(row) != 3 or row[0] not in self._ids:
                    raise FileFault(path, number, "no row kind,qsim,matsim of a known kind")
                self._ids[row[0]][row[1]] = row[2]

    def id(self, kind: str, name: str) -> str:
        """The id of a name."""
        return self._ids[kind].get(name, name)

    def within_trips(self, kinds: Iterable[str]) -> None:
        """Let kinds of activities be MATSim's activities within trips."""
        for kind in kinds:
            if not self.is_within_trip(kind):
                self._ids["kind"][kind] = f"{self.id('kind', kind)} interaction"

    def is_within_trip(self, kind: str) -> bool:
        """Whether a kind is one of MATSim's activities within trips."""
        return self.id("kind", kind).endswith((" interaction", ".interaction", "_interaction"))
