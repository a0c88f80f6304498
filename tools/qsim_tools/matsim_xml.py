"""Streamed reading of MATSim's XML files, plain or gz, with faults of one line."""

from __future__ import annotations

import gzip
import re
import zlib
from collections.abc import Callable, Iterator
from pathlib import Path
from typing import IO, Any, TypeVar

from lxml import etree

from qsim_tools.files import FileFault

A = TypeVar("A")
T = TypeVar("T")
Xml = Any  # lxml has no types in Debian


def open_bytes(path: Path) -> IO[bytes]:
    """Open a file for reading; one that begins with the mark of gz is unpacked on the way."""
    with open(path, "rb") as source:
        packed = source.read(2) == b"\x1f\x8b"
    return gzip.open(path, "rb") if packed else open(path, "rb")  # type: ignore[return-value]


def elements(path: Path, tags: tuple[str, ...], heads: tuple[str, ...] = ()) -> Iterator[Xml]:
    """Each element of the tags when it ends, and each of the heads when it begins.

    What was passed is taken out of memory. A fault of the XML or of the gz names file and line.
    """
    line = 1
    try:
        with open_bytes(path) as source:
            walk = etree.iterparse(
                source,
                events=("start", "end"),
                tag=tags + heads,
                resolve_entities=False,
                no_network=True,
                huge_tree=True,
                remove_comments=True,
            )
            for event, element in walk:
                line = element.sourceline or line
                if (event == "start") != (element.tag in heads):
                    continue
                yield element
                if event == "end":
                    _drop(element)
    except etree.XMLSyntaxError as error:
        place = f"line {error.lineno or line}"
        raise FileFault(path, place, f"malformed XML: {error.msg}") from None
    except (EOFError, zlib.error, gzip.BadGzipFile) as error:
        raise FileFault(path, f"after line {line}", f"the gz file is damaged: {error}") from None


def _drop(element: Xml) -> None:
    """Free an element and all that comes before it."""
    element.clear()
    parent = element.getparent()
    while parent is not None and element.getprevious() is not None:
        del parent[0]


def root_of(path: Path) -> Xml:
    """The root of a small file, read whole."""
    try:
        with open_bytes(path) as source:
            parser = etree.XMLParser(
                resolve_entities=False, no_network=True, remove_comments=True, huge_tree=True
            )
            return etree.parse(source, parser).getroot()
    except etree.XMLSyntaxError as error:
        raise FileFault(path, f"line {error.lineno}", f"malformed XML: {error.msg}") from None
    except (EOFError, zlib.error, gzip.BadGzipFile) as error:
        raise FileFault(path, None, f"the gz file is damaged: {error}") from None


def local(element: Xml) -> str:
    """The tag of an element without its namespace."""
    return str(etree.QName(element).localname)


def fault(path: Path, element: Xml, reason: str) -> FileFault:
    """The fault of an element."""
    return FileFault(path, f"line {element.sourceline}", reason)


def needed(path: Path, element: Xml, name: str) -> str:
    """An attribute that must be there."""
    value = element.get(name)
    if value is None:
        raise fault(path, element, f"{local(element)} without attribute {name!r}")
    return str(value)


def taken(path: Path, element: Xml, take: Callable[[A], T], value: A) -> T:
    """What a function makes of a value; its ValueError becomes a fault of the element."""
    try:
        return take(value)
    except ValueError as error:
        raise fault(path, element, f"{local(element)}: {error}") from None


_ATTRIBUTE = re.compile(rb"<(person|act|activity)\b([^>]*)>")
_VALUE = {
    b"person": re.compile(rb"""\bid\s*=\s*["']([^"']*)["']"""),
    b"act": re.compile(rb"""\btype\s*=\s*["']([^"']*)["']"""),
}


def scan_ids(path: Path) -> tuple[set[str], set[str]]:
    """The ids of persons and the types of activities, by a quick look at the bytes."""
    persons: set[str] = set()
    kinds: set[bytes] = set()
    rest = b""
    try:
        with open_bytes(path) as source:
            while chunk := source.read(1 << 22):
                text = rest + chunk
                cut = text.rfind(b"<")
                for match in _ATTRIBUTE.finditer(text, 0, cut):
                    person = match[1] == b"person"
                    value = _VALUE[b"person" if person else b"act"].search(match[2])
                    if value and person:
                        persons.add(value[1].decode("utf-8", "replace"))
                    elif value:
                        kinds.add(value[1])
                rest = text[max(cut, 0) :]
    except (EOFError, zlib.error, gzip.BadGzipFile):
        pass  # the reading proper names the fault
    return persons, {kind.decode("utf-8", "replace") for kind in kinds}
