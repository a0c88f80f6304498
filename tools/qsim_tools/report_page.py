"""The page of the report: one HTML file with its tables and figures."""

from __future__ import annotations

import base64
from html import escape
from pathlib import Path
from typing import Any

import numpy as np
import pandas as pd

Frame = Any

GENERATOR = "qsim-report"
STYLE = """
body { font: 15px/1.5 system-ui, "DejaVu Sans", sans-serif; color: #222; margin: 0 auto;
  max-width: 1080px; padding: 0 1.2em 4em; background: #fff; }
h1 { font-size: 1.7em; margin: 1em 0 .2em; } h2 { font-size: 1.35em; margin: 2.2em 0 .4em;
  border-bottom: 2px solid #0072B2; } h3 { font-size: 1.1em; margin: 1.6em 0 .3em; }
p { max-width: 46em; margin: .5em 0; }
nav a { margin-right: 1.2em; } a { color: #005a8c; }
table { border-collapse: collapse; margin: .6em 0; font-size: .9em; }
th, td { padding: .22em .8em; text-align: left; border-bottom: 1px solid #ddd; }
th { background: #f1f5f8; vertical-align: bottom; } td.n, th.n { text-align: right;
  font-variant-numeric: tabular-nums; white-space: nowrap; }
figure { margin: 1em 0; } figure img { max-width: 100%; height: auto; }
figcaption { font-size: .88em; color: #555; max-width: 52em; }
.note { background: #f6f6f2; border-left: 4px solid #E69F00; padding: .5em 1em; }
details summary { cursor: pointer; color: #005a8c; margin: .5em 0; }
"""


class Page:
    """Collects the parts of a page."""

    def __init__(self, title: str, folder: Path, embed: bool) -> None:
        self.title, self.folder, self.embed = title, folder, embed
        self.parts: list[str] = []
        self.sections: list[tuple[str, str]] = []

    def section(self, name: str, title: str) -> None:
        """Begin a section that the line of links names."""
        self.sections.append((name, title))
        self.parts.append(f'<h2 id="{escape(name)}">{escape(title)}</h2>')

    def heading(self, title: str) -> None:
        """Begin a part of a section."""
        self.parts.append(f"<h3>{escape(title)}</h3>")

    def text(self, words: str, kind: str = "") -> None:
        """A paragraph."""
        mark = f' class="{kind}"' if kind else ""
        self.parts.append(f"<p{mark}>{escape(words)}</p>")

    def image(self, name: str, caption: str) -> None:
        """A figure of the report's folder."""
        source = escape(name)
        if self.embed:
            data = base64.b64encode((self.folder / name).read_bytes()).decode("ascii")
            source = f"data:image/png;base64,{data}"
        alt = escape(caption.split(". ")[0], quote=True)
        self.parts.append(
            f'<figure><img src="{source}" alt="{alt}">'
            f"<figcaption>{escape(caption)}</figcaption></figure>"
        )

    def table(self, frame: Frame, heads: dict[str, str] | None = None, folded: str = "") -> None:
        """A table; with a fold, its title is seen and the rows on demand."""
        heads = heads or {name: name.replace("_", " ") for name in frame.columns}
        frame = frame[list(heads)]
        numeric = [all(_is_number(value) for value in frame[name].dropna()) for name in heads]
        places = [_places(frame[name]) for name in heads]
        marks = [' class="n"' if number else "" for number in numeric]
        top = "".join(f"<th{m}>{escape(h)}</th>" for m, h in zip(marks, heads.values()))
        rows = []
        for values in frame.itertuples(index=False):
            cells = zip(marks, values, places)
            rows.append("".join(f"<td{m}>{escape(shown(v, k))}</td>" for m, v, k in cells))
        body = "".join(f"<tr>{row}</tr>\n" for row in rows)
        text = f"<table><thead><tr>{top}</tr></thead><tbody>\n{body}</tbody></table>"
        if folded:
            text = f"<details><summary>{escape(folded)}</summary>{text}</details>"
        self.parts.append(text)

    def files(self, names: list[tuple[str, str]]) -> None:
        """A list of files with what they hold."""
        rows = [
            f'<tr><td><a href="{escape(name)}">{escape(name)}</a></td><td>{escape(what)}</td></tr>'
            for name, what in names
        ]
        self.parts.append("<table><tbody>" + "\n".join(rows) + "</tbody></table>")

    def html(self) -> str:
        """The whole text of the page."""
        links = "".join(f'<a href="#{escape(n)}">{escape(t)}</a>' for n, t in self.sections)
        return (
            '<!DOCTYPE html>\n<html lang="en"><head><meta charset="utf-8">\n'
            f'<meta name="generator" content="{GENERATOR}">\n'
            '<meta name="viewport" content="width=device-width, initial-scale=1">\n'
            f"<title>{escape(self.title)}</title>\n<style>{STYLE}</style></head>\n<body>\n"
            f"<h1>{escape(self.title)}</h1>\n<nav>{links}</nav>\n"
            + "\n".join(self.parts)
            + "\n</body></html>\n"
        )


def _is_number(value: object) -> bool:
    """Whether a value is a number."""
    return isinstance(value, (int, float, np.integer, np.floating))


def _places(column: Frame) -> int | None:
    """The decimals of a column of fractions; those of a mixed column depend on the value."""
    if not pd.api.types.is_float_dtype(column):
        return None
    known = column.dropna().abs()
    if not len(known) or bool((known == known.round()).all()):
        return 0
    return _decimals(float(known.max()))


def _decimals(size: float) -> int:
    """How many decimals a number of some size is shown with."""
    return 0 if size >= 10_000 else 1 if size >= 10 else 2 if size > 1 else 3


def shown(value: object, places: int | None = None) -> str:
    """A value as a reader wants it: thousands apart, a gap for nothing."""
    if value is None or value is pd.NA or (isinstance(value, float) and np.isnan(value)):
        return "–"
    if isinstance(value, (int, np.integer)):
        return f"{int(value):,}"
    if isinstance(value, (float, np.floating)):
        number = float(value)
        if places is None:
            places = 0 if number == round(number) else _decimals(abs(number))
        return f"{number:,.{places}f}"
    return str(value)


def time_of_day(second: int) -> str:
    """A second of the day as hours, minutes and seconds."""
    return f"{second // 3600}:{second // 60 % 60:02}:{second % 60:02}"
