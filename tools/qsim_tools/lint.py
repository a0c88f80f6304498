"""qsim-lint: what the program accepts, but what is probably not meant."""

from __future__ import annotations

import argparse
import csv
import sys
from collections import Counter
from collections.abc import Iterable, Iterator
from itertools import chain
from pathlib import Path
from typing import NamedTuple

from qsim_tools.cli import existing_folder, parser
from qsim_tools.files import (
    Network,
    Schedule,
    Settings,
    read_network,
    read_schedule,
    read_settings,
    replacing,
)

RULES = {
    "short-link": "a link that holds one vehicle only",
    "choked-link": "a link whose places let through less than its capacity",
    "lane-capacity": "more than 2,200 or fewer than 300 vehicles an hour and lane",
    "short-of-beeline": "a link not half as long as the beeline between its nodes (a wrong unit?)",
    "loop": "a link from a node to itself",
    "dead-end": "a node with no link out of it, or with none into it",
    "apart": "a node outside the largest strongly connected part",
    "fast-timetable": "less time from stop to stop than at free speed",
    "departs-too-late": "a departure at or after the end of the day",
    "ends-too-late": "an activity that ends at or after the end of the day: nobody leaves it",
    "ends-in-past": "an activity planned to end before the one before it",
    "no-room": "an activity planned to end before it is reached at free speed",
    "speed-of-leg": "a walk, bike or ride far faster or slower than people are, by beeline",
    "last-bus-gone": "a transit leg that begins behind the line's last departure there",
}


class Finding(NamedTuple):
    """Something that is probably not meant; row 1 is the first one of data."""

    file: str
    row: int
    name: str
    rule: str
    values: str

    def text(self) -> str:
        """The line of the finding."""
        return f"{self.file}:{self.row}: {self.rule} {self.name}: {self.values}"


def findings(folder: Path) -> Iterator[Finding]:
    """All findings of a folder, file by file."""
    from qsim_tools.lint_network import network_findings
    from qsim_tools.lint_plans import plan_findings
    from qsim_tools.lint_schedule import schedule_findings

    network: Network = read_network(folder)
    schedule: Schedule = read_schedule(folder, network.links)
    settings: Settings = read_settings(folder / "settings.json")
    parts: list[Iterable[Finding]] = [
        network_findings(network, settings),
        schedule_findings(network, schedule, settings),
        plan_findings(folder / "plans.csv", network, schedule, settings),
    ]
    yield from chain.from_iterable(parts)


def arguments() -> argparse.Namespace:
    """The words of the command line."""
    words = parser("qsim-lint", "Name what a scenario has that is probably not meant.")
    words.add_argument("dir", metavar="DIR", type=existing_folder, help="folder of the scenario")
    words.add_argument("--csv", type=Path, metavar="FILE", help="write the findings to a file too")
    words.add_argument("--strict", action="store_true", help="status 1 where there is a finding")
    words.add_argument("--rule", action="append", choices=sorted(RULES), help="these rules only")
    words.add_argument("--most", type=int, default=20, help="lines shown of each rule; 0: all")
    words.epilog = "Rules: " + "; ".join(f"{rule}: {what}" for rule, what in RULES.items()) + "."
    return words.parse_args()


def main() -> None:
    """Print the findings and how many each rule has."""
    words = arguments()
    rules = set(words.rule or RULES)
    found = [x for x in findings(words.dir) if x.rule in rules]
    shown: Counter[str] = Counter()
    for finding in found:
        shown[finding.rule] += 1
        if words.most == 0 or shown[finding.rule] <= words.most:
            print(finding.text())
    for rule, count in shown.items():
        hidden = count - words.most if 0 < words.most < count else 0
        more = f", {hidden:,} of them not shown" if hidden else ""
        print(f"{count:,} {rule}: {RULES[rule]}{more}")
    if not found:
        print("nothing found")
    if words.csv:
        with replacing(words.csv) as target:
            target.write(_csv_text(found).encode("utf-8"))
    if words.strict and found:
        sys.exit(1)


def _csv_text(found: list[Finding]) -> str:
    """The findings as CSV."""
    from io import StringIO

    text = StringIO()
    writer = csv.writer(text, lineterminator="\n")
    writer.writerow(Finding._fields)
    writer.writerows(found)
    return text.getvalue()
