"""The command qsim-matsim."""

from __future__ import annotations

import argparse
from pathlib import Path

from qsim_tools import cli
from qsim_tools.matsim_export import Export
from qsim_tools.matsim_import import Import, Inputs


def _parser() -> argparse.ArgumentParser:
    """The words of the command."""
    about = "Turns MATSim's files into those of qsim, and the files of a run into MATSim's."
    parser = cli.parser("qsim-matsim", about)
    commands = parser.add_subparsers(dest="command", required=True)
    importing = commands.add_parser("import", help="MATSim's files to a folder of qsim")
    importing.add_argument("paths", nargs="+", metavar="[CONFIG.xml] DIR", type=Path)
    importing.add_argument("--network", type=Path, help="network.xml or network.xml.gz")
    importing.add_argument("--plans", type=Path, help="population v6, v5 or v4")
    importing.add_argument("--schedule", type=Path, help="transit schedule v1 or v2")
    importing.add_argument("--vehicles", type=Path, help="transit vehicles v1 or v2")
    whole = "keep the whole car network, not only its largest strongly connected part"
    importing.add_argument("--whole", action="store_true", help=whole)
    exporting = commands.add_parser("export", help="a folder of qsim to MATSim's output folder")
    exporting.add_argument("folder", type=cli.existing_folder, metavar="DIR")
    exporting.add_argument("out", type=Path, metavar="OUT")
    last = "events of the last iteration alone"
    exporting.add_argument("--last-only", action="store_true", help=last)
    kinds = "kind of activity that is one within a trip, as MATSim's 'pt interaction'"
    exporting.add_argument("--interaction", action="append", default=[], metavar="KIND", help=kinds)
    return parser


def main() -> None:
    """Run the command."""
    parser = _parser()
    words = parser.parse_args()
    if words.command == "import":
        _import(parser, words)
        return
    work = Export(words.folder, words.interaction)
    work.run(words.out, words.last_only)
    print(work.summary())


def _import(parser: argparse.ArgumentParser, words: argparse.Namespace) -> None:
    """Import."""
    if len(words.paths) > 2 or (len(words.paths) == 1 and words.network is None):
        parser.error("import needs CONFIG.xml and DIR, or --network and DIR")
    config = words.paths[0] if len(words.paths) == 2 else None
    inputs = Inputs(config, words.network, words.plans, words.schedule, words.vehicles)
    work = Import(inputs, words.whole)
    if inputs.network is None:
        cli.fail(f"{config}: no inputNetworkFile")
    work.run(words.paths[-1])
    print(work.summary())
