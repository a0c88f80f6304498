"""A first network from OpenStreetMap, through netconvert of SUMO.

netconvert reads the roads, joins the nodes of each junction, and writes a network of MATSim. The
import of that file does the rest. Capacities are those of MATSim's OSM reader by the type of road,
because netconvert writes 1,800 vehicles an hour and lane everywhere.
"""

from __future__ import annotations

import argparse
import os
import re
import shutil
import subprocess
import tempfile
from dataclasses import replace
from pathlib import Path

from qsim_tools import cli
from qsim_tools.files import FileFault, Limits, Staged, stage_network
from qsim_tools.matsim_ids import IDS_HEADER, Ids
from qsim_tools.matsim_losses import LOSSES_HEADER, Losses
from qsim_tools.matsim_network import kept_links, named_network, read_network_xml
from qsim_tools.matsim_xml import elements

# Vehicles an hour and lane.
CAPACITY = {
    "motorway": 2000,
    "motorway_link": 1500,
    "trunk": 2000,
    "trunk_link": 1500,
    "primary": 1500,
    "primary_link": 1500,
    "secondary": 1000,
    "secondary_link": 1000,
    "tertiary": 600,
    "tertiary_link": 600,
    "unclassified": 600,
    "residential": 600,
    "living_street": 300,
    "service": 300,
    "track": 200,
}
OTHER = 600
WORDS = (
    "--geometry.remove --ramps.guess --junctions.join --tls.guess-signals --tls.discard-simple "
    "--tls.join --tls.default-type static --keep-edges.by-vclass passenger "
    "--remove-edges.isolated --keep-edges.components 1 --output.original-names"
).split()
TYPES_HEADER = ("link", "type")


def _run(words: list[str], what: str) -> None:
    """Run a program; its failure becomes one line."""
    if shutil.which(words[0]) is None:
        raise FileFault(words[0], None, f"not installed (Debian: apt install {what})")
    environment = {"SUMO_HOME": "/usr/share/sumo", **os.environ}
    done = subprocess.run(words, capture_output=True, text=True, env=environment, check=False)
    if done.returncode:
        lines = [line for line in (done.stderr + done.stdout).splitlines() if line.strip()]
        errors = [line for line in lines if line.lower().startswith("error")] or lines[-1:]
        reason = errors[0] if errors else f"status {done.returncode}"
        raise FileFault(words[0], None, reason)


def converted(source: Path, folder: Path) -> tuple[Path, Path]:
    """The network of MATSim and that of SUMO which netconvert makes of an OSM file."""
    plain = source
    if source.suffix == ".pbf":
        plain = folder / "roads.osm"
        _run(["osmium", "cat", str(source), "-o", str(plain), "-O"], "osmium-tool")
    network, sumo = folder / "network.xml", folder / "sumo.net.xml"
    words = ["netconvert", "--osm-files", str(plain), "-o", str(sumo)]
    _run([*words, "--matsim-output", str(network), *WORDS], "sumo")
    return network, sumo


def crs_of(sumo: Path) -> tuple[str, float, float]:
    """The CRS of a network of SUMO, and by how much its coordinates are moved."""
    for element in elements(sumo, ("location",)):
        shift = [float(text) for text in element.get("netOffset", "0,0").split(",")]
        text = element.get("projParameter", "")
        zone = re.search(r"\+proj=utm \+zone=(\d+)", text)
        if zone is None:
            return text, shift[0], shift[1]
        base = 32700 if "+south" in text else 32600
        return f"EPSG:{base + int(zone[1])}", shift[0], shift[1]
    raise FileFault(sumo, None, "no location")


def types_of(sumo: Path) -> dict[str, str]:
    """The type of road of each edge, as `residential`."""
    types = {}
    for element in elements(sumo, ("edge",)):
        text = element.get("type", "")
        if text:
            types[element.get("id", "")] = text.split("|")[0].replace("highway.", "")
    return types


def make(source: Path, out: Path, netconvert_capacities: bool) -> str:
    """Make nodes.csv, links.csv, ids.csv, crs.txt, types.csv and import.csv; return a summary."""
    losses, ids = Losses(), Ids()
    with tempfile.TemporaryDirectory() as name:
        matsim, sumo = converted(source, Path(name))
        raw = read_network_xml(matsim, losses)
        crs, right, up = crs_of(sumo)
        types = types_of(sumo)
    shift = round(right * 100), round(up * 100)
    raw.nodes = {key: (x - shift[0], y - shift[1]) for key, (x, y) in raw.nodes.items()}
    if any(abs(axis) > Limits.COORDINATE for place in raw.nodes.values() for axis in place):
        raise FileFault(source, None, "a coordinate is beyond 10,000 km")
    network = named_network(raw, kept_links(raw, set(), False, losses), ids, False, losses)
    rows = []
    for name, link in network.links.items():
        kind = types.get(ids.of["link"].id_of(name), "")
        rows.append((name, kind))
        if not netconvert_capacities:
            hourly = CAPACITY.get(kind, OTHER) * link.lanes
            network.links[name] = replace(link, capacity=hourly)
    for kind in ("node", "link"):
        changed = ids.of[kind].changed()
        if changed:
            losses.note(f"{kind} renamed", f"{changed[0][1]} is {changed[0][0]}", len(changed))
    with Staged(out) as staged:
        stage_network(staged, network)
        staged.rows("ids.csv", IDS_HEADER, ids.rows())
        staged.rows("types.csv", TYPES_HEADER, rows)
        staged.rows("import.csv", LOSSES_HEADER, losses.rows())
        staged.write("crs.txt", f"{crs}\n")
    head = f"written: {len(network.nodes):,} nodes, {len(network.links):,} links, {crs}"
    return losses.report(head)


def main() -> None:
    """Run the command qsim-osm."""
    about = "Makes nodes.csv and links.csv from an OSM file, through netconvert of SUMO."
    parser = cli.parser("qsim-osm", about)
    parser.add_argument("osm", type=cli.existing_file, metavar="FILE.osm.pbf")
    parser.add_argument("out", type=Path, metavar="DIR")
    lanes = "keep netconvert's 1,800 vehicles an hour and lane"
    parser.add_argument("--netconvert-capacities", action="store_true", help=lanes)
    words: argparse.Namespace = parser.parse_args()
    print(make(words.osm, words.out, words.netconvert_capacities))
