"""A network from a small OSM file, by netconvert."""

from __future__ import annotations

import shutil
from pathlib import Path

import pytest
from matsim_fixtures import Program, Run, program, tool

from qsim_tools.files import read_network

__all__ = ["program", "tool"]
sumo = pytest.mark.skipif(shutil.which("netconvert") is None, reason="netconvert is not installed")

# A residential square of 0.001 degrees (some 111 m to the north), a one-way primary road with two
# lanes across it and back, and a footpath.
POINTS = {1: (47.14, 9.52), 2: (47.141, 9.52), 3: (47.141, 9.5215), 4: (47.14, 9.5215)}
WAYS = {
    10: ([1, 2, 3, 4, 1], {"highway": "residential", "maxspeed": "30"}),
    11: ([1, 3], {"highway": "primary", "oneway": "yes", "lanes": "2", "maxspeed": "50"}),
    12: ([2, 4], {"highway": "footway"}),
}


def osm(path: Path) -> Path:
    """Write the file."""
    rows = ["<?xml version='1.0' encoding='UTF-8'?>", '<osm version="0.6" generator="hand">']
    for number, (latitude, longitude) in POINTS.items():
        rows.append(f'<node id="{number}" version="1" lat="{latitude}" lon="{longitude}"/>')
    for number, (nodes, tags) in WAYS.items():
        rows.append(f'<way id="{number}" version="1">')
        rows += [f'<nd ref="{node}"/>' for node in nodes]
        rows += [f'<tag k="{key}" v="{value}"/>' for key, value in tags.items()]
        rows.append("</way>")
    path.write_text("\n".join([*rows, "</osm>", ""]))
    return path


@sumo
def test_small_town(tool: Run, program: Program, tmp_path: Path) -> None:
    """Roads with their speeds, lanes and capacities; coordinates in UTM 32; no footpath."""
    done = tool("qsim-osm", osm(tmp_path / "town.osm"), tmp_path / "town")
    assert done.returncode == 0, done.stderr
    network = read_network(tmp_path / "town")
    assert (tmp_path / "town" / "crs.txt").read_text() == "EPSG:32632\n"
    types = (tmp_path / "town" / "types.csv").read_text().splitlines()
    assert "11,primary" in types
    road = network.links["11"]
    assert (road.speed, road.lanes, road.capacity) == (1389, 2, 3000)  # 1,500 a lane
    # 111 m north and 114 m east are 159 m, of which netconvert takes the two junctions away.
    assert 13_000 < road.length < 15_900
    rest = [link for name, link in network.links.items() if name != "11"]
    assert len(rest) == 4  # the square is joined at 1 and 3 alone
    assert {(link.speed, link.lanes, link.capacity) for link in rest} == {(833, 1, 600)}
    for node in network.nodes.values():
        assert 53_900_000 < node.x < 54_000_000 and 522_000_000 < node.y < 522_200_000
    row = f"p,0,act,home,{next(iter(network.links))},,"
    (tmp_path / "town" / "plans.csv").write_text(f"person,plan,kind,name,link,time,route\n{row}\n")
    assert program(tmp_path / "town", "check").startswith("valid,2,5,1")


@sumo
def test_faults(tool: Run, tmp_path: Path) -> None:
    """A file that is no OSM file: one line, status 1, nothing written."""
    for name in ("a.osm", "a.osm.pbf"):
        (tmp_path / name).write_text("<osm>")
        done = tool("qsim-osm", tmp_path / name, tmp_path / "town")
        assert (done.returncode, done.stdout) == (1, "")
        assert done.stderr.count("\n") == 1, done.stderr
        assert not (tmp_path / "town").exists()


def test_without_netconvert(tool: Run, tmp_path: Path, monkeypatch: pytest.MonkeyPatch) -> None:
    """Where netconvert is missing, the line names its package."""
    monkeypatch.setenv("PATH", str(tmp_path))
    done = tool("qsim-osm", osm(tmp_path / "town.osm"), tmp_path / "town")
    assert done.returncode == 1 and "apt install sumo" in done.stderr
