"""The ten commands of README.md, as they stand there, on a small made town or on a real one."""

from __future__ import annotations

import json
import os
import re
import shutil
import subprocess
from pathlib import Path

import pytest

from made_report import TOOLS, program

SIDE = 6
NETWORK = ("apt-get install", "apt-get source", "tar ")


def commands() -> list[str]:
    """The commands of the first block of shell in README.md."""
    text = (TOOLS / "README.md").read_text(encoding="utf-8")
    block = re.search(r"```sh\n(.*?)```", text, re.S)
    assert block is not None
    return re.split(r"^# \d+\. .*\n", block[1], flags=re.M)[1:]


def test_there_are_ten() -> None:
    """Ten commands, of which three fetch what this test makes."""
    lines = commands()
    assert len(lines) == 10
    assert [any(word in line for word in NETWORK) for line in lines] == [True] * 3 + [False] * 7


def test_readme_is_short() -> None:
    """At most 120 lines."""
    assert len((TOOLS / "README.md").read_text(encoding="utf-8").splitlines()) <= 120


def made_town(path: Path) -> None:
    """Write streets of a square of 36 corners, 200 m apart, as OSM data."""
    places = [(row, column) for row in range(SIDE) for column in range(SIDE)]
    nodes = "".join(
        f'<node id="{1 + row * SIDE + column}" version="1" lat="{47.1 + row * 0.0018}" '
        f'lon="{9.5 + column * 0.0026}"/>\n'
        for row, column in places
    )
    ways = ""
    for street in range(SIDE):
        along = [1 + street * SIDE + k for k in range(SIDE)]
        across = [1 + k * SIDE + street for k in range(SIDE)]
        for number, points in ((100 + street, along), (200 + street, across)):
            refs = "".join(f'<nd ref="{point}"/>' for point in points)
            kind = "primary" if street == 2 else "residential"
            ways += f'<way id="{number}" version="1">{refs}<tag k="highway" v="{kind}"/></way>\n'
    text = f'<?xml version="1.0"?>\n<osm version="0.6">\n{nodes}{ways}</osm>\n'
    plain = path.with_suffix(".xml.osm")
    plain.write_text(text)
    subprocess.run(["osmium", "cat", plain, "-o", path], check=True, capture_output=True)
    plain.unlink()


@pytest.fixture
def town(tmp_path: Path) -> Path:
    """A folder with town.osm.pbf, the real one where $TOWN_OSM names it."""
    for name in ("netconvert", "osmium"):
        if shutil.which(name) is None:
            pytest.skip(f"needs {name} (Debian: sumo, osmium-tool)")
    real = os.environ.get("TOWN_OSM")
    if real:
        shutil.copy(real, tmp_path / "town.osm.pbf")
    else:
        made_town(tmp_path / "town.osm.pbf")
    return tmp_path


def test_commands(town: Path) -> None:
    """From the fourth command on: a network, plans, a run of six days, a page and a map."""
    (town / "bin").mkdir()
    (town / "bin" / "qsim").symlink_to(Path(program()).resolve())
    path = f"{town / 'bin'}:{TOOLS}:{os.environ['PATH']}"
    for line in commands()[3:]:
        done = subprocess.run(
            ["bash", "-c", line],
            cwd=town,
            env=os.environ | {"PATH": path},
            capture_output=True,
            text=True,
            check=False,
        )
        assert done.returncode == 0, f"{line}: {done.stderr}"
    report = town / "town" / "report"
    assert 'href="it.5/links.geojson"' in (report / "index.html").read_text(encoding="utf-8")
    assert (report / "it.5" / "volumes.png").stat().st_size > 10_000
    shapes = json.loads((report / "it.5" / "links.geojson").read_text())["features"]
    lon, lat = shapes[0]["geometry"]["coordinates"][0]
    assert 9 < lon < 10 and 47 < lat < 47.5
    days = (town / "town" / "report" / "scorestats.csv").read_text().splitlines()
    assert len(days) == 7
    assert (town / "town" / "matsim").is_dir()
