"""The readers and writers of the program's files."""

from __future__ import annotations

from collections.abc import Callable, Iterable
from pathlib import Path

import pytest

from qsim_tools import files

EXAMPLE = Path(__file__).parents[2] / "crates" / "qsim" / "data"


def test_example_comes_back(tmp_path: Path) -> None:
    """What is read of the stored example is written as the same bytes."""
    network = files.read_network(EXAMPLE)
    schedule = files.read_schedule(EXAMPLE, network.links)
    persons = list(files.read_plans(EXAMPLE / "plans.csv", network.links))
    with files.Staged(tmp_path) as staged:
        files.stage_network(staged, network)
        files.stage_schedule(staged, schedule)
        staged.rows("plans.csv", files.PLANS_HEADER, files.plan_rows(persons))
    for name in ("nodes", "links", "stops", "routes", "departures", "plans"):
        path = f"{name}.csv"
        assert (tmp_path / path).read_bytes() == (EXAMPLE / path).read_bytes()


FAULTS = {
    "nodes.csv": [
        ("node,x\n", "row 0"),
        ("node,x,y\na,0,0\na,0,0\n", "row 2: node a is there twice"),
        ("node,x,y\na b,0,0\n", "row 1: node 'a b' is no name"),
        ("node,x,y\na,1.5,0\n", "row 1: coordinate x '1.5'"),
        ("node,x,y\na,0\n", "row 1: 2 fields in place of 3"),
    ],
    "links.csv": [
        (f"{','.join(files.LINKS_HEADER)}\nl,a,b,1,1,1,21\n", "row 1: lanes '21'"),
        (f"{','.join(files.LINKS_HEADER)}\nl,a,b,0,1,1,1\n", "row 1: length '0'"),
    ],
    "plans.csv": [
        (f"{','.join(files.PLANS_HEADER)}\np,0,act,h,l,1,\np,0,leg,car,,,\n", "row 2"),
        (f"{','.join(files.PLANS_HEADER)}\np,0,leg,car,,,\n", "row 1: a leg is not behind"),
        (f"{','.join(files.PLANS_HEADER)}\np,1,act,h,l,1,\n", "row 1: plan 1 is out of order"),
        (f"{','.join(files.PLANS_HEADER)}\np,0,act,h,l,1,\np,0,leg,fly,,,\n", "row 2: mode 'fly'"),
    ],
    "scores.csv": [("0,p,0\n", "row 0: 3 fields in place of 4")],
}
READERS: dict[str, Callable[[Path], Iterable[object]]] = {
    "nodes.csv": files.read_nodes,
    "links.csv": files.read_links,
    "plans.csv": files.read_plans,
    "scores.csv": files.read_scores,
}


@pytest.mark.parametrize("name", FAULTS)
def test_faults_name_file_and_row(name: str, tmp_path: Path) -> None:
    """A fault is one line with file, row and reason."""
    for text, reason in FAULTS[name]:
        (tmp_path / name).write_text(text)
        with pytest.raises(files.FileFault) as fault:
            list(READERS[name](tmp_path / name))
        assert f"{name}: {reason}" in str(fault.value) and "\n" not in str(fault.value)


def test_events_by_iteration(tmp_path: Path) -> None:
    """Each iteration has its own events, also one that was not read to its end."""
    path = tmp_path / "events.csv"
    lines = "5,actend,p,,l,home\n6,departure,p,,l,car\n"
    path.write_text(f"iteration,0\n{lines}iteration,1\niteration,2\n")
    found = []
    for number, events in files.read_events(path):
        first = next(events, None)
        found.append((number, first and first.second))
    assert found == [(0, 5), (1, None), (2, None)]


def test_settings(tmp_path: Path) -> None:
    """Defaults, unknown keys and text that is no JSON."""
    path = tmp_path / "settings.json"
    assert files.read_settings(path) == files.Settings()
    path.write_text('{"seed": 3, "tables": [{"kind": "h", "points": [[0, 1]], "latest": 5}]}')
    settings = files.read_settings(path)
    assert settings.seed == 3 and settings.tables == [files.Table("h", [(0, 1)], 5)]
    path.write_text(settings.as_json())
    assert files.read_settings(path) == settings
    for text, reason in (('{"sed": 3}', "'sed'"), ("{\n,}", "line 2"), ("[]", "no JSON object")):
        path.write_text(text)
        with pytest.raises(files.FileFault, match=reason):
            files.read_settings(path)


def test_nothing_half_written(tmp_path: Path) -> None:
    """Where the work fails, old files stay and new ones and folders do not appear."""
    (tmp_path / "a.txt").write_text("old")
    with pytest.raises(RuntimeError):
        with files.Staged(tmp_path) as staged:
            staged.write("a.txt", "new")
            staged.write("below/b.txt", "new")
            raise RuntimeError
    assert [path.name for path in tmp_path.iterdir()] == ["a.txt"]
    assert (tmp_path / "a.txt").read_text() == "old"
    with pytest.raises(RuntimeError):
        with files.replacing(tmp_path / "a.txt") as target:
            target.write(b"new")
            raise RuntimeError
    assert (tmp_path / "a.txt").read_text() == "old"
