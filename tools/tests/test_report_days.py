"""The tables of one iteration, against values counted by hand in made_report.EVENTS."""

from __future__ import annotations

from pathlib import Path
from typing import Any

import numpy as np
import pytest

from made_report import EVENTS, made
from qsim_tools.files import FileFault
from qsim_tools.report import Run, read_run
from qsim_tools.report_days import read_scenario
from qsim_tools.report_events import EventsFile


@pytest.fixture(scope="module")
def run(tmp_path_factory: pytest.TempPathFactory) -> Run:
    """The run that was written by hand."""
    return read_run(read_scenario(made(tmp_path_factory.mktemp("made"))), "first,last", [])


def rows(frame: Any, *names: str) -> list[tuple[Any, ...]]:
    """Some columns of a table."""
    return [tuple(x) for x in frame[list(names)].itertuples(index=False)]


def test_legs_by_mode(run: Run) -> None:
    """Two legs by car (one stuck), three by bus (two stuck), two on foot."""
    found = rows(run.modes, "mode", "legs", "arrived", "stuck", "mean_seconds")
    assert found == [("car", 2, 1, 1, 40.0), ("pt", 3, 1, 2, 139.0), ("walk", 2, 2, 0, 45.0)]
    assert np.isclose(run.modes["share"].sum(), 1, atol=1e-4)


def test_volumes_by_hour(run: Run) -> None:
    """`entered link` and `vehicle enters traffic` by link and hour; the bus enters cd at 1:00."""
    found = rows(run.last.link_hours, "link", "hour", "vehicles", "buses")
    assert found == [
        ("ab", 0, 3, 1), ("bc", 0, 2, 1), ("cd", 0, 1, 0), ("cd", 1, 1, 1),
    ]  # fmt: skip


def test_speeds(run: Run) -> None:
    """One car was seen: 24 s on bc in place of 21; what it did on ab and cd is not seen."""
    frame = run.last.link_hours
    assert frame["cars_seen"].tolist() == [0, 1, 0, 0]
    row = frame.iloc[1]
    assert (row["mean_seconds"], row["least_seconds"], row["speed_share"]) == (24, 21, 0.875)
    assert (row["free_kmh"], row["speed_kmh"]) == (36, 31.5)
    assert run.last.links["lost_hours"].tolist() == [0, round(3 / 3600, 3), 0]


def test_share_of_capacity(run: Run) -> None:
    """bc has a capacity of 500, and half of it in this sample: 2 of 250."""
    assert run.last.links["share_of_capacity"].tolist() == [0.006, 0.008, 0.002]


def test_histogram(run: Run) -> None:
    """Legs by transit: departures at 3451, 3460, 3605; ends at 3590, 3700, 3700."""
    frame = run.last.histogram
    mine = frame[(frame["mode"] == "pt") & (frame["second"] >= 3300)]
    found = rows(mine, "second", "departures", "arrivals", "stuck", "en_route")
    assert found == [(3300, 2, 1, 0, 1), (3600, 1, 0, 2, 0)]


def test_trips(run: Run) -> None:
    """bob's walk, bus and walk are one trip by transit of 231 s."""
    found = rows(run.last.trips, "person", "mode", "legs", "departure", "seconds", "status")
    assert sorted(found) == [
        ("ann", "car", 1, 100, 40, "arrived"),
        ("bob", "pt", 3, 3400, 231, "arrived"),
        ("cat", "pt", 1, 3460, 240, "stuck"),
        ("dan", "pt", 1, 3605, 95, "stuck"),
        ("eve", "car", 1, 3520, 20, "stuck"),
    ]
    trips = run.last.trips.set_index("person")
    assert trips.loc["ann", "driven_m"] == 300 and trips.loc["bob", "driven_m"] == 0
    assert trips.loc["ann", "beeline_m"] == 300  # from the end of ab to the end of cd
    assert trips.loc["bob", ["from_kind", "to_kind"]].tolist() == ["home", "work"]


def test_stuck(run: Run) -> None:
    """Who was stuck, what he did, and why."""
    assert rows(run.last.stuck, "second", "person", "link", "state", "why") == [
        (3540, "eve", "ab", "driving", "removed"),
        (3700, "cat", "cd", "riding", "day ended"),
        (3700, "dan", "bc", "waiting", "day ended"),
    ]


def test_calls(run: Run) -> None:
    """The bus comes 5 s early to s1, and 30 s late to s2; s3 is not served."""
    names = ("call", "stop", "planned", "late_seconds", "boardings", "alightings", "load")
    assert rows(run.last.calls, *names) == [
        (0, "s1", 3510, -5, 2, 0, 2),
        (1, "s2", 3560, 30, 0, 1, 1),
    ]
    of_vehicle = ("calls_planned", "calls_served", "boardings", "max_load")
    assert rows(run.last.vehicles, *of_vehicle) == [(3, 2, 2, 2)]


def test_stops(run: Run) -> None:
    """bob waits 54 s at s1, cat 45."""
    found = rows(run.last.stops, "stop", "boardings", "alightings", "calls")
    assert found == [("s1", 2, 0, 1), ("s2", 0, 1, 1), ("s3", 0, 0, 0)]
    assert run.last.stops["mean_wait_seconds"].iloc[0] == 49.5
    assert run.last.stops["longest_wait_seconds"].iloc[0] == 54


def test_laws(run: Run) -> None:
    """Seven lines with a volume, seven legs, three stuck, two boardings."""
    assert [law.left for law in run.last.laws] == [7, 7, 7, 3, 2]
    assert all(law.left == law.right for law in run.last.laws)


def test_scores(run: Run) -> None:
    """The mean of 4, 1, -1, -2 and 0 utils."""
    assert run.scores is not None
    assert rows(run.scores, "executed", "best", "worst") == [(0.4, 0.4, 0.4)]


@pytest.mark.parametrize(
    "old, new, place",
    [
        ("125,left link,,ann,bc,", "125,left link,,ann,bc", "line 8: 5 fields in place of 6"),
        ("125,left link,,ann,bc,", "x,left link,,ann,bc,", "line 8: 'x' is no second"),
        ("125,left link,,ann,bc,", "125,flies,,ann,bc,", "line 8: 'flies' is no event"),
        ("125,left link,,ann,bc,", "125,left link,,ann,zz,", "line 8: link zz is not in links.csv"),
        ("iteration,0", "iteration,x", "line 1: not a line iteration,K"),
        ("stuckAndAbort,dan,,bc,pt\n", "stuckAndAbort,dan,,", "line 55: the line is cut off"),
        ("140,arrival,ann,,cd,car\n", "", "iteration 0: 7 departures, but 6 ends of legs"),
        ("pt:d1,ab,s1\n3505", "pt:d1,ab,s3\n3505", "call 1 of pt:d1 at s3 is not that of its"),
    ],
    ids=range(8),
)
def test_faults(tmp_path: Path, old: str, new: str, place: str) -> None:
    """A fault is named with its line."""
    assert old in EVENTS
    folder = made(tmp_path, EVENTS.replace(old, new, 1))
    with pytest.raises(FileFault) as caught:
        read_run(read_scenario(folder), "last", [])
    assert place in str(caught.value)


def test_iterations_are_cut(tmp_path: Path) -> None:
    """Each iteration has its own lines, and its own line number."""
    folder = made(tmp_path, EVENTS + "iteration,1\n" + EVENTS[12:] + "iteration,2\n")
    events = EventsFile(folder / "events.csv", ["ab", "bc", "cd"])
    assert [(x.iteration, x.line) for x in events.spans] == [(0, 2), (1, 57), (2, 112)]
    days = [events.day(span) for span in events.spans]
    assert [len(day.second) for day in days] == [54, 54, 0]
    assert (days[0].person == days[1].person).all()
    few = events.day(events.spans[1], legs_only=True)
    assert len(few.second) == 14
