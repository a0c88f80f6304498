"""All tables and figures of one iteration, and the laws that they keep."""

from __future__ import annotations

from dataclasses import dataclass
from pathlib import Path
from typing import Any

import numpy as np
from numpy.typing import NDArray

from qsim_tools import report_events as ev
from qsim_tools import report_maps, report_plots
from qsim_tools.files import FileFault
from qsim_tools.report_days import (
    LinkHours,
    Legs,
    Scenario,
    histogram,
    link_hour_table,
    link_hours,
    link_table,
    stuck_table,
    trips_table,
)
from qsim_tools.report_events import Day, Texts
from qsim_tools.report_transit import calls_table, stops_table, vehicles_table, waits_table

Frame = Any


@dataclass
class Law:
    """Two numbers that must be the same, counted in different ways."""

    what: str
    left: int
    right: int


@dataclass
class DayTables:
    """The tables of an iteration."""

    iteration: int
    legs: Legs
    hours: LinkHours
    histogram: Frame
    link_hours: Frame
    links: Frame
    trips: Frame
    stuck: Frame
    calls: Frame
    stops: Frame
    vehicles: Frame
    laws: list[Law]

    def csvs(self) -> dict[str, Frame]:
        """The tables that are written, by the names of their files."""
        names = {
            "linkhours.csv": self.link_hours,
            "links.csv": self.links,
            "leghistogram.csv": self.histogram,
            "trips.csv": self.trips,
            "stuck.csv": self.stuck,
        }
        if len(self.stops):
            names |= {
                "stops.csv": self.stops,
                "calls.csv": self.calls,
                "vehicles.csv": self.vehicles,
            }
        return names


def tables_of(
    path: Path, day: Day, legs: Legs, texts: Texts, scenario: Scenario, stages: list[str]
) -> DayTables:
    """Make all tables of an iteration, and hold them against its events."""
    transit = texts.vehicles_of_lines()
    end = scenario.settings.end_second
    hours = link_hours(day, scenario, transit)
    calls = calls_table(path, day, texts, transit, scenario.schedule)
    tables = DayTables(
        iteration=day.iteration,
        legs=legs,
        hours=hours,
        histogram=histogram(legs, texts, end),
        link_hours=link_hour_table(hours, scenario),
        links=link_table(hours, scenario),
        trips=trips_table(path, day, legs, texts, scenario, stages),
        stuck=stuck_table(day, texts, transit, end),
        calls=calls,
        stops=stops_table(calls, waits_table(day, texts), scenario.schedule),
        vehicles=vehicles_table(calls, scenario.schedule),
        laws=[],
    )
    tables.laws = laws_of(tables, day, transit)
    for law in tables.laws:
        if law.left != law.right:
            reason = f"{law.what}: {law.left} is not {law.right}; do all files belong together?"
            raise FileFault(path, f"iteration {day.iteration}", reason)
    return tables


def laws_of(tables: DayTables, day: Day, transit: NDArray[np.bool_]) -> list[Law]:
    """What the tables say next to what the lines of events.csv say."""

    def lines(*words: int) -> int:
        return len(day.where(*words))

    boards = day.where(ev.BOARDS)
    aboard = int(transit[day.vehicle[boards]].sum()) if len(boards) else 0
    riders = int((tables.stuck["state"] == "riding").sum())
    alighted = int(tables.stops["alightings"].sum())
    shape = tables.histogram
    arrivals = int(shape["arrivals"].sum()) + int(shape["stuck"].sum())
    volumes = int(tables.link_hours["vehicles"].sum())
    return [
        Law(
            "sum of hourly volumes = lines “entered link” and “vehicle enters traffic”",
            volumes,
            lines(ev.ENTERED, ev.ENTERS_TRAFFIC),
        ),
        Law(
            "departures = arrivals and stuck",
            int(shape["departures"].sum()),
            arrivals,
        ),
        Law("legs = lines “departure”", len(tables.legs.person), lines(ev.DEPARTURE)),
        Law("persons stuck = lines “stuckAndAbort”", len(tables.stuck), lines(ev.STUCK)),
        Law("boardings = alightings and riders left", aboard, alighted + riders),
    ]


def write_day(out: Path, tables: DayTables, scenario: Scenario, crs: str) -> list[str]:
    """Write the tables and figures of an iteration to a folder; the figures' names come back."""
    out.mkdir()
    for name, frame in tables.csvs().items():
        frame.to_csv(out / name, index=False)
    number = tables.iteration
    figures = []
    if len(tables.histogram):
        report_plots.legs(out / "legs.png", tables.histogram)
        figures.append("legs.png")
    if tables.hours.vehicles.any():
        report_maps.volumes(out / "volumes.png", scenario, tables.links, number)
        report_maps.speeds(out / "speeds.png", scenario, tables.links, number)
        report_plots.hours(out / "hours.png", tables.hours, scenario)
        figures += ["volumes.png", "speeds.png", "hours.png"]
    if len(tables.calls):
        report_plots.transit(out / "transit.png", tables.calls, tables.vehicles)
        figures.append("transit.png")
        if int(tables.stops["boardings"].sum()):
            report_plots.stops(out / "stops.png", tables.stops)
            figures.append("stops.png")
    if crs:
        path = out / "links.geojson"
        report_maps.geojson(path, scenario, tables.links, tables.link_hours, crs)
    return figures
