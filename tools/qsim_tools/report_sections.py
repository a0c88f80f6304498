"""The sections of the report's page."""

from __future__ import annotations

from typing import Any

import numpy as np
import pandas as pd

from qsim_tools.report_compare import correlation
from qsim_tools.report_days import Scenario
from qsim_tools.report_page import Page, time_of_day
from qsim_tools.report_tables import DayTables
from qsim_tools.report_transit import late_summary

Frame = Any
MOST = 15

FILES = {
    "linkhours.csv": "vehicles, buses, seconds and speed by link and hour",
    "links.csv": "the day's vehicles, the fullest hour and the lost hours of each link",
    "links.geojson": "the same with the volumes of each hour, as lines in WGS84",
    "leghistogram.csv": "departures, arrivals, stuck and en route by five minutes and mode",
    "trips.csv": "each trip with its mode, seconds, distances and ends",
    "stuck.csv": "everybody who was stuck",
    "stops.csv": "boardings, alightings, lateness and waiting by stop",
    "calls.csv": "each served call: lateness, who boarded and alighted, the load",
    "vehicles.csv": "each departure: calls, boardings and the largest load",
}


def overview(
    page: Page, scenario: Scenario, tables: list[DayTables], iterations: list[int]
) -> None:
    """What was run, and the figures of the iterations that are shown in full."""
    page.section("overview", "Overview")
    town, schedule = scenario.network, scenario.schedule
    first, last = iterations[0], iterations[-1]
    span = f"iterations {first} to {last}" if last > first else f"iteration {first}"
    page.text(
        f"{len(town.nodes):,} nodes, {len(town.links):,} links "
        f"({scenario.length.sum() / 1e5:,.0f} km), {len(schedule.routes):,} transit routes, "
        f"{len(schedule.stops):,} stops and {len(schedule.departures):,} departures. "
        f"events.csv has {span}. Volumes are those of the simulated sample: "
        f"its flow factor is {scenario.factor:g}."
    )
    rows: dict[str, list[object]] = {}
    for day in tables:
        for name, value in _facts(day, scenario).items():
            rows.setdefault(name, []).append(value)
    width = len(tables)
    frame = pd.DataFrame(
        [[name, *values, *[None] * (width - len(values))] for name, values in rows.items()],
        columns=["figure", *(f"iteration {day.iteration}" for day in tables)],
        dtype=object,
    )
    page.table(frame)


def _facts(day: DayTables, scenario: Scenario) -> dict[str, float]:
    """The main figures of an iteration."""
    hours = day.hours
    lost = hours.seconds.sum() - (hours.seen * scenario.least[:, None]).sum()
    km = (hours.vehicles * scenario.length[:, None]).sum() / 1e5
    facts = {
        "trips": float(len(day.trips)),
        "mean minutes of a trip that arrived": float(
            day.trips.loc[day.trips["status"] == "arrived", "seconds"].mean() / 60
        ),
        "vehicle kilometres": float(km),
        "vehicle hours lost by cars on links": float(lost / 3600),
        "persons stuck": float(len(day.stuck)),
    }
    if len(day.calls):
        facts["boardings"] = float(day.calls["boardings"].sum())
        facts["mean lateness of calls (s)"] = float(day.calls["late_seconds"].mean())
        facts["95 % of calls are late by less than (s)"] = float(
            day.calls["late_seconds"].quantile(0.95)
        )
        facts["worst lateness (s)"] = float(day.calls["late_seconds"].max())
    return facts


def over_iterations(page: Page, scores: Frame | None, modes: Frame, figures: set[str]) -> None:
    """Scores and modes over the iterations."""
    page.section("iterations", "Over the iterations")
    if scores is not None:
        page.heading("Scores")
        if "scores.png" in figures:
            page.image(
                "scores.png",
                "Mean scores over the iterations. Executed is the plan that was followed; best, "
                "average and worst are over each person's plans that have a score.",
            )
        page.table(scores.round(3), folded="" if len(scores) < 4 else "Scores in numbers (utils)")
    page.heading("Legs by mode")
    if "modes.png" in figures:
        page.image(
            "modes.png",
            "Share of legs, and mean minutes of the legs that arrived, by mode. Legs by transit "
            "include the wait at the stop.",
        )
    heads = {
        "iteration": "iteration",
        "mode": "mode",
        "legs": "legs",
        "arrived": "arrived",
        "share": "share",
        "mean_seconds": "mean seconds",
    }
    page.table(modes, heads, folded="" if len(modes) < 12 else "Legs by mode in numbers")


def day_section(page: Page, day: DayTables, scenario: Scenario, figures: set[str]) -> None:
    """The section of an iteration."""
    place = f"it.{day.iteration}"
    page.section(place, f"Iteration {day.iteration}")
    page.text("Counted in two ways, with the same result:")
    laws = {"what": [x.what for x in day.laws], "count": [x.left for x in day.laws]}
    page.table(pd.DataFrame(laws))
    if "legs.png" in figures:
        page.heading("Legs by time of day")
        caption = "Legs en route, and departures, arrivals and stuck legs in each five minutes."
        page.image(f"{place}/legs.png", caption)
    if "volumes.png" in figures:
        _links(page, day, scenario, place)
    if "transit.png" in figures:
        _transit(page, day, place, figures)
    _trips(page, day)
    if len(day.stuck):
        page.heading("Stuck")
        grouped = day.stuck.groupby(["mode", "state", "why"]).size().rename("persons")
        page.table(grouped.reset_index())
        first = day.stuck.head(50).assign(time=day.stuck["second"].map(time_of_day))
        heads = {x: x for x in ("time", "person", "mode", "link", "state", "why")}
        page.table(first, heads, folded=f"The first {len(first)} of {len(day.stuck):,}")
    page.heading("Files")
    names = [name for name in FILES if (page.folder / place / name).exists()]
    page.files([(f"{place}/{name}", FILES[name]) for name in names])


def _links(page: Page, day: DayTables, scenario: Scenario, place: str) -> None:
    """Maps and tables of links."""
    page.heading("Volumes")
    page.image(
        f"{place}/volumes.png",
        "Volumes. The width is the day's vehicles; the colour is the fullest hour against the "
        "capacity times the flow factor. Each line is drawn to the right of its direction.",
    )
    page.heading("Speeds")
    page.image(
        f"{place}/speeds.png",
        "Speeds. The colour is the mean speed of cars against that of an empty link; the width "
        "is the time that cars lost on the link in the day. Dark and wide is a jam.",
    )
    page.image(f"{place}/hours.png", "Vehicle kilometres, and the speed of cars, by hour.")
    worst = day.links[day.links["lost_hours"] > 0].nlargest(MOST, "lost_hours")
    ends = scenario.network.links
    worst = worst.assign(
        ends=[f"{ends[x].start} → {ends[x].end}" for x in worst["link"]],
        hour=[f"{x}:00" for x in worst["fullest_hour"]],
    )
    heads = {
        "link": "link",
        "ends": "from → to",
        "vehicles": "vehicles in the day",
        "hour": "fullest hour",
        "vehicles_then": "vehicles then",
        "share_of_capacity": "share of capacity",
        "lost_hours": "vehicle hours lost",
        "speed_share": "share of free speed",
    }
    page.heading("Where most time is lost")
    page.table(worst, heads)


def _transit(page: Page, day: DayTables, place: str, figures: set[str]) -> None:
    """Lateness, loads and stops."""
    page.heading("Transit: lateness and loads")
    page.image(
        f"{place}/transit.png",
        "Lateness of arrivals at stops by hour, and the largest load of each departure. "
        "A negative lateness is an early arrival.",
    )
    lines = late_summary(day.calls, "line")
    grouped = day.vehicles.groupby("line")
    lines["boardings"] = lines["line"].map(grouped["boardings"].sum())
    lines["max_load"] = lines["line"].map(grouped["max_load"].max())
    lines["seats"] = lines["line"].map(grouped["seats"].max())
    heads = {
        "line": "line",
        "calls": "calls",
        "mean": "mean late (s)",
        "p95": "95 % below (s)",
        "worst": "worst (s)",
        "boardings": "boardings",
        "max_load": "largest load",
        "seats": "seats",
    }
    page.table(lines, heads)
    unserved = int((day.vehicles["calls_planned"] - day.vehicles["calls_served"]).sum())
    if unserved:
        page.text(f"{unserved:,} planned calls were not served before the day ended.", "note")
    if "stops.png" in figures:
        page.heading("Stops")
        page.image(f"{place}/stops.png", "The 20 busiest stops.")
        use = day.stops["boardings"] + day.stops["alightings"]
        busy = day.stops.assign(use=use).nlargest(MOST, "use")
        heads = {
            "stop": "stop",
            "boardings": "boardings",
            "alightings": "alightings",
            "calls": "calls",
            "mean_late_seconds": "mean late (s)",
            "mean_wait_seconds": "mean wait (s)",
            "longest_wait_seconds": "longest wait (s)",
        }
        page.table(busy[busy["use"] > 0], heads)


def _trips(page: Page, day: DayTables) -> None:
    """Trips by mode."""
    if not len(day.trips):
        return
    page.heading("Trips by mode")
    grouped = day.trips.groupby("mode")
    came = day.trips[day.trips["status"] == "arrived"].groupby("mode")
    frame = pd.DataFrame({"trips": grouped.size(), "arrived": came.size()})
    frame["minutes"] = came["seconds"].mean() / 60
    frame["p95"] = came["seconds"].quantile(0.95) / 60
    frame["beeline"] = grouped["beeline_m"].mean() / 1000
    frame["driven"] = grouped["driven_m"].mean() / 1000
    frame.loc[frame["driven"] == 0, "driven"] = np.nan
    frame["arrived"] = frame["arrived"].fillna(0).astype(np.int64)
    heads = {
        "mode": "mode",
        "trips": "trips",
        "arrived": "arrived",
        "minutes": "mean minutes",
        "p95": "95 % below (minutes)",
        "beeline": "mean beeline (km)",
        "driven": "mean driven by car (km)",
    }
    page.table(frame.reset_index(), heads)


GEH_HEADS = {
    "hour": "hour",
    "counts": "link hours",
    "counted": "counted",
    "simulated": "simulated",
    "r": "r",
    "geh_below_5": "share of GEH < 5",
    "busy_counts": "of these over 100 vehicles",
    "busy_geh_below_5": "their share of GEH < 5",
}


def counts_section(page: Page, frame: Frame, table: Frame, what: str) -> None:
    """Counts against volumes."""
    page.section("counts", "Against counts")
    page.text(
        f"{what}. GEH is for hourly volumes; of a whole day a tenth stands for the peak hour. "
        "The usual bar is GEH below 5 for 85 % of counts."
    )
    page.image("counts.png", "Counts against simulated volumes. Each mark is a link and an hour.")
    page.table(table, GEH_HEADS)
    worst = frame.nlargest(MOST, "geh")
    page.table(worst, folded="Counts with the largest GEH")


def against_section(
    page: Page, name: str, frame: Frame, table: Frame, modes: Frame, scores: Frame | None
) -> None:
    """Two runs."""
    page.section("against", "Against another run")
    day = frame.groupby("link")[["simulated", "counted"]].sum()
    r = correlation(day["simulated"].to_numpy(float), day["counted"].to_numpy(float))
    page.text(
        f"The last iteration of this run against that of {name}, each divided by its flow factor. "
        f"Correlation of the day's volumes by link: {'–' if r is None else f'{r:.4f}'}."
    )
    page.image("against.png", "Volumes of both runs. Each mark is a link and an hour.")
    page.table(table, GEH_HEADS | {"counted": "other run", "simulated": "this run"})
    page.heading("Legs by mode")
    heads = ("mode", "legs", "other run", "mean seconds", "other run", "difference")
    page.table(modes, dict(zip(modes.columns, heads)))
    if scores is not None:
        page.heading("Mean scores (utils)")
        page.table(scores)
