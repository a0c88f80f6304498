"""Simulated volumes against counts, or against those of another run, by GEH."""

from __future__ import annotations

import csv
from pathlib import Path
from typing import Any

import numpy as np
import pandas as pd
from numpy.typing import NDArray

from qsim_tools.files import FileFault
from qsim_tools.report_days import LinkHours, Scenario

Frame = Any
Floats = NDArray[np.float64]
WHOLE_DAY = "day"
PEAK_SHARE = 0.1
BUSY = 100


def geh(model: Floats, count: Floats) -> Floats:
    """The GEH statistic of hourly volumes; that of two zeros is zero."""
    total = np.asarray(model, dtype=float) + count
    square: Floats = 2 * (model - count) ** 2 / np.where(total > 0, total, 1)
    return np.sqrt(square)


def read_counts(path: Path, scenario: Scenario) -> Frame:
    """Read counts.csv: link, hour (0 to 47, or `day`), vehicles."""
    rows = []
    with open(path, encoding="utf-8-sig", newline="") as source:
        try:
            for number, fields in enumerate(csv.reader(source)):
                if number == 0 and fields != ["link", "hour", "vehicles"]:
                    raise FileFault(path, 0, "the header is not link,hour,vehicles")
                if number > 0 and fields:
                    rows.append(_count(path, number, fields, scenario))
        except UnicodeDecodeError:
            raise FileFault(path, None, "no UTF-8") from None
    if not rows:
        raise FileFault(path, None, "there is no count")
    frame = pd.DataFrame(rows, columns=["link", "hour", "counted"])
    twice = frame.duplicated(["link", "hour"])
    if twice.any():
        row = frame[twice].iloc[0]
        raise FileFault(path, None, f"link {row['link']} hour {row['hour']} is there twice")
    return frame


def _count(
    path: Path, number: int, fields: list[str], scenario: Scenario
) -> tuple[str, str, float]:
    """A row of counts.csv."""
    if len(fields) != 3:
        raise FileFault(path, number, f"{len(fields)} fields in place of 3")
    link, hour, vehicles = fields
    if link not in scenario.network.links:
        raise FileFault(path, number, f"link {link} is not in links.csv")
    if hour != WHOLE_DAY and not (hour.isdecimal() and int(hour) < 48):
        raise FileFault(path, number, f"hour {hour!r} is neither 0 to 47 nor {WHOLE_DAY}")
    try:
        value = float(vehicles)
    except ValueError:
        value = float("nan")
    if not 0 <= value < 1e9:
        raise FileFault(path, number, f"vehicles {vehicles!r} is no number of vehicles")
    return link, hour if hour == WHOLE_DAY else str(int(hour)), value


def with_counts(counts: Frame, volumes: Floats, scenario: Scenario) -> Frame:
    """Each count with the simulated volume of its link and hour, and their GEH."""
    numbers = {name: k for k, name in enumerate(scenario.network.links)}
    simulated = []
    for link, hour in zip(counts["link"], counts["hour"]):
        row = volumes[numbers[link]]
        if hour == WHOLE_DAY:
            simulated.append(float(row.sum()))
        else:
            simulated.append(float(row[int(hour)]) if int(hour) < len(row) else 0.0)
    return _compared(counts.assign(simulated=np.array(simulated)))


def _compared(frame: Frame) -> Frame:
    """Add difference and GEH; of a whole day a tenth stands for the peak hour."""
    share = np.where(frame["hour"] == WHOLE_DAY, PEAK_SHARE, 1.0)
    simulated, counted = frame["simulated"].to_numpy(float), frame["counted"].to_numpy(float)
    values = geh(simulated * share, counted * share)
    return frame.assign(difference=(simulated - counted).round(2), geh=values.round(3))


def geh_table(frame: Frame) -> Frame:
    """A row for each hour and one for all: sums, correlation, and shares of GEH below 5."""
    hours = sorted(set(frame["hour"]), key=lambda x: 48 if x == WHOLE_DAY else int(x))
    groups = [(hour, frame[frame["hour"] == hour]) for hour in hours]
    if len(groups) > 1:
        groups.append(("all", frame))
    return pd.DataFrame([_geh_row(name, group) for name, group in groups])


def _geh_row(name: str, frame: Frame) -> dict[str, object]:
    """The row of an hour."""
    simulated, counted = frame["simulated"].to_numpy(float), frame["counted"].to_numpy(float)
    share = np.where(frame["hour"] == WHOLE_DAY, PEAK_SHARE, 1.0)
    busy = (simulated + counted) * share > 2 * BUSY
    good = frame["geh"].to_numpy() < 5
    return {
        "hour": name,
        "counts": len(frame),
        "counted": round(float(counted.sum()), 1),
        "simulated": round(float(simulated.sum()), 1),
        "r": correlation(simulated, counted),
        "geh_below_5": round(float(good.mean()), 4),
        "busy_counts": int(busy.sum()),
        "busy_geh_below_5": round(float(good[busy].mean()), 4) if busy.any() else None,
    }


def correlation(a: Floats, b: Floats) -> float | None:
    """The correlation of two columns, or nothing where one of them does not vary."""
    if len(a) < 2 or a.std() == 0 or b.std() == 0:
        return None
    return round(float(np.corrcoef(a, b)[0, 1]), 4)


def two_runs(mine: tuple[Scenario, LinkHours], other: tuple[Scenario, LinkHours]) -> Frame:
    """The volumes of two runs by link and hour, where either has a vehicle.

    Each is divided by the flow factor of its run. `counted` is the other run's volume.
    """
    columns = []
    for name, (scenario, hours) in (("simulated", mine), ("counted", other)):
        link, hour = np.nonzero(hours.vehicles)
        names = np.array(list(scenario.network.links), dtype=object)
        volume = hours.vehicles[link, hour] / scenario.factor
        frame = pd.DataFrame({"link": names[link], "hour": hour.astype(str), name: volume})
        columns.append(frame.set_index(["link", "hour"]))
    both = columns[0].join(columns[1], how="outer").fillna(0.0).reset_index()
    return _compared(both[["link", "hour", "counted", "simulated"]])


def mode_table(
    mine: dict[str, tuple[int, int, float]], other: dict[str, tuple[int, int, float]]
) -> Frame:
    """Legs and mean seconds by mode of two runs."""
    rows = []
    for mode in sorted(set(mine) | set(other)):
        a, b = (x.get(mode, (0, 0, float("nan"))) for x in (mine, other))
        rows.append((mode, a[0], b[0], round(a[2], 1), round(b[2], 1), round(a[2] - b[2], 1)))
    names = ["mode", "legs", "other_legs", "mean_seconds", "other_mean_seconds", "difference"]
    return pd.DataFrame(rows, columns=names)
