"""The figures of the report, drawn by matplotlib with colours for the colour-blind."""

from __future__ import annotations

from collections.abc import Iterator
from contextlib import contextmanager
from pathlib import Path
from typing import Any

import matplotlib
import numpy as np

from qsim_tools.report_days import LinkHours, Scenario

matplotlib.use("Agg")
import matplotlib.pyplot as plt  # noqa: E402
from matplotlib.ticker import FuncFormatter, MaxNLocator, MultipleLocator  # noqa: E402

Frame = Any
# Okabe and Ito's palette
COLOURS = {
    "car": "#0072B2",
    "pt": "#D55E00",
    "walk": "#009E73",
    "bike": "#CC79A7",
    "ride": "#E69F00",
}
STYLES = {"car": "-", "pt": "--", "walk": "-.", "bike": ":", "ride": (0, (5, 1, 1, 1, 1, 1))}
MARKERS = {"car": "o", "pt": "s", "walk": "^", "bike": "D", "ride": "v"}
DARK, GREY, RED = "#222222", "#777777", "#D55E00"


@contextmanager
def figure(path: Path, wide: float, high: float, columns: int = 1, rows: int = 1) -> Iterator[Any]:
    """Open a figure of some panels, and save it as a PNG."""
    style = {"font.size": 9, "axes.spines.top": False, "axes.spines.right": False}
    with plt.rc_context(style):
        look: dict[str, Any] = {"figsize": (wide, high), "layout": "constrained"}
        chart, axes = plt.subplots(rows, columns, sharex=rows > 1, **look)
        for axis in np.atleast_1d(axes):
            axis.grid(True, color="#dddddd", linewidth=0.6)
            axis.set_axisbelow(True)
        try:
            yield axes
            chart.savefig(path, dpi=110, format="png")
        finally:
            plt.close(chart)


def clock(axis: Any, last: float) -> None:
    """Label a horizontal axis in hours of the day."""
    axis.set_xlim(0, last)
    axis.xaxis.set_major_locator(MultipleLocator(3 if last > 12 else 1))
    axis.xaxis.set_major_formatter(FuncFormatter(lambda x, _: f"{x:g}:00"))
    axis.tick_params(axis="x", rotation=0, labelsize=8)


def thousands(axis: Any) -> None:
    """Label a vertical axis with thousands apart."""
    axis.yaxis.set_major_formatter(FuncFormatter(lambda y, _: f"{y:,.0f}"))


def scores(path: Path, frame: Frame) -> None:
    """Mean scores over the iterations."""
    lines = (
        ("best", "#009E73", "--", "best plan"),
        ("executed", "#0072B2", "-", "executed plan"),
        ("average", "#E69F00", "-.", "average of plans"),
        ("worst", "#D55E00", ":", "worst plan"),
    )
    with figure(path, 7.5, 3.6) as axis:
        for name, colour, style, label in lines:
            if frame[name].notna().any():
                axis.plot(frame["iteration"], frame[name], style, color=colour, label=label, lw=1.8)
        axis.set(xlabel="iteration", ylabel="mean score of a person (utils)")
        axis.xaxis.set_major_locator(MaxNLocator(integer=True))
        axis.legend(frameon=False, loc="center left", bbox_to_anchor=(1, 0.5))


def modes(path: Path, frame: Frame) -> None:
    """Legs and mean minutes by mode over the iterations."""
    with figure(path, 10, 3.6, 2) as axes:
        for mode, rows in frame.groupby("mode"):
            style = {"color": COLOURS[mode], "ls": STYLES[mode], "label": mode, "lw": 1.8}
            marker = {"marker": MARKERS[mode], "ms": 3.5}
            axes[0].plot(rows["iteration"], rows["share"] * 100, **style, **marker)
            axes[1].plot(rows["iteration"], rows["mean_seconds"] / 60, **style, **marker)
        axes[0].set(xlabel="iteration", ylabel="share of legs (%)", ylim=(0, None))
        axes[1].set(xlabel="iteration", ylabel="mean minutes of a leg", ylim=(0, None))
        for axis in axes:
            axis.xaxis.set_major_locator(MaxNLocator(integer=True))
        axes[1].legend(frameon=False, loc="center left", bbox_to_anchor=(1, 0.5))


def legs(path: Path, frame: Frame) -> None:
    """Departures, arrivals, en route and stuck by time of day; a panel for each mode."""
    names = [name for name in COLOURS if name in set(frame["mode"])]
    ended = frame[(frame["departures"] + frame["arrivals"] + frame["en_route"]) > 0]
    last = max(24.0, float(ended["second"].max() + 300) / 3600 if len(ended) else 24.0)
    with figure(path, 10, 1.2 + 1.9 * len(names), rows=len(names)) as panels:
        axes = np.atleast_1d(panels)
        for axis, name in zip(axes, names):
            _mode_legs(axis, name, frame[frame["mode"] == name])
        clock(axes[-1], last)
        axes[-1].set_xlabel("time of day")
        axes[0].legend(loc="lower left", bbox_to_anchor=(0, 1.02), ncol=4, frameon=False)


def _mode_legs(axis: Any, name: str, rows: Frame) -> None:
    """The panel of a mode."""
    hours = rows["second"] / 3600
    axis.fill_between(hours, rows["en_route"], color=COLOURS[name], alpha=0.18, lw=0, step="post")
    lines = (
        ("en_route", COLOURS[name], "-", 1.8, "en route"),
        ("departures", DARK, "-", 0.9, "departures in 5 minutes"),
        ("arrivals", GREY, "--", 0.9, "arrivals in 5 minutes"),
        ("stuck", "#CC3311", ":", 1.6, "stuck in 5 minutes"),
    )
    for column, colour, style, width, label in lines:
        axis.plot(hours, rows[column], style, color=colour, lw=width, label=label, ds="steps-post")
    axis.set(ylabel=f"legs by {name}", ylim=(0, None))
    thousands(axis)


def hours(path: Path, volumes: LinkHours, scenario: Scenario) -> None:
    """Vehicle kilometres and the mean share of free speed by hour, of the whole network."""
    km = (volumes.vehicles * scenario.length[:, None]).sum(axis=0) / 1e5
    bus_km = (volumes.buses * scenario.length[:, None]).sum(axis=0) / 1e5
    free = (volumes.seen * scenario.least[:, None]).sum(axis=0)
    taken = volumes.seconds.sum(axis=0)
    share = np.full(len(taken), np.nan)
    share[taken > 0] = free[taken > 0] / taken[taken > 0]
    hour = np.arange(len(km)) + 0.5
    with figure(path, 10, 3.3, 2) as axes:
        axes[0].bar(hour, km - bus_km, width=0.9, color=COLOURS["car"], label="cars")
        if bus_km.any():
            look = {"bottom": km - bus_km, "color": COLOURS["pt"], "label": "buses"}
            axes[0].bar(hour, bus_km, width=0.9, **look)
        axes[0].set(xlabel="time of day", ylabel="vehicle kilometres in the hour")
        axes[0].legend(frameon=False)
        thousands(axes[0])
        axes[1].plot(hour, share * 100, "-o", color=COLOURS["car"], ms=4)
        axes[1].set(xlabel="time of day", ylabel="speed of cars (% of free speed)", ylim=(0, 105))
        for axis in axes:
            clock(axis, len(km))


def stops(path: Path, frame: Frame) -> None:
    """Boardings and alightings of the busiest stops."""
    use = frame["boardings"] + frame["alightings"]
    rows = frame[use > 0].assign(use=use).nlargest(20, "use").iloc[::-1]
    with figure(path, 7.5, 1.2 + 0.24 * len(rows)) as axis:
        place = np.arange(len(rows))
        axis.barh(place + 0.2, rows["boardings"], 0.4, color=COLOURS["car"], label="boardings")
        axis.barh(place - 0.2, rows["alightings"], 0.4, color=COLOURS["ride"], label="alightings")
        axis.set_yticks(place, [_short(name) for name in rows["stop"]])
        axis.set(xlabel="persons in the day")
        axis.grid(False, axis="y")
        axis.legend(frameon=False, loc="lower right")


def _short(name: str) -> str:
    """A name that is not too wide for a label."""
    return name if len(name) <= 28 else f"{name[:12]}..{name[-14:]}"


def transit(path: Path, calls: Frame, vehicles: Frame) -> None:
    """Lateness of calls by hour, and how full vehicles were at most."""
    with figure(path, 10, 3.4, 2) as axes:
        hour = calls["planned"] // 3600
        late = calls["late_seconds"].groupby(hour)
        at = np.array(list(late.groups)) + 0.5
        axes[0].plot(at, late.quantile(0.95) / 60, "--s", color=RED, ms=4, label="95 % are below")
        axes[0].plot(at, late.mean() / 60, "-o", color=COLOURS["car"], ms=4, label="mean")
        axes[0].axhline(0, color=GREY, lw=0.8)
        axes[0].set(xlabel="planned time of the call", ylabel="arrivals late by (minutes)")
        clock(axes[0], max(24, int(hour.max()) + 1))
        axes[0].legend(frameon=False)
        full = vehicles["max_load"] / vehicles["seats"] * 100
        axes[1].hist(full, bins=np.arange(0, 105, 5), color=COLOURS["car"], edgecolor="white")
        axes[1].set(xlabel="largest load (% of seats)", ylabel="departures", xlim=(0, 100))
        axes[1].yaxis.set_major_locator(MaxNLocator(integer=True))


def scatter(path: Path, frame: Frame, names: tuple[str, str], what: str) -> None:
    """Two volumes of each link and hour, with the lines where GEH is 5."""
    with figure(path, 5.4, 5.0) as axis:
        good = frame["geh"] < 5
        for mask, colour, mark, label in (
            (good, COLOURS["car"], "o", "GEH below 5"),
            (~good, RED, "x", "GEH 5 or more"),
        ):
            rows = frame[mask]
            label = f"{label}: {len(rows):,}"
            style = {"color": colour, "marker": mark, "s": 10, "alpha": 0.6, "linewidths": 0.9}
            axis.scatter(rows["counted"], rows["simulated"], label=label, **style)
        top = max(float(frame["counted"].max()), float(frame["simulated"].max()), 1.0) * 1.05
        line = np.linspace(0, top, 400)
        axis.plot(line, line, color=DARK, lw=0.9)
        # GEH = 5 at m = c + 25/4 + sqrt(25 c + 625/16), and at its mirror image
        upper = line + 6.25 + np.sqrt(25 * line + 39.0625)
        axis.plot(line, upper, "--", color=GREY, lw=0.9, label="GEH = 5 (an hour)")
        axis.plot(upper, line, "--", color=GREY, lw=0.9)
        axis.set(xlabel=f"{names[1]} ({what})", ylabel=f"{names[0]} ({what})")
        axis.set(xlim=(0, top), ylim=(0, top), aspect="equal")
        axis.legend(frameon=False, loc="upper left", fontsize=8)
