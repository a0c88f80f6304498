"""Maps of the network: volumes, speeds, and the same as GeoJSON in WGS84."""

from __future__ import annotations

import json
from pathlib import Path
from typing import Any

import numpy as np
from matplotlib import colormaps
from matplotlib.collections import LineCollection
from matplotlib.colors import LinearSegmentedColormap
from numpy.typing import NDArray

from qsim_tools.files import FileFault
from qsim_tools.report_days import Scenario
from qsim_tools.report_plots import figure

Frame = Any
Floats = NDArray[np.float64]


def segments(scenario: Scenario, shift: float) -> Floats:
    """Each link as two points in metres, moved to the right of its direction by a shift."""
    nodes = scenario.network.nodes
    links = scenario.network.links.values()
    a = np.array([(nodes[x.start].x, nodes[x.start].y) for x in links]).reshape(-1, 2) / 100
    b = np.array([(nodes[x.end].x, nodes[x.end].y) for x in links]).reshape(-1, 2) / 100
    way = b - a
    size = np.hypot(*way.T)[:, None]
    right = np.stack([way[:, 1], -way[:, 0]], axis=1) / np.where(size > 0, size, 1) * shift
    return np.stack([a + right, b + right], axis=1)


def draw(
    path: Path, scenario: Scenario, values: Floats, widths: Floats, look: dict[str, Any]
) -> None:
    """Draw links in the colours of their values; those without a value are thin and grey."""
    points = segments(scenario, 0.0)
    low, high = points.reshape(-1, 2).min(axis=0), points.reshape(-1, 2).max(axis=0)
    wide, high_m = np.maximum(high - low, 100.0)
    ratio = min(max(high_m / wide, 0.45), 1.7)
    known = np.isfinite(values)
    order = np.argsort(np.where(known, widths, -1), kind="stable")
    order = order[known[order]]
    moved = segments(scenario, 0.0012 * max(wide, high_m))
    size = (7.2, 7.2 * ratio) if ratio <= 1 else (9.5 / ratio + 1.3, 9.5)
    with figure(path, *size) as axis:
        axis.grid(False)
        axis.add_collection(LineCollection(points, colors="#bbbbbb", linewidths=0.35))
        lines = LineCollection(
            moved[order], array=values[order], cmap=look["cmap"], linewidths=widths[order]
        )
        lines.set_clim(*look["range"])
        lines.set_capstyle("round")
        axis.add_collection(lines)
        axis.set_aspect("equal")
        axis.set_xlim(low[0] - 0.02 * wide, high[0] + 0.02 * wide)
        axis.set_ylim(low[1] - 0.02 * high_m, high[1] + 0.02 * high_m)
        axis.set_axis_off()
        bar = axis.figure.colorbar(lines, ax=axis, shrink=0.6, extend=look["extend"], pad=0.01)
        bar.set_label(look["label"])
        _scale(axis, low, wide, high_m)
        axis.set_title(look["title"], fontsize=10, loc="left")


def _scale(axis: Any, low: Floats, wide: float, high: float) -> None:
    """Draw a bar of a round length, and its length."""
    raw = wide / 4
    power = 10.0 ** np.floor(np.log10(raw))
    length = max(x * power for x in (1, 2, 5) if x * power <= raw)
    x, y = low[0], low[1] - 0.005 * high
    axis.plot([x, x + length], [y, y], color="#222222", lw=2, solid_capstyle="butt")
    text = f"{length / 1000:g} km" if length >= 1000 else f"{length:g} m"
    axis.text(x + length / 2, y + 0.008 * high, text, ha="center", va="bottom", fontsize=8)


def volumes(path: Path, scenario: Scenario, links: Frame, iteration: int) -> None:
    """The day's vehicles as width, and the fullest hour against the capacity as colour."""
    day = links["vehicles"].to_numpy(float)
    top = max(float(day.max(initial=0)), 1.0)
    share = np.where(day > 0, links["share_of_capacity"].to_numpy(float), np.nan)
    look = {
        "cmap": "viridis_r",
        "range": (0, 1),
        "extend": "max",
        "label": "vehicles in the fullest hour / capacity",
        "title": f"Volumes of iteration {iteration}; widest: {top:,.0f} vehicles in the day",
    }
    draw(path, scenario, share, 0.5 + 4.5 * day / top, look)


def speeds(path: Path, scenario: Scenario, links: Frame, iteration: int) -> None:
    """The mean speed of the day's cars against free speed as colour."""
    share = links["speed_share"].to_numpy(float)
    lost = np.where(np.isfinite(share), links["lost_hours"].to_numpy(float), 0)
    top = max(float(lost.max(initial=0)), 1e-9)
    shades = colormaps["magma"](np.linspace(0, 0.92, 256))
    look = {
        "cmap": LinearSegmentedColormap.from_list("jam", shades),
        "range": (0, 1),
        "extend": "neither",
        "label": "mean speed of the day's cars / free speed",
        "title": f"Speeds of iteration {iteration}; widest: {top:,.1f} vehicle hours lost",
    }
    draw(path, scenario, np.minimum(share, 1), 0.6 + 4.6 * np.sqrt(lost / top), look)


def to_wgs84(crs: str, points: Floats) -> Floats:
    """Points in metres of a coordinate system as longitude and latitude."""
    from pyproj import Transformer
    from pyproj.exceptions import ProjError

    try:
        change = Transformer.from_crs(crs, "EPSG:4326", always_xy=True)
        lon, lat = change.transform(points[..., 0], points[..., 1], errcheck=True)
    except ProjError as error:
        raise FileFault(f"--crs {crs}", None, str(error)) from None
    both: Floats = np.stack([lon, lat], axis=-1)
    return both.round(6)


def geojson(path: Path, scenario: Scenario, links: Frame, hours: Frame, crs: str) -> None:
    """Write all links as lines with the columns of the day, and the volumes of each hour."""
    shape = to_wgs84(crs, segments(scenario, 0.0))
    by_hour: dict[str, dict[str, int]] = {}
    for link, hour, vehicles in zip(hours["link"], hours["hour"], hours["vehicles"]):
        by_hour.setdefault(link, {})[f"h{hour:02}"] = int(vehicles)
    clean = links.astype(object).where(links.notna(), None)
    with open(path, "w", encoding="utf-8") as out:
        out.write('{"type": "FeatureCollection", "features": [\n')
        rows = zip(scenario.network.links.values(), clean.to_dict("records"), shape.tolist())
        for number, (link, row, line) in enumerate(rows):
            extra = {"capacity": link.capacity, "lanes": link.lanes, "length_m": link.length / 100}
            feature = {
                "type": "Feature",
                "geometry": {"type": "LineString", "coordinates": line},
                "properties": {**row, **extra, **by_hour.get(link.name, {})},
            }
            out.write((",\n" if number else "") + json.dumps(feature))
        out.write("\n]}\n")
