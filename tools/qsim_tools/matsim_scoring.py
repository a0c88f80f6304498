"""MATSim's scoring parameters as tables and as worths of modes.

An activity of typical duration `t` (hours) is worth `performing * t * ln(d / z)` after `d` hours,
where `z` is its zero-utility duration: `t * exp(-1 / priority)` by the relative rule and
`t * exp(-10 / (t * priority))` by the uniform one. Below `z` the line of that slope goes on. A
table has the values of some durations, and the program draws straight lines between them.
"""

from __future__ import annotations

import json
import math
from fractions import Fraction

from qsim_tools.files import FileFault, Limits, Settings, Table, Worth
from qsim_tools.matsim_config import Config, Group
from qsim_tools.matsim_losses import Losses
from qsim_tools.matsim_units import decimal, half_up, seconds

MICRO = 1_000_000
POINTS = 32
BOUND = 10**12
MODE_NAMES = {"car": "car", "walk": "walk", "bike": "bike", "ride": "ride", "pt": "pt"}
OLD_MODES = {"car": "", "pt": "Pt", "walk": "Walk", "bike": "Bike", "ride": "Ride"}


def bounded(value: Fraction | float, low: int, high: int) -> int:
    """Round half up and cut to a range."""
    if isinstance(value, float) and not math.isfinite(value):
        return high if value > 0 else low
    return min(max(half_up(value), low), high)


def per_second(hourly: Fraction) -> int:
    """Utils an hour as micro-utils a second."""
    return bounded(hourly * MICRO / 3600, -MICRO, MICRO)


def zero_duration(typical: float, priority: float, uniform: bool) -> float:
    """The zero-utility duration of an activity; all in hours."""
    return typical * math.exp(-10 / (typical * priority) if uniform else -1 / priority)


def worth_of(duration: float, performing: float, typical: float, zero: float) -> float:
    """What an activity is worth after a duration; all in hours and utils."""
    if duration >= zero:
        return performing * typical * math.log(duration / zero)
    return performing * typical / zero * (duration - zero)


def points_of(performing: float, typical: float, zero: float) -> list[tuple[int, int]]:
    """The points of a table: at 0, and from the zero duration to two days by equal ratios."""
    low = min(max(1, round(zero * 3600)), Limits.SECOND - 1)
    ratio = (Limits.SECOND / low) ** (1 / (POINTS - 2))
    places = {0, Limits.SECOND}
    places.update(round(low * ratio**step) for step in range(POINTS - 2))
    points = []
    for second in sorted(places):
        value = worth_of(second / 3600, performing, typical, zero)
        points.append((second, bounded(value * MICRO, -BOUND, BOUND)))
    return points


class Scoring:
    """The scoring module of a config; several sets of scoring parameters are by subpopulation."""

    def __init__(self, config: Config, losses: Losses) -> None:
        self.config, self.losses = config, losses
        module = config.module("planCalcScore")
        self.module = module
        groups = module.of_kind("scoringParameters")
        chosen = next((g for g in groups if g.text("subpopulation") in (None, "default")), None)
        chosen = chosen or (groups[0] if groups else None)
        losses.note("config: scoring of a further subpopulation dropped", "", len(groups) - 1)
        self.groups = [module] if chosen is None else [chosen, module]

    def number(self, key: str, default: Fraction) -> Fraction:
        """A number of the chosen set or of the module itself."""
        for group in self.groups:
            if key in group.values:
                return group.number(key, default)
        return default

    def sets(self, kind: str) -> list[Group]:
        """The parametersets of a kind."""
        return [row for group in self.groups for row in group.of_kind(kind)]

    def apply(self, settings: Settings, kinds: dict[str, tuple[str, int]]) -> None:
        """Set what days are worth; kinds are names and counts by type of activity."""
        late = self.number("lateArrival", Fraction(-18))
        settings.late_per_second = min(per_second(late), 0)
        travel = self._modes(settings)
        early = self.number("earlyDeparture", Fraction(0))
        waiting = self.number("waiting", Fraction(0))
        worst = min(late, early, waiting, *travel) * 24
        settings.stuck = bounded(worst * MICRO, -BOUND, 0)
        beta = self.number("BrainExpBeta", self.number("brainExpBeta", Fraction(1)))
        unit = math.log(2) / float(beta) * MICRO if beta > 0 else math.inf
        settings.logit_unit = bounded(unit, 1, BOUND)
        for key, value in (("earlyDeparture", early), ("waiting", waiting)):
            self.losses.note(f"config: {key} dropped", str(float(value)), int(value != 0))
        settings.tables = self._tables(kinds)

    def _modes(self, settings: Settings) -> list[Fraction]:
        """Set the worths of the modes; the utils an hour of those that have any come back."""
        travel = []
        rows: dict[str, tuple[Fraction, Fraction]] = {}
        for mode, tail in OLD_MODES.items():
            name = f"constant{tail or 'Car'}"
            if f"traveling{tail}" in self.module.values or name in self.module.values:
                hourly = self.number(f"traveling{tail}", Fraction(-6))
                rows[mode] = hourly, self.number(name, Fraction(0))
        for group in self.sets("modeParams"):
            mode = group.text("mode") or ""
            hourly = group.number("marginalUtilityOfTraveling_util_hr", Fraction(-6))
            rows[mode] = hourly, group.number("constant", Fraction(0))
            for key in ("marginalUtilityOfDistance_util_m", "monetaryDistanceRate"):
                value = group.number(key, Fraction(0))
                self.losses.note(f"config: {key} dropped", mode, int(value != 0))
            for key in ("dailyMonetaryConstant", "dailyUtilityConstant"):
                value = group.number(key, Fraction(0))
                self.losses.note(f"config: {key} dropped", mode, int(value != 0))
        for mode, (hourly, constant) in rows.items():
            travel.append(hourly)
            if mode in MODE_NAMES:
                whole = bounded(constant * MICRO, -BOUND, BOUND)
                settings.modes[mode] = Worth(whole, per_second(hourly))
            else:
                self.losses.note("config: scoring of a mode without counterpart dropped", mode)
        for mode in MODE_NAMES:
            settings.modes.setdefault(mode, Worth(0, per_second(Fraction(-6))))
        return travel or [Fraction(-6)]

    def _tables(self, kinds: dict[str, tuple[str, int]]) -> list[Table]:
        """The tables of the kinds that plans have, the most frequent ones first to stay."""
        performing = float(self.number("performing", Fraction(6)))
        own = self._own_tables()
        tables: dict[str, Table] = {}
        for group in self._activities():
            kind = group.text("activityType") or ""
            if kind not in kinds and kind not in own:
                self.losses.note("config: activity type that no plan has dropped", kind)
                continue
            table = self._table(group, kind, kinds.get(kind, (kind, 0))[0], performing, own)
            if table is not None:
                tables[kind] = table
        for kind, table in own.items():
            name = kinds.get(kind, (kind, 0))[0]
            tables.setdefault(kind, Table(name, table.points, table.latest))
        order = sorted(tables, key=lambda kind: -kinds.get(kind, ("", 0))[1])
        keep = set(order[:64])
        lost = len(tables) - len(keep)
        self.losses.note("config: activity type beyond 64 tables dropped", "", lost)
        return [table for kind, table in tables.items() if kind in keep]

    def _table(
        self, group: Group, kind: str, name: str, performing: float, own: dict[str, Table]
    ) -> Table | None:
        """The table of an activity type; None where it is not scored."""
        if (group.text("scoringThisActivityAtAll") or "true") != "true":
            return None
        latest = group.value("latestStartTime", seconds, None)
        for key in ("openingTime", "closingTime", "earliestEndTime", "minimalDuration"):
            if group.value(key, seconds, None) is not None:
                self.losses.note(f"config: {key} of an activity dropped", kind)
        if latest is not None and not 0 <= latest <= Limits.SECOND:
            self.losses.note("config: latestStartTime out of range dropped", kind)
            latest = None
        if kind in own:
            return Table(name, own[kind].points, latest)
        typical = group.value("typicalDuration", seconds, None)
        if not typical or typical <= 0:
            self.losses.note("config: activity type without typicalDuration dropped", kind)
            return None
        priority = float(group.number("priority", Fraction(1))) or 1.0
        uniform = group.text("typicalDurationScoreComputation", "relative") == "uniform"
        hours = typical / 3600
        zero = zero_duration(hours, priority, uniform)
        points = points_of(performing, hours, zero)
        self.losses.note("config: logarithm of an activity becomes a table", kind)
        return Table(name, points, latest)

    def _activities(self) -> list[Group]:
        """The activity types, those of v1 configs too."""
        rows = self.sets("activityParams")
        for key in list(self.module.values):
            if key.startswith("activityType_"):
                tail = key[len("activityType_") :]
                row = Group(self.config.path, "activityParams")
                row.values["activityType"] = self.module.values[key]
                self.module.used.add(key)
                for old in list(self.module.values):
                    if old.startswith("activity") and old.endswith(f"_{tail}") and old != key:
                        name = old[len("activity") : -len(tail) - 1]
                        row.values[name[0].lower() + name[1:]] = self.module.values[old]
                        self.module.used.add(old)
                rows.append(row)
        return rows

    def _own_tables(self) -> dict[str, Table]:
        """Tables that an export wrote point by point, by type."""
        module = self.config.module("qsimSettings")
        text = module.text("tables")
        if text is None:
            return {}
        try:
            return {
                row["kind"]: Table(
                    row["kind"], [(s, v) for s, v in row["points"]], row.get("latest")
                )
                for row in json.loads(text)
            }
        except (ValueError, TypeError, KeyError):
            line = f"line {module.values['tables'][1]}"
            raise FileFault(self.config.path, line, "tables: no list of tables") from None


def beta_text(unit: int) -> str:
    """BrainExpBeta of a logit_unit: the rate at which the weight halves once for each unit."""
    return repr(math.log(2) * MICRO / unit)


def hourly_text(micro: int) -> str:
    """Micro-utils a second as utils an hour, exactly."""
    return f"{decimal(str(micro)) * 3600 / MICRO:f}"
