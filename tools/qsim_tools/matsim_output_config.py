"""output_config.xml: the settings as MATSim's config (v2).

MATSim's own modules say what they can. The module qsimSettings has, as the program writes them, the
values for which MATSim has no parameter; an import takes these from there.
"""

from __future__ import annotations

import json
from collections.abc import Iterator
from dataclasses import replace
from decimal import Decimal
from xml.sax.saxutils import quoteattr

from qsim_tools.files import MODES, Settings, Table, plain_json
from qsim_tools.matsim_config import OWN
from qsim_tools.matsim_ids import Back
from qsim_tools.matsim_scoring import beta_text, hourly_text
from qsim_tools.matsim_units import clock, plain

STRATEGIES = {
    "weight_keep": "KeepLastSelected",
    "weight_best": "BestScore",
    "weight_random": "SelectRandom",
    "weight_logit": "SelectExpBeta",
    "weight_reroute": "ReRoute",
    "weight_time": "TimeAllocationMutator",
}
PERFORMING = 6


def _param(name: str, value: object, depth: int = 2) -> str:
    """A parameter."""
    tabs = "\t" * depth
    return f"{tabs}<param name={quoteattr(name)} value={quoteattr(str(value))}/>\n"


def _module(name: str, values: dict[str, object], sets: Iterator[str] = iter(())) -> Iterator[str]:
    """A module."""
    yield f"\t<module name={quoteattr(name)}>\n"
    for key, value in values.items():
        yield _param(key, value)
    yield from sets
    yield "\t</module>\n"


def _set(kind: str, values: dict[str, object]) -> Iterator[str]:
    """A parameterset."""
    yield f"\t\t<parameterset type={quoteattr(kind)}>\n"
    for key, value in values.items():
        yield _param(key, value, 3)
    yield "\t\t</parameterset>\n"


def permille_text(value: int) -> str:
    """Thousandths as a decimal."""
    return plain(Decimal(value) / 1000) if value % 1000 else str(value // 1000)


def micro_text(value: int) -> str:
    """Micro-utils as utils, exactly."""
    return plain(Decimal(value).scaleb(-6))


def typical_duration(table: Table) -> int:
    """Where the table's slope falls to MATSim's performing, as it does at a typical duration."""
    for (low, below), (high, above) in zip(table.points, table.points[1:]):
        if low > 0 and (above - below) * 3600 <= PERFORMING * 1_000_000 * (high - low):
            return low
    return table.points[-1][0] or 3600


def config_lines(
    settings: Settings, back: Back, kinds: set[str], crs: str | None, transit: bool
) -> Iterator[str]:
    """The lines of the file."""
    yield '<?xml version="1.0" encoding="UTF-8"?>\n'
    yield '<!DOCTYPE config SYSTEM "http://www.matsim.org/files/dtd/config_v2.dtd">\n<config>\n'
    place = crs or "Atlantis"
    yield from _module("global", {"coordinateSystem": place, "randomSeed": settings.seed % 2**63})
    yield from _module("network", {"inputNetworkFile": "output_network.xml.gz"})
    yield from _module("plans", {"inputPlansFile": "output_plans.xml.gz"})
    if transit:
        names: dict[str, object] = {
            "useTransit": "true",
            "transitScheduleFile": "output_transitSchedule.xml.gz",
            "vehiclesFile": "output_transitVehicles.xml.gz",
        }
        yield from _module("transit", names)
    rows: dict[str, object] = {"firstIteration": 0, "lastIteration": settings.last_iteration}
    yield from _module("controler", rows)
    yield from _qsim(settings)
    yield from _scoring(settings, back, kinds)
    yield from _strategy(settings)
    yield from _module("TimeAllocationMutator", {"mutationRange": settings.mutation_range})
    yield from _own(settings, back)
    yield "</config>\n"


def _qsim(settings: Settings) -> Iterator[str]:
    """The module qsim."""
    rows: dict[str, object] = {
        "startTime": "00:00:00",
        "endTime": clock(settings.end_second),
        "flowCapacityFactor": permille_text(settings.flow_permille),
        "storageCapacityFactor": permille_text(settings.storage_permille),
        "stuckTime": settings.stuck_seconds,
        "removeStuckVehicles": "false" if settings.stuck_push else "true",
        "trafficDynamics": "queue" if settings.hole_speed is None else "withHoles",
    }
    return _module("qsim", rows)


def _scoring(settings: Settings, back: Back, kinds: set[str]) -> Iterator[str]:
    """The module planCalcScore."""
    rows: dict[str, object] = {
        "BrainExpBeta": beta_text(settings.logit_unit),
        "performing": PERFORMING,
        "lateArrival": hourly_text(settings.late_per_second),
        "earlyDeparture": 0,
        "waiting": 0,
    }

    def sets() -> Iterator[str]:
        """The activities and modes."""
        tables = {table.kind: table for table in settings.tables}
        rest = [kind for kind in sorted(kinds) if kind not in tables]
        for kind in [*tables, *(kind for kind in rest if not back.is_within_trip(kind))]:
            values: dict[str, object] = {"activityType": back.id("kind", kind)}
            if kind in tables:
                values["typicalDuration"] = clock(typical_duration(tables[kind]))
                latest = tables[kind].latest
                if latest is not None:
                    values["latestStartTime"] = clock(latest)
            else:
                values["scoringThisActivityAtAll"] = "false"
            yield from _set("activityParams", values)
        for mode in MODES:
            worth = settings.worth(mode)
            values = {"mode": mode, "constant": micro_text(worth.constant)}
            values["marginalUtilityOfTraveling_util_hr"] = hourly_text(worth.per_second)
            yield from _set("modeParams", values)

    return _module("planCalcScore", rows, sets())


def _strategy(settings: Settings) -> Iterator[str]:
    """The module strategy."""
    rows: dict[str, object] = {"maxAgentPlanMemorySize": settings.memory_size}
    if settings.innovation_last < settings.last_iteration:
        share = Decimal(2 * settings.innovation_last + 1) / (2 * settings.last_iteration)
        rows["fractionOfIterationsToDisableInnovation"] = plain(round(share, 6))

    def sets() -> Iterator[str]:
        """The strategies with a weight."""
        for key, name in STRATEGIES.items():
            weight = getattr(settings, key)
            if weight or key == "weight_keep":
                yield from _set("strategysettings", {"strategyName": name, "weight": weight})

    return _module("strategy", rows, sets())


def _own(settings: Settings, back: Back) -> Iterator[str]:
    """The module qsimSettings: the values of the program that differ from its defaults."""
    rows: dict[str, object] = {}
    for key in OWN:
        value = getattr(settings, key)
        if key == "tables":
            value = [replace(table, kind=back.id("kind", table.kind)) for table in value]
        if value not in (None, []):
            rows[key] = json.dumps(plain_json(value))
    return _module("qsimSettings", rows)
