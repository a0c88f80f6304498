"""MATSim's config.xml (v1, v2): its values, and the settings that follow from them."""

from __future__ import annotations

import json
import math
from collections.abc import Callable
from dataclasses import dataclass, field
from fractions import Fraction
from pathlib import Path
from typing import TypeVar

from qsim_tools.files import FileFault, Limits, Settings
from qsim_tools.matsim_losses import Losses
from qsim_tools.matsim_units import decimal, half_up, scaled, seconds
from qsim_tools.matsim_xml import Xml, fault, local, needed, root_of

T = TypeVar("T")
MODULES = {
    "controler": "controller",
    "scoring": "planCalcScore",
    "replanning": "strategy",
    "routing": "planscalcroute",
    "timeAllocationMutator": "TimeAllocationMutator",
    "qsimSettings": "qsimSettings",
}
HOLE_SPEED = 417  # MATSim's holes travel at 15 km/h
WEIGHTS = {
    "KeepLastSelected": "weight_keep",
    "BestScore": "weight_best",
    "SelectRandom": "weight_random",
    "SelectExpBeta": "weight_logit",
    "ChangeExpBeta": "weight_logit",
    "ReRoute": "weight_reroute",
    "TimeAllocationMutator": "weight_time",
    "TimeAllocationMutator_ReRoute": "weight_time",
}
OWN = (
    "dwell_open",
    "dwell_alight",
    "dwell_board",
    "stuck",
    "hole_speed",
    "seed",
    "innovation_last",
    "tables",
)


@dataclass(slots=True)
class Group:
    """A module or a parameterset: its values with their lines, and the sets in it."""

    path: Path
    kind: str
    values: dict[str, tuple[str, int]] = field(default_factory=dict)
    sets: list[Group] = field(default_factory=list)
    used: set[str] = field(default_factory=set)

    def text(self, key: str, default: str | None = None) -> str | None:
        """A value; `null` is none."""
        self.used.add(key)
        value = self.values.get(key)
        return default if value is None or value[0] == "null" else value[0]

    def value(self, key: str, take: Callable[[str], T], default: T) -> T:
        """A value as a function takes it; its ValueError becomes a fault of the line."""
        text = self.text(key)
        if text is None:
            return default
        try:
            return take(text)
        except ValueError as error:
            place = f"line {self.values[key][1]}"
            raise FileFault(self.path, place, f"{key}: {error}") from None

    def number(self, key: str, default: Fraction) -> Fraction:
        """A value that is a number."""
        return self.value(key, lambda text: Fraction(decimal(text)), default)

    def of_kind(self, kind: str) -> list[Group]:
        """The parametersets of a kind."""
        return [group for group in self.sets if group.kind == kind]


@dataclass(slots=True)
class Config:
    """All modules of a config file by name, in the newer spelling where MATSim has two."""

    path: Path
    modules: dict[str, Group]

    def module(self, name: str) -> Group:
        """A module; one that is not there has no values."""
        return self.modules.setdefault(name, Group(self.path, name))

    def file(self, module: str, *keys: str) -> Path | None:
        """The path of an input file, from the folder of the config."""
        for key in keys:
            text = self.module(module).text(key)
            if text:
                if "://" in text:
                    raise FileFault(self.path, None, f"{key} is a web address: {text}")
                return self.path.parent / text
        return None


def read_config(path: Path) -> Config:
    """Read a config file."""
    root = root_of(path)
    if local(root) != "config":
        raise FileFault(path, f"line {root.sourceline}", "no config")
    config = Config(path, {})
    for element in root.iterfind("module"):
        name = needed(path, element, "name")
        name = MODULES.get(name, name)
        config.modules[name] = _group(path, element, name)
    return config


def _group(path: Path, element: Xml, kind: str) -> Group:
    """Read a module or a parameterset."""
    group = Group(path, kind)
    for child in element:
        if child.tag == "param":
            line = int(child.sourceline)
            group.values[needed(path, child, "name")] = needed(path, child, "value").strip(), line
        elif child.tag == "parameterset":
            group.sets.append(_group(path, child, needed(path, child, "type")))
        else:
            raise fault(path, child, f"{child.tag!r} is neither param nor parameterset")
    return group


def settings_of(config: Config, losses: Losses) -> Settings:
    """The settings without scoring; where MATSim has defaults of its own they count."""
    settings = Settings(stuck_push=1)
    _mobsim(config, settings, losses)
    _iterations(config, settings, losses)
    _strategies(config, settings, losses)
    return settings


def _mobsim(config: Config, settings: Settings, losses: Losses) -> None:
    """The values of the module qsim."""
    qsim = config.module("qsim")
    for key, name in (("flowCapacityFactor", "flow"), ("storageCapacityFactor", "storage")):
        value = qsim.value(key, lambda text: scaled(text, 1000, 1, 2000)[0], 1000)
        if qsim.number(key, Fraction(1)) * 1000 != value:
            losses.note(f"config: {key} rounded or cut to thousandths", str(qsim.text(key)))
        setattr(settings, f"{name}_permille", value)
    end = qsim.value("endTime", seconds, None)
    if end is not None and end > 0:
        settings.end_second = min(end, Limits.SECOND)
        losses.note("config: endTime cut to 48 hours", str(end), int(end > Limits.SECOND))
    stuck = qsim.value("stuckTime", lambda text: scaled(text, 1, 1, Limits.SECOND)[0], 10)
    settings.stuck_seconds = stuck
    settings.stuck_push = 0 if qsim.text("removeStuckVehicles", "false") == "true" else 1
    dynamics = qsim.text("trafficDynamics", "queue")
    if dynamics in ("withHoles", "kinematicWaves"):
        settings.hole_speed = HOLE_SPEED
    losses.note("config: kinematicWaves becomes holes", "", int(dynamics == "kinematicWaves"))
    main = qsim.text("mainMode", "car")
    losses.note("config: main modes other than car become car", str(main), int(main != "car"))
    start = qsim.value("startTime", seconds, None)
    losses.note("config: startTime is always 0", str(start), int(bool(start)))


def _iterations(config: Config, settings: Settings, losses: Losses) -> None:
    """The values of the modules global and controller."""
    seed = config.module("global").value("randomSeed", int, 4711)
    settings.seed = seed % 2**64
    controller = config.module("controller")
    first = controller.value("firstIteration", int, 0)
    last = controller.value("lastIteration", int, 1000)
    losses.note("config: iterations are counted from 0", str(first), int(first != 0))
    settings.last_iteration = min(max(last - first, 0), 1000)
    losses.note("config: lastIteration cut to 1000", str(last), int(last - first > 1000))


def _strategies(config: Config, settings: Settings, losses: Losses) -> None:
    """The weights of the strategies and what belongs to them."""
    module = config.module("strategy")
    size = module.value("maxAgentPlanMemorySize", int, 5)
    settings.memory_size = size if 1 <= size <= 5 else 5
    losses.note("config: maxAgentPlanMemorySize cut to 5", str(size), int(not 1 <= size <= 5))
    fraction = module.value("fractionOfIterationsToDisableInnovation", decimal, None)
    if fraction is not None and fraction.is_finite():
        settings.innovation_last = max(0, math.floor(settings.last_iteration * Fraction(fraction)))
        settings.innovation_last = min(settings.innovation_last, 1000)
    weights = _weights(module, losses)
    if weights:
        settings.weight_keep = 0
        for key, value in _whole(weights).items():
            setattr(settings, key, value)
    mutator = config.module("TimeAllocationMutator")
    reach = mutator.value("mutationRange", lambda text: seconds(text) or 0, 1800)
    settings.mutation_range = min(max(reach, 0), Limits.SECOND)


def _weights(module: Group, losses: Losses) -> dict[str, Fraction]:
    """The weights by key of settings.json; those of one subpopulation."""
    rows: list[tuple[str, Fraction, str]] = []
    for group in module.of_kind("strategysettings"):
        name = group.text("strategyName") or ""
        weight = group.number("weight", Fraction(0))
        rows.append((name, weight, group.text("subpopulation") or ""))
        if (group.text("disableAfterIteration") or "-1") not in ("-1", "0"):
            losses.note("config: disableAfterIteration of a strategy dropped", name)
    for key in list(module.values):
        if key.startswith("Module_"):
            name = (module.text(key) or "").rsplit(".", 1)[-1]
            weight = module.number(f"ModuleProbability_{key[7:]}", Fraction(0))
            rows.append((name, weight, ""))
    groups = list(dict.fromkeys(row[2] for row in rows))
    chosen = "" if "" in groups or not groups else groups[0]
    weights: dict[str, Fraction] = {}
    for name, weight, group_name in rows:
        place = WEIGHTS.get(name)
        if group_name != chosen:
            losses.note("config: strategy of a further subpopulation dropped", name)
        elif place is None:
            losses.note("config: strategy without counterpart dropped", name)
        else:
            weights[place] = weights.get(place, Fraction(0)) + weight
            changed = name in ("ChangeExpBeta", "TimeAllocationMutator_ReRoute")
            losses.note("config: strategy becomes its nearest kin", name, int(changed))
    return weights


def _whole(weights: dict[str, Fraction]) -> dict[str, int]:
    """Weights as whole numbers: times the least power of ten that makes all of them whole."""
    factor = 1
    top = max(weights.values())
    while any((w * factor).denominator > 1 for w in weights.values()):
        if top * factor * 10 > 1_000_000:
            break
        factor *= 10
    return {key: min(max(half_up(w * factor), 0), 1_000_000) for key, w in weights.items()}


def own_settings(config: Config, settings: Settings) -> None:
    """Take from the module qsimSettings what no other module of MATSim can say."""
    module = config.module("qsimSettings")
    for key in OWN:
        text = module.text(key)
        if text is None or key == "tables":
            continue
        try:
            value = json.loads(text)
        except json.JSONDecodeError:
            value = None
        if not isinstance(value, int):
            raise FileFault(config.path, f"line {module.values[key][1]}", f"{key}: {text!r}")
        setattr(settings, key, value)


def unused(config: Config, losses: Losses) -> None:
    """List the modules and values that were not looked at."""
    for module in config.modules.values():
        rest = [key for key in module.values if key not in module.used]
        rest += [f"{group.kind}" for group in module.sets if not group.used]
        if rest:
            losses.note(f"config: value of module {module.kind} not used", rest[0], len(rest))
