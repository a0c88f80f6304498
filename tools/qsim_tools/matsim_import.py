"""The import: MATSim's files become the files of qsim in one folder."""

from __future__ import annotations

from dataclasses import dataclass
from pathlib import Path

from qsim_tools.files import PLANS_HEADER, Network, Schedule, Staged, plan_rows
from qsim_tools.files import stage_network, stage_schedule
from qsim_tools.matsim_config import Config, own_settings, read_config, settings_of, unused
from qsim_tools.matsim_ids import IDS_HEADER, Ids
from qsim_tools.matsim_losses import LOSSES_HEADER, Losses
from qsim_tools.matsim_network import Places, RawNetwork, kept_links, named_network
from qsim_tools.matsim_network import read_network_xml
from qsim_tools.matsim_plans import Population, teleport_of
from qsim_tools.matsim_schedule import RawSchedule, RawVehicles, named_schedule
from qsim_tools.matsim_schedule import read_schedule_xml, read_vehicles_xml
from qsim_tools.matsim_scoring import Scoring


@dataclass(slots=True)
class Inputs:
    """The files to import; all but the network may be missing."""

    config: Path | None = None
    network: Path | None = None
    plans: Path | None = None
    schedule: Path | None = None
    vehicles: Path | None = None


def with_config(inputs: Inputs) -> Config | None:
    """Read the config and take from it the paths of the files that are not given."""
    if inputs.config is None:
        return None
    config = read_config(inputs.config)
    inputs.network = inputs.network or config.file("network", "inputNetworkFile")
    inputs.plans = inputs.plans or config.file("plans", "inputPlansFile")
    if (config.module("transit").text("useTransit") or "false").lower() == "true":
        inputs.schedule = inputs.schedule or config.file("transit", "transitScheduleFile")
        inputs.vehicles = inputs.vehicles or config.file("transit", "vehiclesFile")
    return config


class Import:
    """An import on its way."""

    def __init__(self, inputs: Inputs, whole: bool) -> None:
        self.inputs, self.whole = inputs, whole
        self.losses, self.ids = Losses(), Ids()
        self.config = with_config(inputs)
        self.crs = None
        if self.config is not None:
            self.crs = self.config.module("global").text("coordinateSystem")
        self.counts: dict[str, int] = {}

    def run(self, folder: Path) -> None:
        """Read all, then let the files appear together."""
        with Staged(folder) as staged:
            raw, timetable, vehicles = self._read()
            transit = timetable.links()
            links = kept_links(raw, transit, self.whole, self.losses)
            network = named_network(raw, links, self.ids, self.whole, self.losses)
            schedule = named_schedule(timetable, vehicles, network, self.ids, self.losses)
            cars = {self.ids.of["link"].name(link.id) for link in links if link.car}
            stage_network(staged, network)
            if self.inputs.schedule is not None:
                stage_schedule(staged, schedule)
            kinds = self._plans(staged, raw, network, cars, schedule)
            if self.config is not None:
                self._settings(staged, vehicles, kinds)
            self._rest(staged, raw)
            self._count(network, schedule)

    def _read(self) -> tuple[RawNetwork, RawSchedule, RawVehicles]:
        """Read network and timetable."""
        assert self.inputs.network is not None
        raw = read_network_xml(self.inputs.network, self.losses)
        timetable, vehicles = RawSchedule(), RawVehicles()
        if self.inputs.schedule is not None:
            timetable = read_schedule_xml(self.inputs.schedule, self.losses)
        if self.inputs.vehicles is not None:
            vehicles = read_vehicles_xml(self.inputs.vehicles)
        return raw, timetable, vehicles

    def _plans(
        self,
        staged: Staged,
        raw: RawNetwork,
        network: Network,
        cars: set[str],
        schedule: Schedule,
    ) -> dict[str, tuple[str, int]]:
        """Write plans.csv; the types of activities with their names and counts come back."""
        if self.inputs.plans is None:
            return {}
        population = Population(
            self.inputs.plans,
            raw,
            Places(network, cars),
            schedule,
            self.ids,
            self.losses,
            teleport_of(self.config),
            network,
        )
        staged.rows("plans.csv", PLANS_HEADER, plan_rows(population.read()))
        self.counts["persons"] = population.persons
        return population.kinds

    def _settings(
        self, staged: Staged, vehicles: RawVehicles, kinds: dict[str, tuple[str, int]]
    ) -> None:
        """Write settings.json."""
        assert self.config is not None
        settings = settings_of(self.config, self.losses)
        Scoring(self.config, self.losses).apply(settings, kinds)
        if vehicles.types:
            common = max(vehicles.types, key=lambda kind: vehicles.types[kind])
            settings.dwell_board = min(vehicles.board.get(common, 1), 3_600)
            settings.dwell_alight = min(vehicles.alight.get(common, 1), 3_600)
            rows = {(vehicles.board.get(k), vehicles.alight.get(k)) for k in vehicles.types}
            what = "seconds to board and alight taken from the most frequent type"
            self.losses.note(what, common, int(len(rows) > 1))
        own_settings(self.config, settings)
        unused(self.config, self.losses)
        staged.write("settings.json", settings.as_json())

    def _rest(self, staged: Staged, raw: RawNetwork) -> None:
        """Write ids.csv, crs.txt and import.csv."""
        crs = raw.crs or self.crs
        if crs and crs != "Atlantis":
            staged.write("crs.txt", crs.strip() + "\n")
        for kind in ("node", "link", "stop", "line", "route", "departure", "kind"):
            changed = self.ids.of[kind].changed()
            if changed:
                name, text = changed[0]
                self.losses.note(f"{kind} renamed", f"{text} is {name}", len(changed))
        staged.rows("ids.csv", IDS_HEADER, self.ids.rows())
        staged.rows("import.csv", LOSSES_HEADER, self.losses.rows())

    def _count(self, network: Network, schedule: Schedule) -> None:
        """Count what was written."""
        self.counts = {
            "nodes": len(network.nodes),
            "links": len(network.links),
            **self.counts,
            "stops": len(schedule.stops),
            "routes": len(schedule.routes),
            "departures": len(schedule.departures),
        }

    def summary(self) -> str:
        """What was written, and what was lost or changed."""
        head = ", ".join(f"{count:,} {what}" for what, count in self.counts.items())
        return self.losses.report(f"written: {head}")
