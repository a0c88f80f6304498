"""A small run written by hand, and the program for tests that need a real one."""

from __future__ import annotations

import os
import shutil
import subprocess
import sys
from collections.abc import Callable
from contextlib import redirect_stderr, redirect_stdout
from dataclasses import dataclass
from io import StringIO
from pathlib import Path
from unittest.mock import patch

import pytest

from qsim_tools.cli import guarded

TOOLS = Path(__file__).resolve().parents[1]
EXAMPLE = TOOLS.parent / "crates" / "qsim" / "data"

# a road a - b - c - d of 100, 200 and 100 m at 36 km/h: 10, 20 and 10 s, so 11, 21 and 11 at least
FILES = {
    "nodes.csv": "node,x,y\na,0,0\nb,10000,0\nc,30000,0\nd,40000,0\n",
    "links.csv": (
        "link,from,to,length,speed,capacity,lanes\n"
        "ab,a,b,10000,1000,1000,1\nbc,b,c,20000,1000,500,1\ncd,c,d,10000,1000,1000,1\n"
    ),
    "stops.csv": "stop,link\ns1,ab\ns2,bc\ns3,cd\n",
    "routes.csv": "line,route,links,stops\nbus,east,ab bc cd,s1:10 s2:60:wait s3:100\n",
    "departures.csv": "departure,route,second,seats\nd1,east,3500,2\n",
    "settings.json": '{"end_second":3700,"flow_permille":500,"memory_size":1}',
    "plans.csv": "person,plan,kind,name,link,time,route\n"
    + "".join(
        f"{name},0,act,home,ab,100,\n{name},0,leg,walk,,9,\n{name},0,act,work,cd,,\n"
        for name in ("ann", "bob", "cat", "dan", "eve")
    ),
    "scores.csv": (
        "0,ann,0,4000000\n0,bob,0,1000000\n0,cat,0,-1000000\n0,dan,0,-2000000\n0,eve,0,0\n"
    ),
}

# ann drives; bob walks, rides the bus from s1 to s2 and walks on; cat rides on when the day ends;
# dan waits at s2 when it ends; eve drives and is removed
EVENTS = """iteration,0
100,actend,ann,,ab,home
100,departure,ann,,ab,car
100,PersonEntersVehicle,ann,ann,,
100,vehicle enters traffic,ann,ann,ab,
101,left link,,ann,ab,
101,entered link,,ann,bc,
125,left link,,ann,bc,
125,entered link,,ann,cd,
140,vehicle leaves traffic,ann,ann,cd,
140,PersonLeavesVehicle,ann,ann,,
140,arrival,ann,,cd,car
140,actstart,ann,,cd,work
3400,actend,bob,,cd,home
3400,departure,bob,,cd,walk
3450,travelled,bob,,,50
3450,arrival,bob,,ab,walk
3450,actstart,bob,,ab,pt_interaction
3451,actend,bob,,ab,pt_interaction
3451,departure,bob,,ab,pt
3451,waitingForPt,bob,,ab,s1
3460,actend,cat,,ab,home
3460,departure,cat,,ab,pt
3460,waitingForPt,cat,,ab,s1
3500,TransitDriverStarts,,pt:d1,ab,bus
3500,vehicle enters traffic,,pt:d1,ab,
3505,VehicleArrivesAtFacility,,pt:d1,ab,s1
3505,PersonEntersVehicle,bob,pt:d1,,
3505,PersonEntersVehicle,cat,pt:d1,,
3515,VehicleDepartsAtFacility,,pt:d1,ab,s1
3516,left link,,pt:d1,ab,
3516,entered link,,pt:d1,bc,
3520,actend,eve,,ab,home
3520,departure,eve,,ab,car
3520,PersonEntersVehicle,eve,eve,,
3520,vehicle enters traffic,eve,eve,ab,
3540,vehicle aborts,,eve,ab,
3540,stuckAndAbort,eve,,ab,car
3590,VehicleArrivesAtFacility,,pt:d1,bc,s2
3590,PersonLeavesVehicle,bob,pt:d1,,
3590,arrival,bob,,bc,pt
3590,actstart,bob,,bc,pt_interaction
3591,actend,bob,,bc,pt_interaction
3591,departure,bob,,bc,walk
3600,VehicleDepartsAtFacility,,pt:d1,bc,s2
3600,left link,,pt:d1,bc,
3600,entered link,,pt:d1,cd,
3605,actend,dan,,bc,home
3605,departure,dan,,bc,pt
3605,waitingForPt,dan,,bc,s2
3631,travelled,bob,,,40
3631,arrival,bob,,ab,walk
3631,actstart,bob,,ab,work
3700,stuckAndAbort,cat,,cd,pt
3700,stuckAndAbort,dan,,bc,pt
"""


def made(folder: Path, events: str = EVENTS) -> Path:
    """Write the run into a folder."""
    folder.mkdir(parents=True, exist_ok=True)
    for name, text in FILES.items():
        (folder / name).write_text(text)
    (folder / "events.csv").write_text(events)
    return folder


@dataclass
class Done:
    """What a command that has ended left behind."""

    returncode: int
    stdout: str
    stderr: str


def tool(main: Callable[[], None], *words: object) -> Done:
    """Run the main function of a command in this process, as its executable does."""
    out, err = StringIO(), StringIO()
    status = 0
    with (
        patch.object(sys, "argv", ["command", *map(str, words)]),
        redirect_stdout(out),
        redirect_stderr(err),
    ):
        try:
            guarded(main)
        except SystemExit as end:
            status = int(end.code or 0)
    return Done(status, out.getvalue(), err.getvalue())


def program() -> str:
    """The program under test: $QSIM, or the one that this checkout built."""
    built = TOOLS.parent / "crates" / "qsim" / "out" / "qsim"
    path = os.environ.get("QSIM") or (str(built) if built.exists() else "")
    if not path or shutil.which(path) is None:
        pytest.skip("needs the program: set QSIM to its path")
    return path


def real_run(folder: Path, settings: str = "") -> Path:
    """Run the program on the stored example in a folder."""
    qsim = program()
    shutil.copytree(EXAMPLE, folder)
    if settings:
        (folder / "settings.json").write_text(settings)
    subprocess.run([qsim, "run"], cwd=folder, check=True, capture_output=True)
    return folder
