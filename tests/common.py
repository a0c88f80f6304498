"""What the tests beside this file share: the files of a scenario, the stored example, generated
grids, and what a run leaves in its folder."""
import json
import pathlib
import shutil
import subprocess
import sys
import tempfile
from collections.abc import Iterable, Mapping

from program import TOP

HEADERS = {
    "nodes.csv": "node,x,y",
    "links.csv": "link,from,to,length,speed,capacity,lanes",
    "plans.csv": "person,plan,kind,name,link,time,route",
    "stops.csv": "stop,link",
    "routes.csv": "line,route,links,stops",
    "departures.csv": "departure,route,second,seats",
    "signals.csv": "kind,link,other,cycle,offset,greens",
}
INPUTS = ("settings.json", *HEADERS)
WRITTEN = ("events.csv", "scores.csv", "plans_out.csv")
EXAMPLE = TOP / "crates/qsim/data"


def with_header(name: str, rows: Iterable[str]) -> str:
    """The text of a file of a scenario, out of its rows."""
    return "\n".join([HEADERS[name], *rows]) + "\n"


def grid_files(size: int, last: int, seed: int = 7) -> dict[str, bytes]:
    """The files of a grid of SIZE x SIZE nodes, with iterations up to the last one."""
    program = TOP / "bench/grid.py"
    command = [sys.executable, str(program), str(size), str(seed), str(last)]
    with tempfile.TemporaryDirectory() as folder:
        subprocess.run([*command, folder], stdout=subprocess.DEVNULL, check=True)
        return {it.name: it.read_bytes() for it in pathlib.Path(folder).iterdir()}


def with_settings(files: Mapping[str, bytes], **keys: int) -> dict[str, bytes]:
    """The files with these keys in settings.json."""
    settings = {**json.loads(files["settings.json"]), **keys}
    return {**files, "settings.json": json.dumps(settings).encode()}


def lay(files: Mapping[str, bytes], folder: pathlib.Path) -> pathlib.Path:
    """Writes files into a folder that is made anew."""
    shutil.rmtree(folder, ignore_errors=True)
    folder.mkdir(parents=True)
    for name, text in files.items():
        (folder / name).write_bytes(text)
    return folder


def left_in(folder: pathlib.Path) -> dict[str, bytes]:
    """Each file in a folder, but kept.db, whose bytes no rule fixes."""
    paths = sorted(folder.iterdir())
    return {it.name: it.read_bytes() for it in paths if not it.name.startswith("kept.db")}


def written_in(folder: pathlib.Path, names: Iterable[str]) -> dict[str, bytes]:
    """What is in these files, and nothing for one that is not there."""
    paths = {name: folder / name for name in names}
    return {name: it.read_bytes() if it.exists() else b"" for name, it in paths.items()}


def tail(whole: Mapping[str, bytes], kept: int) -> dict[str, bytes]:
    """What a whole run writes after an iteration: the rest of the report and of each file."""
    def after(text: bytes) -> bytes:
        place = text.find(b"iteration,%d" % (kept + 1))
        return text[place:] if place >= 0 else b""

    lines = whole["scores.csv"].splitlines(keepends=True)
    return {
        "report": after(whole["report"]) or whole["report"].splitlines(keepends=True)[-1],
        "events.csv": after(whole["events.csv"]),
        "scores.csv": b"".join(it for it in lines if int(it.split(b",")[0]) > kept),
        "plans_out.csv": whole["plans_out.csv"],
    }


def kept_iteration(report: bytes, last: int) -> int:
    """The iteration after which a resumed run goes on, as its report shows."""
    first = report.split(b"\n")[0]
    return int(first.split(b",")[1]) - 1 if first.startswith(b"iteration,") else last
