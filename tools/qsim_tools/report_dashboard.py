"""The dashboard file by which SimWrapper shows the report's tables."""

from __future__ import annotations


def _card(kind: str, title: str, props: dict[str, str], width: int = 1) -> str:
    """A card of a row."""
    rows = "".join(f"        {name}: {value}\n" for name, value in props.items())
    head = f"    - type: {kind}\n      title: {title}\n      width: {width}\n"
    return f"{head}      props:\n{rows}"


def dashboard(name: str, last: int, transit: bool, scored: bool) -> str:
    """The text of dashboard-1.yaml."""
    folder = f"it.{last}"
    rows: list[list[str]] = []
    if scored:
        line = {
            "dataset": "scorestats.csv",
            "x": "iteration",
            "columns": "[executed, best, average, worst]",
            "xAxisName": "iteration",
            "yAxisName": "utils",
        }
        rows.append([_card("line", "Mean scores", line)])
    share = {
        "dataset": "modestats_wide.csv",
        "x": "iteration",
        "columns": "[car, pt, walk, bike, ride]",
        "stacked": "true",
        "xAxisName": "iteration",
        "yAxisName": "legs",
    }
    rows.append([_card("bar", "Legs by mode", share)])
    rows.append([_card("csv", "Links of the last iteration", {"dataset": f"{folder}/links.csv"})])
    if transit:
        rows.append([_card("csv", "Stops", {"dataset": f"{folder}/stops.csv"})])
    text = f"header:\n  title: {name}\n  description: qsim-report\nlayout:\n"
    for number, row in enumerate(rows, 1):
        text += f"  row{number}:\n" + "".join(row)
    return text
