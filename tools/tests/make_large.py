#!/usr/bin/python3
"""Make a large MATSim scenario (network v2, population v6) to measure the import with."""

import argparse
import gzip
import random
from collections.abc import Iterator
from pathlib import Path

STEPS = {"e": (0, 1), "w": (0, -1), "s": (1, 0), "n": (-1, 0)}


def network(size: int) -> Iterator[str]:
    """A grid of size by size nodes, 200 m apart, with links both ways."""
    yield "<?xml version='1.0' encoding='UTF-8'?>\n"
    yield '<!DOCTYPE network SYSTEM "http://www.matsim.org/files/dtd/network_v2.dtd">\n'
    yield "<network>\n<nodes>\n"
    for row in range(size):
        for column in range(size):
            yield f'<node id="{row}_{column}" x="{column * 200.25}" y="{row * 200.25}"/>\n'
    yield '</nodes>\n<links capperiod="01:00:00">\n'
    rest = 'freespeed="13.888888888888889" capacity="1800.0" permlanes="1.0" modes="car"'
    for row in range(size):
        for column in range(size):
            for name, (down, right) in STEPS.items():
                if 0 <= row + down < size and 0 <= column + right < size:
                    ends = f'from="{row}_{column}" to="{row + down}_{column + right}"'
                    link = f'id="{name}{row}_{column}" {ends} length="200.25"'
                    yield f"<link {link} {rest}/>\n"
    yield "</links>\n</network>\n"


def way(row: int, column: int, to_row: int, to_column: int) -> list[str]:
    """The links along the row and then along the column."""
    links = []
    while column != to_column:
        links.append(f"{'e' if column < to_column else 'w'}{row}_{column}")
        column += 1 if column < to_column else -1
    while row != to_row:
        links.append(f"{'s' if row < to_row else 'n'}{row}_{column}")
        row += 1 if row < to_row else -1
    return links


def trip(links: list[str], start: str, end: str) -> str:
    """A trip by car with walks to and from it, as MATSim writes it."""
    walk = '<leg mode="walk" trav_time="00:02:00"><attributes><attribute name="routingMode" '
    walk += 'class="java.lang.String">car</attribute></attributes></leg>\n'
    act = '<activity type="car interaction" link="{}" max_dur="00:00:00"/>\n'
    route = f'<route type="links" start_link="{start}" end_link="{end}">{" ".join(links)}</route>'
    car = f'<leg mode="car" trav_time="00:15:00">{route}</leg>\n'
    return walk + act.format(start) + car + act.format(end) + walk


def population(size: int, persons: int, seed: int) -> Iterator[str]:
    """Persons who go to work, to a shop and home by car, some 60 links each time."""
    draw = random.Random(seed)
    yield "<?xml version='1.0' encoding='UTF-8'?>\n"
    yield '<!DOCTYPE population SYSTEM "http://www.matsim.org/files/dtd/population_v6.dtd">\n'
    yield "<population>\n"
    for number in range(persons):
        row, column = draw.randrange(size - 32), draw.randrange(size - 32)
        far = row + draw.randrange(25, 31), column + draw.randrange(25, 31)
        there, back = way(row, column, *far), way(*far, row, column)
        home, work = there[0], there[-1]
        there_back = [work, *back, home] if back[-1] != home else [work, *back]
        yield f'<person id="{number}">\n<attributes><attribute name="age" '
        yield 'class="java.lang.Integer">40</attribute></attributes>\n<plan selected="yes">\n'
        yield f'<activity type="home" link="{home}" end_time="07:{number % 60:02d}:00"/>\n'
        yield trip(there, home, work)
        yield f'<activity type="work" link="{work}" end_time="16:00:00"/>\n'
        yield trip(there_back, work, home)
        yield f'<activity type="home" link="{home}" end_time="18:00:00"/>\n'
        yield trip(there, home, work)
        yield f'<activity type="leisure" link="{work}"/>\n</plan>\n</person>\n'
    yield "</population>\n"


def main() -> None:
    """Write network.xml.gz and plans.xml.gz."""
    parser = argparse.ArgumentParser(description=__doc__)
    parser.add_argument("folder", type=Path)
    parser.add_argument("--size", type=int, default=159, help="nodes in a row of the grid")
    parser.add_argument("--persons", type=int, default=50_000)
    parser.add_argument("--seed", type=int, default=1)
    words = parser.parse_args()
    words.folder.mkdir(parents=True, exist_ok=True)
    for name, lines in (
        ("network", network(words.size)),
        ("plans", population(words.size, words.persons, words.seed)),
    ):
        with gzip.open(words.folder / f"{name}.xml.gz", "wt", compresslevel=3) as target:
            target.writelines(lines)


if __name__ == "__main__":
    main()
