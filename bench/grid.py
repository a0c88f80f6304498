#!/usr/bin/env python3
"""Writes the files of a generated scenario, computed from the page on commands alone, and prints of
each its length and a sum.

The tests of the crate `workload` compare what it writes with what this program wrote."""
import argparse
import json
import pathlib
import struct


def block(key: bytes, stream: int, number: int) -> list[int]:
    """A block of ChaCha with 8 rounds: 64 bits of block number, 64 bits of stream."""
    def rotated(word: int, by: int) -> int:
        return (word << by | word >> 32 - by) & 0xFFFFFFFF

    state = [0x61707865, 0x3320646E, 0x79622D32, 0x6B206574, *struct.unpack("<8I", key)]
    state += [number & 0xFFFFFFFF, number >> 32, stream & 0xFFFFFFFF, stream >> 32]
    words = list(state)
    columns = [(0, 4, 8, 12), (1, 5, 9, 13), (2, 6, 10, 14), (3, 7, 11, 15)]
    diagonals = [(0, 5, 10, 15), (1, 6, 11, 12), (2, 7, 8, 13), (3, 4, 9, 14)]
    for _ in range(4):
        for a, b, c, d in columns + diagonals:
            for x, y, z, by in ((a, b, d, 16), (c, d, b, 12), (a, b, d, 8), (c, d, b, 7)):
                words[x] = (words[x] + words[y]) & 0xFFFFFFFF
                words[z] = rotated(words[z] ^ words[x], by)
    return [(word + start) & 0xFFFFFFFF for word, start in zip(words, state)]


def person_words(seed: int, iteration: int, person: int) -> list[int]:
    key = struct.pack("<QI20x", seed, iteration)
    return block(key, (1 << 40) + person, 0)


def links_of(size: int) -> list[tuple[int, int]]:
    links = []
    for node in range(size * size):
        row, column = divmod(node, size)
        if column + 1 < size:
            links.append((node, node + 1))
        if column > 0:
            links.append((node, node - 1))
        if row + 1 < size:
            links.append((node, node + size))
        if row > 0:
            links.append((node, node - size))
    return links


def person_lines(size: int, seed: int, links: list[tuple[int, int]], person: int) -> list[str]:
    words = person_words(seed, 0, person)
    home = links[words[0] * len(links) >> 32]
    work = links[words[1] * len(links) >> 32]
    leaves = 21600 + (words[2] * 7200 >> 32)
    there = back = "car,,,"
    if person % 10 == 8:
        home, work = (0, 1), (size - 2, size - 1)
        there, back = f"pt,,,bus s0 s{size - 2}", "walk,,1200,"
    if person % 10 == 9:
        there = back = "walk,,1200,"
    name = f"p{person},0"
    return [
        f"{name},act,home,l{home[0]}_{home[1]},{leaves},",
        f"{name},leg,{there}",
        f"{name},act,work,l{work[0]}_{work[1]},{leaves + 28800},",
        f"{name},leg,{back}",
        f"{name},act,home,l{home[0]}_{home[1]},,",
    ]


def files(size: int, seed: int, last: int) -> dict[str, str]:
    links = links_of(size)
    nodes = [f"n{n},{n % size * 30000},{n // size * 30000}" for n in range(size * size)]
    roads = [f"l{a}_{b},n{a},n{b},30000,1389,1000,1" for a, b in links]
    plans = [line for p in range(5 * size * size) for line in person_lines(size, seed, links, p)]
    stops = [f"s{k},l{k}_{k + 1}" for k in range(size - 1)]
    way = " ".join(f"l{k}_{k + 1}" for k in range(size - 1))
    calls = " ".join(f"s{k}:{60 * k}" for k in range(size - 1))
    departures = [f"d{k},east,{21600 + 600 * k},50" for k in range(85)]
    settings = {
        "flow_permille": 100, "last_iteration": last, "seed": seed, "storage_permille": 100,
        "tables": [
            {"kind": "home", "points": [[0, -20000000], [43200, 60000000], [86400, 80000000]]},
            {"kind": "work", "latest": 32400, "points": [[0, -20000000], [28800, 60000000]]},
        ],
        "weight_keep": 0, "weight_logit": 70, "weight_reroute": 20, "weight_time": 10,
    }
    rows = {
        "nodes.csv": ["node,x,y", *nodes],
        "links.csv": ["link,from,to,length,speed,capacity,lanes", *roads],
        "plans.csv": ["person,plan,kind,name,link,time,route", *plans],
        "stops.csv": ["stop,link", *stops],
        "routes.csv": ["line,route,links,stops", f"bus,east,{way},{calls}"],
        "departures.csv": ["departure,route,second,seats", *departures],
    }
    texts = {name: "".join(line + "\n" for line in lines) for name, lines in rows.items()}
    texts["settings.json"] = json.dumps(settings, separators=(",", ":"))
    return texts


def digest(text: str) -> int:
    """The sum of all bytes, each times its place from 1 on, in 32 bits."""
    return sum((place + 1) * byte for place, byte in enumerate(text.encode())) & 0xFFFFFFFF


def main() -> None:
    words = argparse.ArgumentParser(
        description=__doc__, formatter_class=argparse.RawDescriptionHelpFormatter)
    words.add_argument("size", type=int, help="nodes a side")
    words.add_argument("seed", type=int)
    words.add_argument("last", type=int, help="the last iteration")
    words.add_argument("folder", type=pathlib.Path)
    asked = words.parse_args()
    folder: pathlib.Path = asked.folder
    folder.mkdir(parents=True, exist_ok=True)
    for name, text in files(asked.size, asked.seed, asked.last).items():
        (folder / name).write_text(text)
        print(name, len(text), digest(text))


if __name__ == "__main__":
    main()
