"""Random scenarios for comparisons: small towns with cars, buses, walkers, signals, jams and short
days, some of them of several days. One in three is dense (many links into few nodes, and many cars
that leave at once)."""
import json
import random
import typing

from common import with_header

Link = tuple[str, str, str, int, int, int, int]
Network = tuple[list[str], list[Link]]
Row = tuple[typing.Any, ...]
Files = dict[str, str]


class Schedule(typing.NamedTuple):
    """Rows of stops, routes and departures, and of each route its line and its stops."""

    stops: list[tuple[str, str]]
    routes: list[Row]
    departures: list[Row]
    calls: list[tuple[str, list[str]]]


def network(rng: random.Random, dense: bool) -> Network:
    """Nodes, and links of which at most 16 lead into a node: mostly a ring, so that routes go on.
    A dense one has few nodes and many links."""
    nodes = [f"n{i}" for i in range(rng.randint(2, 3) if dense else rng.randint(2, 6))]
    few, many = (4, 5) if dense else (1, 2)
    links: list[Link] = []
    for i in range(rng.randint(few * len(nodes), many * len(nodes) + (0 if dense else 2))):
        begin = nodes[i % len(nodes)]
        end = nodes[(i + 1) % len(nodes)] if i < len(nodes) else rng.choice(nodes)
        length = rng.choice([1, 50, 400, 750, 1500, 3000, 9000])
        capacity = rng.choice([1, 60, 600, 1800, 3600, 7200, 100000])
        speed = rng.choice([100, 500, 1000, 3000])
        links.append((f"l{i}", begin, end, length, speed, capacity, rng.randint(1, 2)))
    return nodes, links


def wide_network(rng: random.Random, _dense: bool) -> Network:
    """Twelve to forty nodes in a ring, with short cuts, so that partitions have several nodes and
    many borders."""
    nodes = [f"n{i}" for i in range(rng.randint(12, 40))]
    links: list[Link] = []
    for i in range(rng.randint(len(nodes), 2 * len(nodes))):
        begin = nodes[i % len(nodes)]
        end = nodes[(i + 1) % len(nodes)] if i < len(nodes) else rng.choice(nodes)
        length = rng.choice([1, 50, 400, 750, 1500, 3000, 9000, 40000])
        speed, capacity = rng.choice([100, 500, 1000, 3000]), rng.choice([60, 600, 1800, 3600])
        links.append((f"l{i}", begin, end, length, speed, capacity, rng.randint(1, 2)))
    return nodes, links


def walk(rng: random.Random, links: list[Link], first: Link, most: int) -> list[Link]:
    """Links that join, from this one on."""
    route = [first]
    while len(route) < most and rng.random() < 0.8:
        ways = [it for it in links if it[1] == route[-1][2]]
        if not ways:
            break
        route.append(rng.choice(ways))
    return route


def schedule(rng: random.Random, links: list[Link]) -> Schedule:
    """Stops, routes with their calls, and departures."""
    stops = [(f"s{i}", rng.choice(links)[0]) for i in range(rng.randint(0, 4))]
    routes: list[Row] = []
    calls_of: list[tuple[str, list[str]]] = []
    for i in range(rng.randint(0, 3) if stops else 0):
        route, calls, offset = walk(rng, links, rng.choice(links), 6), [], 0
        for link in route:
            for stop in stops:
                if stop[1] == link[0] and rng.random() < 0.8:
                    offset += rng.randint(0, 20)
                    calls.append((stop[0], f"{stop[0]}:{offset}" + ":wait" * (rng.random() < 0.4)))
        if calls:
            line = f"b{rng.randint(0, 1)}"
            text = " ".join(it[1] for it in calls)
            routes.append((line, f"r{i}", " ".join(it[0] for it in route), text))
            calls_of.append((line, [it[0] for it in calls]))
    departures: list[Row] = []
    for i in range(rng.randint(0, 5) if routes else 0):
        route_name, second = rng.choice(routes)[1], rng.randint(0, 60)
        departures.append((f"d{i}", route_name, second, rng.choice([1, 2, 5, 50])))
    return Schedule(stops, routes, departures, calls_of)


def leg(rng: random.Random, links: list[Link], transit: Schedule,
        here: Link) -> tuple[tuple[str, str, str], Link]:
    """A leg from a link, and the link where it ends."""
    kind, stop_links = rng.random(), dict(transit.stops)
    if kind < 0.6:
        route = walk(rng, links, here, 6)
        return ("car", "", " ".join(it[0] for it in route)), route[-1]
    if kind < 0.85:
        for line, calls in rng.sample(transit.calls, len(transit.calls)):
            for i, access in enumerate(calls[:-1]):
                if stop_links[access] == here[0]:
                    egress = rng.choice(calls[i + 1:])
                    end = next(it for it in links if it[0] == stop_links[egress])
                    return ("pt", "", f"{line} {access} {egress}"), end
    return (rng.choice(["walk", "bike", "ride"]), str(rng.randint(1, 60)), ""), rng.choice(links)


def signals(rng: random.Random, links: list[Link]) -> list[Row]:
    """Signals of some links: spans of green that ascend within the cycle, or none."""
    rows: list[Row] = []
    for link in links if rng.random() < 0.5 else []:
        if rng.random() < 0.5:
            cycle = rng.randint(2, 40)
            count = rng.choice([0, 2, 2, 2, 4]) if cycle > 3 else 2
            ends = sorted(rng.sample(range(cycle + 1), count))
            greens = " ".join(f"{ends[k]}-{ends[k + 1]}" for k in range(0, len(ends), 2))
            rows.append(("signal", link[0], "", cycle, rng.randrange(cycle), greens))
    return rows


def plans(rng: random.Random, links: list[Link], transit: Schedule, dense: bool) -> list[Row]:
    rows: list[Row] = []
    starts, kinds = [rng.randint(0, 40) for _ in range(3)], ["home", "work", "shop"]
    for i in range(rng.randint(20, 50) if dense else rng.randint(1, 14)):
        for k in range(rng.choice([1, 1, 1, 2])):
            here, second = rng.choice([rng.choice(links), links[0]]), rng.choice(starts)
            for _ in range(rng.randint(0, 4)):
                rows.append((f"p{i}", k, "act", rng.choice(kinds), here[0], second, ""))
                (mode, seconds, route), here = leg(rng, links, transit, here)
                rows.append((f"p{i}", k, "leg", mode, "", seconds, route))
                second += rng.randint(0, 80)
            rows.append((f"p{i}", k, "act", rng.choice(kinds), here[0], "", ""))
    return rows


def settings(rng: random.Random) -> str:
    keys = {
        "last_iteration": rng.choice([0, 0, 1, 2]), "weight_reroute": 1,
        "weight_time": rng.randint(0, 1), "seed": rng.choice([0, 1, 4711, 2**64 - 1]),
        "end_second": rng.choice([1, 30, 90, 200, 600]),
        "flow_permille": rng.choice([1, 100, 1000, 2000]),
        "storage_permille": rng.choice([1, 100, 1000, 2000]),
        "stuck_seconds": rng.choice([1, 3, 10, 60]), "stuck_push": rng.randint(0, 1),
        "hole_speed": rng.choice([1, 100, 417, 10000]), "dwell_open": rng.randint(0, 9),
        "dwell_alight": rng.randint(0, 3), "dwell_board": rng.randint(0, 3),
    }
    chosen = {key: value for key, value in keys.items() if rng.random() < 0.6}
    return json.dumps({**chosen, "end_second": keys["end_second"]}, separators=(",", ":")) + "\n"


def scenario(rng: random.Random, wide: float = 0.0) -> Files:
    """The files of a scenario; of so many of them in one the network is wide."""
    make = wide_network if wide and rng.random() < wide else network
    dense = rng.random() < 0.33
    nodes, links = make(rng, dense)
    transit = schedule(rng, links)
    rows: dict[str, typing.Sequence[Row]] = {
        "nodes.csv": [(it, rng.randint(-9, 9), rng.randint(-9, 9)) for it in nodes],
        "links.csv": links, "stops.csv": transit.stops, "routes.csv": transit.routes,
        "departures.csv": transit.departures, "plans.csv": plans(rng, links, transit, dense),
        "signals.csv": signals(rng, links),
    }
    files = {name: with_header(name, (",".join(map(str, row)) for row in its))
             for name, its in rows.items() if its}
    return {**files, "settings.json": settings(rng)}


def spoilt_field(rng: random.Random, row: str) -> str:
    """The row with one field changed."""
    fields = row.split(",")
    place = rng.randrange(len(fields))
    odd = ["", "0", "-1", "x", "999999999999", fields[place] + "z", "65537", rng.choice(fields)]
    fields[place] = rng.choice(odd)
    return ",".join(fields)


def spoil(rng: random.Random, files: Files) -> None:
    """Changes one of the files in one place: a row or a field taken out, doubled or changed, a
    character put in, a key added."""
    name = rng.choice(sorted(files))
    text, kind = files[name], rng.randint(0, 7)
    rows = text.split("\n")
    at = rng.randrange(len(rows))
    if kind == 0:
        del rows[at]
    elif kind == 1:
        rows.insert(at, rows[at])
    elif kind == 2 and name != "settings.json":
        rows[at] = spoilt_field(rng, rows[at])
    elif kind == 3:
        rows[at] += rng.choice([",", " ", "\r", ",7"])
    elif kind == 4:
        other = rng.randrange(len(rows))
        rows[at], rows[other] = rows[other], rows[at]
    elif kind == 5 and name == "settings.json":
        key = rng.choice(["speed", "end_second", "hole_speed"])
        value = rng.choice(["0", "1.5", "null", '"a"', "9"])
        rows[0] = rows[0].replace("{", f'{{"{key}":{value},', 1)
    elif kind == 6:
        del files[name]
        return
    else:
        place = rng.randrange(len(text)) if text else 0
        odd = rng.choice(["", ",", "\n", "9", '"', "é", "\x00", " "])
        files[name] = text[:place] + odd + text[place + 1:]
        return
    files[name] = "\n".join(rows)
