#!/usr/bin/env python3
"""Makes a case of a made city, to try `ltm-tools assign` on: `make.py CITY CASE`.

CITY is one of `small` (24 zones, 76 links, 16,000 vehicles), `middle` (38 zones, 914 links, 30,000 vehicles) and
`large` (147 zones, 2,836 links, 60,000 vehicles); the vehicles set out in an hour, most in its middle. Junctions stand
on a grid whose places are shaken, and two-way roads join neighbours, the shortest first, at most four at each. Every
fourth row and column of the grid are main roads, with two lanes each way in `large`, which its vehicles need. Trips go
between zones by a gravity model. The same words make the same files on every machine: the numbers come from Python's
own generator with a fixed seed.
"""
from __future__ import annotations

import argparse
import math
import random
import sys
from dataclasses import dataclass
from pathlib import Path

sys.dont_write_bytecode = True
sys.path.insert(0, str(Path(__file__).resolve().parents[2] / "tools"))

from ltm_tools.case import Case, Demand, Link, Setup  # noqa: E402
from ltm_tools.errors import Fault  # noqa: E402

Pair = tuple[int, int]
MOST_ROADS = 4  # at a junction
QUARTERS = (3, 7, 4, 2)  # what sets out in each quarter of the hour, in sixteenths


@dataclass(frozen=True)
class City:
    """The size of a city: columns and rows of junctions, zones, two-way roads, vehicles, metres between junctions,
    vehicles that stand on a kilometre of a lane, the lanes of a main road each way, and the step and the horizon in
    seconds."""

    columns: int
    rows: int
    zones: int
    roads: int
    vehicles: int
    spacing: int
    jam: int
    lanes: int
    step: int
    horizon: int


CITIES = {
    "small": City(6, 4, 24, 38, 16_000, 800, 142, 1, 5, 9_000),
    "middle": City(18, 15, 38, 457, 30_000, 500, 175, 1, 10, 9_000),
    "large": City(28, 27, 147, 1_418, 60_000, 500, 160, 2, 10, 9_000),
}


def places_of(city: City, draw: random.Random) -> list[tuple[float, float]]:
    """The places of junctions, in metres."""
    return [
        tuple(city.spacing * (at + 0.5 * (draw.random() - 0.5)) for at in (column, row))  # type: ignore[misc]
        for row in range(city.rows)
        for column in range(city.columns)
    ]


def roads_of(city: City, places: list[tuple[float, float]]) -> list[Pair]:
    """The pairs of junctions with a road: the shortest that join all, and then the shortest of the others."""
    near = [
        (one, other)
        for one in range(len(places))
        for other in range(one + 1, len(places))
        if abs(one % city.columns - other % city.columns) <= 1 and other // city.columns - one // city.columns <= 1
    ]
    near.sort(key=lambda pair: (round(math.dist(places[pair[0]], places[pair[1]]), 6), pair))
    part = list(range(len(places)))  # junctions with the same number are joined
    count, chosen = [0] * len(places), []
    for is_tree in (True, False):
        for one, other in near:
            joined = part[one] == part[other]
            if len(chosen) == city.roads or (one, other) in chosen or max(count[one], count[other]) == MOST_ROADS:
                continue
            if is_tree and not joined:
                old, new = part[other], part[one]
                part = [new if number == old else number for number in part]
            elif is_tree:
                continue
            chosen.append((one, other))
            count[one] += 1
            count[other] += 1
    if len(chosen) < city.roads or len(set(part)) > 1:
        raise Fault("there is no room for so many roads")
    return chosen


def is_main(city: City, road: Pair) -> bool:
    """Whether a road is part of a main road."""
    rows, columns = ({one // city.columns for one in road}, {one % city.columns for one in road})
    return any(len(line) == 1 and min(line) % 4 == 1 for line in (rows, columns))


def links_of(city: City, places: list[tuple[float, float]]) -> list[Link]:
    """The links, one for each direction of a road."""
    links = []
    for one, other in roads_of(city, places):
        speed, lanes = (80, city.lanes) if is_main(city, (one, other)) else (40, 1)
        for tail, head in ((one, other), (other, one)):
            length = max(round(math.dist(places[tail], places[head])), city.step * 20)
            links.append(Link(f"l{tail}_{head}", f"n{tail}", f"n{head}", length, speed, 18, lanes * city.jam))
    return links


def demand_of(city: City, places: list[tuple[float, float]], draw: random.Random) -> list[Demand]:
    """The rows of demand: by a gravity model between zones, which are spread over the junctions."""
    zones = [place * len(places) // city.zones for place in range(city.zones)]
    weight = {zone: 0.5 + draw.random() for zone in zones}
    scale = city.spacing * city.columns / 3
    parts = {
        (one, other): weight[one] * weight[other] * math.exp(-math.dist(places[one], places[other]) / scale)
        for one in zones
        for other in zones
        if one != other
    }
    whole, quarter = sum(parts.values()), 900 // city.step
    return [
        Demand(f"n{one}", f"n{other}", number * quarter, (number + 1) * quarter, units)
        for (one, other), part in parts.items()
        for number, sixteenths in enumerate(QUARTERS)
        if (units := round(1000 * city.vehicles * part / whole * sixteenths / sum(QUARTERS)))
    ]


def case_of(name: str, vehicles: int | None = None) -> Case:
    """The case of a city, by default with its own number of vehicles."""
    city = CITIES[name]
    city = city if vehicles is None else City(**{**vars(city), "vehicles": vehicles})
    draw = random.Random(1)
    places = places_of(city, draw)
    links, demand = links_of(city, places), demand_of(city, places, draw)
    setup = Setup(1000 * city.step, city.horizon // city.step, 32_000, rows=500_000, cells=4_000_000_000)
    setup.destinations = max(city.zones, 64)
    return Case(setup, links, demand)


def main() -> int:
    parser = argparse.ArgumentParser(description=__doc__, formatter_class=argparse.RawDescriptionHelpFormatter)
    parser.add_argument("city", choices=CITIES)
    parser.add_argument("case")
    parser.add_argument("--vehicles", type=int, metavar="N", help="so many vehicles, not the city's own number")
    args = parser.parse_args()
    try:
        case_of(args.city, args.vehicles).write(args.case)
    except Fault as fault:
        print(f"make.py: {fault}", file=sys.stderr)
        return 1
    return 0


if __name__ == "__main__":
    sys.exit(main())
