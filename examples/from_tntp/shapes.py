#!/usr/bin/env python3
"""Makes networks of the sizes of public test networks, as TNTP files: `shapes.py SHAPE FOLDER`; without words it lists
the shapes.

A shape has as many zones, nodes and links as the network that it is called by, and nothing else of it. Junctions stand
on a grid and two-way roads join neighbours, as many as there are links for, spread evenly; every fifth row and column
are main roads with two lanes each way. Where there are more nodes than zones, each zone is a node of its own with a
link to a junction and one back. Trips go from each zone to each other one, the fewer the farther it is, so many that in
the mean roads are used for `USED` of their capacity over an hour. The same words make the same files on every machine.
"""
from __future__ import annotations

import argparse
import sys
from dataclasses import dataclass
from math import isqrt
from pathlib import Path

sys.dont_write_bytecode = True
sys.path.insert(0, str(Path(__file__).resolve().parents[2] / "tools"))

from ltm_tools.errors import Fault  # noqa: E402
from ltm_tools.files import make_folder, write_text  # noqa: E402

USED = 0.12
BLOCK_KM = 0.4
LANE = 1_800  # vehicles an hour
MAIN = 5  # every so many rows and columns
STREET_KMH, MAIN_KMH, CONNECTOR_KMH = 50, 70, 50
Road = tuple[int, int]


@dataclass(frozen=True)
class Shape:
    """The size of a network."""

    zones: int
    nodes: int
    links: int

    @property
    def connected(self) -> bool:
        """Whether zones are nodes of their own, each with a link to a junction and one back."""
        return self.nodes > self.zones

    @property
    def junctions(self) -> int:
        """How many nodes are junctions."""
        return self.nodes - self.zones if self.connected else self.nodes

    @property
    def columns(self) -> int:
        """How many junctions stand in a row; the last row may have fewer."""
        return isqrt(self.junctions - 1) + 1

    def place(self, junction: int) -> tuple[int, int]:
        """The row and the column of a junction, all counted from 0."""
        return divmod(junction, self.columns)

    def junction_of(self, zone: int) -> int:
        """The junction of a zone: they are spread evenly."""
        return zone * self.junctions // self.zones

    def node_of(self, junction: int) -> int:
        """The number of a junction's node in the files."""
        return junction + 1 + (self.zones if self.connected else 0)


SHAPES = {
    "sioux_falls": Shape(24, 24, 76),
    "eastern_massachusetts": Shape(74, 74, 258),
    "anaheim": Shape(38, 416, 914),
    "barcelona": Shape(110, 1_020, 2_522),
    "winnipeg": Shape(147, 1_052, 2_836),
    "chicago_sketch": Shape(387, 933, 2_950),
    "austin": Shape(1_117, 7_388, 18_961),
    "chicago_regional": Shape(1_790, 12_982, 39_018),
}


def links_of(shape: Shape) -> list[Road]:
    """The links between junctions, from one to another: both ways of each road, and one of a last road where the number
    is odd. Rows are whole and the first column joins them; further roads between rows are spread evenly, and where
    these are too few some lead across blocks."""
    wanted = shape.links - (2 * shape.zones if shape.connected else 0)
    rows = [(one, one + 1) for one in range(shape.junctions - 1) if (one + 1) % shape.columns]
    across = [(one, one + shape.columns) for one in range(shape.junctions - shape.columns)]
    needed = [road for road in across if not road[0] % shape.columns]
    others = [road for road in across if road[0] % shape.columns]
    blocks = [(one, one + shape.columns + 1) for one, _ in rows if one + shape.columns + 1 < shape.junctions]
    more = (wanted + 1) // 2 - len(rows) - len(needed)
    if not 0 <= more <= len(others) + len(blocks):
        raise Fault(f"{shape.junctions} junctions on a grid have not {wanted} links")
    roads = [*rows, *needed, *evenly(others, min(more, len(others))), *evenly(blocks, max(0, more - len(others)))]
    return [link for tail, head in sorted(roads) for link in ((tail, head), (head, tail))][:wanted]


def evenly(roads: list[Road], count: int) -> list[Road]:
    """So many of some roads, spread evenly."""
    return [roads[place * len(roads) // count] for place in range(count)]


def is_main(shape: Shape, link: Road) -> bool:
    """Whether a link lies on a main road."""
    (row, column), (other, _) = shape.place(link[0]), shape.place(link[1])
    return (row if row == other else column) % MAIN == 0


def net_text(shape: Shape) -> str:
    """The file of links: lengths in km, times in minutes, capacities in vehicles an hour."""
    lines = [f"<NUMBER OF ZONES> {shape.zones}", f"<NUMBER OF NODES> {shape.nodes}"]
    lines += [f"<FIRST THRU NODE> {shape.zones + 1 if shape.connected else 1}", f"<NUMBER OF LINKS> {shape.links}"]
    lines += ["<END OF METADATA>", "", "~\tinit\tterm\tcapacity\tlength\ttime\tb\tpower\tspeed\ttoll\ttype\t;"]
    for link in links_of(shape):
        lanes, kmh = (2, MAIN_KMH) if is_main(shape, link) else (1, STREET_KMH)
        lines.append(row_of(shape.node_of(link[0]), shape.node_of(link[1]), lanes, kmh))
    for zone in range(shape.zones if shape.connected else 0):
        ends = zone + 1, shape.node_of(shape.junction_of(zone))
        lines += [row_of(*ends, 2, CONNECTOR_KMH), row_of(*ends[::-1], 2, CONNECTOR_KMH)]
    return "\n".join(lines) + "\n"


def row_of(tail: int, head: int, lanes: int, kmh: int) -> str:
    """A row of the file of links."""
    return f"\t{tail}\t{head}\t{lanes * LANE}\t{BLOCK_KM}\t{60 * BLOCK_KM / kmh:.4f}\t0.15\t4\t0\t0\t1\t;"


def trips_of(shape: Shape) -> list[list[float]]:
    """The vehicles from each zone to each other one in an hour."""
    places = [shape.place(shape.junction_of(zone)) for zone in range(shape.zones)]
    far = [[abs(row - other[0]) + abs(column - other[1]) for other in places] for row, column in places]
    weights = [
        [0.0 if one == other else 1 / (1 + blocks) for other, blocks in enumerate(row)] for one, row in enumerate(far)
    ]
    driven = sum(
        weight * (blocks + 1) for row, blocks_of in zip(weights, far) for weight, blocks in zip(row, blocks_of)
    )
    lanes = sum(2 if is_main(shape, link) else 1 for link in links_of(shape))
    each = USED * lanes * LANE / driven
    return [[round(each * weight, 3) for weight in row] for row in weights]


def trips_text(shape: Shape) -> str:
    """The file of trips."""
    trips = trips_of(shape)
    total = sum(map(sum, trips))
    lines = [f"<NUMBER OF ZONES> {shape.zones}", f"<TOTAL OD FLOW> {total:.3f}", "<END OF METADATA>", ""]
    for zone, row in enumerate(trips, 1):
        lines.append(f"Origin {zone}")
        lines += [f"    {end} : {amount:.3f};" for end, amount in enumerate(row, 1) if amount]
    return "\n".join(lines) + "\n"


def main(words: list[str]) -> int:
    """Makes the files of a shape."""
    parser = argparse.ArgumentParser(description=__doc__, formatter_class=argparse.RawDescriptionHelpFormatter)
    parser.add_argument("shape", nargs="?", choices=SHAPES, help="the network whose size is wanted")
    parser.add_argument("folder", nargs="?", type=Path, help="where SHAPE_net.tntp and SHAPE_trips.tntp are written")
    given = parser.parse_args(words)
    try:
        if given.folder is None:
            for name, one in SHAPES.items():
                print(f"{name:<22} {one.zones:>6,} zones {one.nodes:>7,} nodes {one.links:>7,} links")
            return 0
        shape = SHAPES[given.shape]
        make_folder(given.folder)
        for kind, text in (("net", net_text(shape)), ("trips", trips_text(shape))):
            write_text(given.folder / f"{given.shape}_{kind}.tntp", text)
        return 0
    except (Fault, OSError) as fault:
        print(f"shapes.py: {fault}", file=sys.stderr)
        return 1


if __name__ == "__main__":
    sys.exit(main(sys.argv[1:]))
