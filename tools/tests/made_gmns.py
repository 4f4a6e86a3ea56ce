"""A network of GMNS with streets of Braunschweig, as programs that make it of OpenStreetMap write it: longitudes and
latitudes, lines, lanes and speeds, and trips between the ends of streets.

    python3 tools/tests/made_gmns.py FOLDER

The streets are of OpenStreetMap's contributors, by the net `bs3d` in Debian's package `sumo-tools`; SUMO's own
netconvert tells where they lie.
"""
from __future__ import annotations

import csv
import subprocess
import sys
import tempfile
import xml.etree.ElementTree as ElementTree
from collections.abc import Iterable
from pathlib import Path
from typing import NamedTuple

NET = Path("/usr/share/sumo/tools/game/bs3d/bs.net.xml")
STREETS = ("primary", "secondary", "tertiary", "unclassified", "residential")
TRIPS = 40
Place = tuple[float, float]


class Street(NamedTuple):
    """A direction of a street: its ends, its line in degrees, and what it is."""

    name: str
    tail: str
    head: str
    line: tuple[Place, ...]
    kind: str
    lanes: str
    kmh: float


def read() -> tuple[dict[str, Place], list[Street]]:
    """The nodes and the streets, in degrees."""
    with tempfile.TemporaryDirectory() as folder:
        subprocess.run(
            ["netconvert", "-s", NET, "--plain-output-prefix", f"{folder}/bs", "--proj.plain-geo"],
            stdout=subprocess.DEVNULL,
            stderr=subprocess.DEVNULL,
            check=True,
        )
        nodes = {
            node.get("id", ""): (float(node.get("x", "")), float(node.get("y", "")))
            for node in ElementTree.parse(f"{folder}/bs.nod.xml").getroot().iter("node")
        }
        edges = list(ElementTree.parse(f"{folder}/bs.edg.xml").getroot().iter("edge"))
    return nodes, [
        Street(
            edge.get("id", ""),
            edge.get("from", ""),
            edge.get("to", ""),
            line_of(edge, nodes),
            edge.get("type", "").removeprefix("highway."),
            edge.get("numLanes", "1"),
            3.6 * float(edge.get("speed", "")),
        )
        for edge in edges
        if edge.get("type", "").removeprefix("highway.") in STREETS
    ]


def line_of(edge: ElementTree.Element, nodes: dict[str, Place]) -> tuple[Place, ...]:
    """The line of an edge."""
    told = [point.split(",") for point in edge.get("shape", "").split()]
    return tuple((float(x), float(y)) for x, y, *_ in told) or (nodes[edge.get("from", "")], nodes[edge.get("to", "")])


def write(folder: Path) -> None:
    """Writes the files of the network."""
    nodes, streets = read()
    about: dict[str, set[str]] = {}
    for street in streets:
        about.setdefault(street.tail, set()).add(street.head)
        about.setdefault(street.head, set()).add(street.tail)
    zones = {node: number for number, node in enumerate((node for node in about if len(about[node]) == 1), 1)}
    folder.mkdir(exist_ok=True)
    table(
        folder / "node.csv",
        "node_id x_coord y_coord zone_id",
        ((node, *nodes[node], zones.get(node, "")) for node in about),
    )
    table(
        folder / "link.csv",
        "link_id from_node_id to_node_id dir_flag lanes free_speed link_type_name geometry",
        (
            (
                one.name,
                one.tail,
                one.head,
                1,
                one.lanes,
                round(one.kmh),
                one.kind,
                f"LINESTRING ({', '.join(f'{x} {y}' for x, y in one.line)})",
            )
            for one in streets
        ),
    )
    table(
        folder / "demand.csv",
        "o_zone_id d_zone_id volume",
        ((one, other, TRIPS) for one in zones.values() for other in zones.values() if one != other),
    )


def table(path: Path, names: str, rows: Iterable[tuple[object, ...]]) -> None:
    """Writes a table."""
    with open(path, "w", newline="", encoding="utf-8") as file:
        csv.writer(file).writerows([names.split(), *rows])


if __name__ == "__main__":
    write(Path(sys.argv[1]))
