"""The network of a case, as the maps in a browser are told it."""
from __future__ import annotations

import math
import statistics
from collections.abc import Sequence

from ..case import Case, Link
from ..case.background import read_background
from ..case.places import DEGREES, Places, read_places
from ..case.source import parts_of_links
from ..case.streets import read_streets
from ..loading.approaches import Approaches
from . import layout


def placed_networks(folders: Sequence[str], cases: Sequence[Case]) -> tuple[list[Places], bool]:
    """Where each case's nodes lie and its links run, and whether they were laid out: as nodes.csv says where each case
    has one, else one drawing for all."""
    known: list[Places | None] = [read_places(folder, case) for folder, case in zip(folders, cases)]
    if known[0] is not None:
        first = known[0].of
        for place, (case, read) in enumerate(zip(cases, known)):
            if read is None and all(node in first for node in case.nodes):
                known[place] = known[0]
    if all(read is not None for read in known):
        return [read.plane() for read in known if read is not None], False
    nodes = list(dict.fromkeys(node for case in cases for node in case.nodes))
    drawn = layout.laid_out(
        nodes, [(link.tail, link.head, float(link.length_m)) for case in cases for link in case.links]
    )
    return [Places(drawn)] * len(cases), True


def told_network(folder: str, case: Case, places: Places, bent: bool) -> dict[str, object]:
    """The nodes with their places, and the links: ends by the numbers of nodes, the free-flow time in ms, what the link
    stores in thousandths of a vehicle, its length in m, how it runs, the links of a source that are part of it, and the
    name of its street."""
    parts, streets = parts_of_links(folder, case.links), read_streets(folder)
    number = {node: index for index, node in enumerate(case.nodes)}
    bends = (
        layout.bends(places.of, [(link.tail, link.head) for link in case.links]) if bent else [0.0] * len(case.links)
    )
    return {
        "metres": None if bent else metres_of(places, case),
        "background": told_background(folder, places),
        "nodes": [
            {"name": node, "x": round(places.of[node][0], 7), "y": round(places.of[node][1], 7)} for node in case.nodes
        ],
        "links": [
            {
                "name": link.name,
                "tail": number[link.tail],
                "head": number[link.head],
                "free": link.free_ms,
                "storage": link.storage_units,
                "length": link.length_m,
                "bend": bend,
                **shape_of(places, link),
                **({"source": parts[link.name]} if link.name in parts else {}),
                **({"street": streets[link.name]} if streets.get(link.name) else {}),
            }
            for link, bend in zip(case.links, bends)
        ],
    }


def metres_of(places: Places, case: Case) -> float | None:
    """The metres of a unit of the places: where no projection says them, the median of what links are long by what is
    drawn of them; None where nothing is drawn."""
    if places.metres is not None:
        return places.metres
    lines = [(link.length_m, places.line(link)) for link in case.links]
    drawn = [(length, sum(math.dist(a, b) for a, b in zip(line, line[1:]))) for length, line in lines]
    found = [length / far for length, far in drawn if far > 0]
    return statistics.median(found) if found else None


def told_background(folder: str, places: Places) -> dict[str, object]:
    """What lies behind the links: of each kind its lines or areas, in the plane of the places, and whom a map names;
    nothing where the case has none."""
    found = read_background(folder)
    if found is None:
        return {}
    shorter = places.shorter if found.crs == DEGREES else 1.0
    shapes: dict[str, list[list[float]]] = {}
    for shape in found.shapes:
        flat = [round(one, 7) for x, y in shape.points for one in (x * shorter, y)]
        shapes.setdefault(shape.kind, []).append(flat)
    return {"attribution": found.attribution, "shapes": shapes}


def numbered(case: Case, approaches: Approaches) -> dict[str, list[int]]:
    """Links with their turns by the numbers of links."""
    number = {link.name: index for index, link in enumerate(case.links)}
    return {name: [number[link] for link in links] for name, links in approaches.items()}


def shape_of(places: Places, link: Link) -> dict[str, object]:
    """The points of a link that does not run straight."""
    return (
        {"shape": [[round(x, 7), round(y, 7)] for x, y in places.shapes[link.name]]}
        if link.name in places.shapes
        else {}
    )
