"""A node with more roads on a side than a node may have gets nodes of their own for some of them, and connectors."""
from __future__ import annotations

from collections.abc import Iterable
from dataclasses import replace
from fractions import Fraction

from ..formats import MOST_IN, MOST_KMH, MOST_OUT
from .fitting import Fitting, stretched
from .lines import Line, Point, cut_at
from .network import Node, Road, most_capacity, nearest_whole

ARMS = min(MOST_IN, MOST_OUT)
"""The most roads that may lead into a node, and out of it."""


def split_node(fit: Fitting, node: str) -> None:
    """Lets some of the roads on a side of a node end at a node of their own, until the node has no more than it
    may."""
    for side, word in ((fit.network.ins, "in"), (fit.network.outs, "out")):
        number = 0
        while len(side[node]) > ARMS:
            number += 1
            gather(fit, node, word, number)


def gather(fit: Fitting, node: str, word: str, number: int) -> None:
    """Gives at most four roads on one side of a node a connector in common."""
    network, side = fit.network, fit.network.ins if word == "in" else fit.network.outs
    count = min(ARMS, len(side[node]) - ARMS + 1)
    chosen = sorted(
        (network.roads[name] for name in side[node]),
        key=lambda road: (road.time < 3 * fit.step, road.capacity, road.name),
    )[:count]
    made = connector(fit, node, word, number, chosen)
    inner = made.tail if word == "in" else made.head
    shapes = [cut_shape(fit, road, word, made) for road in chosen]
    network.add_node(
        Node(inner, *middle(fit, node, [shape[-1] if word == "in" else shape[0] for shape in shapes if shape]))
    )
    after = []
    for road, shape in zip(chosen, shapes):
        cut = stretched(road, -made.time) if road.time > 2 * made.time else road
        after.append(replace(cut if cut is not road and not fit.short(cut) else road, shape=shape))
        fit.put(after[-1])
        (network.move_head if word == "in" else network.move_tail)(road.name, inner)
    network.add(made)
    kept = sum(new.time == old.time for old, new in zip(chosen, after))
    note = f"{' '.join(road.name for road in chosen)} by {made.name}" + (
        f"; {kept} of them become longer by it" if kept else ""
    )
    fit.tell("node split", node, chosen, [*after, made], note)


def cut_shape(fit: Fitting, road: Road, word: str, made: Road) -> Line:
    """The points of a road without those along a connector at its end, or at its beginning; none where its places
    are not known."""
    line = fit.network.line(road)
    if len(line) < 2:
        return ()
    share = float(min(made.length / road.length, Fraction(1, 2)))
    return cut_at(line, 1 - share)[0] if word == "in" else cut_at(line, share)[1]


def middle(fit: Fitting, node: str, places: list[Point]) -> Point | tuple[None, None]:
    """The middle of places; the place of a node where there is none."""
    if not places:
        return fit.network.nodes[node].place or (None, None)
    return sum(x for x, _ in places) / len(places), sum(y for _, y in places) / len(places)


def connector(fit: Fitting, node: str, word: str, number: int, chosen: list[Road]) -> Road:
    """The connector between a node and some of its roads, as long as the step asks for."""
    inner = free_name(f"{node}_{word}{number}", fit.network.nodes)
    name = free_name(f"{node}_{word}{number}", fit.network.roads)
    kmh = Fraction(nearest_whole(min(road.kmh for road in chosen)))
    jam = Fraction(nearest_whole(sum((road.jam for road in chosen), Fraction(0))))
    most = min(most_capacity(fit.step), kmh * jam / 2)
    capacity = min(sum((road.capacity for road in chosen), Fraction(0)), most)
    ends = (inner, node) if word == "in" else (node, inner)
    metres = fit.step * min(kmh, Fraction(MOST_KMH)) / 3600
    road = Road(name, *ends, metres, metres * 3600 / kmh, metres * jam / 1000, capacity, "connector")
    return stretched(road, fit.missing(road)) if fit.short(road) else road


def free_name(wanted: str, taken: Iterable[str]) -> str:
    """A name of at most 32 characters that is not taken, as near to the wanted one as can be."""
    name, number = wanted[-32:], 1
    while name in taken:
        number += 1
        name = wanted[-28:] + f"_{number}"
    return name
