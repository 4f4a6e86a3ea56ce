"""Roads in series become one: where roads only lead through a node, in one direction or in both."""
from __future__ import annotations

from fractions import Fraction

from .fitting import Fitting
from .lines import joined
from .network import Road


def merge_some(fit: Fitting) -> bool:
    """Merges each road that is too short with a road in series, where it has one."""
    done = False
    for name in fit.too_short():
        road = fit.network.roads.get(name)
        if road is None or not fit.short(road):
            continue
        nodes = [node for node in (road.tail, road.head) if in_series(fit, node)]
        if nodes:
            merge(fit, min((unlike(fit, road, node) for node in nodes))[-1])
            done = True
    return done


def pairs_at(fit: Fitting, node: str) -> list[tuple[Road, Road]]:
    """Each road into a node with the road on which it goes on, where these are roads of one street; none where that
    is open."""
    ins = [fit.network.roads[name] for name in fit.network.ins[node]]
    outs = [fit.network.roads[name] for name in fit.network.outs[node]]
    sides = {road.tail for road in ins} | {road.head for road in outs}
    apart = len({road.tail for road in ins}) == len(ins) and len({road.head for road in outs}) == len(outs)
    if len(ins) != len(outs) or not apart or len(sides) != 2:
        return []
    return [(road, after) for road in ins for after in outs if after.head != road.tail]


def in_series(fit: Fitting, node: str) -> bool:
    """Whether roads only lead through a node, and nothing begins, ends or is held there."""
    if node in fit.network.ends or any(name in fit.network.signals for name in fit.network.ins[node]):
        return False
    return bool(pairs_at(fit, node))


def unlike(fit: Fitting, road: Road, node: str) -> tuple[Fraction, Fraction, str]:
    """How unlike a road is to that with which it would be merged at a node: by capacity, then by length."""
    other = next(pair[0] if pair[1] is road else pair[1] for pair in pairs_at(fit, node) if road in pair)
    return abs(other.capacity - road.capacity), other.length, node


def merge(fit: Fitting, node: str) -> None:
    """Merges the roads through a node, in each direction."""
    for first, second in pairs_at(fit, node):
        longer = first if first.length >= second.length else second
        made = Road(
            longer.name,
            first.tail,
            second.head,
            first.length + second.length,
            first.time + second.time,
            first.storage + second.storage,
            min(first.capacity, second.capacity),
            longer.kind,
            first.parts + second.parts,
            joined([fit.network.line(first), fit.network.line(second)]),
        )
        shorter = second if longer is first else first
        fit.network.remove(first.name)
        fit.network.remove(second.name)
        fit.network.add(made)
        if second.name in fit.network.signals:
            fit.network.signals.discard(second.name)
            fit.network.signals.add(made.name)
        note = (
            ""
            if first.capacity == second.capacity
            else f"capacities {float(first.capacity):g} and {float(second.capacity):g} become the lesser"
        )
        fit.tell("merged", shorter.name, [first, second], [made], f"with {made.name}{'; ' + note if note else ''}")
    fit.network.drop_node(node)
