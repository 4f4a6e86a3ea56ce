"""A road that is too short goes, and its ends become one node, where this opens no way that was not there."""
from __future__ import annotations

from dataclasses import replace

from .arms import ARMS
from .fitting import Fitting
from .network import Road


def contract_some(fit: Fitting) -> bool:
    """Contracts each road that is too short, where that opens no new way and is less of a change than to lengthen
    it."""
    done = False
    for name in fit.too_short():
        road = fit.network.roads.get(name)
        if road is not None and fit.short(road) and may_contract(fit, road):
            contract(fit, road)
            done = True
    return done


def roads_between(fit: Fitting, road: Road) -> list[str]:
    """The roads between the ends of a road, in both directions."""
    return [
        name
        for node, other in ((road.tail, road.head), (road.head, road.tail))
        for name in fit.network.outs[node]
        if fit.network.roads[name].head == other
    ]


def may_contract(fit: Fitting, road: Road) -> bool:
    """Whether the ends of a road may become one node."""
    tail, head, network = road.tail, road.head, fit.network
    gone = roads_between(fit, road)
    if tail in network.ends and head in network.ends or tail == head:
        return False
    if any(name in network.signals or not fit.short(network.roads[name]) for name in gone):
        return False
    left = 0
    for side in (network.ins, network.outs):
        count = len([name for name in side[tail] + side[head] if name not in gone])
        if count > max(ARMS, len(side[tail]), len(side[head])):
            return False
        left += count
    if not left and (tail in network.ends or head in network.ends):
        return False  # a node without roads is none, and trips begin or end at this one
    if only_behind(fit, road) or only_before(fit, road):
        return all(fit.carries(heir) for _, heir in heirs(fit, road))
    return comes_back(fit, road) and 2 * road.time <= fit.step


def only_before(fit: Fitting, road: Road) -> bool:
    """Whether every route that comes to a road's tail takes the road, which nothing leaves or enters otherwise."""
    return fit.network.outs[road.tail] == [road.name] and road.tail not in fit.network.ends


def only_behind(fit: Fitting, road: Road) -> bool:
    """Whether every route that leaves a road's head came by the road."""
    return fit.network.ins[road.head] == [road.name] and road.head not in fit.network.ends


def heirs(fit: Fitting, road: Road) -> list[tuple[Road, Road]]:
    """The roads to which the length, the time and the storage of a contracted road go, as they are and as they
    become."""
    gone = roads_between(fit, road)
    names = (
        fit.network.ins[road.tail]
        if only_before(fit, road)
        else fit.network.outs[road.head]
        if only_behind(fit, road)
        else []
    )
    were = [fit.network.roads[name] for name in names if name not in gone]
    return [
        (
            heir,
            replace(
                heir,
                length=heir.length + road.length,
                time=heir.time + road.time,
                storage=heir.storage + road.storage / len(were),
            ),
        )
        for heir in were
    ]


def comes_back(fit: Fitting, road: Road) -> bool:
    """Whether the head of a road leads back to its tail by at most three roads that are too short as well."""
    reached = {road.head}
    for _ in range(3):
        reached |= {
            fit.network.roads[name].head
            for node in reached
            for name in fit.network.outs[node]
            if fit.short(fit.network.roads[name])
        }
    return road.tail in reached


def contract(fit: Fitting, road: Road) -> None:
    """Makes one node of the ends of a road."""
    network, found = fit.network, heirs(fit, road)
    pushed_from, pushed_to = [was for was, _ in found], [heir for _, heir in found]
    taken = [network.roads[name] for name in roads_between(fit, road)]
    kept, other = (road.head, road.tail) if road.head in network.ends else (road.tail, road.head)
    for one in taken:
        network.remove(one.name)
    for heir in pushed_to:
        fit.put(heir)
    for name in list(network.outs[other]):
        network.move_tail(name, kept)
    for name in list(network.ins[other]):
        network.move_head(name, kept)
    network.drop_node(other)
    fit.moved[other] = kept
    fit.lost |= {part for gone_road in taken for part in gone_road.parts}
    note = "to " + " ".join(heir.name for heir in pushed_to) if pushed_to else "its time is lost"
    fit.tell("contracted", road.name, [*taken, *pushed_from], pushed_to, f"node {other} is {kept}; {note}")
