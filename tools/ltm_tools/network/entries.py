"""Entries: where trips begin at a node that others drive over, they come to it by a link of their own.

A node shares what its links out can take by the capacities of its arms, and the origin of a node counts as an arm of
the
case's origin capacity, mostly that of many lanes: it would push in before all who drive by. An entry carries what the
road does on which its trips begin, so that both have their part. It is as long as the step asks for.
"""
from __future__ import annotations

from collections.abc import Collection, Iterable, Mapping
from dataclasses import replace
from fractions import Fraction

from ..case.source import Source
from ..formats import HOUR_MS, UNITS, counted
from .arms import free_name
from .crossings.expand import part_time
from .fitting import stretched
from .network import Network, Node, most_capacity

KIND = "entry"


def is_passed(network: Network, node: str) -> bool:
    """Whether others may drive over a node, other than back to where they come from."""
    roads = network.roads
    return any(roads[name].tail != roads[after].head for name in network.ins[node] for after in network.outs[node])


def add_entries(network: Network, begins: Mapping[str, Mapping[str, Fraction]], step: int) -> dict[str, str]:
    """Gives an entry to each node that others may drive over; of each of these nodes its name. `begins` has of each
    node
    where trips begin the roads that they take from there, with what each is to let enter in an hour."""
    made = {}
    for node, rates in begins.items():
        if not is_passed(network, node):
            continue
        capacity = min(sum(rates.values(), Fraction(0)), most_capacity(step))
        road = max((network.roads[name] for name in rates), key=lambda road: (road.capacity, road.name))
        start, name = free_name(f"{node}_origin", network.nodes), free_name(f"{node}_entry", network.roads)
        network.add_node(Node(start, network.nodes[node].x, network.nodes[node].y))
        entry = stretched(road, part_time(road, step) - road.time)
        network.add(
            replace(
                entry,
                name=name,
                tail=start,
                head=node,
                storage=entry.storage * capacity / road.capacity,
                capacity=capacity,
                kind=KIND,
                parts=(name,),
                shape=(),
            )
        )
        made[node] = name
    return made


def entries_told(network: Network, entries: Iterable[str], units: Mapping[str, int]) -> list[str]:
    """How many entries there are, and what they add to trips, by the thousandths of vehicles on each."""
    names = list(entries)
    if not names:
        return []
    spent = sum((network.roads[name].time * units.get(name, 0) for name in names), Fraction(0))
    vehicles = sum(units.get(name, 0) for name in names)
    return [
        f"{counted(len(names), 'origin')} at nodes that others drive over with a link of their own to it, NODE_entry,"
        f" which adds {float(spent / vehicles) / 1000 if vehicles else 0:.1f} s to their trips,"
        f" {float(spent / UNITS / HOUR_MS):.2f} vehicle hours in all (--entries none leaves these out)"
    ]


def without(source: Source, raw: Network, links: Collection[str]) -> Source:
    """A source without links that were made, and without the nodes where they begin."""
    nodes = {raw.roads[name].tail for name in links}
    return Source(
        {name: link for name, link in source.links.items() if name not in links},
        {name: node for name, node in source.nodes.items() if name not in nodes},
    )
