"""Trips that end before a signal: a vehicle of SUMO ends at the end of its last edge, and does not wait for the signal
there.

An exit limit holds all that leave a link, those included that are where they want to be. So an edge with a signal, at
whose end trips end, is cut a step before its end: one part leads on to the signal, and one as long to a node of its
own, where the trips end.
"""
from __future__ import annotations

from collections.abc import Collection, Sequence
from dataclasses import dataclass, field, replace
from fractions import Fraction

from ..case.source import Source, SourceLink
from ..demand.route_splits import Links, Route
from ..errors import Fault
from ..network.arms import free_name
from ..network.crossings.expand import part_time
from ..network.fitting import stretched
from ..network.lines import cut_at
from ..network.network import Network, Node, Road, diagram_of


@dataclass
class Cut:
    """The parts of edges that were cut: that to the signal, and that to where trips end; the edges that have an end of
    their own, and those that were too short."""

    exits: dict[str, str] = field(default_factory=dict)
    stops: dict[str, str] = field(default_factory=dict)
    own: list[str] = field(default_factory=list)
    too_short: int = 0


def cut_ends(network: Network, routes: Sequence[Route], held: set[str], step: int, own: Collection[str] = ()) -> Cut:
    """Cuts the last edges of routes that end at nodes where an edge with a signal is a last edge; those of `own` get an
    end each."""
    last = dict.fromkeys(route.links[-1] for route in routes)
    made = Cut()
    for name in [name for name in last if name in own]:
        cut_to_own_end(network, name, step, made)
    nodes = dict.fromkeys(network.roads[name].head for name in last if name in held and name not in made.stops)
    for node in nodes:
        edges = [name for name in last if network.roads[name].head == node]
        if any(network.roads[name].time < 2 * cut_time(network.roads[name], step) for name in edges):
            made.too_short += len(edges)
            continue
        end = free_name(f"{node}_end", network.nodes)
        network.add_node(Node(end, network.nodes[node].x, network.nodes[node].y))
        for name in edges:
            cut_one(network, name, end, step, made)
    return made


def cut_to_own_end(network: Network, name: str, step: int, made: Cut) -> None:
    """Gives an edge an end of its own."""
    end, node = free_name(f"{name}_end", network.nodes), network.nodes[network.roads[name].head]
    network.add_node(Node(end, node.x, node.y))
    cut_one(network, name, end, step, made)
    made.own.append(name)


def cut_time(road: Road, step: int) -> Fraction:
    """The free-flow time in ms of a part of a road that is long enough for a step, rounded up to metres. A road on
    which vehicles wait for gaps may be too slow for its capacity, which a fit lowers."""
    try:
        link = diagram_of(road)
    except Fault:
        return part_time(road, step)
    return Fraction(-(-step * max(link.free_kmh, link.wave_kmh) // 3600) + 1) * 3600 / road.kmh


def cut_one(network: Network, name: str, end: str, step: int, made: Cut) -> None:
    """Cuts an edge before its end."""
    road = network.roads[name]
    node, part = road.head, cut_time(road, step)
    middle = free_name(f"{name}_before", network.nodes)
    line = network.line(road)
    before, behind = cut_at(line, 1 - float(part / road.time)) if len(line) > 1 else ((), ())
    network.add_node(Node(middle, *(behind[0] if behind else network.nodes[node].place or (None, None))))
    network.move_head(name, middle)
    network.roads[name] = replace(stretched(road, -part), shape=before)
    rest = stretched(road, part - road.time)
    for kind, goal, names in (("exit", node, made.exits), ("stop", end, made.stops)):
        names[name] = free_name(f"{name}_{kind}", network.roads)
        network.add(replace(rest, name=names[name], tail=middle, head=goal, parts=(names[name],), shape=behind))


def over_parts(edges: Links, cut: Cut) -> Links:
    """A route over edges as one over their parts."""
    links: list[str] = []
    for place, name in enumerate(edges):
        links.append(name)
        if name in cut.exits:
            links.append((cut.stops if place == len(edges) - 1 else cut.exits)[name])
    return tuple(links)


def whole_again(source: Source, cut: Cut) -> Source:
    """A source whose edges with an end of their own are whole, their parts told as turns are."""
    links, made = dict(source.links), {cut.exits[name] for name in cut.own} | {cut.stops[name] for name in cut.own}
    nodes = {node for name in cut.own for node in (links[name].head, links[cut.stops[name]].head)}
    for name in cut.own:
        to_node, to_end = links[cut.exits[name]], links[cut.stops[name]]
        turns = tuple(part.link for part in (to_node, to_end) if part.link is not None)
        links[name] = SourceLink(links[name].tail, to_node.head, links[name].link, turns)
    return Source(
        {name: link for name, link in links.items() if name not in made},
        {name: node for name, node in source.nodes.items() if name not in nodes},
    )
