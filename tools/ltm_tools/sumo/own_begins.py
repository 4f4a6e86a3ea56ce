"""Trips that begin on an edge leave by that edge, and by no other that leads away from the node where it begins.

Such an edge is cut a step behind its beginning. What comes over the node drives over the first part, and trips that
begin there come onto the second one, so that it takes them as long as if they drove over the whole edge.
"""
from __future__ import annotations

from collections.abc import Collection, Container
from dataclasses import dataclass, field, replace

from ..case.source import Source, SourceLink
from ..demand.route_splits import Links, Route
from ..formats import MOST_LINKS_ASKED, counted, short_vehicles
from ..network.arms import free_name
from ..network.crossings.expand import part_time
from ..network.fitting import stretched
from ..network.lines import cut_at
from ..network.network import Network, Node

LINKS_OF_A_BEGIN = 2
"""The links that an edge gets more: the part before its beginning, and an entry."""


@dataclass
class OwnBegins:
    """The edges that were cut, each with the part before it; how many others are too short, and how many there is no
    room for; and the thousandths of vehicles on these, and of all."""

    parts: dict[str, str] = field(default_factory=dict)
    short: int = 0
    short_units: int = 0
    left: int = 0
    left_units: int = 0
    units: int = 0

    def over_parts(self, links: Links) -> Links:
        """A route over edges as one over their parts, but for the first edge, on which it begins."""
        if not any(name in self.parts for name in links[1:]):
            return links
        parts = [part for name in links[1:] for part in ((self.parts[name], name) if name in self.parts else (name,))]
        return (links[0], *parts)

    def told(self) -> list[str]:
        """How many edges have a beginning of their own, and which vehicles may leave by other edges."""
        told = []
        if self.parts:
            told.append(
                f"{counted(len(self.parts), 'edge')} on which trips begin have an origin of their own, as other edges"
                f" lead away from their nodes too (--origins node lets trips take any of these)"
            )
        for count, units, why in (
            (self.short, self.short_units, "too short to be cut"),
            (self.left, self.left_units, f"for which {MOST_LINKS_ASKED:,} links leave no room"),
        ):
            if count:
                told.append(
                    f"{short_vehicles(units)} vehicles ({100 * units / self.units:.1f} %) begin on"
                    f" {counted(count, 'edge')} {why}, and may leave by other edges of their nodes"
                )
        return told


def may_leave_by_others(raw: Network, routes: list[Route]) -> list[str]:
    """How many vehicles begin at nodes from which several edges lead away, where trips begin at nodes."""
    units = units_of_first(routes)
    shared = sum(units[name] for name in forked(raw, units))
    if not shared:
        return []
    return [
        f"{short_vehicles(shared)} vehicles begin where other edges lead away too, and may leave by these (--origins"
        f" edge with --entries links gives each edge an origin of its own)"
    ]


def units_of_first(routes: list[Route]) -> dict[str, int]:
    """Of each first edge the thousandths of vehicles that begin on it."""
    units: dict[str, int] = {}
    for route in routes:
        units[route.links[0]] = units.get(route.links[0], 0) + route.units
    return units


def forked(raw: Network, units: Collection[str], apart: Container[str] = ()) -> list[str]:
    """Of some edges those from whose nodes others lead away too, but for those of nodes whose turns are links."""
    return [name for name in units if (node := raw.roads[name].tail) not in apart and len(raw.outs[node]) > 1]


def cut_begins(raw: Network, routes: list[Route], step: int) -> OwnBegins:
    """Cuts the edges on which trips begin and beside which others lead away, as far as these are long enough and there
    is room; those come first on which most vehicles begin."""
    units = units_of_first(routes)
    made = OwnBegins(units=sum(units.values()))
    nodes = len({raw.roads[name].tail for name in units})
    room = (MOST_LINKS_ASKED - len(raw.roads) - nodes) // LINKS_OF_A_BEGIN
    for name in sorted(forked(raw, units), key=lambda name: (-units[name], name)):
        if raw.roads[name].time < 2 * part_time(raw.roads[name], step):
            made.short += 1
            made.short_units += units[name]
        elif len(made.parts) >= room:
            made.left += 1
            made.left_units += units[name]
        else:
            made.parts[name] = cut_begin(raw, name, step)
    return made


def cut_begin(raw: Network, name: str, step: int) -> str:
    """Cuts an edge behind its beginning; the name of the part before."""
    road = raw.roads[name]
    part, line = part_time(road, step), raw.line(road)
    first, rest = cut_at(line, float(part / road.time)) if len(line) > 1 else ((), ())
    node, into = free_name(f"{name}_begin", raw.nodes), free_name(f"{name}_in", raw.roads)
    raw.add_node(Node(node, *(rest[0] if rest else raw.nodes[road.tail].place or (None, None))))
    tail = road.tail
    raw.move_tail(name, node)
    raw.roads[name] = replace(stretched(road, -part), tail=node, shape=rest[1:-1])
    raw.add(
        replace(stretched(road, part - road.time), name=into, tail=tail, head=node, parts=(into,), shape=first[1:-1])
    )
    return into


def whole_edges(source: Source, made: Source, begins: OwnBegins) -> Source:
    """A source whose edges with a beginning of their own are whole, the part before told as turns are; `made` has what
    has become of each part."""
    parts, links = set(begins.parts.values()), dict(source.links)
    nodes = {made.links[part].head for part in parts}
    for name, part in begins.parts.items():
        into, own = made.links[part], links[name]
        tail = into.tail if own.tail in nodes else own.tail
        before = () if into.link is None else (into.link,)
        links[name] = SourceLink(tail, own.head, own.link, (*before, *own.turns))
    return Source(
        {name: link for name, link in links.items() if name not in parts},
        {name: node for name, node in source.nodes.items() if name not in nodes},
    )
