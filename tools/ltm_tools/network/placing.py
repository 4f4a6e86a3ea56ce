"""Where the nodes and links of a case lie, by the places and shapes of the network that it was made of."""
from __future__ import annotations

from collections.abc import Sequence
from dataclasses import dataclass
from fractions import Fraction

from ..case.places import Line, Place, Places
from .importing import Carried
from .projection import TransverseMercator

MOST_TOLD = 5
FARTHEST_M = 20_100_000.0  # a little more than from pole to pole


@dataclass(frozen=True, slots=True)
class Map:
    """How places of a source become those of `nodes.csv`: what was added to them is taken off, then a projection is
    undone, where there is one; and the `crs` that they have then."""

    added: tuple[Fraction, Fraction] = (Fraction(0), Fraction(0))
    projection: TransverseMercator | None = None
    crs: str | None = None

    def metres(self, place: Place) -> Place:
        """The place without what was added to it, exactly, as the file has the numbers."""
        x, y = (
            place
            if not any(self.added)
            else (float(Fraction(repr(number)) - added) for number, added in zip(place, self.added))
        )
        return x, y

    def has(self, *places: Place) -> bool:
        """Whether these lie where the projection has something of the earth."""
        added = tuple(map(float, self.added))
        return self.projection is None or all(
            abs(x - added[0]) <= FARTHEST_M and abs(y - added[1]) <= FARTHEST_M for x, y in places
        )

    def place(self, place: Place) -> Place:
        """The place as `nodes.csv` has it."""
        return self.metres(place) if self.projection is None else self.projection.degrees(self.metres(place))

    def line(self, line: Line) -> Line:
        """The points of a line so."""
        return tuple(map(self.place, line))


def places_of(made: Carried, drawn: Map) -> tuple[Places | None, list[str]]:
    """The places of all nodes of a case and the shapes of its links; none where a node has none, and what is to be told
    then."""
    network = made.network
    found: dict[str, Place] = {}
    for node in network.used_nodes():
        place = network.nodes[node].place or end_of_a_line(made, node)
        if place is not None:
            found[node] = place
    missing = [made.node_names[node] for node in network.used_nodes() if node not in found]
    if missing:
        return None, [f"nodes.csv is not written, as nodes have no place: {named_few(missing)}"] if found else []
    off = [made.node_names[node] for node, place in found.items() if not drawn.has(place)]
    if off:
        return None, [f"nodes.csv is not written, as the projection has nothing where nodes lie: {named_few(off)}"]
    places = Places({made.node_names[node]: drawn.place(place) for node, place in found.items()}, drawn.crs)
    for road in network.roads.values():
        line = network.line(road)
        if len(line) > 2 and drawn.has(*line):
            places.shapes[made.link_names[road.name]] = drawn.line(line)
    return places, []


def named_few(names: Sequence[str]) -> str:
    """The first few of these names, and how many more there are."""
    return ", ".join(names[:MOST_TOLD]) + (f" and {len(names) - MOST_TOLD} more" if len(names) > MOST_TOLD else "")


def end_of_a_line(made: Carried, node: str) -> Place | None:
    """Where the first link with a shape begins or ends that begins or ends at a node."""
    network = made.network
    for names, place in ((network.outs[node], 0), (network.ins[node], -1)):
        for name in names:
            if network.roads[name].shape:
                return network.roads[name].shape[place]
    return None
