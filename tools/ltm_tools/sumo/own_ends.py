"""Which of the edges at which trips end get an end of their own, so that trips end on the edge that they say.

A node to which several edges lead would let them come there by each of these. Each own end is a destination, and a
case takes so many of these: where they would be too many, edges at which most vehicles end come first.
"""
from __future__ import annotations

from collections.abc import Container
from dataclasses import dataclass

from ..demand.route_splits import Route
from ..formats import MOST_LINKS_ASKED, counted, short_vehicles
from ..network.crossings.chosen import Chosen
from ..network.crossings.movements import Movements
from ..network.early import destinations_that_fit
from ..network.network import Network
from .crossings import net_step
from .ends import cut_time
from .inputs import Inputs, horizon_ms
from .options import SumoOptions

MOST_CELLS_OF_ENDS = 2_000_000_000
"""The most cells that a case has for the sake of ends of their own, some 2 GB of memory where all counts are kept."""
LINKS_OF_AN_END = 2


@dataclass(frozen=True)
class OwnEnds:
    """The edges with an end of their own; how many destinations there are by these and by nodes; and the edges with the
    thousandths of vehicles that end at a node to which others lead all the same: those too short to be cut, and those
    for which there is no room."""

    edges: frozenset[str] = frozenset()
    ends: int = 0
    nodes: int = 0
    short: int = 0
    short_units: int = 0
    left: int = 0
    left_units: int = 0
    most: int = 0
    units: int = 0

    def told(self) -> list[str]:
        """How many edges have an end of their own and what that costs, and which vehicles end where others lead too."""
        told = []
        if self.edges:
            more = f", {self.ends} destinations in place of {self.nodes}" if self.ends > self.nodes else ""
            told.append(
                f"{counted(len(self.edges), 'edge')} at which trips end have an end of their own, as other edges lead"
                f" there too{more} (--ends node has one for each node)"
            )
        if self.left:
            told.append(
                f"{self.some(self.left_units)} end on {counted(self.left, 'other edge')} to whose nodes others lead,"
                f" and may come there by these: more than {counted(self.most, 'destination')} would take too much"
                f" memory (--destinations N keeps fewer nodes, --ends node gives no edge an end of its own)"
            )
        if self.short:
            told.append(
                f"{self.some(self.short_units)} end on {counted(self.short, 'edge')} that are too short to be cut, and"
                f" may come to the node behind by other edges"
            )
        return told

    def some(self, units: int) -> str:
        """Vehicles with their part of all."""
        return f"{short_vehicles(units)} vehicles ({100 * units / self.units:.1f} %)"


def own_ends(inputs: Inputs, found: Movements | None, picked: Chosen, options: SumoOptions, more: int = 0) -> OwnEnds:
    """The edges that get an end of their own, as many as the case may have destinations, cells and links, of which so
    many more are made elsewhere."""
    raw, step = inputs.net.network, net_step(inputs, options)
    units = units_of_last(inputs.routes)
    exits = found.exits() if found is not None else {}
    shared = [name for name in units if len(raw.ins[raw.roads[name].head]) > 1]
    able = [name for name in shared if is_able(raw, name, step, picked, exits)]
    turns = sum(len(exits.get(name, ())) for node in picked.crossings for name in raw.ins[node])
    links = len(raw.roads) + turns
    most = most_ends(inputs, options, LINKS_OF_AN_END * len(able) + turns + more)
    room = max(0, MOST_LINKS_ASKED - links) // LINKS_OF_AN_END
    kept, ends = kept_ends(raw, units, able, most, room)
    left, short = [name for name in able if name not in kept], [name for name in shared if name not in able]
    return OwnEnds(
        frozenset(kept),
        ends,
        len({raw.roads[name].head for name in units}),
        len(short),
        sum(units[name] for name in short),
        len(left),
        sum(units[name] for name in left),
        most,
        sum(units.values()),
    )


def units_of_last(routes: list[Route]) -> dict[str, int]:
    """Of each last edge the thousandths of vehicles that end on it."""
    units: dict[str, int] = {}
    for route in routes:
        units[route.links[-1]] = units.get(route.links[-1], 0) + route.units
    return units


def is_able(raw: Network, name: str, step: int, picked: Chosen, exits: Container[str]) -> bool:
    """Whether an edge can have an end of its own: before a crossing whose turns are links if it leads on there, else if
    it is long enough to be cut."""
    road = raw.roads[name]
    if road.head in picked.crossings:
        return name in exits
    return road.head not in picked.parted and road.time >= 2 * cut_time(road, step)


def most_ends(inputs: Inputs, options: SumoOptions, more: int) -> int:
    """How many destinations a case may have for the sake of ends, with so many links more than the net has."""
    raw, horizon = inputs.net.network, horizon_ms(inputs, options)
    most = destinations_that_fit(raw, horizon, net_step(inputs, options), MOST_CELLS_OF_ENDS, more)
    return min(most, options.destinations or most)


def kept_ends(
    raw: Network, units: dict[str, int], able: list[str], most: int, room: int
) -> tuple[dict[str, None], int]:
    """Of the edges that can have an end of their own those that get it, and how many destinations there are then. The
    last edge of a node whose others have one costs no destination."""
    others: dict[str, set[str]] = {}
    for name in units:
        others.setdefault(raw.roads[name].head, set()).add(name)
    kept: dict[str, None] = {}
    ends = len(others)
    order = sorted(able, key=lambda name: (-units[name], name))
    for name in (*order, *order):  # again, as some cost nothing once others of their node have an end
        node = raw.roads[name].head
        cost = len(others[node]) > 1
        if name not in kept and len(kept) < room and (not cost or ends < most):
            kept[name] = None
            others[node].discard(name)
            ends += cost
    return kept, ends
