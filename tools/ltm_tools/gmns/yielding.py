"""Approaches of a GMNS network that yield at junctions without lights whose turns are no links, by gaps in the traffic
on least routes.

Who yields is said by `ctrl_type`: in `movement.csv` of turns, and where that has none at a node, in `node.csv` of the
node. There the approaches with less capacity yield to those with the greatest.
"""
from __future__ import annotations

from collections.abc import Collection, Iterator, Mapping
from dataclasses import replace
from fractions import Fraction

from ..demand.cycles import Green
from ..demand.matrices import Amounts
from ..demand.route_splits import Route
from ..demand.values import whole_units
from ..formats import MINUTE_MS, counted
from ..network.crossings.movements import Held, Movement, Movements, Pair
from ..network.crossings.options import MINOR_GAP
from ..network.crossings.volumes import turns_counted
from ..network.crossings.yielding import Yielding, add_waits, names_of, yields_of, yields_told
from ..network.network import Network, least_route, least_times
from ..network.od_case import OdOptions, departure_parts
from .movements import SIGNS
from .net import Read


def by_node_control(read: Read, turns: Mapping[Pair, Movement], held: Collection[Pair]) -> dict[Pair, Held]:
    """How turns yield at nodes with a sign, as `node.csv` says, where nothing holds a turn otherwise."""
    raw, equal = read.network, 0
    made: dict[Pair, Held] = {}
    at: dict[str, list[Pair]] = {node: [] for node in signed_nodes(read)}
    for pair in turns:
        if raw.roads[pair[0]].head in at:
            at[raw.roads[pair[0]].head].append(pair)
    for pairs in at.values():
        capacities = {pair[0]: raw.roads[pair[0]].capacity for pair in pairs}
        if len(capacities) < 2 or any(pair in held for pair in pairs):
            continue
        greatest = max(capacities.values())
        first = [pair for pair in pairs if capacities[pair[0]] == greatest]
        minor = [pair for pair in pairs if capacities[pair[0]] < greatest]
        equal += not minor
        made |= {pair: held_by_sign(first, turns, read) for pair in minor}
    if equal:
        read.notes.append(
            f"{counted(equal, 'node')} with a sign where all links have the same capacity, so that nobody yields:"
            f" ctrl_type of movement.csv says who does"
        )
    return made


def signed_nodes(read: Read) -> list[str]:
    """The nodes with a sign, by `node.csv`."""
    if read.nodes is None or "ctrl_type" not in read.nodes.fields:
        return []
    rows = (row for row in read.nodes.rows if row.text("ctrl_type", "").lower() in SIGNS)
    return [node for row in rows if (node := row.text("node_id", "")) in read.network.nodes]


def held_by_sign(first: list[Pair], turns: Mapping[Pair, Movement], read: Read) -> Held:
    """How a turn yields to these turns."""
    lanes = lanes_of_roads(read)
    foes = dict.fromkeys((pair[0], lane) for pair in first for lane in turns[pair].lanes or range(lanes[pair[0]]))
    return Held((), (Green(MINUTE_MS, 0, MINUTE_MS),), tuple(first), tuple(foes), MINOR_GAP)


def lanes_of_roads(read: Read) -> dict[str, int]:
    """The lanes of each road, by what it stores."""
    return {name: max(1, round(road.jam / read.units.jam)) for name, road in read.network.roads.items()}


def give_way(
    read: Read, movements: Movements, apart: Collection[str], amounts: Amounts, step: int, options: OdOptions
) -> list[Yielding]:
    """The approaches that yield but for those of some nodes, whose waits are added to the network."""
    raw, asked = read.network, options.crossings
    if not asked.yields or not any(turn.held is not None and turn.held.sign for turn in movements.turns.values()):
        return []
    times = {name: road.time for name, road in raw.roads.items()}
    routes = routes_of(raw, amounts, step, asked.slice_minutes * MINUTE_MS, options)
    volumes = turns_counted(routes, times, asked.slice_minutes * MINUTE_MS, names_of(movements))
    found = yields_of(raw, replace(movements, lanes=lanes_of_roads(read)), volumes, asked.saturation, apart)
    yields = add_waits(raw, found)
    read.notes += yields_told(yields, read.streets)
    return yields


def routes_of(raw: Network, amounts: Amounts, step: int, slice_ms: int, options: OdOptions) -> Iterator[Route]:
    """The demand on least routes, each part of it that sets out together in parts of at most a slice."""
    parts, _ = departure_parts(options, step, [])
    times: dict[str, dict[str, Fraction | int]] = {}
    for (origin, destination), volume in amounts.volumes.items():
        for start, share in raw.origins.get(origin, {}).items():
            for end, other in raw.destinations.get(destination, {}).items():
                if end not in times:
                    times[end] = least_times(raw, end)
                links = tuple(least_route(raw, start, end, times[end]) or ()) if start != end else ()
                for part in parts if links else ():
                    units = whole_units(volume * share * other * part.share, "demand")
                    begin, long = part.from_slot * step, (part.to_slot - part.from_slot) * step
                    count = max(1, -(-long // slice_ms))
                    for number in range(count):
                        some = units * (number + 1) // count - units * number // count
                        yield Route(links, begin + long * (2 * number + 1) // (2 * count), some)
