"""Makes links of the turns of a GMNS network, and counts traffic at its crossings by least routes."""
from __future__ import annotations

from collections.abc import Iterable, Iterator
from dataclasses import dataclass, replace
from fractions import Fraction
from pathlib import Path

from ..case import Case, Demand
from ..case.roads import Roads
from ..demand.matrices import Amounts
from ..demand.route_splits import Route
from ..formats import MINUTE_MS, many
from ..network.crossings.chosen import chosen
from ..network.crossings.expand import Expanded, Form, cut_as_they_are, expand
from ..network.crossings.limits import turn_limits
from ..network.crossings.movements import Movements
from ..network.crossings.options import CrossingOptions
from ..network.crossings.sources import links_of_turns
from ..network.crossings.told import crossings_told, saturation_told, turns_told, whole_told
from ..network.crossings.turn import turns_of
from ..network.crossings.turns_file import Turns
from ..network.crossings.volumes import volumes_of
from ..network.importing import Carried
from ..network.crossings.yielding import Yielding
from ..network.od_case import OdOptions
from ..network.steps import longest_step
from .movements import all_turns, by_signs, lanes_of, read_movements
from .net import Read
from .signals import read_signals
from .yielding import by_node_control, give_way


@dataclass
class TurnedNetwork:
    """A network with turns as links: the turns that it allows, what has become of its crossings, and what each approach
    lets pass in an hour."""

    movements: Movements
    expanded: Expanded
    capacities: dict[str, Fraction]


def turn(
    folder: Path, read: Read, begins: set[str], ends: set[str], amounts: Amounts, options: OdOptions
) -> tuple[TurnedNetwork | None, list[Yielding]]:
    """Makes links of the turns of the crossings that are asked for; none where there are none. Trips begin and end at
    these nodes, and the zones of the network follow. With the approaches of other crossings that yield."""
    network, asked = read.network, options.crossings
    told = read_movements(folder, read)
    held = by_signs(told, network, read.units.jam) | read_signals(folder, told, read)
    found = all_turns(told, network)
    held = (by_node_control(read, found, held) if asked.yields else {}) | held
    turns = {pair: replace(one, held=held.get(pair)) for pair, one in found.items()}
    movements = Movements(turns, lanes_of(network, read.units.jam, turns))
    # without a table nobody says that a turn back is forbidden, and nodes stay as they are
    is_apart = asked.apart and bool(told.turns)
    wanted = chosen(network, movements, ends, asked.turns, begins=begins, apart=is_apart, joined=asked.joined)
    step = options.fit or options.step or min(longest_step(network), MINUTE_MS)
    picked = wanted if options.fit else cut_as_they_are(network, wanted, step)
    read.notes += whole_told(len(wanted.crossings) - len(picked.crossings))
    yields = give_way(read, movements, picked.crossings, amounts, step, options)
    if not picked.crossings and not picked.parted:
        return None, yields
    capacities = {name: road.capacity for name, road in network.roads.items()}
    form = Form(step=step, length_m=asked.length_m, ends=ends, begins=begins, saturation=asked.saturation)
    made = expand(network, movements, picked, form)
    network.origins = {
        zone: {made.origins.get(node, node): share for node, share in of.items()}
        for zone, of in network.origins.items()
    }
    network.signals = {road for pair, road in made.links.items() if turns[pair].held is not None}
    read.notes += crossings_told(made)
    return TurnedNetwork(movements, made, capacities), yields


def turns_of_case(made: Carried, turned: TurnedNetwork, case: Case, asked: CrossingOptions, read: Read) -> Turns:
    """The turns of the case, whose limits are added to its signals; traffic is counted as it were if all took the least
    route."""
    links = {link.name: link for link in case.links}
    roads = Roads.of(case.links)
    volumes = volumes_of(
        least_routes_by_slice(roads, case.demand, case.setup.step_ms, asked.slice_minutes * MINUTE_MS),
        roads,
        asked.slice_minutes * MINUTE_MS,
    )
    turns = turns_of(
        links_of_turns(made.source, turned.expanded),
        turned.movements,
        turned.capacities,
        asked.permissive,
        {},
        asked.saturation,
        turned.expanded.uncut(),
    )
    limits = turn_limits(turns, volumes, links, case.setup)
    case.signals += limits
    case.setup.signals = bool(case.signals)
    read.notes += [
        *([f"{many(len(limits), 'record')} of signals"] if limits else []),
        *saturation_told(turns),
        *turns_told(turns, volumes, links, case.setup, read.streets, sum(row.units for row in case.demand)),
    ]
    if any(one.permitted for one in turns):
        read.notes.append(
            "traffic at crossings is counted by least routes: ltm-tools turns CASE ROUTES counts it by others"
        )
    return Turns(tuple(turns), volumes)


def least_routes_by_slice(roads: Roads, demand: Iterable[Demand], step_ms: int, slice_ms: int) -> Iterator[Route]:
    """The least routes of rows of demand, each in parts of at most a slice."""
    times: dict[str, dict[str, int]] = {}
    for row in demand:
        if row.destination not in times:
            times[row.destination] = roads.least_times(row.destination)
        links = least_route(roads, row.origin, times[row.destination])
        start, end = row.from_slot * step_ms, row.to_slot * step_ms
        parts = max(1, -(-(end - start) // slice_ms))
        for part in range(parts if links else 0):
            units = row.units * (part + 1) // parts - row.units * part // parts
            yield Route(links, start + (end - start) * (2 * part + 1) // (2 * parts), units)


def least_route(roads: Roads, node: str, times: dict[str, int]) -> tuple[str, ...]:
    """The links of a least route by the least times to its destination; none where no way leads there."""
    links: list[str] = []
    while node in times and times[node]:
        name = min(
            (name for name in roads.outs[node] if roads.links[name].head in times),
            key=lambda name: roads.links[name].free_ms + times[roads.links[name].head],
        )
        links.append(name)
        node = roads.links[name].head
    return tuple(links)
