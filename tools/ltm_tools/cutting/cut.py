"""The case of the inside of another: its links, demand where vehicles come in and set out, and splits by the node where
they leave."""
from __future__ import annotations

from collections.abc import Iterable, Mapping, Sequence
from copy import copy
from dataclasses import dataclass
from itertools import groupby

from ..case import Case
from ..case.rows import Demand, Split
from ..case.sizes import ask_for_sizes
from ..errors import Fault
from ..formats import MOST_SLOT_UNITS
from ..loading.curves import Curves
from .exits import Exits, exits_of
from .flows import Flow, Flows, flows_of
from .inside import Inside

FINE = 1_000  # parts of a thousandth of a vehicle in a weight
WHOLE = 1_000_000  # of the weights of a node at which nothing has left yet


@dataclass(frozen=True)
class Cut:
    """The case of the inside, what its setup asks for, and the thousandths of vehicles that would leave where they come
    in, which it does not have."""

    case: Case
    notes: Sequence[str]
    back: int


def cut(case: Case, curves: Curves, inside: Inside, every: int) -> Cut:
    """Cuts the inside out of a case with its loading; splits change every so many slots at most."""
    exits = exits_of(case, curves, inside)
    flows = flows_of(case, curves, inside, exits)
    demand = [row for (node, end), flow in flows.coming.items() for row in demand_rows(node, end, flow)]
    if not demand:
        raise Fault("nobody comes in or sets out inside, so that there is nothing to cut out")
    setup = copy(case.setup)
    setup.cells = setup.rows = setup.links = setup.destinations = None
    setup.origin_capacity = min(MOST_SLOT_UNITS, max(setup.origin_capacity, most_in_a_slot(demand)))
    made = Case(
        setup,
        [copy(link) for link in inside.links],
        demand,
        split_rows(case, inside, exits, flows, demand, every),
        [copy(row) for row in case.signals if row.link in inside.names],
        [copy(row) for row in case.limits if row.link in inside.names],
    )
    return Cut(made, ask_for_sizes(made, setup.moves, history=None), round(flows.back))


def demand_rows(node: str, end: str, flow: Flow) -> list[Demand]:
    """The rows of demand of a flow: what rounding leaves over of a slot is added to the next."""
    units, exact, given = [], 0.0, 0
    for part in flow:
        exact += part
        units.append(round(exact) - given)
        given += units[-1]
    rows, slot = [], 0
    for each, same in groupby(units):
        count = len(list(same))
        if each:
            rows.append(Demand(node, end, slot, slot + count, each * count))
        slot += count
    return rows


def most_in_a_slot(demand: Iterable[Demand]) -> int:
    """The most that sets out at a node in a slot, in thousandths of a vehicle."""
    found: dict[tuple[str, int], int] = {}
    for row in demand:
        each = row.units // (row.to_slot - row.from_slot)
        for slot in range(row.from_slot, row.to_slot):
            found[row.origin, slot] = found.get((row.origin, slot), 0) + each
    return max(found.values())


def split_rows(
    case: Case, inside: Inside, exits: Exits, flows: Flows, demand: Iterable[Demand], every: int
) -> list[Split]:
    """The splits of all nodes that vehicles come to, by exit."""
    by_node: dict[tuple[str, str], dict[str, Flow]] = {}
    for (name, end), flow in flows.entering.items():
        if (tail := inside.roads.links[name].tail) != end and any(flow):
            by_node.setdefault((tail, end), {})[name] = flow
    wanted, found = list(dict.fromkeys((row.origin, row.destination) for row in demand)), {}
    while wanted:
        node, end = wanted.pop()
        if node == end or (node, end) in found:
            continue
        rows = weights_over_time(by_node.get((node, end), {}), every, case.setup.slots)
        found[node, end] = rows or [(0, at_first(inside, exits, node, end))]
        links = dict.fromkeys(name for _, weights in found[node, end] for name in weights)
        wanted += [(inside.roads.links[name].head, end) for name in links]
    return [
        Split(node, end, slot, dict(weights)) for (node, end), rows in sorted(found.items()) for slot, weights in rows
    ]


def weights_over_time(flows: Mapping[str, Flow], every: int, slots: int) -> list[tuple[int, dict[str, int]]]:
    """The weights of links by what enters them, from each slot on at which they change; those before the first vehicle
    are its own."""
    rows: list[tuple[int, dict[str, int]]] = []
    for first in range(0, slots, every):
        sums = {name: round(sum(flow[first : first + every]) * FINE) for name, flow in flows.items()}
        weights = {name: units for name, units in sums.items() if units}
        if weights and (not rows or not same(weights, rows[-1][1])):
            rows.append((first if rows else 0, weights))
    return rows


def same(one: Mapping[str, int], other: Mapping[str, int]) -> bool:
    """Whether two weights share alike."""
    if one.keys() != other.keys():
        return False
    whole, others = sum(one.values()), sum(other.values())
    return all(weight * others == other[name] * whole for name, weight in one.items())


def at_first(inside: Inside, exits: Exits, node: str, end: str) -> dict[str, int]:
    """The weights of a node at which nobody has left for an exit by the end: as the splits of all destinations say that
    lead there."""
    found: dict[str, float] = {}
    for key, parts in exits.parts.items():
        if end in parts.get(node, {}):
            for link, share in exits.fractions[key].get(node, {}).items():
                if link in inside.names:
                    there = exits.parts[key].get(inside.roads.links[link].head, {})
                    found[link] = found.get(link, 0.0) + share * there.get(end, 0.0)
    whole = sum(found.values())
    return {link: max(1, round(part / whole * WHOLE)) for link, part in found.items() if part}
