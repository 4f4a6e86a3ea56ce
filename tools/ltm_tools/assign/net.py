"""A case as arrays, for sweeps over boundaries.

`L` links, `N` nodes and `D` destinations. Nodes that links leave stand in `tails`, those with most links first; links
stand in layers, first one out of each of these nodes, then a second one of those that have two, and so on. So what is
worked out over the links of each node is so by a few operations on neighbours, each sum in the order of links.
"""
from __future__ import annotations

from collections.abc import Sequence
from copy import copy
from itertools import accumulate
from typing import Any

import numpy
from numpy.typing import NDArray

from ..case import Case, Demand, Limit, Link
from ..case.roads import Roads
from ..errors import Fault
from ..formats import MOST_SLOT_UNITS
from ..loading.delay import demand_by_origin, produced

Whole = NDArray[numpy.int64]
Real = NDArray[numpy.float64]
Truth = NDArray[numpy.bool_]

WHOLE = 1000  # the shares of a node for a destination, in whole weights, come to this
FAR = 10**13  # ms: the free-flow time from where no way leads


class Net:
    """Links, nodes and destinations of a case by number. Times are ms, amounts thousandths of a vehicle."""

    def __init__(self, case: Case) -> None:
        """A Fault where the case has no links, or no destinations."""
        if not case.links or not case.destinations:
            raise Fault(f"the case has no {'links' if not case.links else 'demand'}, so nobody chooses a route")
        self.case, self.step, self.slots = case, case.setup.step_ms, case.setup.slots
        self.node_names, self.end_names = case.nodes, case.destinations
        number = {name: place for place, name in enumerate(self.node_names)}
        outs: dict[str, list[Link]] = {}
        for link in case.links:
            outs.setdefault(link.tail, []).append(link)
        order = sorted(outs, key=lambda name: (-len(outs[name]), number[name]))
        layers = [
            [outs[name][rank] for name in order if rank < len(outs[name])]
            for rank in range(max(map(len, outs.values()), default=0))
        ]
        self.links = [link for layer in layers for link in layer]
        self.layers = tuple(accumulate(map(len, layers), initial=0))
        self.names = [link.name for link in self.links]
        self.place = {name: place for place, name in enumerate(self.names)}
        self.tail = whole_array(number[link.tail] for link in self.links)
        self.head = whole_array(number[link.head] for link in self.links)
        self.free = whole_array(link.free_ms for link in self.links)
        self.capacity = whole_array(max(1, link.capacity(self.step)) for link in self.links)
        self.ends = whole_array(number[name] for name in self.end_names)
        self.tails = whole_array(number[name] for name in order)
        self.group = numpy.concatenate([numpy.arange(len(layer)) for layer in layers] or [whole_array(())])
        self.into = by_rank(self.head)
        self.free_time = self._free_times()
        self.leads = (self.free_time[self.head] < FAR) & (self.tail[:, None] != self.ends[None, :])
        self.routed = self.some_of(self.leads)  # nodes, in the order of `tails`, and destinations with a way
        self.origins = {number[name]: rows for name, rows in demand_by_origin(case).items()}

    def part(self, places: Whole) -> "Net":
        """The same for some of the destinations, by their places."""
        made = copy(self)
        made.end_names = [self.end_names[place] for place in places.tolist()]
        made.ends, made.free_time = self.ends[places], self.free_time[:, places]
        made.leads, made.routed = self.leads[:, places], self.routed[:, places]
        return made

    def _free_times(self) -> Whole:
        """The least free-flow time from each node to each destination, `FAR` where there is no way."""
        roads = Roads.of(self.case.links)
        found = numpy.full((len(self.node_names), len(self.end_names)), FAR, dtype=numpy.int64)
        number = {name: place for place, name in enumerate(self.node_names)}
        for place, name in enumerate(self.end_names):
            for node, time in roads.least_times(name).items():
                found[number[node], place] = time
        return found

    def best_of(self, of_links: Real) -> Whole:
        """Of each node of `tails` and destination the link with the least, the first of several."""
        least, found = of_links[: self.layers[1]].copy(), numpy.zeros(self.routed.shape, dtype=numpy.int64)
        found += numpy.arange(len(found))[:, None]
        for start, end in zip(self.layers[1:], self.layers[2:]):
            part, lower = least[: end - start], of_links[start:end] < least[: end - start]
            numpy.copyto(part, of_links[start:end], where=lower)
            numpy.copyto(found[: end - start], numpy.arange(start, end)[:, None], where=lower)
        return found

    def links_of(self, group: int) -> list[int]:
        """The links out of a node of `tails`, in order."""
        return [start + group for start, end in zip(self.layers, self.layers[1:]) if start + group < end]

    def over_links(self, of_links: NDArray[Any], operation: numpy.ufunc) -> NDArray[Any]:
        """Of each node of `tails`, and each destination, this operation over the values of its links, `[.., L, D]`."""
        found = of_links[..., : self.layers[1], :].copy()
        for start, end in zip(self.layers[1:], self.layers[2:]):
            part = found[..., : end - start, :]
            operation(part, of_links[..., start:end, :], out=part)
        return found

    def some_of(self, of_links: Truth) -> Truth:
        """Of each node of `tails` and destination whether this is so for a link of it."""
        return self.over_links(of_links, numpy.logical_or)

    def least_of(self, of_links: NDArray[Any]) -> NDArray[Any]:
        """Of each node of `tails` and destination the least over its links."""
        return self.over_links(of_links, numpy.minimum)

    def sum_of(self, of_links: NDArray[Any]) -> NDArray[Any]:
        """Of each node of `tails` and destination the sum over its links."""
        return self.over_links(of_links, numpy.add)

    def demands(self) -> tuple[Whole, Whole, Whole]:
        """The pairs with demand, an origin and a destination each, and what each has produced by each boundary,
        `[pairs, slots + 1]`."""
        end = {name: place for place, name in enumerate(self.end_names)}
        found: dict[tuple[int, int], Whole] = {}
        for node, rows in self.origins.items():
            of_ends: dict[str, list[Demand]] = {}
            for row in rows:
                if row.destination in end:
                    of_ends.setdefault(row.destination, []).append(row)
            for name, of_end in of_ends.items():
                found[node, end[name]] = numpy.asarray(produced(of_end, self.slots + 1))
        pairs = sorted(found)
        return (
            whole_array(origin for origin, _ in pairs),
            whole_array(place for _, place in pairs),
            numpy.array([found[pair] for pair in pairs], dtype=numpy.int64).reshape(len(pairs), self.slots + 1),
        )

    def limits(self, rows: Sequence[Limit]) -> Whole:
        """The limit of each link in each slot, `[slots, L]`, as these rows set them one after another."""
        found = numpy.full((self.slots, len(self.names)), MOST_SLOT_UNITS, dtype=numpy.int64)
        for row in rows:
            found[row.from_slot : row.to_slot, self.place[row.link]] = row.units
        return found


def whole_array(numbers: Any) -> Whole:
    """Whole numbers as an array."""
    return numpy.fromiter(numbers, dtype=numpy.int64)


def by_rank(heads: Whole) -> list[Whole]:
    """The places of links in groups in which no head stands twice, each link in the first group that takes it."""
    seen: dict[int, int] = {}
    groups: list[list[int]] = []
    for place, head in enumerate(heads.tolist()):
        rank = seen[head] = seen.get(head, -1) + 1
        if rank == len(groups):
            groups.append([])
        groups[rank].append(place)
    return [numpy.array(group, dtype=numpy.int64) for group in groups]
