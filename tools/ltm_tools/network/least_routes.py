"""The least routes of the pairs of nodes with most demand, by free-flow times."""
from __future__ import annotations

import heapq
from collections.abc import Iterable
from fractions import Fraction

from .balance import MOST_ROUTES
from .exact import whole_times
from .network import Network

Times = dict[str, Fraction | int]


def least_routes(
    raw: Network, pairs: Iterable[tuple[str, str, int]], count: int = MOST_ROUTES
) -> list[tuple[tuple[str, ...], int]]:
    """The least routes of the pairs of nodes with most demand, each with its demand."""
    chosen = heapq.nsmallest(count, pairs, key=lambda pair: -pair[2])
    origins: dict[str, list[str]] = {}
    for origin, destination, _ in chosen:
        origins.setdefault(destination, []).append(origin)
    ways, found = Ways(raw), {}
    for destination, begins in origins.items():
        times = ways.times(destination, begins)
        for origin in begins:
            found[origin, destination] = ways.route(origin, destination, times)
    return [(found[origin, destination], units) for origin, destination, units in chosen if found[origin, destination]]


class Ways:
    """The roads of a network at each node, with times that are exact and the same multiple of the roads' own."""

    def __init__(self, raw: Network) -> None:
        times = whole_times(raw.roads)
        self.into = {node: [(raw.roads[name].tail, times[name]) for name in names] for node, names in raw.ins.items()}
        self.out = {
            node: [(name, raw.roads[name].head, times[name]) for name in names] for node, names in raw.outs.items()
        }

    def times(self, destination: str, origins: Iterable[str]) -> Times:
        """The least times to a destination from these nodes, as far as ways lead from them, and from all that are
        nearer than the farthest of them, which is all that their routes lead over."""
        left = set(origins)
        found: Times = {}
        queue: list[tuple[Fraction | int, str]] = [(0, destination)]
        while queue and left:
            time, node = heapq.heappop(queue)
            if node in found:
                continue
            found[node] = time
            left.discard(node)
            for tail, more in self.into.get(node, ()):
                if tail not in found:
                    heapq.heappush(queue, (time + more, tail))
        return found

    def route(self, origin: str, destination: str, times: Times) -> tuple[str, ...]:
        """The roads of a least route, by the least times to its destination; none where there is no route."""
        if origin not in times:
            return ()
        route, node = [], origin
        while node != destination:
            _, _, name, node = min(
                (times[head] + time, place, name, head)
                for place, (name, head, time) in enumerate(self.out[node])
                if head in times
            )
            route.append(name)
        return tuple(route)
