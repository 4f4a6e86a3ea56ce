"""Ways over a net of SUMO: whether edges are a route, and the least routes between edges by the turns that are allowed.

Of least routes that take the same time that one is taken which, from its beginning on, has the edge of the least name.
Times are whole numbers in parts of a millisecond, so that they are compared exactly.
"""
from __future__ import annotations

import heapq
from collections.abc import Iterable, Mapping, Sequence
from fractions import Fraction
from math import lcm

from ..case.leading import strong_parts
from .net import SumoNet

Leg = tuple[str, str]


class Ways:
    """The turns that are allowed in a net; all turns where the net says none. Edges have numbers in the order of their
    names."""

    def __init__(self, net: SumoNet) -> None:
        self.roads = net.network.roads
        self.names = sorted(self.roads)
        self.number = {name: number for number, name in enumerate(self.names)}
        self.parts = lcm(*(road.time.denominator for road in self.roads.values()))
        """How many units of time a millisecond has."""
        self.times = [int(self.roads[name].time * self.parts) for name in self.names]
        self.before: list[list[int]] = [[] for _ in self.names]
        self.after: list[list[int]] = [[] for _ in self.names]
        pairs = {(self.number[way.edge], self.number[way.after]) for way in net.connections}
        if not pairs:
            pairs = {
                (self.number[name], self.number[after])
                for name, road in self.roads.items()
                for after in net.network.outs[road.head]
            }
        for edge, after in sorted(pairs):
            self.before[after].append(edge)
            self.after[edge].append(after)
        self.kept: dict[str, dict[int, int]] = {}
        self.asked: dict[tuple[str, ...], bool] = {}

    def is_route(self, edges: tuple[str, ...]) -> bool:
        """Whether each edge begins where the one before it ends; looked up where it was asked before, as of a flow."""
        if edges not in self.asked:
            self.asked[edges] = all(name in self.roads for name in edges) and all(
                self.roads[name].head == self.roads[after].tail for name, after in zip(edges, edges[1:])
            )
        return self.asked[edges]

    def circling(self) -> dict[str, int]:
        """Of each edge from which a way leads back to it the number of its part: from each edge of a part ways lead to
        all others of it."""
        names = [str(number) for number in range(len(self.names))]
        found = strong_parts(names, {name: [names[after] for after in self.after[int(name)]] for name in names})
        return {self.names[int(name)]: part for part, of_part in enumerate(found) for name in of_part}

    def legs(self, wanted: Iterable[Leg]) -> dict[Leg, tuple[str, ...]]:
        """The least routes between these pairs of edges, both ends included, of those that have one; by one search for
        each edge where some begin, or for each where some end, whichever are fewer."""
        pairs = list(dict.fromkeys((self.number[start], self.number[end]) for start, end in wanted))
        starts, ends = {start for start, _ in pairs}, {end for _, end in pairs}
        onward = len(starts) < len(ends)
        goals: dict[int, list[int]] = {}
        for start, end in pairs:
            goals.setdefault(start if onward else end, []).append(end if onward else start)
        found: dict[Leg, tuple[str, ...]] = {}
        for root, others in goals.items():
            times = self.search(root, self.after if onward else self.before, others)
            for other in others:
                if other in times:
                    route = self.onward(root, other, times) if onward else self.back(other, root, times)
                    found[self.names[route[0]], self.names[route[-1]]] = tuple(self.names[number] for number in route)
        return found

    def search(self, root: int, following: Sequence[Sequence[int]], goals: Iterable[int]) -> dict[int, int]:
        """The least times between an edge and others, in the direction of `following`, that of both with them; all
        those that lie no farther than the goals, or all that there are without goals."""
        left = set(goals)
        every, times, least = not left, self.times, {root: self.times[root]}
        found: dict[int, int] = {}
        queue = [(times[root], root)]
        while queue and (every or left):
            time, number = heapq.heappop(queue)
            if number in found:
                continue
            found[number] = time
            left.discard(number)
            for other in following[number]:
                later = time + times[other]
                if other not in found and later < least.get(other, later + 1):
                    least[other] = later
                    heapq.heappush(queue, (later, other))
        return found

    def back(self, start: int, end: int, times: Mapping[int, int]) -> list[int]:
        """The least route between two edges, by the times from the beginning of each to the end of the last."""
        route = [start]
        while route[-1] != end:
            left = times[route[-1]] - self.times[route[-1]]
            route.append(next(number for number in self.after[route[-1]] if times.get(number) == left))
        return route

    def onward(self, start: int, end: int, times: Mapping[int, int]) -> list[int]:
        """The same, by the times from the beginning of the first to the end of each: of the edges by which a least
        route comes."""
        coming, queue = {end}, [end]
        while queue:
            number = queue.pop()
            for edge in self.before[number]:
                if edge not in coming and edge in times and times[edge] + self.times[number] == times[number]:
                    coming.add(edge)
                    queue.append(edge)
        route = [start]
        while route[-1] != end:
            at = times[route[-1]]
            route.append(
                next(
                    number
                    for number in self.after[route[-1]]
                    if number in coming and at + self.times[number] == times[number]
                )
            )
        return route

    def gain(self, start: str, end: str) -> Fraction | None:
        """The least time in ms to drive on from the end of an edge to the end of another; none where no way leads
        there."""
        time = self.times_to(end).get(self.number[start])
        return None if time is None else Fraction(time - self.times[self.number[start]], self.parts)

    def leg(self, start: str, end: str) -> list[str]:
        """The least route between two edges, both included."""
        times = self.times_to(end)
        return (
            [self.names[number] for number in self.back(self.number[start], self.number[end], times)]
            if self.number[start] in times
            else []
        )

    def times_to(self, end: str) -> dict[int, int]:
        """The least times from the beginning of each edge to the end of one, kept for the next call."""
        if end not in self.kept:
            self.kept[end] = self.search(self.number[end], self.before, ())
        return self.kept[end]
