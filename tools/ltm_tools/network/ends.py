"""Fewer destinations: those with most vehicles stay, and each other one is joined to the nearest of them by free-flow
time."""
from __future__ import annotations

import heapq
from collections.abc import Iterable, Mapping
from dataclasses import dataclass
from fractions import Fraction

from .network import Network


@dataclass(frozen=True, slots=True)
class Joined:
    """The destination that takes the trips to another, and the free-flow time in ms between them."""

    node: str
    time: Fraction | int


def most_used(units: Mapping[str, int], most: int) -> list[str]:
    """The nodes with most, at most so many."""
    return sorted(units, key=lambda node: (-units[node], node))[:most]


def nearest_kept(network: Network, kept: Iterable[str], others: Iterable[str]) -> dict[str, Joined]:
    """For each other node the nearest of those that are kept, driven to it or from it; none where no way leads either
    way."""
    listed = list(kept)
    onward, back = nearest_of(network, listed, True), nearest_of(network, listed, False)
    made = {}
    for node in others:
        found = [near for near in (onward.get(node), back.get(node)) if near is not None]
        if found:
            made[node] = min(found, key=lambda near: (near.time, near.node))
    return made


def nearest_of(network: Network, kept: Iterable[str], onward: bool) -> dict[str, Joined]:
    """For each node the kept one to which, or from which, a way of least time leads."""
    found: dict[str, Joined] = {}
    queue: list[tuple[Fraction | int, str, str]] = [(0, node, node) for node in kept]
    heapq.heapify(queue)
    while queue:
        time, node, end = heapq.heappop(queue)
        if node in found:
            continue
        found[node] = Joined(end, time)
        for name in (network.ins if onward else network.outs).get(node, ()):
            road = network.roads[name]
            following = road.tail if onward else road.head
            if following not in found:
                heapq.heappush(queue, (time + road.time, following, end))
    return found
