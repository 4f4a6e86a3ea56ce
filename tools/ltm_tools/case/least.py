"""The search for least ways (Dijkstra 1959), one for all who look for ways of free flow or the shortest."""
from __future__ import annotations

import heapq
from collections.abc import Callable, Iterable
from fractions import Fraction
from typing import TypeVar

Node = TypeVar("Node", str, int)
Length = TypeVar("Length", int, float, Fraction | int)


def least(start: Node, zero: Length, near: Callable[[Node], Iterable[tuple[Node, Length]]]) -> dict[Node, Length]:
    """The least sum of lengths from a node to each that is reached, the nearest first; `near` tells the nodes that lie
    next to one, and how far."""
    found: dict[Node, Length] = {}
    queue = [(zero, start)]
    while queue:
        length, node = heapq.heappop(queue)
        if node in found:
            continue
        found[node] = length
        for other, more in near(node):
            if other not in found:
                heapq.heappush(queue, (length + more, other))
    return found
