"""Links that lead on: by which a share may go for a destination in a span, and no loop can come of them.

Each node has a potential, the sum over the span of the least time that is still to go from it. A link leads on where
the potential falls along it. Where a node has no such link its potential is raised just above the least behind one of
its links, until each has one.
"""
from __future__ import annotations

from heapq import heappop, heappush

import numpy

from .net import FAR, Net, Real, Truth, Whole

NONE = numpy.iinfo(numpy.int64).max // 2  # the potential from where no way leads
ROUNDS = 40  # of raising all at once; where nodes raise each other longer a search goes from the destination


def leading_on(net: Net, ahead: Whole) -> Truth:
    """Of each span, link and destination whether the link leads on, by the sums `[spans, N, D]` of least times
    still to go."""
    found: Truth = numpy.empty((len(ahead), *net.leads.shape), dtype=bool)
    for span, own in enumerate(ahead):
        potential = own.copy()
        potential[net.ends, numpy.arange(len(net.end_names))] = -1
        potential[net.free_time >= FAR] = NONE
        for end in raised_at_once(net, potential):
            potential[:, end] = raised(net, own[:, end].tolist(), end)
        numpy.logical_and(potential[net.tail] > potential[net.head], net.leads, out=found[span])
    return found


def raised_at_once(net: Net, potential: Whole) -> list[int]:
    """Raises the potentials `[N, D]` of a span, all that are too low at once, until each node has a link that leads on;
    the destinations for which that takes too many rounds."""
    ends = numpy.arange(potential.shape[1])  # those at which something was raised in the last round
    for _ in range(ROUNDS):
        of_ends = potential[:, ends]
        behind = numpy.where(net.leads[:, ends], of_ends[net.head], NONE)
        wanted = net.least_of(behind) + 1
        now = of_ends[net.tails]
        low = (now < wanted) & net.routed[:, ends]
        of_ends[net.tails] = numpy.where(low, wanted, now)
        potential[:, ends] = of_ends
        ends = ends[low.any(axis=0)]
        if not len(ends):
            break
    return [int(end) for end in ends]


def raised(net: Net, own: list[int], end: int) -> list[int]:
    """The least potentials for a destination, none below a node's own, by which each node with a way has a link that
    leads on: the lowest node first, each as low as one before it lets it be."""
    into: list[list[int]] = [[] for _ in own]
    for link in net.leads[:, end].nonzero()[0].tolist():
        into[net.head[link]].append(int(net.tail[link]))
    found = [int(NONE)] * len(own)
    heap = [(-1, int(net.ends[end]))]
    while heap:
        potential, node = heappop(heap)
        if found[node] == NONE:
            found[node] = potential
            for tail in into[node]:
                if found[tail] == NONE:
                    heappush(heap, (max(own[tail], potential + 1), tail))
    return found


def circling(net: Net, shares: Real | Whole) -> Truth:
    """Of each span, node of `tails` and destination whether who goes on by the shares may come into a circle."""
    used, settled = shares > 0, numpy.zeros((len(shares), *net.free_time.shape), dtype=bool)
    settled[:, net.ends, numpy.arange(len(net.end_names))] = True
    while True:
        now = settled[:, net.tails]
        found = now | ~net.some_of(used & ~settled[:, net.head])
        if (found == now).all():
            return numpy.asarray(~found)
        settled[:, net.tails] = found
