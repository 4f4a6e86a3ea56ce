"""The part of each unknown that passes each counter in each span, first in, first out, by the moments at which links
are left and the splits: what counts become if these moments stay.

That is exact where nothing queues. A vehicle more at a full bottleneck passes it, by these shares, and in truth waits.
"""
from __future__ import annotations

from collections.abc import Sequence

import numpy

from ..assign.engine import Counts
from ..assign.exits import Gates, leaving, setting_out
from ..assign.net import Net, Real, Truth, Whole
from ..counting.counts import Count, Point
from .linear import summed_rows
from .unknowns import Unknown


class SplitParts:
    """The parts of links by destination, as the split rows have them in force."""

    def __init__(self, net: Net) -> None:
        rows = sorted(net.case.standing_splits(), key=lambda row: row.from_slot)
        starts = sorted({0, *(row.from_slot for row in rows)})
        end = {name: place for place, name in enumerate(net.end_names)}
        outs: dict[str, list[int]] = {}
        for place, name in enumerate(net.names):
            outs.setdefault(net.node_names[net.tail[place]], []).append(place)
        self.parts = numpy.zeros((len(starts), len(net.names), len(net.end_names)))
        for row in rows:
            first, total = starts.index(row.from_slot), sum(row.weights.values())
            self.parts[first:, outs[row.node], end[row.destination]] = 0
            for name, weight in row.weights.items():
                self.parts[first:, net.place[name], end[row.destination]] = weight / total if total else 0
        self.period = numpy.searchsorted(starts, numpy.arange(net.slots + 1), side="right") - 1


class Moments:
    """When one leaves each link who enters it at each boundary, and each origin's queue who sets out then."""

    def __init__(self, net: Net, counts: Counts) -> None:
        gates = Gates(net.limits(net.case.limits), net.limits(net.case.signals))
        self.leave = leaving(net, gates, counts.entered, counts.left)
        self.boundary, self.part = boundary_before(net, self.leave)
        self.out = numpy.zeros((net.slots + 1, len(net.node_names)), dtype=numpy.int64)
        for node, of_node in counts.origins.items():
            self.out[:, node] = setting_out(net, *of_node)


def boundary_before(net: Net, moments: Whole) -> tuple[Whole, Real]:
    """The boundary before each moment, and the part of what comes then that belongs to the next; of what comes behind
    the end, one behind it."""
    in_time = moments <= net.slots * net.step
    boundary = numpy.where(in_time, moments // net.step, net.slots + 1)
    part = numpy.where(in_time, (moments - boundary * net.step) / net.step, 0.0)
    return boundary, part


class Watched:
    """What counters see: of each point of a count its link, by its place in `Ranked`, and by the boundary at which one
    enters that link the part of a vehicle that the count has of it."""

    def __init__(self, net: Net, moments: Moments, ranked: Ranked, counts: Sequence[Count]) -> None:
        points = [(number, point) for number, count in enumerate(counts) for point in count.points]
        self.count = [number for number, _ in points]
        self.link = ranked.place[[net.place[point.link] for _, point in points]]
        self.parts: list[tuple[Whole, Real]] = []  # of each point boundaries, and the part of what enters then
        for number, point in points:
            within = weights(net, counts[number])
            first, later = boundary_before(net, passing(net, moments, point))
            part = within[first] * (1 - later) + within[first + 1] * later
            boundaries = numpy.flatnonzero(part)
            self.parts.append((boundaries, part[boundaries]))


def passing(net: Net, moments: Moments, point: Point) -> Whole:
    """When one passes a point who enters its link at each boundary."""
    link, boundaries = net.place[point.link], numpy.arange(net.slots + 1) * net.step
    along = 1.0 if point.is_exit else 0.0
    if point.metres is not None:
        along = float(point.metres / net.links[link].length_m)
    return numpy.asarray(boundaries + numpy.rint((moments.leave[:, link] - boundaries) * along).astype(numpy.int64))


def weights(net: Net, count: Count) -> Real:
    """Of each boundary the part of what passes about it, half a slot before and half a slot after, that is in the span
    of a count; behind the end, none."""
    middle = numpy.arange(net.slots + 3) * float(net.step)
    first = numpy.maximum(middle - net.step / 2, count.span.begin)
    last = numpy.minimum(middle + net.step / 2, count.span.end)
    found = numpy.maximum(0.0, last - first) / net.step
    found[net.slots + 1 :] = 0
    return numpy.asarray(found)


def counted_shares(
    net: Net, splits: SplitParts, moments: Moments, unknowns: Sequence[Unknown], counts: Sequence[Count]
) -> Real:
    """`[counts, unknowns]`: the vehicles counted for a vehicle of the unknown."""
    found = numpy.zeros((len(counts), len(unknowns)))
    ranked = Ranked(net, splits, moments)
    watched = Watched(net, moments, ranked, counts)
    number = {name: place for place, name in enumerate(net.node_names)}
    for end, name in enumerate(net.end_names):
        mine = [place for place, one in enumerate(unknowns) if one.destination == name]
        if not mine:
            continue
        origins = [number[unknowns[place].origin] for place in mine]
        start = [set_out(net, moments, unknowns[place], origin) for place, origin in zip(mine, origins)]
        for count, row in zip(watched.count, sweep(ranked, watched, end, origins, numpy.array(start).T)):
            found[count, mine] += row
    return found


def set_out(net: Net, moments: Moments, unknown: Unknown, origin: int) -> Real:
    """The part of a vehicle of an unknown that leaves its origin's queue at each boundary, and two more behind them."""
    found = numpy.zeros(net.slots + 3)
    for row in unknown.rows:
        ends = numpy.arange(row.from_slot, row.to_slot)[:, None] + numpy.arange(2)  # half of a slot at either end
        first, later = boundary_before(net, moments.out[ends.ravel(), origin])
        share = 0.5 * row.units / unknown.units / (row.to_slot - row.from_slot)
        found += numpy.bincount(first, share * (1 - later), net.slots + 3)
        found += numpy.bincount(first + 1, share * later, net.slots + 3)
    return found


class Ranked:
    """Links in the order of their places at their heads, so that of some in order those before a place of `groups` and
    behind the one before it have heads of their own."""

    def __init__(self, net: Net, splits: SplitParts, moments: Moments) -> None:
        self.net, self.period, order = net, splits.period, numpy.concatenate(net.into)
        self.groups = numpy.cumsum([len(group) for group in net.into])
        self.tail, self.head, self.place = net.tail[order], net.head[order], numpy.argsort(order)
        self.parts = splits.parts[:, order]
        self.boundary, self.part = moments.boundary[:, order], moments.part[:, order]


class Lanes:
    """Where the vehicles of some unknowns for one destination may be: a lane is a node, or a link, with an unknown that
    can come to it. Those of links stand in the order of `Ranked`, with the lanes of nodes at their two ends."""

    def __init__(self, ranked: Ranked, end: int, origins: Sequence[int]) -> None:
        net = ranked.net
        used = (ranked.parts[:, :, end] > 0).any(axis=0) & (ranked.tail != net.ends[end])
        comes = {origin: reached(ranked, used, origin) for origin in sorted(set(origins))}
        self.node = numpy.full((len(origins), len(net.node_names)), -1, dtype=numpy.int64)
        for column, origin in enumerate(origins):
            self.node[column, comes[origin]] = 0
        self.nodes = numpy.count_nonzero(self.node == 0)
        self.node[self.node == 0] = numpy.arange(self.nodes)
        links = numpy.flatnonzero(used)
        self.link, self.column = numpy.nonzero(self.node[:, ranked.tail[links]].T >= 0)
        self.link = links[self.link]
        self.tail = self.node[self.column, ranked.tail[self.link]]
        self.head = self.node[self.column, ranked.head[self.link]]
        self.groups = numpy.searchsorted(self.link, ranked.groups)


def reached(ranked: Ranked, used: Truth, origin: int) -> Truth:
    """Of each node whether vehicles of an origin come to it over these links."""
    found = numpy.zeros(len(ranked.net.node_names), dtype=bool)
    found[origin], before = True, 0
    while (number := int(found.sum())) > before:
        before = number
        found[ranked.head[used & found[ranked.tail]]] = True
    return found


def sweep(ranked: Ranked, watched: Watched, end: int, origins: Sequence[int], start: Real) -> Real:
    """Pushes what sets out of these origins by boundary, `[slots + 3, unknowns]`, for a destination over the links,
    boundary by boundary; gives what is counted of each unknown at each watched point, `[points, unknowns]`."""
    net, lanes = ranked.net, Lanes(ranked, end, origins)
    at_nodes = numpy.zeros((net.slots + 3, lanes.nodes))
    at_nodes[:, lanes.node[range(len(origins)), list(origins)]] = start
    parts, row = ranked.parts[:, lanes.link, end], at_nodes.shape[1]
    seen = numpy.flatnonzero(numpy.isin(lanes.link, watched.link))
    kept, flat = numpy.zeros((net.slots + 1, len(seen))), at_nodes.ravel()
    for k in range(net.slots + 1):
        if not at_nodes[k].any():
            continue
        entering = at_nodes[k].take(lanes.tail) * parts[ranked.period[k]]
        kept[k] = entering[seen]
        busy = numpy.flatnonzero(entering)
        links, out = lanes.link[busy], entering[busy]
        later = out * ranked.part[k, links]
        out -= later
        places = ranked.boundary[k, links] * row + lanes.head[busy]
        edges = numpy.searchsorted(busy, lanes.groups).tolist()
        for some in map(slice, [0, *edges[:-1]], edges):
            if some.start < some.stop:
                flat[places[some]] += out[some]
                flat[places[some] + row] += later[some]
    return counted_of(watched, lanes.link[seen], lanes.column[seen], kept, len(origins))


def counted_of(watched: Watched, links: Whole, columns: Whole, entered: Real, number: int) -> Real:
    """What is counted of each of so many unknowns at each watched point, by what enters links at each boundary, in
    lanes with these links, in order, and unknowns."""
    found = numpy.zeros((len(watched.link), number))
    firsts = numpy.searchsorted(links, watched.link, side="left").tolist()
    ends = numpy.searchsorted(links, watched.link, side="right").tolist()
    for place, (first, end, (boundaries, part)) in enumerate(zip(firsts, ends, watched.parts)):
        if first < end:
            found[place, columns[first:end]] = summed_rows(entered[boundaries, first:end] * part[:, None])
    return found
