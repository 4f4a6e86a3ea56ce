"""Times still to go by destination from each node at each boundary, backwards in time over the moments at which links
are left.

    best     the time of who takes at each node the link that is best in the mean over the span of slots
    mean     the mean time of who goes on as the shares say, rounded up to whole ms

Between boundaries the moment of arrival is linear, rounded down; behind the end of the horizon the time is that at free
flow. A time of a link is that over the link and then on by the mean label. At a node at which nothing for a destination
flows in a span the shares say nothing of where anybody goes: there the mean label is the best one.

Numbers are whole ms of 32 bits where all times fit, and else of 64: a sweep takes about as long as it takes to read
and write them. What is rounded is worked out in whole numbers, so both give the same.
"""
from __future__ import annotations

from copy import copy
from functools import cached_property
from typing import Any

import numpy
from numpy.typing import NDArray

from .net import FAR, WHOLE, Net, Real, Truth, Whole
from .spans import Spans

STILL = 0.001  # thousandths of a vehicle that count at each boundary, so that where nothing flows there is a mean
NOTHING = 0.5  # thousandths of a vehicle in a span that are as good as none
MOST_32 = 2**31 - 1
ROUNDS = 2  # in which the best links of a span are sought, from those of the span behind it

Narrow = NDArray[Any]  # whole numbers of 32 or of 64 bits


class Course:
    """When links are left, for sweeps: the boundary before that moment and the head of the link as one place, `[slots +
    1, L]`, the ms since that boundary, and those since the link was entered; and the width of numbers that fits."""

    def __init__(self, net: Net, leave: Whole) -> None:
        boundary = numpy.minimum(leave // net.step, net.slots)
        self.part = leave - boundary * net.step
        self.trip = leave - numpy.arange(net.slots + 1)[:, None] * net.step
        self.first, self.last = boundary.min(axis=1).tolist(), boundary.max(axis=1).tolist()
        reached = net.free_time[net.free_time < FAR]
        most = int(leave.max()) + int(reached.max()) + net.step
        bits = 32 if 2 * most < MOST_32 else 64
        self.width = numpy.dtype(f"int{bits}")
        self.most = 2 ** (bits - 1) - 1
        self.far = min(FAR, self.most // 2)
        self.places = boundary * len(net.node_names) + net.head

    def free_from(self, net: Net) -> int:
        """The first boundary from which on all links are left in their free-flow times."""
        slower = (self.trip != net.free).any(axis=1).nonzero()[0]
        return int(slower[-1]) + 1 if len(slower) else 0


class Label:
    """A label at each boundary, and one behind the end: the time still to go from each node, `[slots + 2, N, D]`; by
    how much it rises up to the next boundary, and by how much it rises or falls at most."""

    def __init__(self, net: Net, course: Course) -> None:
        self.net, self.course = net, course
        self.free = numpy.minimum(net.free_time, course.far).astype(course.width)
        self.columns = numpy.arange(len(net.end_names))
        self.lost = (net.free_time >= FAR).nonzero()  # from nodes that no link leaves to all but themselves
        self.rows = numpy.zeros(len(net.node_names), dtype=numpy.int64)  # of each node in `tails`
        self.rows[net.tails] = numpy.arange(len(net.tails))
        self.values = numpy.empty((net.slots + 2, *self.free.shape), dtype=course.width)
        self.values[-2:] = self.free
        self.rises = numpy.zeros_like(self.values)
        self.steepest = numpy.zeros(net.slots + 2, dtype=numpy.int64)
        self.most = course.most // net.step
        self.found, self.low = (numpy.empty(net.leads.shape, dtype=course.width) for _ in "fl")
        self.flat, self.flat_rises = (of.reshape(-1, len(net.end_names)) for of in (self.values, self.rises))

    def set(self, k: int, of_tails: Narrow) -> None:
        """Sets the label at a boundary, by that of the nodes of `tails`."""
        here = self.values[k]
        of_tails.astype(here.dtype, copy=False).take(self.rows, axis=0, out=here, mode="clip")
        here[self.net.ends, self.columns] = 0
        if len(self.lost[0]):
            here[self.lost] = self.course.far
        rises = numpy.subtract(self.values[k + 1], here, out=self.rises[k])
        self.steepest[k] = max(int(rises.max()), -int(rises.min()))

    def set_free(self, first: int) -> None:
        """Sets the labels of a boundary and of all behind it to the times at free flow."""
        self.values[first:] = self.free
        self.rises[first:] = 0
        self.steepest[first:] = 0

    def by_links(self, k: int, part: Narrow, trip: Narrow) -> Narrow:
        """The time by each link that is entered at a boundary, and on, `[L, D]`; part and trip are those of the course
        for each destination. The next call uses the array again."""
        course, found, low = self.course, self.found, self.low
        places = course.places[k]
        self.flat_rises.take(places, axis=0, out=found, mode="clip")
        self.flat.take(places, axis=0, out=low, mode="clip")
        if self.steepest[course.first[k] : course.last[k] + 1].max() <= self.most:
            found *= part
            found //= found.dtype.type(self.net.step)
        else:
            found[:] = found.astype(numpy.int64) * part // self.net.step
        found += low
        found += trip
        return found

    def by(self, k: int, links: Whole) -> Whole:
        """The same for a link of each node of `tails` and destination alone."""
        course = self.course
        places = course.places[k].take(links) * links.shape[1] + self.columns
        low, rises = (of.reshape(-1).take(places).astype(numpy.int64) for of in (self.flat, self.flat_rises))
        return numpy.asarray(low + rises * course.part[k].take(links) // self.net.step + course.trip[k].take(links))


class Labels:
    """What the best and mean times of a loading come to by span.

    ahead   `[spans, N, D]`, sums over a span's boundaries of the least time still to go, in ms
    time    `[spans, L, D]`, the mean time over a link and on, in ms, weighed by what flows at its tail
    flow    `[spans, N, D]`, what comes to a node, in thousandths of a vehicle
    idle    `[spans, N, D]`, whether nothing comes there in the span, nor at the boundaries on both sides of it
    bests, means  the labels themselves
    """

    def __init__(self, net: Net, course: Course, flow: Real, weights: Whole, spans: Spans) -> None:
        """By the moments at which links are left, what flows at each boundary and node for each destination, the shares
        as whole weights `[spans, L, D]`, and the spans."""
        self.net, self.spans, self.course = net, spans, course
        self.ahead = numpy.zeros((len(weights), len(net.node_names), len(net.end_names)), dtype=numpy.int64)
        self.time = numpy.zeros(weights.shape)
        self.flow = numpy.zeros(self.ahead.shape)
        self.idle = numpy.zeros(self.ahead.shape, dtype=bool)
        self.bests, self.means = Label(net, course), Label(net, course)
        behind = (net.free[:, None] + net.free_time[net.head]).astype(numpy.float64)
        best = net.best_of(numpy.where(net.leads, behind, numpy.inf))
        is_free, last = course.free_from(net), True  # whether no span behind this one is used
        for span in range(len(spans) - 1, -1, -1):
            of_span = flow[spans.starts[span] : spans.ends[span]]
            self.flow[span] = of_span.sum(axis=0)
            near = flow[max(0, spans.starts[span] - 1) : spans.ends[span] + 1]
            self.idle[span] = near.sum(axis=0) < NOTHING
            swept = Swept(net, course, self.slots_of(span), of_span)
            last = last and bool(spans.starts[span] >= is_free and self.idle[span].all())
            if last:
                self._set_free(span, swept)
                continue
            best = self._bests_of(span, swept, best)
            self._means_of(span, swept, weights[span])

    def let_go(self) -> None:
        """Lets go what only the sweep needs, and the labels themselves."""
        del self.bests, self.means, self.course

    def with_ahead(self, ahead: Whole) -> "Labels":
        """The same with other sums of the least time still to go."""
        made = copy(self)
        made.ahead = ahead
        return made

    def slots_of(self, span: int) -> range:
        """The slots of a span, the last first."""
        return range(int(self.spans.ends[span]) - 1, int(self.spans.starts[span]) - 1, -1)

    def _set_free(self, span: int, swept: "Swept") -> None:
        """Sets the labels of a span in which nothing flows, in it and behind it, and all links take their free-flow
        times."""
        net, slots = self.net, swept.slots
        for label in (self.bests, self.means):
            label.set_free(slots[-1])
        self.ahead[span] = self.bests.free.astype(numpy.int64) * len(slots)
        going = net.free.astype(self.course.width)[:, None] + self.bests.free[net.head]
        for place in range(len(slots)):
            swept.weigh(going, place, self.time[span])
        self.time[span] /= swept.total()[net.group]

    def _bests_of(self, span: int, swept: "Swept", best: Whole) -> Whole:
        """Sets the best labels of a span: the best link of each node, by which they are, sought from those of the span
        behind it."""
        net, label = self.net, self.bests
        for _ in range(ROUNDS):
            sums, chosen = numpy.zeros(self.time.shape[1:]), best * len(label.columns) + label.columns
            for place, (k, part, trip) in enumerate(zip(swept.slots, *swept.links)):
                going = label.by_links(k, part, trip)
                label.set(k, going.reshape(-1).take(chosen))
                swept.weigh(going, place, sums)
            better = net.best_of(numpy.where(net.leads, sums, numpy.inf))
            if (better == best).all():
                break
            best = better
        else:
            for k in swept.slots:
                label.set(k, label.by(k, best))
        of_span = label.values[swept.slots[-1] : swept.slots[0] + 1]
        self.ahead[span] = of_span.sum(axis=0, dtype=numpy.int64)
        return best

    def _means_of(self, span: int, swept: "Swept", weights: Whole) -> None:
        """Sets the mean labels of a span, and the mean times by its links."""
        net, label, real = self.net, self.means, weights.astype(numpy.float64)
        by_shares: Truth = net.routed & ~self.idle[span][net.tails]
        for place, (k, part, trip) in enumerate(zip(swept.slots, *swept.links)):
            going = label.by_links(k, part, trip)
            swept.weigh(going, place, self.time[span])
            mean = numpy.ceil(swept.summed(real) / WHOLE)
            best = self.bests.values[k].take(net.tails, axis=0)
            numpy.copyto(best, mean, where=by_shares, casting="unsafe")
            label.set(k, best)
        self.time[span] /= swept.total()[net.group]


class Swept:
    """The slots of a span, the last first, with what flows in them at the nodes of `tails`."""

    def __init__(self, net: Net, course: Course, slots: range, flow: Real) -> None:
        """By what flows in the span, `[slots, N, D]`."""
        self.net, self.slots = net, slots
        self.weight = flow[::-1].take(net.tails, axis=1)
        self.weight += STILL
        self.course = course
        self.real, self.product = numpy.empty(net.leads.shape), numpy.empty(net.leads.shape)

    @cached_property
    def links(self) -> tuple[Narrow, Narrow]:
        """The part and the trip of the course of each slot, for each destination."""
        wide = numpy.empty((2, len(self.slots), *self.net.leads.shape), dtype=self.course.width)
        for found, of in zip(wide, (self.course.part, self.course.trip)):
            found[:] = of[self.slots.stop + 1 : self.slots.start + 1][::-1, :, None]
        return wide[0], wide[1]

    def weigh(self, going: Narrow, place: int, sums: Real) -> None:
        """Adds times by links in a slot, weighed by what flows at their tails, to sums."""
        self.real[:] = going
        self._times(self.weight[place])
        sums += self.product

    def _times(self, of_tails: Real) -> None:
        """The times of the last slot, times a number of each node of `tails`."""
        layers = self.net.layers
        for start, end in zip(layers, layers[1:]):
            numpy.multiply(of_tails[: end - start], self.real[start:end], out=self.product[start:end])

    def summed(self, of_links: Real) -> Real:
        """The sums over the links of each node of `tails` of the times of the last slot, times a number of each
        link."""
        numpy.multiply(of_links, self.real, out=self.product)
        return self.net.sum_of(self.product)

    def total(self) -> Real:
        """The sum over the slots of what flows at the nodes of `tails`, the last first."""
        return numpy.asarray(self.weight.sum(axis=0))
