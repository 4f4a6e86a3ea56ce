"""New shares from those of a loading and the times that it shows: shares go over to the best link that leads on.

A share leaves a link by its excess, its time less the best one's. Where nothing flows, and where the link does not lead
on, a part goes that falls with the size of the step, and is all of it from size 1 on. So a step of size 0 changes
nothing.
"""
from __future__ import annotations

from typing import NamedTuple

import numpy

from .labels import Labels
from .leading import circling, leading_on
from .net import WHOLE, Net, Real, Truth, Whole
from .shares import rounded

LEAST_SPARE, MOST_SPARE = 0.05, 4.0
GENTLE = 0.3  # times the size of a gentle step, the part that goes of a share by a link that does not lead on


class Traffic(NamedTuple):
    """What comes to each node for all destinations in each span, `[spans, N]`, and what could pass each link, `[spans,
    L]`, in thousandths of a vehicle; and the lengths of the spans in ms."""

    flow: Real
    room: Real
    lengths: Whole

    @property
    def last(self) -> int:
        """The last span in which anything flows."""
        busy = numpy.flatnonzero(self.flow.max(axis=1) > 0)
        return int(busy[-1]) if len(busy) else 0


class Choice:
    """The best link of each node, destination and span, and how much longer each other takes.

    lead     `[spans, L, D]`: the links that lead on
    excess   the time by a link that leads on less that of the best one, in ms; infinite by others
    best     the shares of the best links, equal among several
    """

    def __init__(self, net: Net, labels: Labels) -> None:
        self.lead: Truth = leading_on(net, labels.ahead)
        time = numpy.where(self.lead, labels.time, numpy.inf)
        least = net.least_of(time)[:, net.group]
        is_best = self.lead & (time <= least)
        count = net.sum_of(is_best.astype(numpy.int64))[:, net.group]
        self.excess: Real = numpy.where(self.lead, time - numpy.where(numpy.isfinite(least), least, 0.0), numpy.inf)
        self.best: Real = numpy.where(is_best, 1.0 / numpy.maximum(count, 1), 0.0)


def stepped(
    net: Net,
    labels: Labels,
    weights: Whole,
    traffic: Traffic,
    size: float,
    gently: bool = False,
    may: Truth | None = None,
) -> Real:
    """The shares after a step: of each link that is not the best the part `size` times its excess over the length of a
    span, times what it could spare, goes over, at most all that it has. `may` says of which links shares may go over,
    by default of all."""
    choice = Choice(net, labels)
    shares = weights / WHOLE
    part = size * numpy.where(choice.lead, choice.excess, 0.0) / traffic.lengths[:, None, None]
    part *= spare(net, traffic, choice.best)
    return shares_after(net, labels, choice, shares, numpy.minimum(shares, part), size, gently, may)


def spare(net: Net, traffic: Traffic, best: Real) -> Real:
    """Of each span, link and destination how many times what flows at its tail could pass it, or the best link where
    that is less, at least `LEAST_SPARE` and at most `MOST_SPARE`. So much of a share has about the excess as its queue:
    where little flows a share is few vehicles, and where little can pass few make a queue. A closed link counts as if
    it were open."""
    flow = numpy.maximum(traffic.flow[:, net.tail], 1.0)[:, :, None]
    room = traffic.room[:, :, None]
    behind = net.over_links(numpy.where(best > 0, room, 0.0), numpy.maximum)[:, net.group]
    least = numpy.where(room > 0, numpy.minimum(room, behind), behind)
    found: Real = numpy.clip(least / flow, LEAST_SPARE, MOST_SPARE)
    return found


def averaged(net: Net, labels: Labels, weights: Whole, traffic: Traffic, size: float, gently: bool = False) -> Real:
    """The shares after a step: of each share the part `size` goes over to the best link."""
    choice = Choice(net, labels)
    shares = weights / WHOLE
    return shares_after(net, labels, choice, shares, shares * min(size, 1.0), size, gently)


def shares_after(
    net: Net,
    labels: Labels,
    choice: Choice,
    shares: Real,
    leaves: Real,
    size: float,
    gently: bool,
    may: Truth | None = None,
) -> Real:
    """The shares once so much has left the links that lead on. Of the others, and where nothing flows, a part goes,
    less in a gentle step: who waits before a node has a say in who passes it, though nothing flows there yet. Where a
    loop would arise the shares stay."""
    part = min(1.0, GENTLE * size if gently else size)
    slow = numpy.where(choice.lead, leaves, shares * part)
    slow = numpy.where(labels.idle[:, net.tail], numpy.maximum(shares * part, slow), slow)
    if may is not None:
        slow = numpy.where(may, slow, 0.0)
    made = moved(net, shares, slow, choice.best, may)
    if part < 1.0 or may is not None:
        loops = circling(net, rounded(net, made))[:, net.group]
        made = numpy.where(loops, shares, made)
    return made


def moved(net: Net, shares: Real, leaves: Real, best: Real, may: Truth | None = None) -> Real:
    """The shares once what leaves each link but the best has gone over to these; what is then too little for a weight
    goes with it."""
    leaves = numpy.where(best > 0, 0.0, leaves)
    all_goes = (shares - leaves < 1.0 / WHOLE) if may is None else (shares - leaves < 1.0 / WHOLE) & may
    leaves = numpy.where(all_goes, numpy.where(best > 0, 0.0, shares), leaves)
    gone = net.sum_of(leaves)[:, net.group]
    return numpy.asarray(shares - leaves + best * gone)
