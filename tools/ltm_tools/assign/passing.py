"""Who would pass a road: of each node, destination and span whether anybody goes on by the road, as the shares say; and
the times of the moment, by which drivers choose who know nothing of later."""
from __future__ import annotations

import numpy

from .engine import Counts
from .exits import first_moments
from .net import FAR, Net, Real, Truth, Whole


def leading_to(net: Net, weights: Whole, link: int) -> Truth:
    """Of each span, link and destination whether who takes the link comes to this one, or it is this one, by the shares
    of the span, `[spans, L, D]`."""
    used = weights > 0
    reaches = numpy.zeros((len(weights), *net.free_time.shape), dtype=bool)
    while True:
        found: Truth = reaches[:, net.head]
        found[:, link] = True
        found &= used
        now = numpy.zeros(reaches.shape, dtype=bool)
        now[:, net.tails] = net.some_of(found)
        now[:, net.ends, numpy.arange(len(net.end_names))] = False
        if (now == reaches).all():
            return found
        reaches = now


def at_nodes(net: Net, links: Truth) -> Truth:
    """All links by which a way leads of the nodes of these, of each span and destination."""
    return numpy.asarray(net.some_of(links)[:, net.group] & net.leads)


def destinations_by(net: Net, flow: Real, weights: Whole, link: int, spans: slice) -> Whole:
    """The destinations for which anything enters a link in some spans."""
    entering = flow[spans, net.tail[link]] * weights[spans, link]
    return numpy.flatnonzero(entering.max(axis=0) > 0)


def times_now(net: Net, counts: Counts, boundary: int) -> Whole:
    """How long those have been on each link at a boundary who are about to leave it; its free-flow time where that is
    more."""
    entered, left = counts.entered[: boundary + 1], counts.left[boundary]
    found = net.free.copy()
    for link in numpy.flatnonzero(entered[-1] > left).tolist():
        moment = int(first_moments(entered[:, link], left[link : link + 1] + 1, net.step)[0])
        found[link] = max(found[link], boundary * net.step - moment)
    return found


def best_now(net: Net, times: Whole, closed: int) -> Whole:
    """The best link of each node of `tails` and destination by these times, with a link closed."""
    behind = numpy.full(net.free_time.shape, FAR, dtype=numpy.int64)
    behind[net.ends, numpy.arange(len(net.end_names))] = 0
    leads = net.leads.copy()
    leads[closed] = False
    while True:
        by_links = numpy.where(leads, times[:, None] + behind[net.head], FAR)
        least = numpy.minimum(behind[net.tails], net.least_of(by_links))
        if (least == behind[net.tails]).all():
            return net.best_of(by_links.astype(numpy.float64))
        behind[net.tails] = least


def taken_by(net: Net, shares: Real, may: Truth, best: Whole) -> Real:
    """The shares once all that may go over has gone to the best links, `[L, D]`."""
    gone = net.sum_of(numpy.where(may, shares, 0.0))
    found = numpy.where(may, 0.0, shares)
    groups, columns = numpy.indices(best.shape)
    found[best[groups, columns], columns] += gone
    return found
