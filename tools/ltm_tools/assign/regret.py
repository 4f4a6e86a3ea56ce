"""Turn regret: what those lose who go on by the shares of a node, and not by its best link.

Of a node, a destination and a span it is what flows there, times the mean over its links of the time by the link and on
as the others go, less the least of these. It is 0 exactly where no row of one node can gain by another link alone. By
it single shares are judged; how near all are to an equilibrium the relative gap says.
"""
from __future__ import annotations

import math

import numpy

from .labels import Labels
from .net import Net, Real, Whole


def lost_times(net: Net, labels: Labels, weights: Whole) -> Real:
    """The regret of each span, node with links and destination, in thousandths of a vehicle times ms."""
    sums = net.sum_of(weights)
    mean = net.sum_of(numpy.where(weights > 0, weights * labels.time, 0.0)) / numpy.maximum(sums, 1)
    least = net.least_of(numpy.where(net.leads, labels.time, numpy.inf))
    lost = numpy.where(net.routed & (sums > 0), mean - least, 0.0)
    return numpy.asarray(numpy.maximum(lost, 0.0) * labels.flow[:, net.tails])


def by_destination(lost: Real) -> list[float]:
    """The regret of each destination, summed one number at a time."""
    columns = numpy.broadcast_to(numpy.arange(lost.shape[-1]), lost.shape)
    return list(numpy.bincount(columns.ravel(), lost.ravel(), lost.shape[-1]).tolist())


def total_regret(lost: Real) -> float:
    """The regret of all, the same whatever the order of the sum."""
    return math.fsum(lost.ravel().tolist())
