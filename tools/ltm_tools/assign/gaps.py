"""The relative gap of a loading: what all would save who took the best routes at its link times, in per cent of what
they need.

Times are those of routes from the origin on, the wait there included, worked out from exact link times. People choose
for a span of slots, so the best route is that which is best in the mean over each span: nobody picks the moment in a
signal's cycle at which a link happens to be fast. The program's own gap compares each departure with the fastest
arrival at that very moment, and so it is larger. Only those count who arrive by the end of the horizon.
"""
from __future__ import annotations

import math
from typing import NamedTuple

import numpy

from .flows import Departures
from .labels import Label, Labels
from .net import Real, Whole


class Gap(NamedTuple):
    """What those would save who arrive, what they need, and who they are of how many: times are thousandths of a
    vehicle times ms, amounts thousandths of a vehicle."""

    lost: float
    spent: float
    arriving: float
    all: float

    @property
    def per_cent(self) -> float:
        """What is lost in per cent of what is needed."""
        return 100 * self.lost / self.spent if self.spent else 0.0


def gaps(departures: Departures, moments: Whole, labels: Labels) -> list[Gap]:
    """The gap of each destination, by the moments at which those have left an origin's queue who set out at a
    boundary, `[slots + 1, N]`."""
    net, at, end, origin, amounts = labels.net, departures.at, departures.end, departures.origin, departures.amount
    left = moments[at, origin]
    mean, best = (_label(label, left, origin, end) for label in (labels.means, labels.bests))
    amount = numpy.where(mean <= net.slots * net.step, amounts, 0.0)
    lost, spent = amount * (mean - best), amount * (mean - at * net.step)
    spans = labels.spans.of[numpy.minimum(at, net.slots - 1)]
    group = (end * len(labels.spans) + spans) * len(net.node_names) + origin
    ends, groups = len(net.end_names), len(labels.spans) * len(net.node_names)
    of_groups = numpy.bincount(group, lost, ends * groups).reshape(ends, groups)
    sums = (numpy.bincount(end, of, ends).tolist() for of in (spent, amount, amounts))
    gains = (math.fsum(of_group[of_group > 0].tolist()) for of_group in of_groups)
    return [Gap(*numbers) for numbers in zip(gains, *sums)]


def together(parts: list[Gap]) -> Gap:
    """The gap of several destinations."""
    return Gap(*(math.fsum(numbers) for numbers in zip(*parts)))


def _label(label: Label, left: Whole, origin: Whole, end: Whole) -> Real:
    """The arrival at destinations by a label from the moments at which origins' queues are left."""
    net = label.net
    boundary = numpy.minimum(left // net.step, net.slots)
    low, high = (
        label.values[boundary + later, origin, end].astype(numpy.int64) + (boundary + later) * net.step
        for later in (0, 1)
    )
    return numpy.asarray(low + (high - low) * ((left - boundary * net.step) / net.step))
