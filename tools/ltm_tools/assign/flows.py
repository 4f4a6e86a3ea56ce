"""What flows at each node for each destination at each boundary, by the shares and the moments at which links are left.

Amounts are thousandths of a vehicle, in floating point: what comes between two boundaries is part of both, as near as
it is to each. Each sum is made one number at a time, in the order of links, so it is the same on each machine.
"""
from __future__ import annotations

from copy import copy
from itertools import accumulate
from typing import Any

import numpy
from numpy.typing import NDArray

from .net import WHOLE, Net, Real, Whole
from .spans import Spans


class Departures:
    """What sets out of each pair of an origin and a destination at boundaries: half of what a slot produces at its
    beginning, half at its end. There are many of them, so they are kept in as few bytes as they need."""

    MOST_EXACT = 2**22  # thousandths of a vehicle: halves of them are exact in 32 bits

    def __init__(self, origins: Whole, ends: Whole, made: Whole) -> None:
        """By what each pair has produced by each boundary, `[pairs, slots + 1]`."""
        half = numpy.diff(made, axis=1) / 2
        amounts = numpy.zeros(made.shape)
        amounts[:, :-1] += half
        amounts[:, 1:] += half
        pair, at = numpy.nonzero(amounts)
        is_small = amounts.max(initial=0.0) < self.MOST_EXACT
        self._amount = amounts[pair, at].astype(numpy.float32 if is_small else numpy.float64)
        self._at, self._origin, self._end = (narrow(of) for of in (at, origins[pair], ends[pair]))
        self._part = 1.0

    @property
    def at(self) -> Whole:
        """The boundary of each."""
        return self._at.astype(numpy.int64)

    @property
    def origin(self) -> Whole:
        """The node of each."""
        return self._origin.astype(numpy.int64)

    @property
    def end(self) -> Whole:
        """The destination of each."""
        return self._end.astype(numpy.int64)

    @property
    def amount(self) -> Real:
        """How much sets out, in thousandths of a vehicle."""
        return self._amount.astype(numpy.float64) * self._part

    def scaled(self, part: float) -> "Departures":
        """The same with a part of each amount."""
        made = copy(self)
        made._part = part
        return made


def narrow(numbers: Whole) -> NDArray[Any]:
    """Whole numbers from 0 on in as few bytes as the largest needs."""
    return numbers.astype(numpy.min_scalar_type(int(numbers.max(initial=0))))


def arriving(net: Net, moments: Whole) -> tuple[Whole, Real]:
    """The boundary before each moment, at most the end, and the part of what comes then that belongs to the next."""
    boundary = numpy.minimum(moments // net.step, net.slots)
    part = numpy.where(boundary < net.slots, (moments - boundary * net.step) / net.step, 0.0)
    return boundary, part


class Used:
    """The pairs of a link and a destination by which shares of a span lead, in groups in which none leads to the same
    node for the same destination."""

    def __init__(self, net: Net, weights: Whole) -> None:
        """By the weights of the span, `[L, D]`."""
        groups = [numpy.argwhere(weights[links] > 0) for links in net.into]
        self.cuts = tuple(accumulate(map(len, groups), initial=0))
        places = [links[pairs[:, 0]] for links, pairs in zip(net.into, groups)]
        self.link, end = numpy.concatenate(places), numpy.concatenate([pairs[:, 1] for pairs in groups])
        self.share = weights[self.link, end] / WHOLE
        self.source, self.to = (of[self.link] * weights.shape[1] + end for of in (net.tail, net.head))


def flows(net: Net, leave: Whole, set_out: Real, weights: Whole, spans: Spans) -> Real:
    """What is at each node for each destination at each boundary, `[slots + 1, N, D]`. `set_out` is what leaves
    origins' queues, in the same shape with a boundary more, and is used up; `weights` are the shares `[spans, L,
    D]`."""
    boundary, part = arriving(net, leave)
    columns = numpy.arange(len(net.end_names))
    flat, size = set_out.reshape(-1), set_out.shape[1] * set_out.shape[2]
    boundary = boundary * size
    for span in range(len(spans)):
        used = Used(net, weights[span])
        for k in range(int(spans.starts[span]), int(spans.ends[span])):
            here = set_out[k]
            here[net.ends, columns] = 0
            if not here.any():
                continue
            out = here.reshape(-1).take(used.source)
            out *= used.share
            later = out * part[k].take(used.link)
            out -= later
            at = boundary[k].take(used.link)
            at += used.to
            for start, end in zip(used.cuts, used.cuts[1:]):
                places = at[start:end]
                flat[places] += out[start:end]
                places += size
                flat[places] += later[start:end]
    return set_out[:-1]


def leaving_origins(net: Net, departures: Departures, moments: Whole) -> Real:
    """What leaves origins' queues at each boundary, `[slots + 2, N, D]`, by the moments at which those have left who
    set out at a boundary, `[slots + 1, N]`."""
    origin, amount = departures.origin, departures.amount
    boundary, part = arriving(net, moments[departures.at, origin])
    shape = (net.slots + 2, len(net.node_names), len(net.end_names))
    place = (boundary * shape[1] + origin) * shape[2] + departures.end
    later = amount * part
    places = numpy.concatenate((place, place + shape[1] * shape[2]))
    amounts = numpy.concatenate((amount - later, later))
    found = numpy.bincount(places, amounts, shape[0] * shape[1] * shape[2])
    return numpy.asarray(found, dtype=numpy.float64).reshape(shape)
