"""Some destinations of a case with their shares: what a loading says of them, and how they change.

What one destination does hangs on others by the loading alone, and by how much flows at a node for all of them. So
destinations are worked out in parts, each in as little memory as it needs, and the numbers are the same whatever the
parts are.
"""
from __future__ import annotations

from collections.abc import Callable, Sequence
from dataclasses import dataclass
from typing import NamedTuple

import numpy
from numpy.typing import NDArray

from ..case import Split
from .flows import Departures, flows, leaving_origins
from .gaps import Gap, gaps
from .labels import Course, Labels
from .looking import Times
from .net import Net, Real, Whole
from .regret import by_destination, lost_times
from .shares import Pair, PairRows, lines_of, of_splits, rounded, rows_of, with_last
from .spans import Spans
from .steps import Traffic

Weights = NDArray[numpy.int16]
Step = Callable[[Net, Labels, Whole, Traffic, float, bool], Real]


class Told(NamedTuple):
    """What a loading says of some destinations: the gap and the turn regret of each, and what comes to each node in
    each span for each, `[spans, N, D]`."""

    gaps: list[Gap]
    regrets: list[float]
    flow: Real


class State(NamedTuple):
    """Shares, and what their loading said."""

    weights: Weights
    labels: Labels | None


class Part:
    """Some destinations, and their shares."""

    def __init__(self, net: Net, departures: Departures, weights: Whole, spans: Spans) -> None:
        self.net, self.departures, self.all_departures, self.spans = net, departures, departures, spans
        self.weights = weights
        self.ahead: Whole | None = None
        self.labels: Labels | None = None
        self.kept: dict[str, State] = {}

    @property
    def weights(self) -> Whole:
        """The shares of now, `[spans, L, D]`."""
        return self._weights.astype(numpy.int64)

    @weights.setter
    def weights(self, weights: Whole) -> None:
        self._weights: Weights = weights.astype(numpy.int16)

    def load(self, part: float) -> None:
        """Has so much of the demand set out."""
        self.departures = self.all_departures.scaled(part)

    def flow(self, times: Times) -> Real:
        """What is at each node at each boundary by the times of a loading and the shares of now, `[slots, N, D]`."""
        set_out = leaving_origins(self.net, self.departures, times.set_out)
        return flows(self.net, times.leave, set_out, self.weights, self.spans)

    def look(self, times: Times) -> Told:
        """What a loading with these times and the shares of now says."""
        flow = self.flow(times)
        labels = self.labels = Labels(self.net, Course(self.net, times.leave), flow, self.weights, self.spans)
        found = gaps(self.departures, times.set_out, labels)
        labels.let_go()
        lost = lost_times(self.net, labels, self.weights)
        return Told(found, by_destination(lost), labels.flow)

    def keep(self, name: str) -> None:
        """Keeps the shares of now by a name, with what the last loading said."""
        self.kept[name] = State(self._weights, self.labels)

    def back(self, name: str) -> None:
        """Goes back to the shares that were kept by a name."""
        (self._weights, self.labels), self.ahead = self.kept[name], None

    def step(self, step: Step, traffic: Traffic, size: float, gently: bool) -> None:
        """Makes a step by what the last loading said. Which links lead on is told by this and earlier loadings, half by
        the last, so that few links cease to at once."""
        labels = self.labels
        assert labels is not None, "a step comes after a look"
        self.ahead = labels.ahead if self.ahead is None else (self.ahead + labels.ahead) // 2
        made = step(self.net, labels.with_ahead(self.ahead), self.weights, traffic, size, gently)
        self.weights = with_last(rounded(self.net, made), traffic.last)

    def rows(self) -> dict[Pair, PairRows]:
        """The split rows of the shares of now."""
        return rows_of(self.net, self.weights, self.spans.starts.tolist())

    def lines(self) -> bytes:
        """The same as lines of `splits.csv`."""
        return lines_of(self.rows())


@dataclass(frozen=True)
class Plan:
    """Some destinations of a net by their places, and their split rows: of what a part is made where it is worked
    out."""

    net: Net
    places: Whole
    rows: Sequence[Split]
    spans: Spans

    def part(self) -> Part:
        """The part."""
        own = self.net.part(self.places)
        return Part(own, Departures(*own.demands()), of_splits(own, self.rows, self.spans), self.spans)
