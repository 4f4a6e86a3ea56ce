"""What a loading says about routes, as its curves show it: when links are left, and the traffic that follows."""
from __future__ import annotations

from typing import NamedTuple

import numpy

from ..case import Limit
from .engine import Counts
from .exits import Gates, leaving, setting_out
from .gaps import Gap
from .net import Net, Real, Whole
from .spans import Spans

LATE = 1000  # parts of the demand: loadings differ in who has not arrived where they do in such a part


class Look(NamedTuple):
    """What a loading says: its total travel time and its turn regret, in thousandths of a vehicle times ms, who has not
    arrived by the end, in thousandths of a vehicle, and its gap."""

    spent: int
    not_there: int
    regret: float
    gap: Gap

    @property
    def per_cent(self) -> float:
        """The relative gap."""
        return self.gap.per_cent

    @property
    def regret_per_cent(self) -> float:
        """The turn regret in per cent of the travel time."""
        return 100 * self.regret / self.spent if self.spent else 0.0

    @property
    def score(self) -> tuple[int, float]:
        """The lower of two is the better loading: more arrive, or if as many do, less is lost. Who has not arrived
        counts in thousandths of the demand, so that what is cut at the horizon's end does not decide."""
        return self.not_there * LATE // max(1, round(self.gap.all)), self.gap.lost


class Times(NamedTuple):
    """When one leaves each link who comes to its entry at a boundary, `[slots + 1, L]`, and an origin's queue who sets
    out then, `[slots + 1, N]`, in ms."""

    leave: Whole
    set_out: Whole


class Looker:
    """What is the same for all loadings of a case: when its links are open."""

    def __init__(self, net: Net) -> None:
        self.net = net
        self.exit, entry = net.limits(net.case.signals), net.limits(net.case.limits)
        self.gates = Gates(entry, self.exit)
        self.passing = numpy.minimum(numpy.minimum(entry, self.exit), net.capacity)

    def shut(self, rows: list[Limit]) -> None:
        """Has these entry limits stand beside the case's own."""
        self.gates = Gates(self.net.limits([*self.net.case.limits, *rows]), self.exit)

    def room(self, spans: Spans) -> Real:
        """What could pass each link in each span, in thousandths of a vehicle, by its capacity and the case's own
        limits."""
        return numpy.add.reduceat(self.passing, spans.starts, axis=0).astype(numpy.float64)

    def times(self, counts: Counts) -> Times:
        """The times of a loading with these counts."""
        net = self.net
        set_out = numpy.zeros((net.slots + 1, len(net.node_names)), dtype=numpy.int64)
        for node, of_node in counts.origins.items():
            set_out[:, node] = setting_out(net, *of_node)
        return Times(leaving(net, self.gates, counts.entered, counts.left), set_out)
