"""What passes links by interval, with mean time, speed and density, worked out exactly from the curves of a loading.

Counts within a slot are interpolated between its boundaries and rounded down, as the program does it. The vehicles that
leave a link in an interval are those that entered first, so their mean time is the area between both curves over their
counts: exact, never below the free-flow time, and the mean of what `time` answers for each of them.
"""
from __future__ import annotations

from bisect import bisect_left
from collections.abc import Iterable, Sequence
from dataclasses import dataclass, replace
from fractions import Fraction
from itertools import accumulate
from typing import TYPE_CHECKING, NamedTuple

from ..case import Case, Link
from ..formats import HOUR_MS
from ..libraries import pandas_or_fault
from . import delay
from .approaches import Approaches, grouped
from .counts import Counts, as_counts, as_list
from .curves import Curves
from .times import at

if TYPE_CHECKING:
    import pandas


class Span(NamedTuple):
    """A time from one moment to another, in ms after the beginning of slot 0."""

    begin: int
    end: int


def intervals(horizon_ms: int, every_ms: int) -> list[Span]:
    """The horizon in intervals of so many ms; the last is shorter where they do not fit."""
    return [Span(begin, min(begin + every_ms, horizon_ms)) for begin in range(0, horizon_ms, every_ms)]


class PassedCurve:
    """A curve with its integrals: over time, and of the moments at which its units pass."""

    def __init__(self, counts: Counts, step_ms: int) -> None:
        self.counts, self.step_ms = as_list(counts), step_ms
        steps = list(zip(self.counts, self.counts[1:]))
        self._areas = [0, *accumulate((a + b) * step_ms for a, b in steps)]  # twice the integral over time
        self._moments = [0, *accumulate((b - a) * (2 * k + 1) * step_ms for k, (a, b) in enumerate(steps))]

    def at(self, moment: int) -> int:
        """What has passed by a moment, in units."""
        return at(self.counts, self.step_ms, moment)

    def area(self, moment: int) -> Fraction:
        """The integral of the count from slot 0 to a moment, in units times ms."""
        k, part = divmod(moment, self.step_ms)
        whole = Fraction(self._areas[k], 2)
        if part == 0:
            return whole
        rise = self.counts[k + 1] - self.counts[k]
        return whole + part * self.counts[k] + Fraction(rise * part * part, 2 * self.step_ms)

    def moments(self, count: int) -> Fraction:
        """The sum of the moments at which the first so many units pass, in units times ms."""
        k = bisect_left(self.counts, count)
        if k == 0:
            return Fraction(0)
        below, above = self.counts[k - 1], self.counts[k]
        part = count - below
        return (
            Fraction(self._moments[k - 1], 2)
            + part * (k - 1) * self.step_ms
            + Fraction(part * part * self.step_ms, 2 * (above - below))
        )


@dataclass(frozen=True, slots=True)
class Flow:
    """What passed a link, or an approach with its turns, in an interval: units that entered and left; the vehicle time
    on it then; the time that those who left had taken, and would have taken in free flow (units times ms); the way
    that they went (units times metres); and the length in metres."""

    name: str
    span: Span
    entered: int
    left: int
    spent: Fraction
    took: Fraction
    free: int
    way: int
    length_m: int

    @property
    def mean_ms(self) -> Fraction | None:
        """The mean time of those who left; None where nobody did."""
        return self.took / self.left if self.left else None

    @property
    def delay_ms(self) -> Fraction | None:
        """What of it is more than in free flow."""
        return (self.took - self.free) / self.left if self.left else None

    @property
    def speed_kmh(self) -> Fraction | None:
        """The mean speed of those who left: their way by their time."""
        return 3600 * self.way / self.took if self.took else None

    @property
    def density(self) -> Fraction:
        """The mean number of vehicles on a kilometre in the interval."""
        return self.spent / ((self.span.end - self.span.begin) * self.length_m)

    @property
    def hourly(self) -> Fraction:
        """The vehicles an hour that entered."""
        return Fraction(self.entered * HOUR_MS, 1000 * (self.span.end - self.span.begin))


class Passings:
    """The curves of the links of a loading, each with its integrals, made when a link is asked for."""

    def __init__(self, curves: Curves, case: Case) -> None:
        self.curves, self.links = curves, {link.name: link for link in case.links}
        self._of: dict[str, tuple[PassedCurve, PassedCurve]] = {}

    def of(self, name: str) -> tuple[PassedCurve, PassedCurve]:
        """What has entered a link, and what has left it."""
        if name not in self._of:
            up, down = delay.checked_curves(self.curves, self.links[name])
            self._of[name] = PassedCurve(up, self.curves.step_ms), PassedCurve(down, self.curves.step_ms)
        return self._of[name]

    def flow(self, name: str, span: Span) -> Flow:
        """What passed a link in an interval."""
        link, (up, down) = self.links[name], self.of(name)
        first, last = down.at(span.begin), down.at(span.end)
        left = last - first
        took = down.moments(last) - down.moments(first) - up.moments(last) + up.moments(first)
        spent = up.area(span.end) - up.area(span.begin) - down.area(span.end) + down.area(span.begin)
        free, way = left * link.free_ms, left * link.length_m
        entered = up.at(span.end) - up.at(span.begin)
        return Flow(name, span, entered, left, spent, max(took, Fraction(free)), free, way, link.length_m)

    def together(self, name: str, names: Sequence[str], span: Span) -> Flow:
        """What passed an approach in an interval, its turns behind its link: those who left a turn had taken their time
        there, and on the link the mean of those who left that."""
        if len(names) == 1:
            return replace(self.flow(names[0], span), name=name)
        first, last = first_and_last([self.links[one] for one in names])
        firsts, lasts = ([self.flow(one, span) for one in some] for some in (first, last))
        before, left = merged_flows(firsts), sum(flow.left for flow in lasts)
        link = self.links[first[0]]
        mean = before.mean_ms if before.left else Fraction(link.free_ms)
        assert mean is not None
        spent = sum((self.flow(one, span).spent for one in names), Fraction(0))
        took = sum((flow.took for flow in lasts), mean * left)
        free = sum(flow.free for flow in lasts) + left * link.free_ms
        way = sum(flow.way for flow in lasts) + left * link.length_m
        length = link.length_m + max(flow.length_m for flow in lasts)
        return Flow(name, span, before.entered, left, spent, took, free, way, length)


def first_and_last(links: Sequence[Link]) -> tuple[list[str], list[str]]:
    """Of links that follow one another the first ones and the last ones."""
    heads, tails = {link.head for link in links}, {link.tail for link in links}
    first = [link.name for link in links if link.tail not in heads]
    last = [link.name for link in links if link.head not in tails]
    return first or [links[0].name], last or [links[-1].name]


def merged_flows(flows: Sequence[Flow]) -> Flow:
    """Flows side by side as one."""
    one = flows[0]
    return Flow(
        one.name,
        one.span,
        sum(flow.entered for flow in flows),
        sum(flow.left for flow in flows),
        sum((flow.spent for flow in flows), Fraction(0)),
        sum((flow.took for flow in flows), Fraction(0)),
        sum(flow.free for flow in flows),
        sum(flow.way for flow in flows),
        max(flow.length_m for flow in flows),
    )


@dataclass(frozen=True)
class Flows:
    """What passed each link of a loading, or each approach, by interval."""

    spans: tuple[Span, ...]
    links: dict[str, tuple[str, ...]]
    """By name the links of the case that are taken together."""
    rows: dict[str, tuple[Flow, ...]]

    def entered(self, name: str) -> Counts:
        """The units that entered a link, by interval: an array where numpy is installed, else a list."""
        return as_counts([flow.entered for flow in self.rows[name]])

    def left(self, name: str) -> Counts:
        """The units that left a link, by interval."""
        return as_counts([flow.left for flow in self.rows[name]])

    def all(self) -> Iterable[Flow]:
        """All rows, link by link."""
        return (flow for flows in self.rows.values() for flow in flows)

    def to_pandas(self) -> "pandas.DataFrame":
        """A row for each link and interval: `from_ms` and `to_ms` after slot 0, `entered` and `left` in thousandths of
        a vehicle, the mean `time_ms`, `delay_ms` and `speed_kmh` of those who left, and `density` in vehicles/km."""
        pandas = pandas_or_fault()

        def number(exact: Fraction | None) -> float:
            return float("nan") if exact is None else float(exact)

        return pandas.DataFrame(
            {
                "link": [flow.name for flow in self.all()],
                "from_ms": [flow.span.begin for flow in self.all()],
                "to_ms": [flow.span.end for flow in self.all()],
                "entered": [flow.entered for flow in self.all()],
                "left": [flow.left for flow in self.all()],
                "time_ms": [number(flow.mean_ms) for flow in self.all()],
                "delay_ms": [number(flow.delay_ms) for flow in self.all()],
                "speed_kmh": [number(flow.speed_kmh) for flow in self.all()],
                "density": [number(flow.density) for flow in self.all()],
            }
        )


def flows_of(
    curves: Curves,
    case: Case,
    every_ms: int,
    approaches: Approaches | None = None,
    only: Iterable[str] | None = None,
) -> Flows:
    """What passed each link by intervals of so many ms, in the order of `links.csv`; an approach with its turns as one,
    and of some names alone where these are given."""
    passings = Passings(curves, case)
    spans = tuple(intervals(case.setup.horizon_ms, every_ms))
    groups = {name: tuple(links) for name, links in grouped(passings.links, approaches or {}).items()}
    if only is not None:
        groups = {name: groups.get(name, (name,)) for name in only}
    rows = {name: tuple(passings.together(name, links, span) for span in spans) for name, links in groups.items()}
    return Flows(spans, groups, rows)
