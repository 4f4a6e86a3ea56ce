"""The level of service of approaches and movements: vehicles, delay a vehicle, the letter of the Highway Capacity
Manual, and the queue at its 95th percentile, by interval.

An approach is a link that a signal or a limit holds at its end, or one that was cut before a crossing, whose movements
are its turns. The delay is that of the vehicles that leave in the interval: on the link, and on the turn behind it.
"""
from __future__ import annotations

from collections.abc import Iterable, Mapping, Sequence
from dataclasses import dataclass
from fractions import Fraction

from ..case import Case
from . import delay
from .approaches import Approaches, grouped
from .counts import as_list
from .curves import Curves
from .flows import Flow, Passings, Span, first_and_last, intervals, merged_flows

LETTERS = "ABCDE"
MOST_SECONDS = {"signal": (10, 20, 35, 55, 80), "yield": (10, 15, 25, 35, 50)}
"""The most seconds of delay for each letter, by control; beyond the last it is F."""
PERCENTILE = 95


@dataclass(frozen=True, slots=True)
class Service:
    """A movement, an approach (`movement` empty) or a crossing (`approach` empty) in an interval: what passed; how it
    is controlled, `signal`, `yield` or empty; its queue at the 95th percentile of the boundaries in units and in mm of
    road, None of a crossing; and what is left in it at the end in units."""

    node: str
    approach: str
    movement: str
    flow: Flow
    control: str
    queue: int | None
    queue_mm: int | None
    rest: int

    @property
    def letter(self) -> str:
        """The letter of the manual; empty without control, or where nobody left."""
        return letter_of(self.flow.delay_ms, self.control)


def letter_of(delay_ms: Fraction | None, control: str) -> str:
    """The letter of a mean delay."""
    if delay_ms is None or control not in MOST_SECONDS:
        return ""
    bounds = zip(LETTERS, MOST_SECONDS[control])
    return next((letter for letter, most in bounds if delay_ms <= 1000 * most), "F")


def controls_of(case: Case) -> dict[str, str]:
    """How the end of each link with exit limits is controlled: by a signal where it is red for a time and let go for
    another, else by yielding."""
    found: dict[str, set[bool]] = {}
    for row in case.signals:
        found.setdefault(row.link, set()).add(row.units > 0)
    return {name: "signal" if False in kinds else "yield" for name, kinds in found.items()}


def percentile(values: Sequence[int], percent: int = PERCENTILE) -> int:
    """The least value that at least so many percent of the values do not exceed."""
    return sorted(values)[max(0, -(-len(values) * percent // 100) - 1)]


class Services:
    """The level of service in a loading, worked out approach by approach."""

    def __init__(self, curves: Curves, case: Case, approaches: Approaches, heads: Mapping[str, str]) -> None:
        """`heads` has the crossings at which links of a source end, by name."""
        self.case, self.passings = case, Passings(curves, case)
        self.controls, self.heads = controls_of(case), heads
        self.groups = {name: tuple(links) for name, links in grouped(self.passings.links, approaches).items()}
        self._queues: dict[str, list[int]] = {}

    def table(self, every_ms: int, only: Iterable[str] | None = None) -> list[Service]:
        """The rows of all approaches that are controlled, or of these alone: each approach behind its movements, and
        each crossing behind its approaches, by interval."""
        names = [name for name in self.groups if self.control(name)] if only is None else list(only)
        nodes: dict[str, list[str]] = {}
        for name in names:
            nodes.setdefault(self.node(name), []).append(name)
        found: list[Service] = []
        for node, approaches in nodes.items():
            for span in intervals(self.case.setup.horizon_ms, every_ms):
                rows = [self.approach(node, name, span) for name in approaches]
                for name, row in zip(approaches, rows):
                    found += [*self.movements(node, name, span), row]
                if len(rows) > 1:
                    found.append(self.crossing(node, rows))
        return found

    def node(self, name: str) -> str:
        """The crossing at the end of an approach."""
        return self.heads.get(name) or self.passings.links[self.links(name)[0]].head

    def links(self, name: str) -> tuple[str, ...]:
        """The links of an approach."""
        return self.groups.get(name, (name,))

    def control(self, name: str) -> str:
        """How an approach is controlled: by a signal where any of its links is."""
        kinds = {self.controls.get(link, "") for link in self.links(name)}
        return next((kind for kind in MOST_SECONDS if kind in kinds), "")

    def queue(self, name: str) -> list[int]:
        """The queue of a link by boundary, in units."""
        if name not in self._queues:
            self._queues[name] = as_list(delay.queue(self.passings.curves, self.passings.links[name]))
        return self._queues[name]

    def queued(self, names: Sequence[str], span: Span) -> tuple[int, int, int]:
        """The queue of links at its percentile over the boundaries of an interval, in units and in mm, and what is left
        at its end: of several links that lead on side by side the longest counts for the mm."""
        step = self.case.setup.step_ms
        begin, end = -(-span.begin // step), span.end // step
        boundaries = range(begin, max(begin, end) + 1)
        links = [self.passings.links[name] for name in names]
        first, last = first_and_last(links)
        queues = {name: self.queue(name) for name in names}
        long = {link.name: link.jam_per_km for link in links}
        units = [sum(queues[name][k] for name in names) for k in boundaries]
        metres = []
        for k in boundaries:
            parts = {name: 1000 * queues[name][k] // long[name] for name in names}
            behind = [parts[name] for name in last if name not in first]
            metres.append(max(parts[name] for name in first) + max(behind, default=0))
        return percentile(units), percentile(metres), units[-1]

    def approach(self, node: str, name: str, span: Span) -> Service:
        """An approach in an interval."""
        links = self.links(name)
        flow = self.passings.together(name, links, span)
        return Service(node, name, "", flow, self.control(name), *self.queued(links, span))

    def movements(self, node: str, name: str, span: Span) -> list[Service]:
        """The movements of an approach: none where its turns are no links."""
        links = self.links(name)
        if len(links) == 1:
            return []
        first, last = first_and_last([self.passings.links[link] for link in links])
        found = []
        for turn in last:
            flow = self.passings.together(turn, (first[0], turn), span)
            found.append(Service(node, name, turn, flow, self.control(name), *self.queued((turn,), span)))
        return found

    def crossing(self, node: str, rows: Sequence[Service]) -> Service:
        """A crossing, of its approaches."""
        flow = merged_flows([row.flow for row in rows])
        control = next((kind for kind in MOST_SECONDS if any(row.control == kind for row in rows)), "")
        return Service(node, "", "", flow, control, None, None, sum(row.rest for row in rows))
