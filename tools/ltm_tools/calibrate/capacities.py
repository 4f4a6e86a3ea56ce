"""Capacities of stop lines as unknowns beside the demand: a factor for all stop lines of a class of links, or of a
junction. A stop line is a limit at the end of a link, above 0 and below what its road carries."""
from __future__ import annotations

from collections.abc import Sequence
from typing import NamedTuple

from ..case import Case, Limit, Link
from ..errors import Fault
from ..scenario.edits import NO_LIMIT, Edit, Exit, by_slot, runs

KINDS = ("class", "junction")
WHOLE = 1000  # a factor is told in thousandths
LEAST = 200  # thousandths: the smallest factor


class StopLine(NamedTuple):
    """The limits at the end of a link by slot, and what its road carries in a slot, in thousandths of a vehicle."""

    link: str
    limits: tuple[int, ...]
    road: int

    def at(self, factor: int) -> list[int]:
        """The limits with this factor, each to the nearest thousandth; those of 0 stay, and those that do not hold."""
        return [(units * factor + WHOLE // 2) // WHOLE if 0 < units < self.road else units for units in self.limits]


class Group(NamedTuple):
    """Stop lines that have one factor."""

    name: str
    lines: tuple[StopLine, ...]


class Capacities:
    """The groups of stop lines of a case."""

    def __init__(self, case: Case, kind: str) -> None:
        """By `class`, which is links of one speed and jam density, or by `junction`. A Fault where the case has no stop
        line."""
        self.case = case
        together: dict[str, list[StopLine]] = {}
        rows: dict[str, list[Limit]] = {}
        for row in case.signals:
            rows.setdefault(row.link, []).append(row)
        for link in case.links:
            limits = tuple(by_slot(rows.get(link.name, ()), 0, case.setup.slots))
            line = StopLine(link.name, limits, link.capacity(case.setup.step_ms))
            if any(0 < units < line.road for units in set(limits)):
                together.setdefault(group_name(link, kind), []).append(line)
        if not together:
            raise Fault("--capacities: no link of this case has a stop line, which is a limit in signals.csv")
        self.groups = [Group(name, tuple(lines)) for name, lines in sorted(together.items())]

    def edits(self, now: Sequence[int], factors: Sequence[int]) -> list[Edit]:
        """Edits that lead from some factors to others."""
        found: list[Edit] = []
        for group, before, factor in zip(self.groups, now, factors):
            for line in group.lines if factor != before else ():
                old = line.at(before)
                found += [
                    Exit(line.link, first, end, units)
                    for first, end, units in runs(line.at(factor), 0)
                    if old[first:end] != [units] * (end - first)
                ]
        return found

    def rows(self, factors: Sequence[int]) -> list[Limit]:
        """The limits at the ends of links with these factors; the case's own rows of links whose factor is 1."""
        changed = {
            line.link: line.at(factor)
            for group, factor in zip(self.groups, factors)
            for line in group.lines
            if factor != WHOLE
        }
        found = [row for row in self.case.signals if row.link not in changed]
        for link, limits in changed.items():
            found += [Limit(link, first, end, units) for first, end, units in runs(limits, 0) if units != NO_LIMIT]
        return found


def group_name(link: Link, kind: str) -> str:
    """The group of a link."""
    return link.head if kind == "junction" else f"{link.free_kmh} km/h, {link.jam_per_km} vehicles/km"
