"""The capacity of a link, a little more and a little less, as edits of a session.

What holds a link is changed: the limits at its end, where it has some below what its road carries (a stop line),
else those at its beginning (an entry), else the diagram of its road, by its jam density in whole vehicles a
kilometre, which changes what it stores as well. A limit of 0, as at red, stays. Limits are multiplied, and what
rounding leaves over is carried from slot to slot, so nothing is lost of the change.
"""
from __future__ import annotations

from collections.abc import Sequence
from dataclasses import dataclass
from fractions import Fraction

from ..case import Link, Setup
from ..formats import HOUR_MS, UNITS
from ..scenario.edits import NO_LIMIT, Diagram, Edit, Exit, Limit, by_slot, runs
from ..scenario.rows import OwnRows

STOP_LINE, ENTRY, ROAD = KINDS = ("stop line", "entry", "road")


@dataclass(frozen=True)
class Change:
    """Edits, and by how many vehicles an hour they raise a capacity, in the mean over the slots that are looked at."""

    edits: tuple[Edit, ...]
    per_hour: Fraction


@dataclass(frozen=True)
class Capacity:
    """What a link lets through in each of some slots, in thousandths of a vehicle: what holds it, the limits of
    that kind (`NO_LIMIT` where there is none), and what its road carries."""

    link: Link
    kind: str
    first: int
    limits: tuple[int, ...]
    road: tuple[int, ...]
    step_ms: int

    @property
    def per_hour(self) -> Fraction:
        """The vehicles that it lets through in an hour, in the mean."""
        return self.mean(self.passing(self.limits))

    def passing(self, limits: Sequence[int]) -> int:
        """What these limits and the road let through in all these slots."""
        return sum(min(limit, most) for limit, most in zip(limits, self.road))

    def mean(self, units: int) -> Fraction:
        """An amount over all these slots as vehicles an hour."""
        return Fraction(units * HOUR_MS, UNITS * self.step_ms * len(self.road))

    def changed(self, part: Fraction) -> Change | None:
        """The edits that add such a part of the capacity, or take it away where it is below 0, as nearly as it can be;
        None where nothing would change."""
        return self._diagram(part) if self.kind == ROAD else self._limits(part)

    def _limits(self, part: Fraction) -> Change | None:
        limits = scaled(self.limits, self.road, 1 + part)
        more = self.passing(limits) - self.passing(self.limits)
        edit: type[Exit] | type[Limit] = Exit if self.kind == STOP_LINE else Limit
        edits: list[Edit] = [
            edit(self.link.name, first, end, units)
            for first, end, units in runs(limits, self.first)
            if tuple(self.limits[first - self.first : end - self.first]) != (units,) * (end - first)
        ]
        return Change(tuple(edits), self.mean(more)) if more else None

    def _diagram(self, part: Fraction) -> Change | None:
        link = self.link
        jam = max(1, round(link.jam_per_km * (1 + part)))
        if jam == link.jam_per_km:
            jam += 1 if part > 0 else -1
        if jam < 1:
            return None
        edit = Diagram(link.name, link.length_m, link.free_kmh, link.wave_kmh, jam)
        return Change((edit,), road_per_hour(link) * Fraction(jam - link.jam_per_km, link.jam_per_km))


def road_per_hour(link: Link) -> Fraction:
    """What the road of a link carries in an hour, exactly."""
    return Fraction(link.free_kmh * link.wave_kmh * link.jam_per_km, link.free_kmh + link.wave_kmh)


def scaled(limits: Sequence[int], road: Sequence[int], factor: Fraction) -> list[int]:
    """Limits that hold the road, multiplied; what rounding down leaves over of one is added to the next. Others
    stay."""
    found, exact, given = [], Fraction(0), 0
    for units, most in zip(limits, road):
        if 0 < units < most:
            exact += units * factor
            units = min(NO_LIMIT, int(exact) - given)
            given = int(exact)
        found.append(units)
    return found


def capacity_of(setup: Setup, own: OwnRows, name: str, first: int, end: int) -> Capacity:
    """What a link of a case lets through in these slots, by its setup and its rows."""
    link = own.links[name]
    road = tuple(
        link.capacity_at(setup.step_ms, slot) if setup.carry else link.capacity(setup.step_ms)
        for slot in range(first, end)
    )
    for kind, rows in ((STOP_LINE, own.exits), (ENTRY, own.limits)):
        limits = by_slot(rows.get(name, ()), first, end)
        if any(0 < units < most for units, most in zip(limits, road)):
            return Capacity(link, kind, first, tuple(limits), road, setup.step_ms)
    return Capacity(link, ROAD, first, (NO_LIMIT,) * (end - first), road, setup.step_ms)
