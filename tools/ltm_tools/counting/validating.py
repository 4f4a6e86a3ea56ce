"""The fit of a loading to counts and measured times: by count, by hour, by screen line, by travel time."""
from __future__ import annotations

from collections.abc import Iterable, Sequence
from dataclasses import dataclass
from fractions import Fraction

from ..formats import HOUR_MS
from ..loading.flows import Span
from .counts import FIT, HOLD, Count, Timed
from .measures import Fit, Pair, fit_of, is_line_met, is_time_met


@dataclass(frozen=True, slots=True)
class Met:
    """A count and what the loading counts there, in units."""

    count: Count
    units: int

    @property
    def pair(self) -> Pair:
        """Both in vehicles an hour."""
        return Pair(self.count.vehicles / self.count.hours, Fraction(self.units, 1000) / self.count.hours)

    @property
    def misfit(self) -> Fraction:
        """The square of the difference in errors of the count."""
        return (self.count.vehicles - Fraction(self.units, 1000)) ** 2 / self.count.square


@dataclass(frozen=True, slots=True)
class MetTime:
    """A measured time and what it is in the loading, in seconds; None where that is not before the end."""

    timed: Timed
    seconds: Fraction | None

    @property
    def is_met(self) -> bool:
        """Whether it is within the band of the guidelines."""
        return is_time_met(self.timed.seconds, self.seconds)


@dataclass(frozen=True, slots=True)
class ScreenLine:
    """A place of several links, a screen line, over all its counts: vehicles counted and modelled."""

    name: str
    counted: Fraction
    modelled: Fraction

    @property
    def is_met(self) -> bool:
        """Whether it is within 5 %."""
        return is_line_met(self.counted, self.modelled)


@dataclass(frozen=True)
class Validation:
    """The fit of a loading."""

    met: tuple[Met, ...]
    times: tuple[MetTime, ...] = ()

    def of(self, use: str | None) -> list[Met]:
        """The counts of a use, or all."""
        return [one for one in self.met if use in (None, one.count.use)]

    def by_span(self, use: str | None = None) -> Fit | None:
        """The fit of the counts, each as an hourly flow; None where there is none."""
        found = self.of(use)
        return fit_of([one.pair for one in found]) if found else None

    def by_hour(self, use: str | None = None) -> Fit | None:
        """The fit by hour: counts of a place that follow one another and make an hour."""
        pairs = [Pair(hour.vehicles, hour.modelled) for hour in hours_of(self.of(use))]
        return fit_of(pairs) if pairs else None

    @property
    def uses(self) -> list[str]:
        """The uses that counts have."""
        return [use for use in (FIT, HOLD) if self.of(use)]

    def worst(self, most: int = 5) -> list[Met]:
        """The counts with the greatest GEH, the greatest first."""
        return sorted(self.met, key=lambda one: -one.pair.geh_square)[:most]

    def lines(self) -> list[ScreenLine]:
        """The places of several links."""
        found: dict[str, list[Met]] = {}
        for one in self.met:
            if one.count.is_line:
                found.setdefault(one.count.name, []).append(one)
        return [
            ScreenLine(
                name,
                sum((one.count.vehicles for one in some), Fraction(0)),
                Fraction(sum(one.units for one in some), 1000),
            )
            for name, some in found.items()
        ]

    def misfit(self, use: str | None = None) -> Fraction | None:
        """The mean square of the differences, in errors of the counts: about 1 where they are as large as their
        errors."""
        found = self.of(use)
        return sum((one.misfit for one in found), Fraction(0)) / len(found) if found else None


@dataclass(frozen=True, slots=True)
class Hour:
    """An hour of a place: vehicles counted and modelled."""

    name: str
    span: Span
    vehicles: Fraction
    modelled: Fraction


def hours_of(met: Iterable[Met]) -> list[Hour]:
    """The hours of each place: its counts from the first on that follow one another, where they make exactly an hour;
    after a gap, or where an hour is passed over, it begins anew."""
    places: dict[str, list[Met]] = {}
    for one in met:
        places.setdefault(one.count.name, []).append(one)
    found: list[Hour] = []
    for name, some in places.items():
        kept: list[Met] = []
        for one in sorted(some, key=lambda one: one.count.span):
            if kept and one.count.span.begin != kept[-1].count.span.end:
                kept = []
            kept.append(one)
            length = one.count.span.end - kept[0].count.span.begin
            if length == HOUR_MS:
                found.append(hour_of(name, kept))
            if length >= HOUR_MS:
                kept = []
    return found


def hour_of(name: str, met: Sequence[Met]) -> Hour:
    """Counts that make an hour."""
    span = Span(met[0].count.span.begin, met[-1].count.span.end)
    vehicles = sum((one.count.vehicles for one in met), Fraction(0))
    return Hour(name, span, vehicles, Fraction(sum(one.units for one in met), 1000))
