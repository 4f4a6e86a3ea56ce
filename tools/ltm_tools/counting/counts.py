"""A count, a measured travel time, and the places where they stand in a case."""
from __future__ import annotations

from collections.abc import Iterable
from dataclasses import dataclass, field
from fractions import Fraction
from math import isqrt

from ..case import Case
from ..errors import Fault
from ..formats import UNITS, clock_text
from ..loading.flows import Span, first_and_last
from ..case.roads import Roads
from ..case.source import Source

ENTRY, EXIT = "entry", "exit"
FIT, HOLD = "fit", "hold"
COUNT_PART, COUNT_LEAST = Fraction(1, 20), Fraction(1, 2)  # of a count's error, in parts of it and in vehicles
TIME_PART, TIME_LEAST = Fraction(1, 10), 10  # of a time's error, in parts of it and in seconds


@dataclass(frozen=True, slots=True)
class Point:
    """A point of a link at which vehicles are counted: its entry, its exit, or so many metres from the entry."""

    link: str
    metres: Fraction | None = None
    """None where it is the entry or the exit."""
    is_exit: bool = False


@dataclass(frozen=True, slots=True)
class CountRow:
    """A row of a table of counts: where it stands, the link or links as they are called there, and what was counted;
    `vehicles` is None where the field is empty."""

    place: str
    name: str
    link: str
    end: str
    span: Span
    vehicles: Fraction | None
    error: Fraction | None = None
    use: str = FIT
    lane: str = ""
    """What tells it from others at the same point, where these are lanes with a detector each."""


@dataclass(frozen=True, slots=True)
class Count:
    """Vehicles that were counted at a place in a span, over the points of the place together; `row` says where it
    stands in the files, and `error` is in vehicles."""

    name: str
    points: tuple[Point, ...]
    span: Span
    vehicles: Fraction
    error: Fraction | None
    use: str
    row: str
    is_line: bool = False
    """Whether it is of several links: a screen line, or the turns of an approach."""

    @property
    def square(self) -> Fraction:
        """The square of its error: as it is told, else of 5 % and half a vehicle together."""
        if self.error is not None:
            return self.error * self.error
        return (COUNT_PART * self.vehicles) ** 2 + COUNT_LEAST**2

    @property
    def hours(self) -> Fraction:
        """The length of its span."""
        return Fraction(self.span.end - self.span.begin, 3_600_000)

    @property
    def units(self) -> Fraction:
        """What was counted, in thousandths of a vehicle."""
        return self.vehicles * UNITS

    def when(self, start: int) -> str:
        """Its span in clock times."""
        return f"{clock_text(start + self.span.begin)} to {clock_text(start + self.span.end)}"


@dataclass(frozen=True, slots=True)
class Timed:
    """A travel time that was measured: the links of a route as they are called, the links of the case, the departure in
    ms after the beginning of slot 0, and the time and its error in seconds."""

    name: str
    links: tuple[str, ...]
    departs: int
    seconds: Fraction
    error: Fraction | None
    use: str
    row: str

    @property
    def square(self) -> Fraction:
        """The square of its error: as it is told, else of 10 % and 10 s together."""
        if self.error is not None:
            return self.error * self.error
        return (TIME_PART * self.seconds) ** 2 + Fraction(TIME_LEAST) ** 2


@dataclass
class Placing:
    """The links of a case by the names of counts: its own or those of its source."""

    case: Case
    source: Source
    left_out: dict[str, str] = field(default_factory=dict)
    """The names that were left out, with the reason."""

    @classmethod
    def read(cls, folder: str, case: Case) -> Placing:
        """The links of a case, and of its source where its folder tells one."""
        return cls(case, Source.read(folder, Roads.of(case.links)))

    def points(self, row: CountRow) -> tuple[Point, ...]:
        """The points at which a row counts; a Fault where its link is unknown, or is part of no link of the case."""
        own = {link.name: link for link in self.case.links}
        if row.link not in self.source.links:
            raise Fault(f"{row.place}: {row.link} is no link of the case, nor of its source")
        links = self.source.links[row.link].all_links
        if not links:
            raise Fault(
                f"{row.place}: link {row.link} of the source was contracted, and is part of no link of the case: take"
                f" a count of a link beside it, or leave it out"
            )
        first, last = first_and_last([own[name] for name in links])
        if row.end == ENTRY:
            return tuple(Point(name) for name in first)
        if row.end == EXIT:
            return tuple(Point(name, None, True) for name in last)
        metres = Fraction(row.end)
        if metres > own[first[0]].length_m:
            raise Fault(f"{row.place}: {first[0]} is {own[first[0]].length_m} m long, and end is {row.end}")
        return (Point(first[0], metres),)


def placed(rows: Iterable[CountRow], placing: Placing, leave_out: bool = False) -> list[Count]:
    """The counts of these rows: those of one place and span together. A row with an empty count leaves out its place in
    that span; with `leave_out` rows of links that are not in the case are left out, else they are a Fault."""
    together: dict[tuple[str, Span], list[tuple[CountRow, tuple[Point, ...]]]] = {}
    seen: dict[tuple[str, Span, Point, str], str] = {}
    for row in rows:
        try:
            points = placing.points(row)
        except Fault as fault:
            if not leave_out:
                raise
            placing.left_out.setdefault(row.link, str(fault))
            continue
        check_span(row, placing.case)
        for point in points:
            other = seen.setdefault((row.name, row.span, point, row.lane), row.place)
            if other is not row.place:
                raise Fault(
                    f"{row.place}: {other.rpartition('/')[2]} has a count of {row.link} in the same time; give the two"
                    f" a field place where they are different counts, or leave one out"
                )
        together.setdefault((row.name, row.span), []).append((row, points))
    counts = [of_place(found) for found in together.values()]
    return [count for count in counts if count is not None]


def of_place(found: list[tuple[CountRow, tuple[Point, ...]]]) -> Count | None:
    """The rows of a place and span as one count; None where one of them is empty."""
    rows = [row for row, _ in found]
    if any(row.vehicles is None for row in rows):
        return None
    vehicles = sum((row.vehicles for row in rows if row.vehicles is not None), Fraction(0))
    told = [row.error for row in rows if row.error is not None]
    error = root_of(sum(one * one for one in told)) if len(told) == len(rows) else None
    uses = {row.use for row in rows}
    if len(uses) > 1:
        raise Fault(f"{rows[1].place}: the rows of place {rows[0].name} are to have one use, fit or hold")
    points = tuple(dict.fromkeys(point for _, points in found for point in points))
    is_line = len({row.link for row in rows}) > 1
    return Count(rows[0].name, points, rows[0].span, vehicles, error, uses.pop(), rows[0].place, is_line)


def root_of(square: Fraction | int) -> Fraction:
    """A square root, to the nearest millionth at least."""
    exact = Fraction(square)
    return Fraction(isqrt(exact.numerator * exact.denominator * 10**12), exact.denominator * 10**6)


def check_span(row: CountRow, case: Case) -> None:
    """A Fault where a span has no length, or is not within the horizon."""
    horizon = case.setup.horizon_ms
    if row.span.begin >= row.span.end:
        raise Fault(f"{row.place}: the count ends no later than it begins; from is to be before to")
    if row.span.begin < 0 or row.span.end > horizon:
        raise Fault(
            f"{row.place}: the count is not within the horizon, which has {clock_text(horizon)} from slot 0 on: mend"
            f" the times, or say with --start when slot 0 begins"
        )
