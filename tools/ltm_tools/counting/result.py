"""The file of a fit, `fit.csv`: a row for each count, with what the loading has there."""
from __future__ import annotations

import os
from collections.abc import Iterable, Sequence
from dataclasses import dataclass
from fractions import Fraction

from ..errors import Fault
from ..files import read_table
from ..formats import HOUR_MS, clock_ms, clock_text
from ..listing import Cell, rounded, vehicles
from .measures import Pair, root
from .validating import Met

FIELDS = ("place", "links", "end", "from", "to", "counted", "loaded", "error", "geh", "use")


def cells(one: Met, start: int) -> list[Cell]:
    """A row: the place, its links of the case with blanks between, its span in clock times, vehicles counted (to the
    nearest thousandth) and loaded, the error of the count, GEH as an hourly flow, and what the row is for."""
    count, points = one.count, one.count.points
    links = " ".join(dict.fromkeys(point.link for point in points))
    ends = {"exit" if point.is_exit else "entry" if point.metres is None else str(point.metres) for point in points}
    return [
        count.name,
        links,
        " ".join(sorted(ends)),
        clock_text(start + count.span.begin),
        clock_text(start + count.span.end),
        rounded(count.vehicles.numerator, count.vehicles.denominator, 3),
        vehicles(one.units),
        root(count.square, 3),
        one.pair.geh,
        count.use,
    ]


@dataclass(frozen=True, slots=True)
class FitRow:
    """A row of `fit.csv` as pictures want it: links of the case, hourly flows, and what it is for."""

    place: str
    links: tuple[str, ...]
    counted: Fraction
    loaded: Fraction
    hours: Fraction
    use: str

    @property
    def pair(self) -> Pair:
        """The flows in vehicles an hour."""
        return Pair(self.counted / self.hours, self.loaded / self.hours)


def read_fit(path: str | os.PathLike[str]) -> list[FitRow]:
    """The rows of a `fit.csv`."""
    found = []
    for row in read_table(path, FIELDS):
        try:
            length = clock_ms(row.text("to")) - clock_ms(row.text("from"))
        except Fault:
            raise row.fault("from", "expected clock times in from and to, as 7:45") from None
        counted, loaded = row.number("counted"), row.number("loaded")
        if length <= 0 or counted < 0 or loaded < 0:
            raise row.fault("from", "expected a span that ends after it begins, and vehicles that are not below 0")
        links = tuple(row.text("links").split())
        found.append(FitRow(row.text("place"), links, counted, loaded, Fraction(length, HOUR_MS), row.text("use")))
    if not found:
        raise Fault(f"{path}: no count stands in it")
    return found


def misfits(rows: Iterable[FitRow]) -> dict[str, Fraction]:
    """Of each link by how much more is loaded than was counted over all its rows, in parts of what was counted: of
    places with several links the same for each; at most 1 where nothing was counted."""
    return {
        link: (loaded - counted) / counted if counted else Fraction(loaded > 0)
        for link, (counted, loaded) in sums_by_link(rows).items()
    }


def sums_by_link(rows: Iterable[FitRow]) -> dict[str, tuple[Fraction, Fraction]]:
    """Of each link the vehicles that were counted and are loaded, over all its rows."""
    sums: dict[str, tuple[Fraction, Fraction]] = {}
    for row in rows:
        for link in row.links:
            counted, loaded = sums.get(link, (Fraction(0), Fraction(0)))
            sums[link] = counted + row.counted, loaded + row.loaded
    return sums


def flow_pairs(rows: Sequence[FitRow], use: str) -> list[Pair]:
    """The flows of the rows of a use."""
    return [row.pair for row in rows if row.use == use]
