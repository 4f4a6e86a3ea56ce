"""A demand that stands as a matrix: one record for each origin and destination, which is split over the slices of a
profile (docs/FORMATS.md). It is read, and found in rows of demand that say the same."""
from __future__ import annotations

import os
import re
from collections.abc import Iterable, Iterator, Sequence
from dataclasses import dataclass
from itertools import accumulate, groupby

from ..files import records
from ..formats import MATRIX, MOST_SHARE, MOST_UNITS, PROFILE, QUOTE
from . import bad_case
from .fields import check_width, read_header, whole_in
from .rows import Demand

PROFILE_FILE = "profile.csv"
FIRST_LINE = re.compile(rb"(?:\xef\xbb\xbf)?[\r\n]*[^\r\n]+")


@dataclass(frozen=True, slots=True)
class Slice:
    """A record of `profile.csv`: the slots from `from_slot` up to, and without, `to_slot`, and their share."""

    from_slot: int
    to_slot: int
    share: int


def is_matrix(demand: bytes) -> bool:
    """Whether the bytes of a `demand.csv` begin with the header of a matrix."""
    return header_of(demand) == MATRIX


def has_profile(folder: str | os.PathLike[str]) -> bool:
    """Whether a folder has the `profile.csv` of a matrix, and no file of others that is called so."""
    try:
        with open(os.path.join(folder, PROFILE_FILE), "rb") as file:
            return header_of(file.read()) == PROFILE
    except OSError:
        return False


def header_of(data: bytes) -> tuple[str, ...]:
    """The fields of the first record of a file, of which no more is cut into records than its line, but for quotes."""
    line = FIRST_LINE.match(data)
    is_plain = line is not None and QUOTE.encode() not in line[0]
    first = next(records(line[0] if line is not None and is_plain else data), None)
    return () if first is None else tuple(first.fields)


def read_profile(data: bytes, slots: int) -> list[Slice]:
    """The slices that the bytes of a `profile.csv` say of a horizon of so many slots."""
    found = list(records(data))
    width = read_header("profile", found)
    slices: list[Slice] = []
    for row, record in enumerate(found[1:], 2):
        check_width("profile", row, record.fields, width)
        first, end, share = (whole_in("profile", row, record.fields, place) for place in (1, 2, 3))
        if not first < end <= slots:
            raise bad_case.bad_slots("profile", row, first, end, slots)
        if slices and first < slices[-1].to_slot:
            raise bad_case.slice_too_early(row, first, slices[-1].to_slot)
        if not 1 <= share <= MOST_SHARE:
            raise bad_case.share_range(row)
        slices.append(Slice(first, end, share))
    if not slices:
        raise bad_case.no_slices()
    return slices


def parts(units: int, slices: Sequence[Slice]) -> Iterator[int]:
    """What each slice gets of an amount: what the slices up to it get, rounded down to whole thousandths, less what
    those before it do."""
    total, given = sum(part.share for part in slices), 0
    for shares in accumulate(part.share for part in slices):
        before, given = given, units * shares // total
        yield given - before


@dataclass(frozen=True, slots=True)
class Matrix:
    """Rows of demand that a matrix says, and the slices of its profile."""

    slices: Sequence[Slice]
    rows: Sequence[Demand]

    def pairs(self) -> Iterator[tuple[str, str, int]]:
        """The records: an origin, a destination, and the amount that is split over all slices."""
        if len(self.slices) == 1:
            return ((row.origin, row.destination, row.units) for row in self.rows)
        return ((*ends, sum(row.units for row in of)) for ends, of in groupby(self.rows, ends_of))


def ends_of(row: Demand) -> tuple[str, str]:
    """The origin and the destination of a row."""
    return row.origin, row.destination


def as_matrix(rows: Sequence[Demand]) -> Matrix | None:
    """The matrix that says exactly these rows, in their order but for those of 0; None where there is none. The rows of
    a pair stand together then, and all pairs are split by the same shares, which sum to a million at most."""
    spans = sorted({(row.from_slot, row.to_slot) for row in rows if row.units})
    if any(first < end for (_, end), (first, _) in zip(spans, spans[1:])):
        return None
    if len(spans) == 1:  # a record is a row, also one of 0, or of a pair that comes again
        shares = [1] if all((row.from_slot, row.to_slot) == spans[0] for row in rows) else []
    else:
        shares = shares_of(rows, {span: place for place, span in enumerate(spans)}) if spans else []
    return Matrix([Slice(*span, share) for span, share in zip(spans, shares)], rows) if shares else None


def shares_of(rows: Iterable[Demand], places: dict[tuple[int, int], int]) -> list[int]:
    """The shares of slices, at these places in order, by which all pairs are split; none where there are none."""
    bounds = [Bounds() for _ in range(len(places) - 1)]
    met: dict[str, set[str]] = {}
    for (origin, destination), of in groupby(rows, ends_of):
        given, ends = given_in_order(of, places), met.setdefault(origin, set())
        if given is None or given[-1] > MOST_UNITS or destination in ends:
            return []
        ends.add(destination)
        if given[-1] and not all(bound.narrow(upto, given[-1]) for bound, upto in zip(bounds, given)):
            return []
    return whole_shares(bounds)


def given_in_order(rows: Iterable[Demand], places: dict[tuple[int, int], int]) -> list[int] | None:
    """What the slices up to each one get of the rows of a pair; None where these are not in order."""
    each, next_place = [0] * len(places), 0
    for row in rows:
        place = places.get((row.from_slot, row.to_slot))
        if place is None:  # a row of 0 in slots in which no pair has any
            continue
        if place < next_place:
            return None
        each[place], next_place = row.units, place + 1
    return list(accumulate(each))


class Bounds:
    """The parts of all shares that those up to a slice can be: at least one number, and below another. Both are kept
    as numerators and denominators, which are quicker than fractions."""

    def __init__(self) -> None:
        self.least, self.of_least = 0, 1
        self.below, self.of_below = 1, 1

    def narrow(self, given: int, units: int) -> bool:
        """Lets only those parts be which, rounded down, give so much of an amount; whether any is left."""
        if given * self.of_least > self.least * units:
            self.least, self.of_least = given, units
        if (given + 1) * self.of_below < self.below * units:
            self.below, self.of_below = given + 1, units
        return self.least * self.of_below < self.below * self.of_least

    def upto(self, total: int) -> int:
        """The least whole number that is at least such a part of a total."""
        return -(-self.least * total // self.of_least)

    def fits(self, total: int) -> bool:
        """Whether a whole number is such a part of a total."""
        return self.upto(total) * self.of_below < self.below * total

    @property
    def width(self) -> float:
        """How far apart both are."""
        return self.below / self.of_below - self.least / self.of_least


def whole_shares(bounds: Sequence[Bounds]) -> list[int]:
    """The shares with the least sum of which those up to each slice but the last are parts within these bounds; none
    where they would sum to more than a share may be."""
    narrowest_first = sorted(bounds, key=lambda bound: bound.width)
    totals = (total for total in range(1, MOST_SHARE + 1) if all(bound.fits(total) for bound in narrowest_first))
    total = next(totals, 0)
    upto = [0, *(bound.upto(total) for bound in bounds), total]
    return [after - before for before, after in zip(upto, upto[1:])] if total else []
