"""The table of worths: a row for each link, as `bottlenecks` writes it and maps read it."""
from __future__ import annotations

import os
from collections.abc import Mapping, Sequence
from dataclasses import dataclass
from decimal import Decimal
from fractions import Fraction

from ..errors import Fault
from ..files import Row, read_table
from ..formats import UNITS
from ..listing import Cell, rounded, seconds, vehicles
from .capacity import KINDS
from .weighing import Tried, Worth

FIELDS = (
    "link",
    "held_by",
    "capacity_per_h",
    "more_per_h",
    "more_travel_time_s",
    "more_delay_s",
    "more_arrived",
    "less_per_h",
    "less_travel_time_s",
    "less_delay_s",
    "less_arrived",
    "rounding_s",
    "clear",
    "delay_falls_s",
    "delay_rises_s",
    "falls",
    "rises",
)
MOST_NAMED = 3  # links where delays fall, and where they rise


def cells(worth: Worth) -> list[Cell]:
    """A row for programs: capacities in vehicles an hour, times in vehicle seconds, arrivals in vehicles."""
    return [
        worth.link,
        worth.kind,
        tenths(worth.per_hour),
        *of_tried(worth.more),
        *of_tried(worth.less),
        None if worth.rounding is None else seconds(worth.rounding),
        None if worth.rounding is None else int(worth.is_clear),
        None if worth.moved is None else seconds(worth.falls),
        None if worth.moved is None else seconds(worth.rises),
        " ".join(name for name, _ in delays_changed_most(worth, -1)),
        " ".join(name for name, _ in delays_changed_most(worth, 1)),
    ]


def of_tried(tried: Tried | None) -> list[Cell]:
    """A change of a capacity and its effect."""
    if tried is None:
        return [None] * 4
    effect = tried.effect
    return [tenths(tried.per_hour), seconds(effect.spent), seconds(effect.delay), vehicles(effect.arrived)]


def delays_changed_most(worth: Worth, sign: int) -> list[tuple[str, int]]:
    """The links and origins whose delay falls (-1) or rises (1) most with more capacity, the most first."""
    found = [(name, change) for name, change in (worth.moved or {}).items() if sign * change > 0]
    return sorted(found, key=lambda one: -sign * one[1])[:MOST_NAMED]


def tenths(number: Fraction) -> Decimal:
    """A number to the nearest tenth."""
    return rounded(number.numerator, number.denominator, 1)


@dataclass(frozen=True, slots=True)
class WorthRow:
    """A row of the table as maps want it: a link, what holds it, by how many vehicles an hour more its capacity was
    tried, the change of the total travel time by that, in units times ms, and whether it is clear of rounding. The
    change is None where more capacity cannot be."""

    link: str
    kind: str
    per_hour: Fraction
    spent: int | None
    is_clear: bool


def read_worths(path: str | os.PathLike[str]) -> list[WorthRow]:
    """The rows of a table that `bottlenecks --format csv` has written; a Fault where it is none."""
    found = [worth_row(row) for row in read_table(path, FIELDS)]
    if not found:
        raise Fault(f"{path}: no link stands in it")
    return found


def worth_row(row: Row) -> WorthRow:
    """A row as it is read."""
    kind = row.text("held_by")
    if kind not in KINDS:
        raise row.fault("held_by", f"expected one of {', '.join(KINDS)}")
    spent = None
    if row.text("more_travel_time_s", ""):
        exact = row.number("more_travel_time_s") * UNITS * 1000
        if exact.denominator != 1:
            raise row.fault("more_travel_time_s", "expected vehicle seconds with six decimals at most")
        spent = exact.numerator
    return WorthRow(row.text("link"), kind, row.number("more_per_h", 0), spent, row.whole("clear", 0) == 1)


def savings(rows: Sequence[WorthRow]) -> Mapping[str, int]:
    """By link the total travel time that more capacity saves, in units times ms; below 0 where it costs time."""
    return {row.link: -row.spent for row in rows if row.spent is not None}
