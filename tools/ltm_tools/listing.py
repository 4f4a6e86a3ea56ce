"""Tables of results: text for people, CSV and JSON for programs.

A cell is a text, a whole number, an exact Decimal, or None where there is nothing to tell. In CSV and JSON a Decimal
stands with all its digits.
"""
from __future__ import annotations

import json
from collections.abc import Sequence
from decimal import Decimal
from typing import NamedTuple

from .formats import HOUR_MS, UNITS, record_text

Cell = str | int | Decimal | None
FORMATS = ("text", "csv", "json")


def vehicles(units: int) -> Decimal:
    """Thousandths as vehicles, with three decimals."""
    return Decimal(units).scaleb(-3)


def seconds(time: int) -> Decimal:
    """Units times milliseconds as vehicle seconds, with six decimals."""
    return Decimal(time).scaleb(-6)


class TimeUnit(NamedTuple):
    """What vehicle time is shown in: its name, and how many units times milliseconds it has."""

    name: str
    size: int

    def show(self, time: int) -> Decimal:
        """Units times milliseconds in this unit, to the nearest hundredth."""
        return rounded(time, self.size, 2)


SECONDS, HOURS = TimeUnit("vehicle seconds", UNITS * 1000), TimeUnit("vehicle hours", UNITS * HOUR_MS)


def time_unit(*times: int) -> TimeUnit:
    """The unit for a table with these times: hours where the greatest has ten, else seconds."""
    return HOURS if max((abs(time) for time in times), default=0) >= 10 * HOURS.size else SECONDS


def percent(part: int, whole: int) -> Decimal:
    """A share in percent, to the nearest tenth."""
    return rounded(100 * part, whole, 1)


def rounded(top: int, bottom: int, decimals: int) -> Decimal:
    """A fraction to the nearest number with so many decimals, halves away from 0."""
    scaled = (2 * abs(top) * 10**decimals + bottom) // (2 * bottom)
    return Decimal(-scaled if top < 0 else scaled).scaleb(-decimals)


def csv_text(header: Sequence[str], rows: Sequence[Sequence[Cell]]) -> str:
    """The table as CSV: a header, and a line for each row."""
    texts = [
        ["" if cell is None else format(cell, "f") if isinstance(cell, Decimal) else cell for cell in row]
        for row in rows
    ]
    return "".join(record_text(row) + "\n" for row in (header, *texts))


def json_text(header: Sequence[str], rows: Sequence[Sequence[Cell]]) -> str:
    """The table as JSON: an array with an object for each row, a line each."""
    lines = [
        "{" + ", ".join(f"{json.dumps(name)}: {json_cell(cell)}" for name, cell in zip(header, row)) + "}"
        for row in rows
    ]
    return "[\n" + ",\n".join(lines) + "\n]\n" if lines else "[]\n"


def json_cell(cell: Cell) -> str:
    """A cell as JSON; a decimal number as it is, with all its places."""
    return format(cell, "f") if isinstance(cell, Decimal) else json.dumps(cell)


def json_number(cell: Decimal | None) -> float | None:
    """A decimal number for a file of JSON that others write."""
    return None if cell is None else float(cell)


def text_table(header: Sequence[str], rows: Sequence[Sequence[Cell]]) -> str:
    """The table as text in columns: numbers and times to the right, names to the left."""
    shown = [
        ["" if cell is None else format(cell, "f") if isinstance(cell, Decimal) else str(cell) for cell in row]
        for row in rows
    ]
    widths = [max(map(len, column)) for column in zip(header, *shown)]
    right = [
        bool(rows) and all(cell is None or not isinstance(cell, str) or cell[:1].isdigit() for cell in column)
        for column in zip(*rows)
    ] or [False] * len(header)
    right[0] = False
    lines = [
        "  ".join(
            cell.rjust(width) if to_right else cell.ljust(width) for cell, width, to_right in zip(row, widths, right)
        ).rstrip()
        for row in (list(header), *shown)
    ]
    return "".join(line + "\n" for line in lines)
