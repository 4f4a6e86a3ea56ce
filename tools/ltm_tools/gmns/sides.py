"""Rows of links that tell both directions in one, as AequilibraE, TransCAD and TransModeler write them: a field
`direction` with 1, -1 or 0 for both, and fields as `lanes_ab` and `lanes_ba`. Each becomes a row for each direction."""
from __future__ import annotations

from collections.abc import Iterator, Mapping, Sequence
from dataclasses import dataclass, replace

from ..tables import Table, TableRow
from .fields import EMPTY, LINK_NAMES

SIDED = ("lanes", "free_speed", "capacity")
DIRECTIONS = {"1": (1,), "-1": (-1,), "0": (1, -1)}
BACKWARDS = ("-1", "-1.0", "reverse", "reversed")


def by_side(table: Table) -> list[TableRow]:
    """The rows of links, one for each direction; the way back of a row is named by its link with `_r`."""
    fields = {
        (name, side): field
        for name in SIDED
        for side, word in ((1, "ab"), (-1, "ba"))
        if (field := sided(table.fields, name, word))
    }
    direction = next(
        (
            name
            for name in ("direction", "dir")
            if name in table.fields and all(direction_of(row, name) in ("", *DIRECTIONS) for row in table.rows)
        ),
        None,
    )
    if not fields and direction is None:
        return [way_back(row) if row.text("directed", "").lower() in BACKWARDS else row for row in table.rows]
    return [side for row in table.rows for side in sides_of(row, fields, direction)]


def sided(fields: Sequence[str], name: str, word: str) -> str | None:
    """The field of a direction, as `lanes_ab` or `ab_lanes`."""
    return next(
        (
            made
            for base in (name, *LINK_NAMES[name])
            for made in (f"{base}_{word}", f"{word}_{base}", f"{base}{word}")
            if made in fields
        ),
        None,
    )


def direction_of(row: TableRow, field: str) -> str:
    """The text of a direction, without a `.0`."""
    return row.text(field, "").removesuffix(".0")


def sides_of(row: TableRow, fields: Mapping[tuple[str, int], str], direction: str | None) -> Iterator[TableRow]:
    """A row for each direction of a row."""
    told = DIRECTIONS.get(direction_of(row, direction)) if direction is not None else None
    if told is None:
        told = tuple(
            side
            for side in (1, -1)
            if any(row.text(field, "").lower() not in EMPTY for (_, of), field in fields.items() if of == side)
        ) or (1,)
    for side in told:
        made = way_back(row, len(told) > 1) if side < 0 else replace(row, fields={**row.fields, "directed": "1"})
        for name in SIDED:
            if (name, side) in fields:
                made.fields[name] = row.fields.get(fields[name, side], "")
        yield made


@dataclass(frozen=True, slots=True)
class TurnedRow(TableRow):
    """A row of the way back, whose line is drawn from its end."""


def way_back(row: TableRow, beside: bool = False) -> TurnedRow:
    """A row of the way back, by another name where the way there has a row too."""
    made = {
        **row.fields,
        "from_node_id": row.fields.get("to_node_id", ""),
        "to_node_id": row.fields.get("from_node_id", ""),
        "directed": "1",
    }
    if beside and made.get("link_id", ""):
        made["link_id"] += "_r"
    return TurnedRow(row.place, made, row.written)
