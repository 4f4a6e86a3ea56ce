"""Tables of origins and destinations as people have them, as lists or as matrices, and the demand that they make over a
profile."""
from __future__ import annotations

import os
import sys
from collections.abc import Iterable, Iterator, Sequence
from dataclasses import dataclass
from fractions import Fraction

from ..case import Demand, Setup
from ..case.source import Source
from ..errors import Fault
from ..files import Row
from ..formats import MINUTE_MS
from ..tables import Reading, Stream, whole_names
from .profiles import Part, by_profile
from .values import whole_units
from .volumes import Volumes

TABLE_NAMES = {
    "o_zone_id": (
        "origin",
        "o",
        "orig",
        "from_zone",
        "o_zone",
        "from",
        "o_node_id",
        "origin_zone_id",
        "origin_id",
        "from_zone_id",
        "orig_taz",
        "origin_taz",
        "o_taz",
        "from_taz",
        "origin_zone",
        "from_node_id",
        "i",
    ),
    "d_zone_id": (
        "destination",
        "d",
        "dest",
        "to_zone",
        "d_zone",
        "to",
        "d_node_id",
        "destination_zone_id",
        "destination_id",
        "to_zone_id",
        "dest_taz",
        "destination_taz",
        "d_taz",
        "to_taz",
        "destination_zone",
        "to_node_id",
        "j",
    ),
    "volume": (
        "vehicles",
        "trips",
        "demand",
        "count",
        "flow",
        "value",
        "total",
        "vol",
        "volumes",
        "amount",
        "number",
        "weight",
    ),
}
SORTS = (
    "time_period",
    "demand_period",
    "period",
    "agent_type",
    "mode",
    "user_class",
    "vehicle_type",
    "purpose",
    "scenario",
)
"""Fields by which the rows of a table are often told apart."""
MOST_TOLD = 1000  # values of such a field


@dataclass
class Amounts:
    """Vehicles from a zone to another: exact numbers, in the order of the file, and what stays within a zone."""

    volumes: Volumes
    inner: Fraction
    notes: tuple[str, ...]


def read_amounts(path: str | os.PathLike[str], reading: Reading = Reading()) -> Amounts:
    """The table of a file, a list with a volume in each row, or a matrix with origins down and destinations across."""
    table = Stream(path, (), TABLE_NAMES, reading)
    sorts: dict[str, set[str]] = {name: set() for name in SORTS if name in table.fields}
    if {"o_zone_id", "d_zone_id"} <= set(table.fields):
        cells = listed(table, volume_field(table.fields, path), sorts)
    elif "volume" not in table.fields and "d_zone_id" not in table.fields and len(table.fields) > 1:
        cells = matrix_cells(table)
    else:
        raise Fault(f"{path}: no field o_zone_id, d_zone_id or volume in the header; it has {', '.join(table.fields)}")
    zones: tuple[set[str], set[str]] = set(), set()
    volumes = summed(cells, zones)
    whole = [whole_names(names) for names in zones]
    made = Amounts(Volumes(), Fraction(0), (*table.notes, *sorts_told(sorts, path)))
    for pair, volume in volumes.items():
        origin, destination = (names.get(zone, zone) for names, zone in zip(whole, pair))
        if origin == destination:
            made.inner += volume
        else:
            made.volumes.add(origin, destination, volume.numerator, volume.denominator)
    return made


def summed(
    cells: Iterable[tuple[str, str, Fraction]], zones: tuple[set[str], set[str]]
) -> dict[tuple[str, str], Fraction]:
    """The volumes by pair, in the order in which pairs come first, without pairs of none; the names of origins and of
    destinations are noted."""
    volumes: dict[tuple[str, str], Fraction] = {}
    for origin, destination, volume in cells:
        pair = sys.intern(origin), sys.intern(destination)
        for names, name in zip(zones, pair):
            names.add(name)
        if volume:
            volumes[pair] = volumes[pair] + volume if pair in volumes else volume
    return volumes


def listed(table: Stream, counted: str, sorts: dict[str, set[str]]) -> Iterator[tuple[str, str, Fraction]]:
    """The pairs of a list with their volumes; which values tell its rows apart is noted."""
    for row in table:
        for name, values in sorts.items():
            if len(values) <= MOST_TOLD:
                values.add(row.fields.get(name, ""))
        yield row.text("o_zone_id"), row.text("d_zone_id"), volume_of(row, counted)


def volume_field(fields: Sequence[str], path: str | os.PathLike[str]) -> str:
    """The field with the vehicles of a list; where none is called so, the only other one."""
    if "volume" in fields:
        return "volume"
    others = [name for name in fields if name and name not in ("o_zone_id", "d_zone_id", *SORTS)]
    if len(others) == 1:
        return others[0]
    raise Fault(
        f"{path}: no field volume in the header" + (f"; call one of {', '.join(others)} volume" if others else "")
    )


def sorts_told(sorts: dict[str, set[str]], path: str | os.PathLike[str]) -> list[str]:
    """A line for each field that tells rows apart by more than one value, as all rows are added."""
    counts = {
        name: f"over {MOST_TOLD}" if len(values) > MOST_TOLD else str(len(values))
        for name, values in sorts.items()
        if len(values) > 1
    }
    return [f"{path} has {count} values of {name}, and the vehicles of all are added" for name, count in counts.items()]


def matrix_cells(table: Stream) -> Iterator[tuple[str, str, Fraction]]:
    """The entries of a matrix: the first field of a row is its origin, and the header has the destinations."""
    first, *destinations = table.fields
    for row in table:
        for name in destinations:
            if name:
                yield row.text(first), row.written[name].removesuffix(".0"), volume_of(row, name)


def volume_of(row: Row, field: str) -> Fraction:
    """A number of vehicles, 0 where the field is empty."""
    volume = row.number(field, 0)
    if volume < 0:
        raise row.fault(field, "a number of vehicles is 0 or more")
    return volume


def demand_of_amounts(
    amounts: Amounts, parts: Sequence[Part], source: Source, setup: Setup
) -> tuple[list[Demand], Fraction]:
    """The demand of a table between nodes of a case or its source, spread over a profile; and the vehicles that stay
    within a node, which are left out."""
    last = max(part.to_slot for part in parts)
    if last > setup.slots:
        raise Fault(
            f"the demand ends {last * setup.step_ms // MINUTE_MS} minutes after the start, and the case"
            f" {setup.horizon_ms // MINUTE_MS} minutes after it; make the case with a longer --horizon"
        )
    inner = amounts.inner
    units: dict[tuple[str, str], Fraction] = {}
    for (origin, destination), volume in amounts.volumes.items():
        ends = source.node(origin), source.node(destination)
        if ends[0] == ends[1]:
            inner += volume
        else:
            units[ends] = units.get(ends, Fraction(0)) + volume
    rounded = {ends: whole_units(volume, f"demand from {ends[0]} to {ends[1]}") for ends, volume in units.items()}
    return by_profile(rounded, parts, setup.most_demand_rows), inner
