"""Trips with times: read from tables, and counted by slices as rows of demand."""
from __future__ import annotations

import os
import sys
from collections.abc import Iterable, Sequence
from dataclasses import dataclass
from typing import NamedTuple

from ..case import Demand, Setup
from ..case.source import Source
from ..errors import Fault
from ..formats import MOST_DEMAND_ROWS, clock_text, short_vehicles
from ..tables import Reading, Stream
from .matrices import TABLE_NAMES
from .rows import within_limits, merged_rows
from .values import moment_ms, quarter_before, slots_of, whole_units

TRIP_NAMES = {
    **{name: others for name, others in TABLE_NAMES.items() if name != "volume"},
    "volume": ("vehicles", "count", "number"),
    "depart": ("departure", "departure_time", "depart_time", "start_time", "time", "start", "begin"),
}


@dataclass(frozen=True, slots=True)
class ZoneTrip:
    """Vehicles (thousandths) from a zone to another, with a time in ms as the file has it."""

    origin: str
    destination: str
    time_ms: int
    units: int


class Trip(NamedTuple):
    """Vehicles (thousandths) that leave a node for another at a time in ms after slot 0."""

    origin: str
    destination: str
    depart_ms: int
    units: int


def read_trips(path: str | os.PathLike[str], reading: Reading = Reading()) -> list[ZoneTrip]:
    """Trips with a time each, a vehicle each where no number is said."""
    return [
        ZoneTrip(
            sys.intern(row.text("o_zone_id")),
            sys.intern(row.text("d_zone_id")),
            moment_ms(row, "depart"),
            whole_units(row.number("volume", 1), row.place),
        )
        for row in Stream(path, ("o_zone_id", "d_zone_id", "depart"), TRIP_NAMES, reading)
    ]


def by_trips(
    trips: Iterable[Trip], *, step_ms: int, slots: int, slice_slots: int, most: int = MOST_DEMAND_ROWS
) -> tuple[list[Demand], int]:
    """Demand rows of trips counted by slices, at most so many, and the thousandths of vehicles that set out past the
    horizon and are left out."""
    counted: dict[tuple[str, str, int], int] = {}
    late = 0
    for trip in trips:
        slot = trip.depart_ms // step_ms
        if slot >= slots:
            late += trip.units
            continue
        key = trip.origin, trip.destination, slot // slice_slots
        counted[key] = counted.get(key, 0) + trip.units
    rows = [
        Demand(origin, destination, part * slice_slots, min((part + 1) * slice_slots, slots), units)
        for (origin, destination, part), units in sorted(counted.items())
        if units
    ]
    return within_limits(merged_rows(rows), -(-slots // slice_slots), most), late


@dataclass(frozen=True)
class TripDemand:
    """Rows of demand counted from trips, notes on what was left out, and the clock time of slot 0 in ms."""

    rows: list[Demand]
    notes: list[str]
    start_ms: int


def demand_of_trips(
    trips: Sequence[ZoneTrip], source: Source, setup: Setup, *, slice_minutes: int = 15, start_ms: int | None = None
) -> TripDemand:
    """The demand of trips between nodes of a case or its source, counted by slices of so many minutes. Slot 0 begins at
    a clock time, or without one at the quarter of an hour before the first trip. What sets out before slot 0 or past
    the horizon, or stays within a node, is left out and noted."""
    if not trips:
        raise Fault("no trips")
    slice_slots = slots_of(slice_minutes, setup.step_ms)
    start = quarter_before(min(trip.time_ms for trip in trips)) if start_ms is None else start_ms
    early = sum(trip.units for trip in trips if trip.time_ms < start)
    placed = [
        Trip(source.node(trip.origin), source.node(trip.destination), trip.time_ms - start, trip.units)
        for trip in trips
        if trip.time_ms >= start
    ]
    inner = sum(trip.units for trip in placed if trip.origin == trip.destination)
    rows, late = by_trips(
        (trip for trip in placed if trip.origin != trip.destination),
        step_ms=setup.step_ms,
        slots=setup.slots,
        slice_slots=slice_slots,
        most=setup.most_demand_rows,
    )
    notes = [f"slot 0 begins at {clock_text(start)}"]
    notes += [
        f"{short_vehicles(units)} vehicles {why} and are left out"
        for units, why in (
            (early, "set out before it"),
            (late, "set out after the last slot"),
            (inner, "stay within a node"),
        )
        if units
    ]
    return TripDemand(rows, notes, start)
