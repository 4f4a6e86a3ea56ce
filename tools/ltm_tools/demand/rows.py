"""Rows of demand within what the program takes: joined where they would replace each other, counted, and with a route
to their destination."""
from __future__ import annotations

from collections.abc import Iterable

from ..case import Demand
from ..case.roads import Roads
from ..errors import Fault
from ..formats import MOST_DESTINATIONS_ASKED, MOST_UNITS, short_vehicles


def merged_rows(rows: Iterable[Demand]) -> list[Demand]:
    """Rows of the same ends and slots as one, since a later one would go over an earlier one."""
    units: dict[tuple[str, str, int, int], int] = {}
    for row in rows:
        key = row.origin, row.destination, row.from_slot, row.to_slot
        units[key] = units.get(key, 0) + row.units
    return [Demand(*key, amount) for key, amount in units.items()]


def within_limits(rows: list[Demand], slices: int, most: int) -> list[Demand]:
    """The rows, where they are within the limits of the program and at most so many."""
    if len(rows) > most:
        raise too_many(str(len(rows)), len({(row.origin, row.destination) for row in rows}), slices, most)
    for row in rows:
        if row.units > MOST_UNITS:
            raise Fault(
                f"demand from {row.origin} to {row.destination}: more than 1000000 vehicles in a row; take"
                f" shorter slices"
            )
    return rows


def too_many(rows: str, pairs: int, slices: int, most: int) -> Fault:
    """The Fault of more rows than may be."""
    return Fault(
        f"{rows} rows of demand, of {pairs} pairs of origin and destination in {slices} slices, and at most"
        f" {most}"
        " may be; take longer slices, or join zones"
    )


def with_routes(
    rows: Iterable[Demand], roads: Roads, *, most_destinations: int, leave_out: bool = False
) -> tuple[list[Demand], list[str]]:
    """The rows from whose origin a route leads to their destination, and a note where others are left out.

    It is a Fault where there are more destinations than may be, or where a row has no route and may not be left out.
    """
    listed = list(rows)
    ends = {row.destination for row in listed}
    if len(ends) > most_destinations:
        raise Fault(
            f"there are {len(ends)} destinations, and at most {most_destinations} may be; join zones in the"
            f" table, or ask for up to {MOST_DESTINATIONS_ASKED} in the column destinations of setup.csv"
        )
    reached = {destination: roads.least_times(destination) for destination in ends}
    lost = [row for row in listed if row.origin not in reached[row.destination]]
    if lost and not leave_out:
        raise Fault(
            f"no route leads from node {lost[0].origin} to node {lost[0].destination}, and so for"
            f" {short_vehicles(sum(row.units for row in lost))} vehicles; --leave-out-unreached leaves them out"
        )
    if not lost:
        return listed, []
    note = f"{short_vehicles(sum(row.units for row in lost))} vehicles have no route and are left out"
    return [row for row in listed if row.origin in reached[row.destination]], [note]
