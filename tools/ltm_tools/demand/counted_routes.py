"""Reads a table of counted routes: when how many vehicles set out over which links, or nodes, of a case or its
source."""
from __future__ import annotations

import os
from dataclasses import dataclass

from ..case.roads import Roads
from ..case.source import Source
from ..errors import Fault
from ..files import Row, existing
from ..formats import clock_text, short_vehicles
from ..tables import Reading, read
from .route_splits import Route
from .values import moment_ms, quarter_before, whole_units

NAMES = {
    "links": ("link_sequence", "edges", "link_ids", "path", "route", "links_sequence"),
    "nodes": ("node_sequence", "node_ids", "path_nodes"),
    "depart": ("departure", "departure_time", "depart_time", "time", "start", "begin"),
    "vehicles": ("volume", "count", "number", "flow", "trips"),
}


@dataclass(frozen=True)
class CountedRoutes:
    """Routes over links of a case, what is to be told of the table that they were read from, and when slot 0 begins, in
    ms since midnight."""

    routes: list[Route]
    notes: list[str]
    start_ms: int


def read_counted(
    path: str | os.PathLike[str],
    roads: Roads,
    source: Source,
    *,
    horizon_ms: int,
    start_ms: int | None = None,
    reading: Reading = Reading(),
) -> CountedRoutes:
    """The routes of a table that set out within the horizon; without a start slot 0 begins with the quarter of an hour
    before the first one."""
    table = read(existing(path), (), NAMES, reading)
    if not {"links", "nodes"} & set(table.fields):
        raise Fault(f"{path}: no field links or nodes in the header; it has {', '.join(table.fields)}")
    times = [moment_ms(row, "depart") if row.text("depart", "") else 0 for row in table.rows]
    start = quarter_before(min(times, default=0)) if start_ms is None else start_ms
    by_nodes = links_by_nodes(source)
    routes, early, inner = [], 0, 0
    for row, time in zip(table.rows, times):
        units = whole_units(row.number("vehicles", 1), row.place)
        links = route_of(row, roads, source, by_nodes)
        if time < start or time - start >= horizon_ms:
            early += units
        elif not links or roads.links[links[0]].tail == roads.links[links[-1]].head:
            inner += units
        else:
            routes.append(Route(links, time - start, units))
    notes = [*table.notes, f"slot 0 begins at {clock_text(start)}"]
    notes += [
        f"{short_vehicles(units)} vehicles {why} and are left out"
        for units, why in ((early, "set out before it, or after the last slot,"), (inner, "end where they begin"))
        if units
    ]
    if not routes:
        raise Fault(f"{path}: no route that sets out within the slots of the case; look at --start")
    return CountedRoutes(routes, notes, start)


def links_by_nodes(source: Source) -> dict[tuple[str, str], str]:
    """The link of the source from a node to another, the first of several."""
    made: dict[tuple[str, str], str] = {}
    for name, link in source.links.items():
        made.setdefault((link.tail, link.head), name)
    return made


def route_of(row: Row, roads: Roads, source: Source, by_nodes: dict[tuple[str, str], str]) -> tuple[str, ...]:
    """The links of the case on a counted route."""
    names = names_of(row.text("links", ""))
    nodes = names_of(row.text("nodes", ""))
    if not names:
        for pair in zip(nodes, nodes[1:]):
            if pair not in by_nodes:
                raise row.fault("nodes", f"no link leads from {pair[0]} to {pair[1]}")
            names.append(by_nodes[pair])
    try:
        return source.route(names, roads)
    except Fault as fault:
        raise Fault(f"{row.place}: {fault}") from None


def names_of(text: str) -> list[str]:
    """Names with blanks, semicolons or commas between."""
    return text.replace(";", " ").replace(",", " ").split()
