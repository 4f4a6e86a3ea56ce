"""Routes of vehicles of SUMO over the links of a case that was made of their net."""
from __future__ import annotations

from pathlib import Path

from ..case.roads import Roads
from ..case.source import Source
from ..demand.counted_routes import CountedRoutes
from ..demand.route_splits import Route
from ..demand.values import quarter_before
from ..errors import Fault
from ..formats import clock_text, short_vehicles
from .routes import read_vehicles


def is_sumo(path: Path) -> bool:
    """Whether a file is one of SUMO, by its first sign or as it is packed."""
    try:
        with open(path, "rb") as file:
            start = file.read(64).removeprefix(b"\xef\xbb\xbf").lstrip()
    except OSError as error:
        raise Fault(f"{path}: {(error.strerror or str(error)).lower()}") from None
    return start.startswith((b"<", b"\x1f\x8b"))


def driven_routes(
    path: Path, roads: Roads, source: Source, *, horizon_ms: int, start_ms: int | None = None
) -> CountedRoutes:
    """The vehicles that set out within the horizon; those without a route over links of the source are left out, and
    counted."""
    found = read_vehicles([path])
    begin = quarter_before(min((one.depart_ms for one in found.vehicles), default=0)) if start_ms is None else start_ms
    over: dict[tuple[str, ...], tuple[str, ...]] = {}
    routes = []
    for one in found.vehicles:
        if not one.whole or any(name not in source.links for name in one.edges):
            found.leave_out("without a route over links of the case", one.units)
        elif not 0 <= one.depart_ms - begin < horizon_ms:
            found.leave_out("that set out before slot 0, or after the last one", one.units)
        else:
            if one.edges not in over:
                over[one.edges] = route_or_none(one.edges, source, roads)
            if over[one.edges]:
                routes.append(Route(over[one.edges], one.depart_ms - begin, one.units))
            else:
                found.leave_out("that take a turn which the net lacks", one.units)
    if not routes:
        raise Fault(
            f"{path}: no vehicle with a route over links of the case that sets out within its slots; look at" " --start"
        )
    return CountedRoutes(
        routes,
        [
            f"slot 0 begins at {clock_text(begin)}",
            *(f"{short_vehicles(units)} vehicles are left out: {why}" for why, units in found.left_out.items()),
        ],
        begin,
    )


def route_or_none(edges: tuple[str, ...], source: Source, roads: Roads) -> tuple[str, ...]:
    """The links of the case on a route; none where it is not connected."""
    try:
        return source.route(edges, roads)
    except Fault:
        return ()
