"""From demand between zones to the rows of a case: when it sets out, and how large the case is; what imports of tables
of origins and destinations share."""
from __future__ import annotations

import os
from dataclasses import dataclass
from fractions import Fraction
from typing import ClassVar

from ..case import Case, Setup
from ..errors import Fault
from ..formats import MINUTE_MS, MOST_STEP_MS, UNITS, many, short_vehicles
from ..tables import Reading
from ..demand.profiles import Part, Shares, read_profile, spread
from ..demand.rows import too_many
from ..demand.volumes import Volumes
from ..files import existing
from .importing import Carried, horizon_slots
from .network import top
from .options import Options


@dataclass(frozen=True, kw_only=True)
class OdOptions(Options):
    """When demand between zones sets out."""

    reading: Reading = Reading()
    """How the files are read."""
    period: int = 60
    """The minutes over which the demand sets out evenly, where there is no profile."""
    profile: str | os.PathLike[str] | None = None
    start_ms: int | None = None
    """The clock time of slot 0; without it the profile's first, where there is a profile."""
    horizon: int = 120
    """The minutes that are loaded."""
    leave_out_unreached: bool = False

    RANGES: ClassVar[dict[str, tuple[int, int | None]]] = {"period": (1, None), "horizon": (1, None), **Options.RANGES}


def case_of(made: Carried, volumes: Volumes, options: OdOptions, parts: list[Part]) -> tuple[Case, int]:
    """The case, and the slot with which its demand ends."""
    slots = slots_with(parts, options, made.step)
    setup = Setup(made.step, slots, options.origin_capacity * UNITS, carry=options.carry)
    for _ in volumes.units("demand from node {} to node {}"):
        pass  # it is seen that none is too large
    units = volumes.summed_units()
    nodes = {name: made.node(name) for name in volumes.names}
    amounts = ((nodes[start], nodes[end], amount) for (start, end), amount in zip(volumes, units) if amount)
    rows = spread(amounts, len(units) - units.count(0), parts, options.most_rows)
    return Case(setup, made.links, rows), parts[-1].to_slot


def slots_with(parts: list[Part], options: OdOptions, step: int) -> int:
    """The slots of the horizon, in which all demand sets out."""
    slots = horizon_slots(options.horizon * MINUTE_MS, step)
    if parts[-1].to_slot > slots:
        raise Fault(
            f"the demand's period of {parts[-1].to_slot * step // MINUTE_MS} minutes is longer than the"
            f" horizon of {options.horizon};"
            f" give --horizon {-(-parts[-1].to_slot * step // MINUTE_MS)} or more"
        )
    return slots


def check_times(options: OdOptions) -> None:
    """A Fault, before any file of a network is read, where the horizon has more slots than may be, or the demand does
    not set out within it; where no step is asked for yet, as far as that can be seen."""
    step = options.fit or options.step
    parts, _ = departure_parts(options, step or MOST_STEP_MS, [])
    if step is not None:
        slots_with(parts, options, step)


def check_rows(volumes: Volumes, options: OdOptions) -> None:
    """A Fault where demand between nodes makes more rows over a profile than may be, before routes are sought; where no
    step is asked for yet that is seen later."""
    step = options.fit or options.step
    if step is None:
        return
    parts, _ = departure_parts(options, step, [])
    if len(volumes) * len(parts) <= options.most_rows:
        return
    units, shares = volumes.summed_units(), Shares([part.share for part in parts])
    rows = sum(share > 0 for amount in units for share in shares.cut(amount))
    if rows > options.most_rows:
        raise too_many(str(rows), len(units) - units.count(0), len(parts), options.most_rows)


def departure_parts(options: OdOptions, step: int, notes: list[str]) -> tuple[list[Part], int | None]:
    """When demand sets out, by the profile, or evenly over the period; and the clock time of slot 0, where it is
    known."""
    if options.profile is not None:
        parts, start, told = read_profile(
            existing(options.profile), start_ms=options.start_ms, step_ms=step, reading=options.reading
        )
        notes += told
        return sorted(parts, key=lambda part: part.to_slot), start
    if options.period > options.horizon:
        raise Fault(
            f"the demand's period of {options.period} minutes is longer than the horizon of {options.horizon};"
            f" give --horizon {options.period} or more"
        )
    return [Part(0, max(1, options.period * MINUTE_MS // step), Fraction(1))], options.start_ms


def size_told(made: Carried, case: Case, last: int) -> list[str]:
    """How large the case is, and how near its capacities are to those of the network."""
    total = sum(row.units for row in case.demand)
    off = max(
        (abs(top(link) / road.capacity - 1) for link, road in zip(made.links, made.network.roads.values())),
        default=Fraction(0),
    )
    return [
        f"{many(len(case.links), 'link')}, {many(len(case.nodes), 'node')},"
        f" {many(len(case.destinations), 'destination')}",
        f"{short_vehicles(total)} vehicles over {last * made.step // MINUTE_MS} minutes, {case.setup.slots} slots"
        f" of {made.step} ms",
        f"capacities are kept within {float(off * 100):.1f} percent",
    ]


def inner_told(inner: Fraction) -> list[str]:
    """What stays within a zone."""
    return [f"{float(inner):g} vehicles stay within a zone and are left out"] if inner else []
