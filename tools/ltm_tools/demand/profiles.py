"""Profiles: which share of the vehicles sets out in which slots. Amounts are spread over them so that they add up to
the last thousandth."""
from __future__ import annotations

import os
from collections.abc import Iterable, Mapping, Sequence
from dataclasses import dataclass
from fractions import Fraction
from math import lcm

from ..case import Demand, Setup
from ..errors import Fault
from ..formats import MINUTE_MS, MOST_DEMAND_ROWS, clock_text
from ..tables import Reading, read
from .rows import within_limits, merged_rows, too_many
from .values import moment_ms

PROFILE_NAMES = {
    "from": ("begin", "start", "time", "from_time", "interval"),
    "to": ("end", "to_time"),
    "share": ("vehicles", "count", "value", "weight", "percent"),
}


@dataclass(frozen=True, slots=True)
class Part:
    """A part of a profile: from a slot up to, and without, another, with a share of all."""

    from_slot: int
    to_slot: int
    share: Fraction


class Shares:
    """Shares by which amounts are cut, as whole numbers."""

    def __init__(self, shares: Sequence[Fraction]) -> None:
        per = lcm(*(share.denominator for share in shares))
        self.shares = [share.numerator * (per // share.denominator) for share in shares]
        self.whole = sum(self.shares)
        if self.whole <= 0:
            raise Fault("a profile's shares sum to 0; give at least one share above 0")

    def cut(self, units: int) -> list[int]:
        """An amount cut into whole parts that add up to it; the parts most cut off get what is left, the first
        first."""
        parts = [units * share // self.whole for share in self.shares]
        left = units - sum(parts)
        if left:
            order = sorted(range(len(parts)), key=lambda place: (-(units * self.shares[place] % self.whole), place))
            for place in order[:left]:
                parts[place] += 1
        return parts


def cut_by_shares(units: int, shares: Sequence[Fraction]) -> list[int]:
    """An amount cut by shares into whole parts that add up to it; the parts most cut off get what is left, the first
    first."""
    return Shares(shares).cut(units)


def by_profile(
    amounts: Mapping[tuple[str, str], int], parts: Sequence[Part], most: int = MOST_DEMAND_ROWS
) -> list[Demand]:
    """Demand rows of amounts (thousandths) from an origin to a destination, spread over a profile, at most so many."""
    pairs = sum(units > 0 for units in amounts.values())
    return spread(((*ends, units) for ends, units in amounts.items()), pairs, parts, most)


def spread(amounts: Iterable[tuple[str, str, int]], pairs: int, parts: Sequence[Part], most: int) -> list[Demand]:
    """The same of an origin, a destination and an amount each, no two of the same ends, so many of them above 0."""
    if not parts:
        raise Fault("a profile without parts; give at least one")
    if pairs > most:
        raise too_many(f"over {most}", pairs, len(parts), most)
    shares: Shares | None = None
    rows = []
    for origin, destination, units in amounts:
        shares = shares or Shares([part.share for part in parts])
        for part, share in zip(parts, shares.cut(units)):
            if share:
                rows.append(Demand(origin, destination, part.from_slot, part.to_slot, share))
    if len({(part.from_slot, part.to_slot) for part in parts}) < len(parts):
        rows = merged_rows(rows)
    return within_limits(rows, len(parts), most)


def read_profile(
    path: str | os.PathLike[str], *, start_ms: int | None, step_ms: int, reading: Reading = Reading()
) -> tuple[list[Part], int, tuple[str, ...]]:
    """The parts of a profile in slots, the time in ms at which slot 0 begins, and what is to be told. Without a start
    that is the profile's first time."""
    table = read(path, ("from", "share"), PROFILE_NAMES, reading)
    if not table.rows:
        raise Fault(f"{path}: a profile without rows; as from,to,share and 7:00,7:15,0.2")
    begins = [moment_ms(row, "from") for row in table.rows]
    ends = [moment_ms(row, "to") for row in table.rows] if "to" in table.fields else part_ends(begins, path)
    start = begins[0] if start_ms is None else start_ms
    parts, moved = [], 0
    for row, begin, end in zip(table.rows, begins, ends):
        share = row.number("share")
        if share < 0 or end <= begin or begin < start:
            why = (
                "a share is 0 or more"
                if share < 0
                else "it ends before it begins"
                if end <= begin
                else f"it begins" f" before {clock_text(start)}, when the case does"
            )
            raise Fault(f"{row.place}: {why}")
        slots = [(time - start + step_ms // 2) // step_ms for time in (begin, end)]
        moved = max(moved, *(abs(slot * step_ms - (time - start)) for slot, time in zip(slots, (begin, end))))
        if slots[0] == slots[1]:
            raise Fault(f"{row.place}: it is shorter than a step of {step_ms} ms; take longer parts")
        parts.append(Part(slots[0], slots[1], share))
    notes = (
        *table.notes,
        *((f"times of the profile are moved by up to {moved / 1000:g} s, to whole steps",) if moved else ()),
    )
    return parts, start, notes


def part_ends(begins: list[int], path: str | os.PathLike[str]) -> list[int]:
    """Where each part ends that is only told by its beginning: where the next one begins, the last as long as the one
    before."""
    if len(begins) < 2:
        raise Fault(f"{path}: one part without a field to; give its end as to")
    return [*begins[1:], 2 * begins[-1] - begins[-2]]


def even_profile(setup: Setup, minutes: int | None = None) -> list[Part]:
    """The profile of vehicles that set out evenly over so many minutes from slot 0 on, or over all slots."""
    slots = setup.slots if minutes is None else minutes * MINUTE_MS // setup.step_ms
    if slots < 1:
        raise Fault("--period is shorter than a step; give a longer one")
    return [Part(0, slots, Fraction(1))]
