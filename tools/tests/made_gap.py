"""The gap of a loading, worked from a curve file and the case alone, by the definitions as docs/MODEL.md states them.

It shares no code with the program: links are looked at in any order until no arrival changes, and where a slot is cut
its units are tried from the first on."""
from __future__ import annotations

from collections.abc import Callable, Iterator
from dataclasses import dataclass
from functools import cached_property

from ltm_tools.case import Case
from ltm_tools.case.rows import Limit
from ltm_tools.loading.counts import as_list
from ltm_tools.loading.curves import Curves
from ltm_tools.loading.times import at, first_moment


@dataclass(frozen=True, slots=True)
class Slice:
    """What an origin produces for one destination in one slot: its units, the units for all destinations, how many of
    these still arrive, and the earliest arrivals of the slot's start and of the last that still arrives."""

    slot: int
    units: int
    all_units: int
    arriving: int
    first: int | None
    last: int | None

    @property
    def late(self) -> int:
        """The destination's share of the slot's units that do not arrive, rounded down."""
        return self.units * (self.all_units - self.arriving) // self.all_units


@dataclass(frozen=True, slots=True)
class Gap:
    """Total travel time, its estimate at earliest arrivals, both in units times milliseconds, and the late units."""

    spent: int
    least: int
    late: int

    def line(self, front: str) -> str:
        """The line that the program writes of it."""
        gap = self.spent - self.least
        return (
            f"{front} spent {_seconds(self.spent)} least {_seconds(self.least)} "
            f"gap {'-' if gap < 0 else ''}{_seconds(abs(gap))} late {self.late // 1000}.{self.late % 1000:03}"
        )


def _seconds(amount: int) -> str:
    return f"{amount // 10**6}.{amount % 10**6:06}"


class Loading:
    """A case and its curves, as lists of totals over all destinations."""

    def __init__(self, case: Case, curves: Curves) -> None:
        self.case, self.curves = case, curves
        self.step, self.slots = case.setup.step_ms, case.setup.slots
        self.end = self.step * self.slots
        self.up = {link.name: as_list(curves.up(link.name)) for link in case.links}
        self.down = {link.name: as_list(curves.down(link.name)) for link in case.links}
        self.shut_in = self._shut(case.limits)
        self.shut_out = self._shut(case.signals)
        self._arrivals: dict[tuple[str, int, int], dict[str, int]] = {}

    def _shut(self, rows: list[Limit]) -> dict[str, list[bool]]:
        """For each link that has a row the slots in which nothing passes; of rows for one slot the last counts."""
        shut: dict[str, list[bool]] = {}
        for row in rows:
            of_link = shut.setdefault(row.link, [False] * self.slots)
            for slot in range(row.from_slot, min(row.to_slot, self.slots)):
                of_link[slot] = row.units == 0
        return shut

    @cached_property
    def produced(self) -> dict[str, dict[str, list[int]]]:
        """By origin and destination what was produced by each boundary."""
        made: dict[str, dict[str, list[int]]] = {}
        for row in self.case.standing_demand():
            counts = made.setdefault(row.origin, {}).setdefault(row.destination, [0] * (self.slots + 1))
            for k in range(self.slots + 1):
                passed = max(0, min(k, row.to_slot) - row.from_slot)
                counts[k] += row.units * passed // (row.to_slot - row.from_slot)
        return made

    def leaves(self, name: str, free_ms: int, moment: int) -> int | None:
        """When a vehicle that comes to a link at a moment leaves it; None where that is not by the end."""
        entry = moment
        while entry < self.end and name in self.shut_in and self.shut_in[name][entry // self.step]:
            entry = (entry // self.step + 1) * self.step
        if entry >= self.end or entry + free_ms > self.end:
            return None
        reached = first_moment(self.down[name], self.step, at(self.up[name], self.step, entry))
        if reached is None:
            return None
        leaving = max(entry + free_ms, reached)
        while leaving <= self.end and name in self.shut_out and self.shut_out[name][(leaving - 1) // self.step]:
            leaving = ((leaving - 1) // self.step + 1) * self.step + 1
        return leaving if leaving <= self.end else None

    def arrivals(self, origin: str, slot: int, count: int) -> dict[str, int]:
        """The earliest arrival at each node that is reached by the end, of the `count`-th unit that the origin
        produces in a slot; 0 is the start of the slot."""
        key = origin, slot, count
        if key not in self._arrivals:
            self._arrivals[key] = self._searched(origin, slot, count)
        return self._arrivals[key]

    def _searched(self, origin: str, slot: int, count: int) -> dict[str, int]:
        before = sum(counts[slot] for counts in self.produced[origin].values())
        departed = as_list(self.curves.departed(origin))
        start = first_moment(departed, self.step, before + count)
        if start is None:
            return {}
        found, changed = {origin: max(start, slot * self.step)}, True
        while changed:  # over all links, again and again until nothing comes sooner
            changed = False
            for link in self.case.links:
                if link.tail in found:
                    leaving = self.leaves(link.name, link.free_ms, found[link.tail])
                    if leaving is not None and leaving < found.get(link.head, self.end + 1):
                        found[link.head], changed = leaving, True
        return found

    def slices(self, destination: str) -> Iterator[Slice]:
        """What each origin produces for a destination in each slot."""
        for origin, by_destination in self.produced.items():
            counts = by_destination.get(destination, [0] * (self.slots + 1))
            for slot in range(self.slots):
                if counts[slot + 1] > counts[slot]:
                    yield self._slice(origin, destination, slot, counts[slot + 1] - counts[slot])

    def _slice(self, origin: str, destination: str, slot: int, units: int) -> Slice:
        all_units = sum(counts[slot + 1] - counts[slot] for counts in self.produced[origin].values())

        def arrival(count: int) -> int | None:
            return self.arrivals(origin, slot, count).get(destination)

        arriving = all_units if arrival(all_units) is not None else _first_without(arrival, all_units)
        return Slice(slot, units, all_units, arriving, arrival(0), arrival(arriving))

    def spent(self, destination: str) -> int:
        """The time that vehicles to a destination spend, boundary by boundary."""
        arrived = as_list(self.curves.arrived(destination))
        produced = [by.get(destination, [0] * (self.slots + 1)) for by in self.produced.values()]
        return sum(sum(counts[k] for counts in produced) - arrived[k] for k in range(1, self.slots + 1)) * self.step

    def gap(self, destination: str) -> Gap:
        """The gap of a destination: the units that still arrive take the mean of the first's and the last's time."""
        twice = late = 0
        for part in self.slices(destination):
            late += part.late
            twice += 2 * part.late * (self.end - part.slot * self.step)
            if part.late < part.units:
                twice += (part.units - part.late) * self.twice_time(part)
        return Gap(self.spent(destination), twice // 2, late)

    def twice_time(self, part: Slice) -> int:
        """Twice the mean time of the units of a slot that still arrive: the first's from the slot's start, the last's
        from its end, so each from its middle: `spent` counts both ends of a trip at the boundary behind."""
        begin = part.slot * self.step
        return 0 if part.first is None or part.last is None else part.first - begin + part.last - (begin + self.step)


def _first_without(arrival: Callable[[int], int | None], units: int) -> int:
    """How many units arrive of those before the first that does not, tried in large strides and then one by one."""
    last, stride = 0, 1000
    while stride:
        while last + stride <= units and arrival(last + stride) is not None:
            last += stride
        stride //= 10
    return last


def lines(case: Case, curves: Curves) -> list[str]:
    """The lines that `ltm gap` writes of a case."""
    loading = Loading(case, curves)
    gaps = [(name, loading.gap(name)) for name in case.destinations]
    every = Gap(*(sum(getattr(gap, field) for _, gap in gaps) for field in ("spent", "least", "late")))
    return [every.line("version 0"), *(gap.line(f"to {name}") for name, gap in gaps)]
