"""The unknowns: what sets out from an origin for a destination in a slice of time; and what a prior may be wrong by."""
from __future__ import annotations

from collections.abc import Callable, Hashable, Sequence
from dataclasses import dataclass, fields, replace
from fractions import Fraction

import numpy

from ..assign.net import Real, Whole
from ..case import Case, Demand
from ..errors import Fault
from ..files import read_table
from ..formats import MOST_UNITS
from .linear import summed_rows

LEAST_SCALE = 0.05  # vehicles: of an unknown with a smaller prior the effects are of so many


@dataclass(frozen=True, slots=True)
class Unknown:
    """What sets out for a destination in a slice, over these rows of demand, each with its share of it."""

    origin: str
    destination: str
    slice: int
    rows: tuple[Demand, ...]
    units: int

    @property
    def pair(self) -> tuple[str, str]:
        """Its origin and destination."""
        return self.origin, self.destination


class Prior:
    """The demand of a case as unknowns. Rows that are longer than a slice are parted at its ends."""

    def __init__(self, case: Case, slots: int) -> None:
        """`slots` is the length of a slice."""
        self.case, self.slots = case, slots
        together: dict[tuple[int, str, str], list[Demand]] = {}
        self.rows = [part for row in case.standing_demand() for part in parted(row, slots)]
        for row in self.rows:
            together.setdefault((row.from_slot // slots, row.origin, row.destination), []).append(row)
        self.unknowns = [
            Unknown(origin, destination, number, tuple(rows), sum(row.units for row in rows))
            for (number, origin, destination), rows in sorted(together.items())
        ]
        self.rows = [row for unknown in self.unknowns for row in unknown.rows]
        self.of = numpy.array([k for k, one in enumerate(self.unknowns) for _ in one.rows], dtype=numpy.int64)
        self.share = numpy.array([row.units / one.units for one in self.unknowns for row in one.rows])
        self.units = numpy.array([one.units for one in self.unknowns], dtype=numpy.int64)

    def as_case(self) -> Case:
        """The case with these rows of demand, in their order."""
        made = Case.of(self.case)
        made.demand = list(self.rows)
        if len(made.demand) > made.setup.most_demand_rows:
            made.setup = replace(made.setup, rows=len(made.demand))
        return made

    def of_rows(self, vehicles: Real) -> Whole:
        """The units of each row where the unknowns are so many vehicles, each to the nearest thousandth."""
        units = numpy.rint(vehicles[self.of] * self.share * 1000)
        return numpy.asarray(numpy.clip(units, 0, MOST_UNITS), dtype=numpy.int64)

    def demand(self, units: Whole) -> list[Demand]:
        """The rows of demand with these units; where they are those of the prior, the rows as they stand there."""
        if all(row.units == count for row, count in zip(self.rows, units.tolist())):
            return self.case.standing_demand()
        return [
            Demand(row.origin, row.destination, row.from_slot, row.to_slot, count)
            for row, count in zip(self.rows, units.tolist())
            if count
        ]


def parted(row: Demand, slots: int) -> list[Demand]:
    """A row of demand in parts that end where slices do, where it is longer than one: each with what the row produces
    in it."""
    if row.to_slot - row.from_slot <= slots:
        return [row]
    edges = [row.from_slot, *range((row.from_slot // slots + 1) * slots, row.to_slot, slots), row.to_slot]
    span = row.to_slot - row.from_slot
    made = [row.units * (edge - row.from_slot) // span for edge in edges]
    parts = zip(edges, edges[1:], made, made[1:])
    return [Demand(row.origin, row.destination, a, b, v - u) for a, b, u, v in parts if v > u]


@dataclass(frozen=True)
class Errors:
    """What a prior is wrong by, in parts of an unknown, as normal errors: common to all, to a slice, an origin, a
    destination, a pair; and the unknown's own."""

    total: float = 0.15
    slice: float = 0.15
    origin: float = 0.1
    destination: float = 0.1
    pair: float = 0.2
    own: float = 0.1
    capacity: float = 0.1  # of the factor of stop lines, where these are unknowns too

    @classmethod
    def read(cls, path: str) -> Errors:
        """The errors of a table `effect,error`; those that are not in it are as by default."""
        known = [field.name for field in fields(cls)]
        found: dict[str, float] = {}
        for row in read_table(path, ("effect", "error")):
            name, error = row.text("effect"), row.number("error")
            if name not in known:
                raise row.fault("effect", f"expected {', '.join(known)}")
            if not 0 <= error <= 10 or name in found:
                raise row.fault("error", "expected a part of the demand, from 0 to 10, and each effect once")
            found[name] = float(error)
        made = cls(**found)
        if not any(getattr(made, name) for name in known if name != "capacity"):
            raise Fault(f"{path}: all errors are 0, so the prior would stay as it is")
        return made


class Effects:
    """Amounts by effects, which are what a prior is wrong by in units of its errors, and slopes by effects."""

    def __init__(self, prior: Prior, errors: Errors, more: int = 0) -> None:
        """`more` effects behind those of demand change no amount."""
        self.prior = prior.units / 1000
        self.scale = numpy.maximum(self.prior, LEAST_SCALE)
        keys: Sequence[tuple[float, Callable[[Unknown], Hashable]]] = (
            (errors.total, lambda one: 0),
            (errors.slice, lambda one: one.slice),
            (errors.origin, lambda one: one.origin),
            (errors.destination, lambda one: one.destination),
            (errors.pair, lambda one: one.pair),
            (errors.own, lambda one: (one.pair, one.slice)),
        )
        self.groups: list[tuple[float, Whole, int, int]] = []  # the error, the group of each unknown, first, and end
        self.size, self.has_total = 0, bool(errors.total)
        for part, key in keys:
            if part:
                number: dict[Hashable, int] = {}
                of = [number.setdefault(key(one), len(number)) for one in prior.unknowns]
                self.groups.append((part, numpy.array(of), self.size, self.size + len(number)))
                self.size += len(number)
        self.of_demand = self.size
        self.size += more

    def changes(self, effects: Real) -> Real:
        """What effects `[n]` or `[n, k]` do to the amounts."""
        found = numpy.zeros((len(self.scale), *effects.shape[1:]))
        for part, of, first, end in self.groups:
            found += part * effects[first:end][of]
        return numpy.asarray((found.T * self.scale).T)

    def amounts(self, effects: Real) -> Real:
        """The unknowns in vehicles."""
        return numpy.maximum(0.0, self.prior + self.changes(effects))

    def slopes(self, by_unknowns: Real) -> Real:
        """Slopes `[counts, unknowns]` as `[counts, effects]`."""
        scaled = numpy.ascontiguousarray((by_unknowns * self.scale).T)
        found = numpy.zeros((self.size, len(by_unknowns)))
        for part, of, first, end in self.groups:
            group = numpy.zeros((end - first, len(by_unknowns)))
            for place, row in zip(of.tolist(), scaled):
                group[place] += row
            found[first:end] = part * group
        return numpy.ascontiguousarray(found.T)

    @property
    def variance(self) -> Real:
        """The variance of each unknown by its prior."""
        return self.scale**2 * sum(part * part for part, *_ in self.groups)


def known(effects: Effects, slopes: Real, solved: Real) -> Real:
    """Of each unknown the part of its prior's variance that counts take away; `solved` is what the matrix of counts
    makes of the slopes, `[counts, effects]`."""
    moved, by_counts = effects.changes(slopes.T), effects.changes(solved.T)
    return summed_rows((moved * by_counts).T) / effects.variance


def slice_slots(minutes: Fraction, case: Case) -> int:
    """The slots of a slice; a Fault where they are not whole."""
    slots = minutes * 60_000 / case.setup.step_ms
    if slots.denominator != 1 or slots < 1:
        raise Fault(f"a slice of {minutes} minutes is no whole number of steps of {case.setup.step_ms} ms")
    return slots.numerator
