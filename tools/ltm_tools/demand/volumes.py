"""Vehicles between pairs of places, exact and in the order in which the pairs come, in few bytes for each pair."""
from __future__ import annotations

from array import array
from collections.abc import ItemsView, Iterator, Mapping, MutableSequence
from fractions import Fraction
from math import lcm
from typing import Any

from ..errors import Fault
from ..formats import MOST_UNITS, UNITS

Pair = tuple[str, str]
MOST_PER = 10**12
"""The most parts of a vehicle in which amounts are whole numbers; with more they are fractions, each a number of its
own."""


class Volumes(Mapping[Pair, Fraction]):
    """Vehicles by pair. Places have numbers, and amounts are whole numbers of one part of a vehicle as long as that can
    be: some sixteen bytes a pair, where a dictionary takes some three hundred. It is quickest where the pairs of an
    origin come one after the other."""

    def __init__(self) -> None:
        self.names: list[str] = []
        self.per = 1
        """In which part of a vehicle amounts are told; 0 where they are fractions."""
        self.origins, self.ends = array("I"), array("I")
        self.amounts: MutableSequence[Any] = array("q")
        self._numbers: dict[str, int] = {}
        self._begun: set[int] = set()
        self._origin = -1
        self._places: dict[int, int] = {}
        """Where the pairs of this origin stand, or all pairs where an origin came twice."""
        self._all = False

    @classmethod
    def of(cls, volumes: Mapping[Pair, Fraction]) -> Volumes:
        """The vehicles of a mapping."""
        made = cls()
        for (origin, end), volume in volumes.items():
            made.add(origin, end, volume.numerator, volume.denominator)
        return made

    def add(self, origin: str, end: str, numerator: int, denominator: int = 1) -> None:
        """Adds vehicles to a pair."""
        if self.per % denominator:
            self._refine(denominator)
        amount = numerator * (self.per // denominator) if self.per else Fraction(numerator, denominator)
        first, last = self._numbers.get(origin), self._numbers.get(end)
        if first is None or last is None:
            first, last = self._number(origin), self._number(end)
        if first != self._origin:
            self._begin(first)
        place = self._places.setdefault(first << 32 | last, len(self.origins))
        try:
            if place == len(self.origins):
                self.amounts.append(amount)
            else:
                self.amounts[place] += amount
        except OverflowError:
            self.amounts = [*self.amounts]
            self.add(origin, end, numerator, denominator)
            return
        if place == len(self.origins):
            self.origins.append(first)
            self.ends.append(last)

    def _number(self, name: str) -> int:
        number = self._numbers.setdefault(name, len(self.names))
        if number == len(self.names):
            self.names.append(name)
        return number

    def _begin(self, origin: int) -> None:
        """Goes on to the pairs of another origin; where it had some before, all pairs are looked up from then on."""
        self._origin = origin
        if not self._all:
            self._all = origin in self._begun
            self._places = dict(self._listed()) if self._all else {}
            self._begun.add(origin)

    def _listed(self) -> Iterator[tuple[int, int]]:
        """The key of each pair, and where it stands."""
        return ((first << 32 | last, place) for place, (first, last) in enumerate(zip(self.origins, self.ends)))

    def _refine(self, denominator: int) -> None:
        """Tells amounts in smaller parts, so that those with this denominator are whole numbers as well."""
        per = lcm(self.per, denominator)
        if per > MOST_PER:
            self.amounts, self.per = [Fraction(amount, self.per) for amount in self.amounts], 0
            return
        amounts = [amount * (per // self.per) for amount in self.amounts]
        self.per = per
        try:
            self.amounts = array("q", amounts)
        except OverflowError:
            self.amounts = amounts

    def rows(self) -> Iterator[tuple[str, str, int, int]]:
        """The origin and the end of each pair, and its vehicles as a numerator and a denominator."""
        names, per = self.names, self.per
        for first, last, amount in zip(self.origins, self.ends, self.amounts):
            numerator, denominator = (amount, per) if per else amount.as_integer_ratio()
            yield names[first], names[last], numerator, denominator

    def units(self, what: str) -> Iterator[tuple[str, str, int]]:
        """The origin and the end of each pair, and its vehicles in the nearest thousandths; a Fault where they are more
        than a row may have, which begins with `what`."""
        for origin, end, numerator, denominator in self.rows():
            units = (2 * UNITS * numerator + denominator) // (2 * denominator)
            if not 0 <= units <= MOST_UNITS:
                raise too_many_vehicles(Fraction(numerator, denominator), what.format(origin, end))
            yield origin, end, units

    def summed_units(self) -> array[int]:
        """The vehicles of each pair in thousandths, rounded so that those up to each one are the nearest to their
        sum."""
        made, given, per = array("q"), 0, self.per or 1
        whole: Any = 0
        for amount in self.amounts:
            whole += amount
            due = (2 * UNITS * whole.numerator + per * whole.denominator) // (2 * per * whole.denominator)
            made.append(due - given)
            given = due
        return made

    def by_origin(self) -> dict[str, Fraction]:
        """What sets out from each origin."""
        sums: dict[int, Any] = {}
        for first, amount in zip(self.origins, self.amounts):
            sums[first] = sums.get(first, 0) + amount
        return {self.names[first]: Fraction(amount) / (self.per or 1) for first, amount in sums.items()}

    def whole(self) -> Fraction:
        """All vehicles."""
        return Fraction(sum(self.amounts)) / (self.per or 1)

    def scaled(self, factor: Fraction) -> Volumes:
        """The same pairs with so many times the vehicles."""
        if factor == 1:
            return self
        made = Volumes()
        for origin, end, numerator, denominator in self.rows():
            made.add(origin, end, numerator * factor.numerator, denominator * factor.denominator)
        return made

    def end_names(self) -> list[str]:
        """The ends, in the order in which they come first."""
        return [self.names[last] for last in dict.fromkeys(self.ends)]

    def __getitem__(self, pair: Pair) -> Fraction:
        numbers = [self._numbers.get(name, -1) for name in pair]
        if not self._all:
            self._places, self._all = dict(self._listed()), True
        amount = self.amounts[self._places[numbers[0] << 32 | numbers[1]]]
        return Fraction(amount) / (self.per or 1)

    def __iter__(self) -> Iterator[Pair]:
        return ((self.names[first], self.names[last]) for first, last in zip(self.origins, self.ends))

    def __len__(self) -> int:
        return len(self.origins)

    def items(self) -> ItemsView[Pair, Fraction]:
        """The pairs with their vehicles, which are not looked up one by one."""
        return Items(self)


class Items(ItemsView[Pair, Fraction]):
    """Pairs with their vehicles."""

    _mapping: Volumes

    def __iter__(self) -> Iterator[tuple[Pair, Fraction]]:
        return (((first, last), Fraction(*ratio)) for first, last, *ratio in self._mapping.rows())


def too_many_vehicles(volume: Fraction, what: str) -> Fault:
    """The Fault of more vehicles than a row may have."""
    return Fault(f"{what}: {float(volume):g} vehicles, and 0 to 1000000 are allowed")
