"""Sums of fractions, and times of roads as whole numbers, which are as exact and cost far less."""
from __future__ import annotations

from collections.abc import Iterable, Mapping
from fractions import Fraction
from math import lcm

from .network import Road

MOST_BITS = 1024
"""Of the number by which times are multiplied so that they are whole; where it would have more they stay fractions."""


def exact_sum(numbers: Iterable[Fraction]) -> Fraction:
    """The sum of some fractions."""
    listed = list(numbers)
    per = lcm(*(number.denominator for number in listed))
    return Fraction(sum(number.numerator * (per // number.denominator) for number in listed), per)


def whole_times(roads: Mapping[str, Road]) -> dict[str, Fraction | int]:
    """The free-flow time of each road, all multiplied by the least number that makes them whole, so that they and their
    sums stand in the same order; as they are where that number is very large."""
    per = 1
    for road in roads.values():
        per = lcm(per, road.time.denominator)
        if per.bit_length() > MOST_BITS:
            return {name: road.time for name, road in roads.items()}
    return {name: road.time.numerator * (per // road.time.denominator) for name, road in roads.items()}
