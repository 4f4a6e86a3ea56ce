"""Gaps in traffic that has priority, by the Highway Capacity Manual: how many vehicles of a lane that must yield get
through it.

Numbers here are floating point, as the formula has powers of e; `factor` rounds what it gives to thousandths.
"""
from __future__ import annotations

import math
from fractions import Fraction

from .options import GapAcceptance

LEAST_FACTOR = Fraction(3, 100)
"""A turn that is allowed is never shut altogether."""


def capacity(flow: float, gap: GapAcceptance) -> float:
    """The vehicles a second of a lane that find a gap in a flow of vehicles a second, none of them held up."""
    critical, follow_up = float(gap.critical), float(gap.follow_up)
    if flow * follow_up < 1e-9:
        return 1 / follow_up
    return flow * math.exp(-flow * critical) / -math.expm1(-flow * follow_up)


def through_green(flow: float, saturation: float, green: float, cycle: float, gap: GapAcceptance) -> float:
    """The vehicles of a lane that pass in a green in which it yields: first the queue that stood at red drives off,
    then there are gaps, and at the end some go. Flow and saturation are of the traffic with priority, in vehicles a
    second."""
    queue = flow * (cycle - green) / (saturation - flow) if saturation > flow else green
    return (green - min(green, queue)) * capacity(flow, gap) + float(gap.at_end)


def factor(flow: float, saturation: float, green: float, cycle: float, lane: float, gap: GapAcceptance) -> Fraction:
    """The share of what a lane would let pass in a green that it does while it yields, in thousandths; `lane` is its
    saturation in vehicles a second."""
    if green <= 0 or lane <= 0:
        return Fraction(1)
    share = through_green(flow, saturation, green, cycle, gap) / (green * lane)
    return min(Fraction(1), max(LEAST_FACTOR, Fraction(round(share * 1000), 1000)))
