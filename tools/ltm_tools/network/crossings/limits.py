"""The exit limits of turns: their greens, those in which they yield by how much they get of them."""
from __future__ import annotations

from collections.abc import Iterable, Mapping
from dataclasses import replace
from fractions import Fraction
from itertools import groupby

from ...case import Limit, Link, Setup
from ...demand.cycles import Plan
from ...demand.signal_plans import limits_of_plan
from .turn import Turn
from .volumes import Volumes


def turn_limits(turns: Iterable[Turn], volumes: Volumes, links: Mapping[str, Link], setup: Setup) -> list[Limit]:
    """The limits of all turns that a signal or a sign holds, and that are not always green."""
    limits: list[Limit] = []
    for turn in turns:
        for plan in turn_plans(turn, volumes, setup):
            limits += limits_of_plan(plan, links[turn.link], setup, turn.is_always_green)
    return limits


def turn_plans(turn: Turn, volumes: Volumes, setup: Setup) -> list[Plan]:
    """The plans of a turn, one for each longest row of slices with the same factor; slices begin with whole steps."""
    if not turn.protected and not turn.permitted:
        return []
    factors = turn.factors(volumes) or [Fraction(1)]
    plans, place = [], 0
    for factor, same in groupby(factors):
        start, place = place, place + len(list(same))
        greens = (*turn.protected, *(replace(green, share=green.share * factor) for green in turn.permitted))
        first, last = (number * volumes.slice_ms // setup.step_ms * setup.step_ms for number in (start, place))
        end = setup.horizon_ms if place == len(factors) else min(last, setup.horizon_ms)
        if first < end:
            plans.append(Plan(turn.link, greens, first, end))
    return plans
