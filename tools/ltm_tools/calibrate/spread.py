"""The range: demands that fit the counts as well as the one that was found, loaded; and how well each unknown is
known."""
from __future__ import annotations

import math
from collections.abc import Sequence
from dataclasses import dataclass
from random import Random

import numpy

from ..assign.net import Real
from .linear import Factor, dot, gram, normal, product, summed_rows
from .search import Search, Trial
from .unknowns import known

ERRORS = 2.0  # of what counts leave open of all vehicles: so far away are the least and the most of them
NEAREST = 1 / 4  # part of the way to a demand that does not fit
SMALLEST = 1e-12  # of a square of vehicles


@dataclass(frozen=True)
class Spread:
    """Demands that fit as well, each by its loading: some that were drawn, and those with the least and the most
    vehicles that counts allow; and of each unknown, and of each capacity, the part of its prior's variance that counts
    take away."""

    points: tuple[Trial, ...]
    known: Real
    capacities_known: Real


def spread_of(search: Search, samples: int) -> Spread:
    """Samples about the best demand, drawn as the prior and the errors of counts have it, with the slopes there; and
    the widest."""
    point = search.best
    assert point is not None
    slopes = search.slopes(point)
    if search.options.directions:
        slopes = search.by_responses(point, slopes)
    factor = Factor(gram(slopes) + numpy.eye(len(slopes)))
    random, drawn = Random(1), []
    for _ in range(samples):
        away, noise = normal(random, search.effects.size), normal(random, len(slopes))
        drawn.append(away - summed_rows(slopes * factor.solve(product(slopes, away) + noise)[:, None]))
    by_all = search.effects.slopes(numpy.ones((1, len(search.prior.unknowns))))[0]
    left = by_all - summed_rows(slopes * factor.solve(product(slopes, by_all))[:, None])
    far = left * (ERRORS / math.sqrt(max(SMALLEST, dot(by_all, left))))
    solved = factor.solve(slopes)
    told = dot(slopes.ravel(), solved.ravel())  # how many numbers the counts tell
    most = point.of_counts + told + ERRORS * math.sqrt(2 * told)
    of_capacities = slice(search.effects.of_demand, None)
    return Spread(
        fitting(search, point, [*drawn, -far, far], most),
        known(search.effects, slopes, solved),
        summed_rows(slopes[:, of_capacities] * solved[:, of_capacities]),
    )


def fitting(search: Search, point: Trial, aways: Sequence[Real], most: float) -> tuple[Trial, ...]:
    """The demands this far from a point, each where the sum of its counts is at most so much, else half of the way to
    it, and half of that; else left out. Slopes on the two sides of a point may differ, as where a bottleneck is just
    full."""
    found: list[Trial | None] = [None] * len(aways)
    part = 1.0
    while part >= NEAREST:
        left = [place for place, one in enumerate(found) if one is None]
        for place, other in zip(left, search.all_at([point.effects + part * aways[place] for place in left])):
            if other.of_counts <= most:
                found[place] = other
        part /= 2
    return tuple(one for one in found if one is not None)
