"""Seeks the demand at which the loading meets the counts: least squares between counts and a prior, about the loading.

    minimise  sum ((counted - loaded(x)) / error)^2  +  sum z^2,     x = prior * (1 + the sum of effects of z), x >= 0

`loaded` is the program's loading, each time anew. Slopes are the shares of the loading (`shares`); where a step by
these does not halve the sum, another one is tried from the same amounts, with slopes that are put right along the main
directions of the problem by loadings, and the better of both is kept.
"""
from __future__ import annotations

import queue
import tempfile
from collections.abc import Iterator, Sequence
from concurrent.futures import ThreadPoolExecutor
from contextlib import ExitStack
from dataclasses import dataclass
from types import TracebackType
from typing import NamedTuple

import numpy

from ..assign.net import Net, Real, Whole
from ..counting.counts import FIT, Count, Timed
from ..errors import Fault
from .capacities import LEAST, WHOLE, Capacities
from .cluster import all_loaded
from .linear import Factor, directions, gram, square, summed_rows, product
from .loader import Loaded, Loader, Program
from .shares import Moments, SplitParts, counted_shares
from .unknowns import Effects, Errors, Prior

FURTHEST, LONGEST = 0.5, 0.7  # of an unknown in a step along a direction, and of such a step in errors
CAPACITY_STEP = 0.5  # in errors of a capacity: so much less of it, and more, are loaded
ENOUGH = 0.5  # of the sum: an iteration by shares that leaves more is tried by responses too
SMALLEST = 0.2  # part of a step
ENDS = 0.01  # of the sum: a search ends where an iteration gains less
LATE, FEWER, MOST_LESS = 0.01, 0.8, -5  # of all: so many not arrived, and it may be a gridlock, and so on
MET = 0.01  # of the errors of counts: a prior whose misfits are smaller in the mean is not changed


@dataclass(frozen=True)
class CalibrateOptions:
    """How demand is sought: iterations at most, directions at most, what a prior is wrong by, sessions at once, and the
    scheduler of a cluster, which has many loadings made in their place; and whether stop lines have factors of their
    own, by class of links or by junction."""

    iterations: int = 6
    directions: int = 32
    errors: Errors = Errors()
    processes: int = 1
    scheduler: str | None = None
    capacities: str | None = None


class Trial(NamedTuple):
    """Effects, what their loading has, its misfits in errors, and the sum."""

    effects: Real
    loaded: Loaded
    misfits: Real
    value: float

    @property
    def of_counts(self) -> float:
        """The part of the sum that is of counts and times."""
        return square(self.misfits)


class Iteration(NamedTuple):
    """An iteration: its number, the loadings so far, the best so far, the part of the way that was gone, by which
    slopes, and the relative gap of its routes in per cent where they are assigned."""

    number: int
    loadings: int
    best: Trial
    size: float
    way: str
    gap: float | None = None


class Target:
    """What is to be met: of counts and times, those that are to be fitted."""

    def __init__(self, counts: Sequence[Count], measured: Sequence[Timed]) -> None:
        self.counts, self.measured = list(counts), list(measured)
        self.chosen = [k for k, count in enumerate(counts) if count.use == FIT]
        self.timed = [k for k, one in enumerate(measured) if one.use == FIT]
        wanted = [counts[k] for k in self.chosen]
        times_wanted = [measured[k] for k in self.timed]
        self.wanted = numpy.array(
            [float(one.vehicles) for one in wanted] + [float(one.seconds) for one in times_wanted]
        )
        squares = [float(one.square) for one in wanted] + [float(one.square) for one in times_wanted]
        self.errors = numpy.sqrt(numpy.array(squares))

    def has(self, loaded: Loaded) -> Real:
        """What a loading has of it: vehicles, and seconds."""
        return numpy.array(
            [loaded.counts[k] / 1000 for k in self.chosen] + [float(loaded.times[k]) for k in self.timed]
        )


class Search:
    """The search for a demand. It is a context manager, as it has sessions."""

    def __init__(
        self,
        prior: Prior,
        counts: Sequence[Count],
        measured: Sequence[Timed],
        paths: Sequence[Sequence[str]],
        options: CalibrateOptions,
        program: Program,
    ) -> None:
        self.prior, self.options, self.program = prior, options, program
        self.capacities = None if options.capacities is None else Capacities(prior.case, options.capacities)
        groups = 0 if self.capacities is None else len(self.capacities.groups)
        self.target, self.effects = Target(counts, measured), Effects(prior, options.errors, groups)
        self.asked = tuple(counts), tuple(measured), tuple(tuple(path) for path in paths)
        self.stack, self.case = ExitStack(), prior.as_case()
        self.folder = self.stack.enter_context(tempfile.TemporaryDirectory(prefix="ltm_calibrate_"))
        self.case.write(self.folder)
        self.loaders = [
            self.stack.enter_context(Loader(self.folder, *self.asked, program, self.case, self.capacities))
            for _ in range(max(1, options.processes))
        ]
        self.elsewhere = 0  # loadings by a cluster
        self.net = Net(self.case)
        self.splits = SplitParts(self.net)
        self.best: Trial | None = None
        self.begun: Trial | None = None

    def __enter__(self) -> Search:
        return self

    def __exit__(
        self, kind: type[BaseException] | None, error: BaseException | None, trace: TracebackType | None
    ) -> None:
        self.stack.__exit__(kind, error, trace)

    def restart(self) -> None:
        """Ends all sessions, as after an interrupt; others take their place when they are asked."""
        for loader in self.loaders:
            loader.restart()

    @property
    def found(self) -> Search | None:
        """The search that has the best so far: this one, once there is one."""
        return None if self.best is None else self

    @property
    def loadings(self) -> int:
        """How many loadings were made."""
        return sum(loader.loadings for loader in self.loaders) + self.elsewhere

    def units(self, effects: Real) -> Whole:
        """The units of each row of demand by these effects."""
        return self.prior.of_rows(self.effects.amounts(effects))

    def factors(self, effects: Real) -> list[int]:
        """The factors of capacities by these effects, in thousandths."""
        found = 1 + self.options.errors.capacity * effects[self.effects.of_demand :]
        return [max(LEAST, round(WHOLE * factor)) for factor in found.tolist()]

    def trial(self, effects: Real, loaded: Loaded) -> Trial:
        """The misfits of a loading of these effects."""
        misfits = (self.target.wanted - self.target.has(loaded)) / self.target.errors
        return Trial(effects, loaded, misfits, square(misfits) + square(effects))

    def at(self, effects: Real, loader: Loader | None = None) -> Trial:
        """The loading of these effects."""
        loader = loader or self.loaders[0]
        return self.trial(effects, loader.load(self.units(effects), self.factors(effects)))

    def all_at(self, many: Sequence[Real]) -> list[Trial]:
        """The loadings of several, on all sessions at once, or by the workers of a cluster."""
        if self.options.scheduler is not None and many:
            units = [self.units(effects) for effects in many]
            found = all_loaded(self.options.scheduler, self.folder, self.program, units, self.asked)
            self.elsewhere += len(many)
            return [self.trial(effects, loaded) for effects, loaded in zip(many, found)]
        if len(self.loaders) == 1:
            return [self.at(effects) for effects in many]
        free: queue.SimpleQueue[Loader] = queue.SimpleQueue()
        for loader in self.loaders:
            free.put(loader)

        def one(effects: Real) -> Trial:
            loader = free.get()
            try:
                return self.at(effects, loader)
            finally:
                free.put(loader)

        with ThreadPoolExecutor(len(self.loaders)) as pool:
            return list(pool.map(one, many))

    def by_shares(self, point: Trial) -> Real:
        """Slopes by effects, in errors, of the shares of a loading; those of times are 0."""
        loader = self.loaders[0]
        loader.load(self.units(point.effects), self.factors(point.effects))
        moments = Moments(self.net, loader.curves(self.net))
        counts = [self.target.counts[k] for k in self.target.chosen]
        found = counted_shares(self.net, self.splits, moments, self.prior.unknowns, counts)
        found = numpy.concatenate((found, numpy.zeros((len(self.target.timed), len(self.prior.unknowns)))))
        if not found.any() and not self.target.timed:
            raise Fault("no counter is passed by any demand of this case: nothing could be found")
        return numpy.asarray(self.effects.slopes(found) / self.target.errors[:, None])

    def slopes(self, point: Trial) -> Real:
        """Slopes by effects: of demand by shares, of capacities by what a loading with less of each, and one with more,
        makes of the counts."""
        found = self.by_shares(point)
        places = range(self.effects.of_demand, self.effects.size)
        away = numpy.zeros((len(places), self.effects.size))
        away[range(len(places)), list(places)] = CAPACITY_STEP
        less, more = (self.all_at([point.effects + sign * one for one in away]) for sign in (-1, 1))
        for place, below, above in zip(places, less, more):
            found[:, place] = (below.misfits - above.misfits) / (2 * CAPACITY_STEP)
        return found

    def by_responses(self, point: Trial, slopes: Real) -> Real:
        """Slopes that are put right along the main directions, by a loading for each."""
        sizes, steps = [], directions(slopes, self.options.directions)
        for direction in steps:
            away = float(numpy.abs(self.effects.changes(direction) / self.effects.scale).max())
            sizes.append(min(LONGEST, FURTHEST / max(1e-9, away)))
        columns = slopes.T.copy()  # one after another in memory, as products go over them
        points = self.all_at([point.effects + size * step for size, step in zip(sizes, steps)])
        for size, step, other in zip(sizes, steps, points):
            response = (point.misfits - other.misfits) / size
            columns += step[:, None] * (response - product(columns.T, step))[None, :]
        return numpy.ascontiguousarray(columns.T)

    def goal(self, point: Trial, slopes: Real) -> Real:
        """The effects of the least sum if slopes stay."""
        gap = point.misfits + product(slopes, point.effects)
        solved = Factor(gram(slopes) + numpy.eye(len(slopes))).solve(gap)
        return summed_rows(slopes * solved[:, None])

    def step(self, point: Trial, slopes: Real) -> tuple[Trial, float]:
        """Where slopes lead: to the least sum if they stay, or half of the way and so on, until the sum falls; with the
        part of the way, 0 where it does not."""
        goal, size = self.goal(point, slopes), 1.0
        while True:
            new = self.at(point.effects + size * (goal - point.effects))
            if new.value < point.value:
                return new, size
            if size <= SMALLEST:
                return new, 0.0
            size /= 2

    def begin(self) -> Trial:
        """The prior; or a part of it, where a prior ends in a gridlock and less demand does not: slopes lead nowhere
        there."""
        point = self.at(numpy.zeros(self.effects.size))
        self.begun = self.best = point
        if not self.effects.has_total or self.is_met(point):
            return point
        while late(point) > LATE and point.effects[0] > MOST_LESS:
            less = point.effects.copy()
            less[0] -= 1
            other = self.at(less)
            if late(other) > LATE and late(other) > FEWER * late(point):  # they are on their way as the horizon ends
                break
            point = other
        return point

    def is_met(self, point: Trial) -> bool:
        """Whether a loading meets the counts far better than their errors ask for."""
        return point.of_counts <= MET**2 * len(point.misfits)

    def run(self) -> Iterator[Iteration]:
        """The iterations, the first of them the prior. `best` has the best so far at any time."""
        point = self.begin()
        assert self.best is not None
        yield Iteration(0, self.loadings, self.best, 0.0, "prior")
        if self.is_met(point):
            return
        if point is not self.best:
            yield Iteration(0, self.loadings, point, 0.0, "less")
        for number in range(1, self.options.iterations + 1):
            slopes = self.slopes(point)
            tried = [(*self.step(point, slopes), "shares")]
            if tried[0][0].value > ENOUGH * point.value and self.options.directions:
                put_right = self.by_responses(point, slopes)
                tried.append((*self.step(point, put_right), "responses"))
            new, size, way = min(tried, key=lambda one: one[0].value)
            if not size:
                break
            gain, point = 1 - new.value / point.value, new
            if point.value < self.best.value:
                self.best = point
            yield Iteration(number, self.loadings, point, size, way)
            if gain < ENDS:
                break


def late(point: Trial) -> float:
    """The part of all who have not arrived by the end."""
    hours = point.loaded.hours
    return hours.late / max(1, hours.produced)
