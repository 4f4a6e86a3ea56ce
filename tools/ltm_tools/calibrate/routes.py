"""Demand and its routes together: each demand is loaded on the routes that its own vehicles choose.

To fit demand on fixed routes, then to assign it, and so on, need not converge: what is wrong with the routes is made
up for by demand, which changes the routes. Here the misfits of a demand are those on the routes that are assigned to
it, and a round is a step of least squares from one such demand to another. The shares of a loading do not know that
vehicles choose other routes, so after each round the slopes are corrected along its step, by how the counts have
changed (Broyden's secant).
"""
from __future__ import annotations

import math
from collections.abc import Iterator, Sequence
from dataclasses import replace
from fractions import Fraction
from types import TracebackType
from typing import NamedTuple

import numpy

from ..assign.assigning import Assignment, AssignOptions
from ..assign.net import Real
from ..case import Case
from ..counting.counts import HOLD, Count, Timed
from .linear import product, square
from .loader import Program
from .search import ENDS, FURTHEST, CalibrateOptions, Iteration, Search, Target, Trial
from .unknowns import Effects, Prior

ROUTES = AssignOptions(iterations=10, until=0.2)  # of one assignment, which begins where the last one ended


class Routed(NamedTuple):
    """A demand on its own routes: its loading, the search of a case with these routes, their relative gap in per cent,
    and what is least at the best round: the squares of misfits of counts that are held out, else the sum."""

    trial: Trial
    search: Search
    gap: float
    score: float


class Rounds:
    """Rounds of a step of the demand and an assignment. It is a context manager, as it has sessions."""

    def __init__(
        self,
        prior: Prior,
        counts: Sequence[Count],
        measured: Sequence[Timed],
        paths: Sequence[Sequence[str]],
        options: CalibrateOptions,
        program: Program,
        rounds: int,
        routes: AssignOptions = ROUTES,
    ) -> None:
        self.prior, self.asked, self.target = prior, (counts, measured, paths), Target(counts, measured)
        self.options, self.program, self.rounds, self.routes = options, program, rounds, routes
        self.effects = Effects(prior, options.errors)
        self.open: list[Search] = []
        self.learned: list[tuple[Real, Real]] = []  # steps, and what counts have done, in errors
        self.loadings = 0
        self.begun: Routed | None = None
        self.best: Routed | None = None

    def __enter__(self) -> Rounds:
        return self

    def __exit__(
        self, kind: type[BaseException] | None, error: BaseException | None, trace: TracebackType | None
    ) -> None:
        for search in self.open:
            search.__exit__(kind, error, trace)

    @property
    def found(self) -> Search | None:
        """The search that has the best so far, once there is one."""
        return None if self.best is None else self.best.search

    def restart(self) -> None:
        """Ends all sessions, as after an interrupt; others take their place when they are asked."""
        for search in self.open:
            search.restart()

    def run(self) -> Iterator[Iteration]:
        """The rounds, the first of them the prior on its own routes, each with the demand that it leads to; it goes on
        from there where the sum has fallen. `best` has the best so far at any time."""
        now = self._routed(numpy.zeros(self.effects.size), self.prior.case)
        self.begun = self.best = now
        yield Iteration(0, self.loadings, now.trial, 0.0, "prior", now.gap)
        shares, longest = now.search.by_shares(now.trial), math.inf
        for number in range(1, self.rounds + 1):
            step = now.search.goal(now.trial, self._corrected(shares)) - now.trial.effects
            length = math.sqrt(square(step))
            away = float(numpy.abs(self.effects.changes(step) / self.effects.scale).max())
            size = min(1.0, longest / max(length, 1e-9), FURTHEST / max(away, 1e-9))
            new = self._routed(now.trial.effects + size * step, now.search.prior.case)
            self.learned.append((size * step, now.trial.misfits - new.trial.misfits))
            if new.score < self.best.score:
                self.best = new
            gain = 1 - new.trial.value / now.trial.value
            longest = size * length * (2 if gain > 0 else 0.5)
            yield Iteration(number, self.loadings, new.trial, size, "routes", new.gap)
            if 0 < gain < ENDS:
                return
            if gain > 0:
                now = new
                shares = now.search.by_shares(now.trial)
            self._close_others(now)

    def _corrected(self, shares: Real) -> Real:
        """Slopes that agree with how counts have changed along the steps so far, the last one above all."""
        columns = shares.T.copy()
        for step, response in self.learned:
            columns += step[:, None] * ((response - product(columns.T, step)) / square(step))[None, :]
        return numpy.ascontiguousarray(columns.T)

    def _routed(self, effects: Real, case: Case) -> Routed:
        """A demand on the routes that are assigned to it, from those of a case on."""
        units = self.prior.of_rows(self.effects.amounts(effects)).tolist()
        asked = Case.of(case)
        asked.demand = [replace(row, units=max(1, count)) for row, count in zip(self.prior.rows, units)]
        asked.setup = self.prior.as_case().setup
        assignment = Assignment(asked, self.routes)
        for _ in assignment.run(self.program):
            self.loadings += 1
        made, one = Case.of(case), assignment.best_one
        assert one is not None
        made.splits, made.setup = assignment.best_case().splits, assignment.best_case().setup
        made.demand = self.prior.case.demand
        search = Search(Prior(made, self.prior.slots), *self.asked, self.options, self.program)
        self.open.append(search)
        trial = search.at(effects)
        self.loadings += 1
        search.begun, search.best = self.begun.trial if self.begun else trial, trial
        return Routed(trial, search, one.look.per_cent, held_misfit(search, trial) or trial.value)

    def _close_others(self, now: Routed) -> None:
        """Ends the sessions of all but the best and the one from which the search goes on."""
        for search in self.open:
            if self.best is not None and search is not self.best.search and search is not now.search:
                search.restart()


def held_misfit(search: Search, trial: Trial) -> float:
    """The sum of squares of the misfits of counts that are held out, in vehicles, as RMSN has it; 0 where there are
    none."""
    pairs = zip(search.target.counts, trial.loaded.counts)
    return math.fsum(float(count.vehicles - Fraction(units, 1000)) ** 2 for count, units in pairs if count.use == HOLD)
