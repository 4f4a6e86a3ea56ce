"""The loop: shares go over to the best links as a loading shows them, and the next loading has the new shares."""
from __future__ import annotations

import math
import os
from collections.abc import Iterable, Iterator
from dataclasses import dataclass, replace
from itertools import islice
from typing import NamedTuple

import numpy

from ..case import Case, Split
from ..errors import Fault
from ..formats import MINUTE_MS
from .crew import Crew, crew_of
from .engine import Engine, case_with
from .engines import engine_of
from .gaps import together
from .growing import LOADINGS, Grown
from .looking import Look, Looker
from .net import Net, Whole
from .parts import Plan
from .rules import BACK, METHODS, Rule, Sizes
from .shares import RowShares, Shares, check_ways, of_splits, split_rows
from .spans import Spans
from .steps import Traffic

LOST = 1.5  # so many times the hours of the best iteration, with a worse score, and an iteration is taken back
LOCKED = 0.02  # of the demand that has not arrived: it may be a gridlock
NEAR = 1.5  # the relative gap at which a part of the demand is loaded no more
POOR = 10.0  # the relative gap of a best loading from which a step into a gridlock has the demand loaded in parts
BEST, FREE, PART = "best", "free", "part"  # names of shares that are kept
LEAST, CELLS, ROOM = 16, 2**15, 12_000_000  # see `ends_at_once`
SEARCHED = 20_000_000  # origins times slots times links at which the program's gap takes a second or two
MOST_SEARCHED = 200_000_000  # the same, from where it takes a minute, and gigabytes


@dataclass(frozen=True)
class AssignOptions:
    """How shares are sought: at most so many iterations, until the relative gap is at most so many per cent; the length
    of a period; by which rule (see `METHODS`), and the first step's size, by default that of the rule; and how many
    processes work out destinations, which changes no number."""

    iterations: int = 30
    until: float = 0.0
    period_ms: int = 5 * MINUTE_MS
    size: float | None = None
    method: str = "gradient"
    processes: int = 1

    @property
    def rule(self) -> Rule:
        """The rule by which shares go over; a Fault where there is none of this name."""
        if self.method not in METHODS:
            raise Fault(f"{self.method!r} is no method: {', '.join(METHODS)} are")
        rule = METHODS[self.method]
        return rule if self.size is None else rule._replace(size=self.size)

    def slots(self, case: Case) -> int:
        """The slots of a period; a Fault where they are not whole."""
        slots, rest = divmod(self.period_ms, case.setup.step_ms)
        if rest or not slots:
            raise Fault(f"a period of {self.period_ms} ms is no whole number of steps of {case.setup.step_ms} ms")
        return slots


class Iteration(NamedTuple):
    """A loading of the loop: its number, what it says, the step's size behind it, and its round; the program's own gap
    in per cent, where it was asked; and how many per cent of the demand were loaded."""

    number: int
    look: Look
    size: float
    round: int = 1
    exact: float | None = None
    demand: int = 100


@dataclass
class Kept:
    """The best iteration of some, by whose name its shares are kept; what has left each link by each boundary then, and
    its traffic."""

    name: str
    one: Iteration | None = None
    left: Whole | None = None
    traffic: Traffic | None = None


class Assignment:
    """The shares of a case, with the best found so far."""

    def __init__(self, case: Case, options: AssignOptions, splits: list[Split] | None = None) -> None:
        """By default from the case's own splits; nodes without one, and a case without any, begin with free-flow
        routes."""
        if not case.standing_demand():
            raise Fault("the case has no demand, so nobody chooses a route")
        self.case, self.options, self.rule = case, options, options.rule
        period = options.slots(case)
        self.net = Net(case)
        check_ways(self.net)
        self.looker, self.spans = Looker(self.net), Spans.by_period(self.net.slots, period)
        rows = case.standing_splits() if splits is None else splits
        self.plans = plans_of(self.net, rows, self.spans, options.processes)
        self.room = self.looker.room(self.spans)
        self.kept = Kept(BEST)
        self.crew = Crew([])
        self.best_shares: Shares = RowShares({})
        self.gently = False  # whether a step has led to a gridlock

    @property
    def best(self) -> Whole:
        """The best weights, `[spans, L, D]`."""
        return of_splits(self.net, split_rows(self.best_shares.rows()), self.spans)

    @property
    def best_one(self) -> Iteration | None:
        """The best iteration so far."""
        return self.kept.one

    def run(self, program: str | os.PathLike[str] | None = None) -> Iterator[Iteration]:
        """Each iteration as it is done, the first of the shares that it begins with; the last is that behind which no
        share changes, at the latest. Where a loading is a gridlock the demand is loaded in parts behind it."""
        numbers, sizes, grown = iter(range(self.options.iterations + 1)), self.rule.sizes(self.rule.size), Grown()
        self.kept, self.gently = Kept(BEST), False
        with crew_of(self.plans, self.options.processes) as self.crew, engine_of(
            self.net, self.crew, program
        ) as engine:
            self.crew.keep(FREE)
            while True:
                for made in self._steps(engine, self.kept, numbers, sizes):
                    yield made
                    locks = self._locks(made.look)
                    if made.number == self.options.iterations or not locks and made.look.per_cent <= self.options.until:
                        return
                    if locks and self._is_poor():
                        grown.found(100, locks, self.options.iterations - made.number)
                        if grown.next() < 100:
                            break
                else:
                    return
                yield from self._in_parts(grown, sizes, numbers, program)
                engine.tell(self.crew)

    def _in_parts(
        self, grown: Grown, sizes: Sizes, numbers: Iterator[int], program: str | os.PathLike[str] | None
    ) -> Iterator[Iteration]:
        """Loads more and more of the demand, each part with a few iterations, until all of it is to be loaded; the
        shares are then the best of the largest part that is free."""
        self.crew.back(FREE)
        while (demand := grown.next()) < 100:
            self.crew.load(demand / 100)
            kept, made = Kept(PART), None
            sizes.anew()
            with engine_of(self.net, self.crew, program, scaled(self.case, demand)) as engine:
                for made in self._steps(engine, kept, islice(numbers, LOADINGS), sizes, demand):
                    yield made
                    locks = self._locks(made.look)
                    if locks and kept.one is made or not locks and made.look.per_cent <= NEAR:
                        break
            if made is None or kept.one is None:
                break
            locks = self._locks(kept.one.look)
            grown.found(demand, locks, self.options.iterations - made.number)
            self.crew.back(FREE if locks else PART)
            if not locks:
                self.crew.keep(FREE)
        self.crew.load(1.0)
        sizes.anew()

    def _steps(
        self, engine: Engine, kept: Kept, numbers: Iterator[int], sizes: Sizes, demand: int = 100
    ) -> Iterator[Iteration]:
        """Loading after loading with a step between them, until no share changes; the best is kept."""
        for number in numbers:
            made, traffic = self._looked(engine, number, sizes, demand)
            is_lost = self._is_lost(made.look, kept.one)
            if is_lost:
                made = made._replace(size=made.size * BACK)
                sizes.cut()
            elif kept.one is None or made.look.score < kept.one.look.score:
                kept.one, kept.left, kept.traffic = made, self.left, traffic
                self.crew.keep(kept.name)
                if kept is self.kept:
                    self.best_shares = engine.told
            yield made
            if is_lost:
                assert kept.traffic is not None, "what is lost is worse than another"
                self.gently, traffic = True, kept.traffic
                self.crew.back(kept.name)
            self.crew.step(self.rule.step, traffic, made.size, self.gently)
            if not engine.tell(self.crew) and not is_lost:
                return

    def _looked(self, engine: Engine, number: int, sizes: Sizes, demand: int = 100) -> tuple[Iteration, Traffic]:
        """The loading of the shares of now, and its traffic."""
        counts, (spent, not_there) = engine.counts(), engine.spent()
        times = self.looker.times(counts)
        said = self.crew.look(times)
        self.left = counts.left
        look = Look(spent, not_there, math.fsum(said.regrets), together(said.gaps))
        exact = engine.exact_gap() if self._asks_exact(number) and demand == 100 else None
        traffic = Traffic(said.flow, self.room, self.spans.lengths * self.net.step)
        return Iteration(number, look, sizes.after(look.score), exact=exact, demand=demand), traffic

    def _asks_exact(self, number: int) -> bool:
        """Whether the program's own gap is asked of a loading: of each, where that is cheap; of the first and the last
        alone; or of none, where only that of the result is asked in the end."""
        searched = len(self.net.origins) * self.net.slots * len(self.net.names)
        return searched <= SEARCHED or number in (0, self.options.iterations) and searched <= MOST_SEARCHED

    def _locks(self, look: Look) -> bool:
        """Whether many have not arrived, so that it may be a gridlock."""
        return look.not_there > LOCKED * look.gap.all

    def _is_poor(self) -> bool:
        """Whether the best so far is a gridlock, or far from an equilibrium."""
        return self.kept.one is None or self._locks(self.kept.one.look) or self.kept.one.look.per_cent > POOR

    def _is_lost(self, look: Look, one: Iteration | None) -> bool:
        """Whether a step from what is the best has led to a gridlock, from which small steps would lead no way back."""
        best = None if one is None else one.look
        if best is None or look.score < best.score or self._locks(best):
            return False
        return look.spent > LOST * best.spent or look.not_there > best.not_there + LOCKED * look.gap.all

    def best_case(self) -> Case:
        """The case with the best shares."""
        setup = self.case.setup
        return case_with(self.case, split_rows(self.best_shares.rows()), None if setup.history else setup.rows_asked)


def ends_at_once(net: Net, processes: int) -> int:
    """How many destinations are worked out at once: so many that links times destinations are a few tens of thousands,
    which costs least for each, but no more than there is room for, and no fewer parts than processes."""
    by_cells = max(LEAST, CELLS // len(net.names))
    by_room = max(LEAST // 2, ROOM // (net.slots * len(net.node_names)))
    return max(1, min(by_cells, by_room, len(net.end_names) // processes))


def plans_of(net: Net, splits: Iterable[Split], spans: Spans, processes: int = 1) -> list[Plan]:
    """The destinations of a case in parts, as many for each of so many processes, with the shares of split rows."""
    rows: dict[str, list[Split]] = {}
    for row in splits:
        rows.setdefault(row.destination, []).append(row)
    count = -(-len(net.end_names) // ends_at_once(net, processes))
    return [
        Plan(net, places, [row for place in places.tolist() for row in rows.get(net.end_names[place], ())], spans)
        for places in numpy.array_split(numpy.arange(len(net.end_names)), -(-count // processes) * processes)
        if len(places)
    ]


def scaled(case: Case, per_cent: int) -> Case:
    """The case with so many per cent of its demand."""
    made = Case.of(case)
    made.demand = [replace(row, units=row.units * per_cent // 100) for row in case.demand]
    return made
