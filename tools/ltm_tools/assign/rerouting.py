"""How those choose anew who would pass a closed road: loading after loading, only the destinations that pass it."""
from __future__ import annotations

import os
from collections.abc import Callable, Iterator, Sequence
from contextlib import contextmanager
from math import inf

import numpy

from ..case import Case, Limit
from ..errors import Fault
from ..formats import MINUTE_MS
from ..scenario import edits
from ..scenario.edits import Edit
from ..scenario.rows import OwnRows
from .assigning import LOST, AssignOptions, plans_of
from .closure import ALL, MOMENT, NOBODY, Closure, Cost, Passed, Response, lacking_rows
from .engine import Counts, Engine
from .engines import engine_of
from .gaps import together
from .labels import Labels
from .leading import circling
from .looking import Look, Looker
from .net import WHOLE, Net, Real, Truth, Whole
from .parts import Part, Plan
from .passing import at_nodes, best_now, destinations_by, leading_to, taken_by, times_now
from .regret import lost_times, total_regret
from .rules import Sizes
from .shares import Pair, PairRows, RowShares, check_ways, free_flow, rounded, rows_of
from .spans import Spans
from .steps import Traffic, stepped

Done = Callable[[int], object]
Program = str | os.PathLike[str] | None


class Base:
    """A case with shares from which closures are looked at."""

    def __init__(self, case: Case, options: AssignOptions) -> None:
        if case.splits is None:
            raise Fault("the case has no splits.csv: `ltm-tools assign` finds one")
        self.case, self.options = case, options
        self.period = options.slots(case)
        self.net = Net(case)
        check_ways(self.net)
        self.looker, self.limits = Looker(self.net), OwnRows(case)
        self.splits = case.standing_splits()
        self.seen: dict[tuple[int, ...], tuple[int, Real, Whole]] = {}
        self.own: dict[Pair, PairRows] = {}
        for row in sorted(self.splits, key=lambda row: row.from_slot):
            self.own.setdefault((row.node, row.destination), []).append((row.from_slot, dict(row.weights)))
        self.free = rows_of(self.net, rounded(self.net, free_flow(self.net))[None], [0])
        self.all = {**self.free, **self.own}  # nobody comes where the case has no rows, so these change nothing

    def engine(self, program: Program) -> Engine:
        """An engine with the case as it is."""
        return engine_of(self.net, RowShares(self.all), program)

    def parts(self, spans: Spans) -> list[Part]:
        """All destinations with the shares of the case."""
        return [plan.part() for plan in plans_of(self.net, self.splits, spans)]

    def look(self, first: int, end: int, program: Program) -> tuple[Look, list[Passed]]:
        """The loading without a closure, and what enters each link in these slots, the busiest first."""
        self.looker.shut([])
        with self.engine(program) as engine:
            counts, (spent, not_there) = engine.counts(), engine.spent()
        times = self.looker.times(counts)
        told = [part.look(times) for part in self.parts(Spans.by_period(self.net.slots, self.period))]
        look = Look(
            spent,
            not_there,
            sum(regret for of_part in told for regret in of_part.regrets),
            together([gap for of_part in told for gap in of_part.gaps]),
        )
        passed = (counts.entered[end] - counts.entered[first]).tolist()
        order = {link.name: place for place, link in enumerate(self.case.links)}
        busiest = sorted(zip(self.net.names, passed), key=lambda link: (-link[1], order[link[0]]))
        return look, [Passed(*link) for link in busiest]

    def costs(self, closure: Closure, informed: Sequence[int], program: Program) -> list[Cost]:
        """The effect of a closure with each of these per cent informed."""
        with self.engine(program) as engine:
            closed = Closed(self, engine, closure)
            found = {share: closed.cost(share)[0] for share in sorted(set(informed))}
        return [found[share] for share in informed]

    def response(self, closure: Closure, informed: int, program: Program, done: Done) -> Response:
        """The effect of a closure with so many per cent informed, and their edits."""
        with self.engine(program) as engine:
            closed = Closed(self, engine, closure)
            cost, rows = closed.cost(informed, done)
        return Response(cost, self.edits(rows), closed.open)

    def opened(self, engine: Engine, spans: Spans) -> tuple[int, Real, Whole]:
        """The total travel time without a closure, what comes to each node in each span for each destination, and the
        weights of all; worked out once for the same spans."""
        key = tuple(spans.starts.tolist())
        if key not in self.seen:
            self.looker.shut([])
            times, parts = self.looker.times(engine.counts()), self.parts(spans)
            flow = [numpy.add.reduceat(part.flow(times), spans.starts, axis=0) for part in parts]
            weights = numpy.concatenate([part.weights for part in parts], axis=2)
            self.seen[key] = engine.spent()[0], numpy.concatenate(flow, axis=2), weights
        return self.seen[key]

    def edits(self, changed: dict[Pair, PairRows]) -> list[Edit]:
        """Edits that set these rows, behind those of nodes without one to which they lead."""
        net, free = self.net, self.free
        places = {name: place for place, name in enumerate(net.node_names)}
        ends = {name: place for place, name in enumerate(net.end_names)}
        lacking = sorted(
            lacking_rows(self.case, changed, free, self.own),
            key=lambda pair: int(net.free_time[places[pair[0]], ends[pair[1]]]),
        )
        return [
            edits.Splits(*pair, tuple(rows))
            for pair, rows in (*((pair, free[pair]) for pair in lacking), *changed.items())
        ]


class Closed:
    """A closure in a session: who would pass the road, and what the session shows with it."""

    def __init__(self, base: Base, engine: Engine, closure: Closure) -> None:
        self.base, self.engine, self.closure, self.net = base, engine, closure, base.net
        self.spans = self._spans(base.period)
        self.open, flow, weights = base.opened(engine, self.spans)
        self.link = self.net.place[closure.link]
        self.places = destinations_by(self.net, flow, weights, self.link, self._window(self.spans))
        others = numpy.setdiff1d(numpy.arange(len(self.net.end_names)), self.places)
        self.others = flow[:, :, others].sum(axis=2)  # what comes to nodes for destinations that do not pass
        self.close()
        self.nobody = engine.counts()
        self.spent, self.not_there = engine.spent()

    def _spans(self, period: int) -> Spans:
        """Periods, cut where the closure begins and ends, and within it where the case has rows."""
        first, end = self.closure.first, self.closure.end
        cuts = {row.from_slot for row in self.base.splits if first < row.from_slot < end}
        return Spans.by_period(self.net.slots, period, [first, end, *cuts])

    def _window(self, spans: Spans) -> slice:
        """The spans in which the road is closed."""
        first, end = (int(numpy.searchsorted(spans.starts, slot)) for slot in self.closure[1:])
        return slice(first, end)

    def close(self) -> None:
        """Closes the road."""
        self.base.looker.shut([Limit(*self.closure, 0)])
        self.engine.limit(edits.Limit(*self.closure, 0))

    @contextmanager
    def opened(self) -> Iterator[None]:
        """Opens the road for a while."""
        for edit in edits.Limit(*self.closure, 0).back(self.base.limits) or ():
            self.engine.limit(edit)
        try:
            yield
        finally:
            self.close()

    def cost(self, share: int, done: Done = lambda _: None) -> tuple[Cost, dict[Pair, PairRows]]:
        """The effect with so many per cent informed, and the rows that they change."""
        if share == NOBODY or not len(self.places):
            return Cost(share, self.spent, self.not_there, 0.0, 0, self.open), {}
        found: Moment | Learning = Moment(self, done) if share == MOMENT else Learning(self, share, done)
        with self.opened():
            self.engine.tell(RowShares({**self.base.all, **found.rows}))
            self.engine.counts()
            alone = self.engine.spent()[0]
        self.engine.tell(RowShares(self.base.all))
        spent, not_there = found.spent
        return Cost(share, spent, not_there, found.regret, found.iteration, alone), found.rows

    def part(self, spans: Spans) -> Part:
        """The destinations that pass, with the shares of the case."""
        return Plan(self.net, self.places, self.base.splits, spans).part()

    def rows(self, part: Part, weights: Whole) -> dict[Pair, PairRows]:
        """The rows of pairs whose weights are others than those of the case while the road is closed: before and behind
        they are those of the case."""
        window, first, end = self._window(part.spans), self.closure.first, self.closure.end
        starts = part.spans.starts[window].tolist()
        ours, theirs = (rows_of(part.net, of[window], starts) for of in (weights, part.weights))
        found: dict[Pair, PairRows] = {}
        for pair, rows in ours.items():
            if rows == theirs[pair]:
                continue
            own = self.base.own.get(pair) or [(0, theirs[pair][0][1])]
            standing = [row for row in own if row[0] <= end]
            later = [row for row in own if row[0] > end]
            behind = [(end, standing[-1][1])] if end < self.net.slots else []
            found[pair] = [*(row for row in own if row[0] < first), *rows, *behind, *later]
        return found

    def tell(self, rows: dict[Pair, PairRows]) -> tuple[Counts, tuple[int, int]]:
        """The loading with these rows in place of the case's."""
        self.engine.tell(RowShares({**self.base.all, **rows}))
        return self.engine.counts(), self.engine.spent()


class Learning:
    """Informed drivers of a share, who learn which links are best: the loading with the fewest vehicles that have not
    arrived, and of several that with the least travel time. One into a gridlock is undone."""

    def __init__(self, closed: Closed, share: int, done: Done) -> None:
        self.closed, self.share, self.part = closed, share, closed.part(closed.spans)
        self.window, self.size = closed._window(closed.spans), closed.base.options.rule.size
        self.may = at_nodes(self.part.net, leading_to(self.part.net, self.part.weights, closed.link))
        self.may[: self.window.start] = self.may[self.window.stop :] = False
        self.spent: tuple[int, int] = (closed.spent, closed.not_there)
        self.regret, self.iteration = 0.0, 0
        self.rows: dict[Pair, PairRows] = {}
        self._learn(closed.base.options.iterations, done)

    def _learn(self, iterations: int, done: Done) -> None:
        """Loads as often as is wanted, and keeps the best."""
        weights, sizes, best = self.part.weights, Sizes(self.size), (inf, inf)
        labels, traffic = self._looked(self.closed.nobody, weights)
        score: tuple[float, float] = (self.spent[1] // WHOLE, self.spent[0])
        kept = weights, labels, traffic
        for iteration in range(iterations):
            done(iteration)
            weights = self._stepped(weights, labels, traffic, sizes.after(score))
            mixed = self._mixed(weights)
            rows = self.closed.rows(self.part, mixed)
            counts, spent = self.closed.tell(rows)
            labels, traffic = self._looked(counts, mixed)
            score = spent[1] // WHOLE, spent[0]
            if score < best:
                best, kept = score, (weights, labels, traffic)
                self.rows, self.spent, self.iteration = rows, spent, iteration + 1
                lost = lost_times(self.part.net, labels, weights)[self.window]
                self.regret = total_regret(lost) * self.share / ALL
            elif spent[0] > LOST * self.spent[0]:
                sizes.cut()
                weights, labels, traffic = kept

    def _stepped(self, weights: Whole, labels: Labels, traffic: Traffic, size: float) -> Whole:
        """The weights of the informed after a step."""
        made = rounded(self.part.net, stepped(self.part.net, labels, weights, traffic, size, may=self.may))
        return numpy.where(self.may.any(axis=1, keepdims=True), made, self.part.weights)

    def _mixed(self, weights: Whole) -> Whole:
        """The weights of all, where the informed have these."""
        informed, others = self.share * weights, (ALL - self.share) * self.part.weights
        return rounded(self.part.net, (informed + others) / (ALL * WHOLE))

    def _looked(self, counts: Counts, mixed: Whole) -> tuple[Labels, Traffic]:
        """The labels of a loading, and its traffic."""
        closed, part = self.closed, self.part
        own, part.weights = part.weights, mixed
        told = part.look(closed.base.looker.times(counts))
        part.weights = own
        flow = closed.others + told.flow.sum(axis=2)
        room = closed.base.looker.room(part.spans)
        assert part.labels is not None, "it has just been looked at"
        return part.labels, Traffic(flow, room, part.spans.lengths * closed.net.step)


class Moment:
    """Drivers who choose each by the times of now: minute after minute, by the loading up to then."""

    EACH_MS = MINUTE_MS

    def __init__(self, closed: Closed, done: Done) -> None:
        each = max(1, self.EACH_MS // closed.net.step)
        spans = closed._spans(closed.base.period)
        within = range(closed.closure.first, closed.closure.end, each)
        self.part = closed.part(Spans([*spans.starts.tolist(), *within], closed.net.slots))
        self.spent, self.regret = (closed.spent, closed.not_there), 0.0
        self.rows: dict[Pair, PairRows] = {}
        may = leading_to(self.part.net, self.part.weights, closed.link)
        weights, counts, self.iteration = self.part.weights, closed.nobody, 0
        window = closed._window(self.part.spans)
        for span in range(window.start, window.stop):
            done(self.iteration)
            times = times_now(closed.net, counts, int(self.part.spans.starts[span]))
            weights = self._chosen(weights, span, may, best_now(self.part.net, times, closed.link))
            rows = closed.rows(self.part, weights)
            counts, self.spent = closed.tell(rows)
            self.rows, self.iteration = rows, self.iteration + 1

    def _chosen(self, weights: Whole, span: int, may: Truth, best: Whole) -> Whole:
        """The weights with those of a span by the best links of the moment, where no loop arises."""
        net, found = self.part.net, weights.copy()
        shares: Real = weights[span] / WHOLE
        made = rounded(net, taken_by(net, shares, may[span], best))
        loops = circling(net, made[None])[0][net.group]
        found[span] = numpy.where(loops, weights[span], made)
        return found
