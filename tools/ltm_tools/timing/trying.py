"""Timings of junctions tried in sessions of a case: each has the limits of all turns by slot, and a try changes
those that differ."""
from __future__ import annotations

import os
import queue
from collections.abc import Callable, Iterable, Mapping, Sequence
from concurrent.futures import ThreadPoolExecutor
from fractions import Fraction
from types import TracebackType

from ..case import Case, Limit
from ..network.crossings.limits import turn_limits
from ..network.crossings.volumes import Volumes
from ..scenario.batches import in_batches
from ..scenario.edits import NO_LIMIT, Edit, Exit, by_slot, runs
from ..scenario.open import OpenCase
from ..sweep.here import close_all
from .stages import Junction, Timing

Plan = Mapping[str, Timing]
"""A timing of each junction, by name."""


class Limits:
    """The exit limits that timings make, of each link slot by slot, with a part less than stop lines let through where
    one is held in reserve."""

    def __init__(
        self, case: Case, junctions: Iterable[Junction], volumes: Volumes, reserve: Fraction = Fraction(0)
    ) -> None:
        self.setup, self.volumes, self.reserve = case.setup, volumes, reserve
        self.links = {link.name: link for link in case.links}
        self.junctions = {one.name: one for one in junctions}
        self.known: dict[tuple[str, Timing], dict[str, list[int]]] = {}

    def of(self, name: str, timing: Timing) -> dict[str, list[int]]:
        """What may leave each turn of a junction in each slot."""
        key = name, timing
        if key not in self.known:
            if len(self.known) > 16 * len(self.junctions):
                self.known.clear()
            turns = self.junctions[name].turns_by(timing)
            rows = turn_limits(turns, self.volumes, self.links, self.setup)
            own: dict[str, list[Limit]] = {turn.link: [] for turn in turns}
            for row in rows:
                own[row.link].append(row)
            limits = {link: by_slot(of, 0, self.setup.slots) for link, of in own.items()}
            if less := self.reserve + timing.less:
                step_ms = self.setup.step_ms
                limits = {link: lowered(of, self.links[link].capacity(step_ms), less) for link, of in limits.items()}
            self.known[key] = limits
        return self.known[key]

    def judged(self, case: Case, plan: Plan) -> Case:
        """A case whose turns have the limits of a plan; it is changed itself."""
        own = {turn.link for one in self.junctions.values() for turn in one.turns}
        case.signals = [limit for limit in case.signals if limit.link not in own]
        for name, timing in plan.items():
            for link, limits in self.of(name, timing).items():
                rows = (Limit(link, *row) for row in runs(limits, 0))
                case.signals += [row for row in rows if row.units < NO_LIMIT]
        return case

    def edits(self, before: Plan, after: Plan) -> list[Edit]:
        """The edits that bring one plan to another."""
        made: list[Edit] = []
        for name, timing in after.items():
            if timing != before[name]:
                had = self.of(name, before[name])
                for link, wanted in self.of(name, timing).items():
                    made += changes(link, had[link], wanted)
        return made


def lowered(limits: Iterable[int], road: int, part: Fraction) -> list[int]:
    """What a link lets through in each slot, by limits and by what its road carries, less such a part, rounded down."""
    kept = 1 - part
    return [min(units, road) * kept.numerator // kept.denominator for units in limits]


def changes(link: str, had: Sequence[int], wanted: Sequence[int]) -> list[Edit]:
    """The edits that set limits of a link by slot where they differ."""
    marked = (units if units != before else -1 for before, units in zip(had, wanted))
    return [Exit(link, first, end, units) for first, end, units in runs(marked, 0) if units >= 0]


class Trier:
    """A session of a case whose turns have the limits of a plan."""

    def __init__(
        self, folder: str | os.PathLike[str], program: str | os.PathLike[str] | None, limits: Limits, plan: Plan
    ) -> None:
        self.limits, self.files, self.has = limits, dict(plan), dict(plan)
        self.open = OpenCase(folder, program, again=lambda: self.limits.edits(self.files, self.has))

    def spent(self, plan: Plan) -> int:
        """The total travel time of a plan, in units times ms."""

        def work() -> int:
            for batch in in_batches(self.limits.edits(self.has, plan)):
                self.open.add(batch)
            self.open.settle()
            self.has = dict(plan)
            return self.open.session.delay().spent

        return self.open.tried(work)

    def close(self) -> None:
        """Ends the session."""
        self.open.close()

    def stop(self) -> None:
        """Ends the session at once, whatever it does, and opens none again; another thread may be asking it."""
        self.open.stop()


class Triers:
    """Several sessions of a case that try plans side by side. It is a context manager."""

    def __init__(self, make: Callable[[], Trier], count: int) -> None:
        self.idle: queue.SimpleQueue[Trier] = queue.SimpleQueue()
        self.all = [make() for _ in range(count)]
        for one in self.all:
            self.idle.put(one)
        self.pool = ThreadPoolExecutor(count)
        self.tries = 0

    def __enter__(self) -> Triers:
        return self

    def __exit__(
        self, kind: type[BaseException] | None, error: BaseException | None, trace: TracebackType | None
    ) -> None:
        if kind is not None:
            for one in self.all:
                one.stop()
        self.pool.shutdown(cancel_futures=True)
        if kind is None:
            close_all(self.all)

    def spent(self, plans: Sequence[Plan]) -> list[int]:
        """The total travel time of each plan, in order."""
        self.tries += len(plans)
        return list(self.pool.map(self._spent, plans))

    def _spent(self, plan: Plan) -> int:
        one = self.idle.get()
        try:
            return one.spent(plan)
        finally:
            self.idle.put(one)
