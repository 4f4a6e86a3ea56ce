"""A session whose rows of demand are edited, which gives what a loading counts, and its curves."""
from __future__ import annotations

import os
from collections.abc import Sequence
from fractions import Fraction
from typing import NamedTuple

import numpy

from ..assign.engine import Counts
from ..assign.settling import both_counts, shown_counts
from ..assign.net import Net, Truth, Whole
from ..case import Case
from ..counting.counts import Count, Timed
from ..counting.loaded import modelled_units
from ..errors import Fault
from ..loading.counts import Counts as Curve, counts_of
from ..loading.times import Path, at
from ..scenario import edits
from ..scenario.batches import in_batches
from ..scenario.edits import Edit
from ..scenario.open import OpenCase
from .capacities import WHOLE, Capacities

Program = str | os.PathLike[str] | None


class Hours(NamedTuple):
    """Of a loading: its vehicle time, what of it is in queues and waiting (units times ms), who has not arrived by the
    end, and all who set out (units)."""

    spent: int
    queued: int
    late: int
    produced: int


class Loaded(NamedTuple):
    """What a loading has at counts in units, and at times in seconds."""

    counts: tuple[int, ...]
    times: tuple[Fraction, ...]
    hours: Hours


class LinkCurves:
    """The curves of some links, as a session tells them."""

    def __init__(self, step_ms: int, boundaries: int) -> None:
        self.step_ms, self.boundaries = step_ms, boundaries
        self.of: dict[str, tuple[Whole, Whole]] = {}

    def up(self, link: str) -> Curve:
        """What has entered a link by each boundary."""
        return self.of[link][0]

    def down(self, link: str) -> Curve:
        """What has left it."""
        return self.of[link][1]

    def departed(self, node: str) -> Curve:
        """Nobody is asked for."""
        return numpy.zeros(self.boundaries, dtype=numpy.int64)


class Loader:
    """The loading of a case as its demand is told. It is a context manager."""

    def __init__(
        self,
        folder: str,
        counts: Sequence[Count],
        times: Sequence[Timed],
        paths: Sequence[Sequence[str]],
        program: Program,
        case: Case | None = None,
        capacities: Capacities | None = None,
    ) -> None:
        """`case` is what stands in the folder, where it is known already; `capacities` are those of its stop lines that
        may change."""
        self.counts, self.times, self.paths = counts, times, paths
        self.case = case or Case.read(folder)
        self.links = {link.name: link for link in self.case.links}
        self.order = {link.name: place for place, link in enumerate(self.case.links)}
        self.opened_with = numpy.array([row.units for row in self.case.demand], dtype=numpy.int64)
        self.now = self.opened_with.copy()
        self.capacities, self.unchanged = capacities, [WHOLE] * (0 if capacities is None else len(capacities.groups))
        self.factors = self.unchanged
        self.boundaries = self._boundaries()
        self.open = OpenCase(folder, program, again=self._again)
        self.loadings = 0

    def __enter__(self) -> Loader:
        return self

    def __exit__(self, *_: object) -> None:
        self.restart()

    def close(self) -> None:
        """Ends the session, of which nothing is wanted any more."""
        self.restart()

    stop = close

    def restart(self) -> None:
        """Ends the session, whatever it does; the next question opens another."""
        self.open.kill()

    def _boundaries(self) -> list[int]:
        """The boundaries at which counts are looked at."""
        step, slots, found = self.case.setup.step_ms, self.case.setup.slots, set()

        def look(name: str, is_exit: bool, moment: int) -> int:
            found.update({moment // step, min(slots, moment // step + 1)})
            return 0

        for count in self.counts:
            modelled_units(count, self.links, look)
        return sorted(found)

    def _edits(self, changed: Truth) -> list[Edit]:
        """Edits that set those rows which have changed, as they are now."""
        places = numpy.flatnonzero(changed)
        rows = zip([self.case.demand[place] for place in places.tolist()], self.now[places].tolist())
        return [edits.Demand(row.origin, row.destination, row.from_slot, row.to_slot, units) for row, units in rows]

    def _capacity_edits(self, before: Sequence[int]) -> list[Edit]:
        """Edits that set the capacities as they are now, from these factors on."""
        return [] if self.capacities is None else self.capacities.edits(before, self.factors)

    def _again(self) -> list[Edit]:
        """The edits that a session lacks which has just been opened."""
        return [*self._edits(self.now != self.opened_with), *self._capacity_edits(self.unchanged)]

    def load(self, units: Whole, factors: Sequence[int] | None = None) -> Loaded:
        """What the loading of these units by row has at the counts and times, with these factors of capacities in
        thousandths, by default those of now."""
        changed, before = units != self.now, self.factors
        self.now, self.factors = units.copy(), [*(before if factors is None else factors)]
        batches = list(in_batches([*self._edits(changed), *self._capacity_edits(before)]))
        self.loadings += 1

        def load() -> Loaded:
            for batch in batches:
                self.open.add(batch)
            self.open.settle()
            return self._loaded()

        return self.open.tried(load)

    def _loaded(self) -> Loaded:
        """What the loading that is shown has at the counts and times."""
        step, states = self.case.setup.step_ms, {k: self._state(k) for k in self.boundaries}

        def passed(name: str, is_exit: bool, moment: int) -> int:
            k, part = divmod(moment, step)
            place = self.order[name]
            one = int(states[k][is_exit][place])
            return one if not part else at([one, int(states[k + 1][is_exit][place])], step, part)

        found = tuple(modelled_units(count, self.links, passed) for count in self.counts)
        told, totals = self.open.session.delay(), self.open.session.totals()
        late = totals.on_links + totals.waiting
        hours = Hours(told.spent, told.queued + told.waited, late, totals.generated)
        return Loaded(found, self._times(), hours)

    def _state(self, boundary: int) -> tuple[Whole, Whole]:
        """What has entered each link by a boundary, and left it."""
        answer = self.open.session.answer(do="state", slot=boundary)
        entered, _, rest = answer.partition(" in ")[2].partition(" out ")
        left = rest.partition(" queue ")[0]
        found = counts_of(entered.encode()), counts_of(left.encode())
        if any(counts is None or len(counts) != len(self.order) for counts in found):
            raise Fault(f"the program answers {answer[:60]!r} to state, which is no state of this case")
        return found[0], found[1]  # type: ignore[return-value]

    def _times(self) -> tuple[Fraction, ...]:
        """How long measured routes take; where that is not before the end, the rest of the horizon."""
        slots, step = self.case.setup.slots, self.case.setup.step_ms
        asked, net = LinkCurves(step, slots + 1), Width(slots)
        for name in sorted({name for path in self.paths for name in path}):
            answer = self.open.session.answer(do="curve", link=name)
            asked.of[name] = both_counts(answer, "out", net)  # type: ignore[arg-type]
        found = []
        for one, path in zip(self.times, self.paths):
            total = Path(asked, self.case, path, wait=False).trip(one.departs).total  # type: ignore[arg-type]
            found.append(Fraction(slots * step - one.departs if total is None else total, 1000))
        return tuple(found)

    def curves(self, net: Net) -> Counts:
        """The counts of the loading that is shown, of all links and origins."""
        return self.open.tried(lambda: shown_counts(self.open, net))


class Width(NamedTuple):
    """How many slots a curve has."""

    slots: int
