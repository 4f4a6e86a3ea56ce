"""What a session of a case says of changes, one after another, each made of the case as its files have it."""
from __future__ import annotations

import os
from collections.abc import Mapping, Sequence
from dataclasses import dataclass
from functools import cached_property

from ..case import Case
from ..loading.answers import Settled
from ..scenario.batches import in_batches
from ..scenario.edits import Edit
from ..scenario.open import OpenCase
from ..scenario.session import Refused

LINES = 4  # of a session that an answer takes beside its batches


@dataclass(frozen=True)
class Effect:
    """What a change adds to the total travel time and to the delay, in units times ms, and to those that arrive, in
    units."""

    spent: int
    delay: int
    arrived: int

    def since(self, base: Effect) -> Effect:
        """What was added since."""
        return Effect(self.spent - base.spent, self.delay - base.delay, self.arrived - base.arrived)


class Trials:
    """A session of a case that tries changes."""

    def __init__(self, folder: str | os.PathLike[str], program: str | os.PathLike[str] | None) -> None:
        self.open = OpenCase(folder, program)
        self._shown: tuple[int, Effect] | None = None  # the last sums, and how many sessions there were by then

    @property
    def case(self) -> Case:
        """The case as its files have it."""
        return self.open.case

    @cached_property
    def base(self) -> Effect:
        """The total travel time, the delay and the arrivals of the case as it is."""
        return self.open.tried(lambda: self._sums(()))

    @cached_property
    def delays(self) -> Mapping[str, int]:
        """The delay of each link and origin of the case as it is, where there is some, in units times ms: by name, of
        an origin by its node in brackets."""
        return self.open.tried(lambda: self._delays(()))

    def effect(self, edits: Sequence[Edit]) -> Effect | None:
        """The effect of edits; None where the program refuses them."""
        base = self.base
        try:
            return self.open.tried(lambda: self._sums(edits)).since(base)
        except Refused:
            return None

    def moved(self, edits: Sequence[Edit]) -> dict[str, int]:
        """What edits add to the delay of each link and origin for which it changes. It costs no settle directly after
        the effect of the same edits."""
        base, found = self.delays, self.open.tried(lambda: self._delays(edits))
        names = dict.fromkeys([*base, *found])
        return {name: change for name in names if (change := found.get(name, 0) - base.get(name, 0))}

    def _sums(self, edits: Sequence[Edit]) -> Effect:
        """The sums of the loading that edits of the case leave. Where a settle has recomputed nothing they are as they
        were."""
        settled = self._have(edits)
        if not settled.recomputed and self._shown is not None and self._shown[0] == self.open.opened:
            return self._shown[1]
        delay, totals = self.open.session.delay(), self.open.session.totals()
        found = Effect(delay.spent, delay.queued + delay.waited, totals.arrived)
        self._shown = self.open.opened, found
        return found

    def _delays(self, edits: Sequence[Edit]) -> dict[str, int]:
        if self._have(edits).recomputed:
            self._shown = None
        found = self.open.session.delays()
        links = {name: link.queued for name, link in found.links.items() if link.queued}
        return links | {f"({name})": node.waited for name, node in found.nodes.items() if node.waited}

    def _have(self, edits: Sequence[Edit]) -> Settled:
        """Shows the loading that edits of the case leave."""
        self.open.have(list(in_batches(edits)), LINES)
        return self.open.settle()

    def busiest(self, link: str) -> tuple[int, int]:
        """The slot of the case in which most leaves a link, the first of them, and how much."""
        left = self.open.tried(lambda: self._left(link))
        flows = [after - before for before, after in zip(left, left[1:])]
        return max(enumerate(flows), key=lambda flow: flow[1])

    def _left(self, link: str) -> Sequence[int]:
        """What has left a link of the case by each boundary."""
        if self._have(()).recomputed:
            self._shown = None
        return self.open.session.curve(link).left

    def close(self) -> None:
        """Ends the session."""
        self.open.close()

    def stop(self) -> None:
        """Ends the session at once, whatever it does, and opens none again; another thread may be asking it."""
        self.open.stop()
