"""Rounds of an assignment: between them turns that yield get their part of the green anew, by the traffic that the best
shares so far lead to."""
from __future__ import annotations

import os
from collections.abc import Iterator, Sequence

from ..case import Case, Split
from ..errors import Fault
from ..formats import MINUTE_MS
from ..network.crossings.options import CrossingOptions
from ..network.crossings.recount import by_volumes, yielding
from ..network.crossings.turn import Turn
from ..network.crossings.turns_file import Turns, read_turns
from ..network.crossings.volumes import Volumes
from .assigning import Assignment, Iteration, AssignOptions
from .net import Net, Whole


class Rounds:
    """An assignment in so many rounds, and what the last one has come to."""

    def __init__(
        self,
        case: Case,
        options: AssignOptions,
        splits: list[Split] | None = None,
        rounds: int = 1,
        turns: Sequence[Turn] = (),
    ) -> None:
        """The turns are those of the case, which rounds behind the first count."""
        self.rounds, self.turns = rounds, turns
        self.assignment = Assignment(case, options, splits)
        self.counted: Turns | None = None  # the turns by their vehicles, behind the first round
        self.round, self.first = 1, 0  # the round that this is of, and its first iteration

    @property
    def best_one(self) -> Iteration | None:
        """The best iteration of the last round."""
        best = self.assignment.best_one
        return None if best is None else self._of_all(best)

    def _of_all(self, one: Iteration) -> Iteration:
        """An iteration of this round, numbered through all."""
        return one._replace(number=self.first + one.number, round=self.round)

    def run(self, program: str | os.PathLike[str] | None = None) -> Iterator[Iteration]:
        """Each iteration as it is done, numbered through all rounds."""
        first, following, counted = 0, self.assignment, self.counted
        for round_ in range(1, self.rounds + 1):
            for one in following.run(program):
                self.assignment, self.counted, self.round, self.first = following, counted, round_, first
                last = self._of_all(one)
                yield last
            first = last.number + 1
            if round_ < self.rounds:
                following, counted = self._following()

    def _following(self) -> tuple[Assignment, Turns]:
        """The assignment from the best shares, the turns counted in their loading, and these turns."""
        before = self.assignment
        assert before.kept.left is not None, "each round has an iteration"
        volumes = volumes_of(before.net, before.kept.left, CrossingOptions.slice_minutes * MINUTE_MS)
        made = by_volumes(before.best_case(), self.turns, volumes)
        return Assignment(made.case, before.options), made.turns


def turns_that_yield(folder: str | os.PathLike[str], case: Case) -> list[Turn]:
    """The turns of the case of a folder; a Fault where none yields by gaps."""
    turns = read_turns(folder, {link.name: link for link in case.links})
    if not yielding(turns):
        raise Fault(f"{os.fspath(folder)}: no turn yields by gaps, so that further rounds change nothing")
    return turns


def volumes_of(net: Net, left: Whole, slice_ms: int) -> Volumes:
    """What leaves links in each slice, by what has left them by each boundary."""
    made = Volumes(slice_ms)
    for number, begin in enumerate(range(0, net.slots * net.step, slice_ms)):
        first, end = (min(-(-moment // net.step), net.slots) for moment in (begin, begin + slice_ms))
        units = left[end] - left[first]
        for place in units.nonzero()[0].tolist():
            made.counts.setdefault(net.names[place], {})[number] = int(units[place])
            made.slices = number + 1
    return made
