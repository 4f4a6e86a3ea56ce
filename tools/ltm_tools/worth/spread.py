"""The worth of the capacity of many links, by several sessions here or on a cluster of Dask."""
from __future__ import annotations

import os
from collections.abc import Iterator, Sequence
from dataclasses import dataclass
from fractions import Fraction

from ..program import find_program
from ..sweep.cluster import in_worker, kept_of, spread
from ..sweep.here import in_sessions
from .trials import Trials
from .weighing import Weighed, Worth, scan, weigh

Asked = tuple[int, int, Fraction]
"""The first slot, the one that ends them, and the part of a capacity that is tried."""


def worth_of(trials: Trials, one: str | Weighed, asked: Asked) -> Worth:
    """What a session says of a link: all of its worth, or of one that has a name alone what more capacity saves."""
    return scan(trials, one, *asked) if isinstance(one, str) else weigh(trials, one, *asked)


def worth_in_worker(one: str | Weighed, files: dict[str, bytes], key: str, program: str, asked: Asked) -> Worth:
    """In a worker: what the session that is open there says of a link."""
    return in_worker(lambda: worth_of(kept_of(files, key, program, Trials), one, asked))


@dataclass(frozen=True)
class Sessions:
    """So many sessions of a case on this machine, or the workers of a scheduler."""

    folder: str
    program: str | os.PathLike[str] | None
    count: int = 1
    scheduler: str | None = None

    def worths(self, links: Sequence[str | Weighed], asked: Asked) -> Iterator[Worth]:
        """The worth of each of these links, in order."""
        if self.scheduler is not None:
            named = None if self.program is None else str(self.program)
            return spread(self.scheduler, self.folder, named, worth_in_worker, links, (asked,))
        path = find_program(self.program)
        return in_sessions(
            lambda: Trials(self.folder, path), lambda trials, one: worth_of(trials, one, asked), links, self.count
        )
