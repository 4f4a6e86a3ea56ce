"""Spans of slots in which shares stay the same, one after the other over the whole horizon."""
from __future__ import annotations

from collections.abc import Iterable

import numpy

from .net import Whole, whole_array


class Spans:
    """Spans by the slots at which they begin; the first begins at 0, and each ends where the next begins."""

    def __init__(self, starts: Iterable[int], slots: int) -> None:
        """Starts behind the horizon are passed over."""
        self.starts = whole_array(sorted({0, *(start for start in starts if 0 < start < slots)}))
        self.slots = slots
        self.ends: Whole = numpy.append(self.starts[1:], slots)
        self.lengths: Whole = self.ends - self.starts
        self.of: Whole = numpy.repeat(numpy.arange(len(self.starts)), self.lengths)  # the span of each slot

    @classmethod
    def by_period(cls, slots: int, period: int, cuts: Iterable[int] = ()) -> "Spans":
        """Periods of so many slots, the last perhaps shorter, cut where further slots say."""
        return cls([*range(0, slots, period), *cuts], slots)

    def __len__(self) -> int:
        return len(self.starts)

    def at(self, slot: int) -> int:
        """The span of a slot; the last for slots behind the horizon."""
        return int(self.of[min(slot, self.slots - 1)])
