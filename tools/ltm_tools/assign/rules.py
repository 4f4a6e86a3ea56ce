"""Rules by which shares go over: a step, and how its size changes from iteration to iteration."""
from __future__ import annotations

from math import inf
from typing import NamedTuple

from .parts import Step
from .steps import averaged, stepped

SMALLER, LARGER, BACK = 0.7, 1.03, 0.3  # what a step's size is multiplied by
AGAIN = 1.4  # the same behind a gridlock, as long as iterations are better than those before them
Score = tuple[float, float]


class Sizes:
    """The size of steps: smaller behind an iteration whose score is not below that of both before it."""

    def __init__(self, size: float) -> None:
        self.size, self.is_cut, self.before = size, False, [(inf, inf)]

    def cut(self) -> None:
        """Makes the size much smaller, behind a step into a gridlock."""
        self.size *= BACK
        self.is_cut = True

    def anew(self) -> None:
        """Has the next score be the first."""
        self.before = [(inf, inf)]

    def after(self, score: Score) -> float:
        """The size behind an iteration with this score."""
        if score >= min(self.before[-2:]):
            self.size *= SMALLER
            self.is_cut = False
        elif len(self.before) > 1:
            self.size *= AGAIN if self.is_cut else LARGER
        self.before.append(score)
        return self.size


class Averages(Sizes):
    """The size 1 / (n + 1) behind iteration n, counted from 1 (the method of successive averages)."""

    def after(self, score: Score) -> float:
        self.before.append(score)
        return self.size / len(self.before)


class SelfRegulating(Sizes):
    """Averages whose divisor grows fast behind a worse iteration, and slowly behind a better one."""

    FAST, SLOW = 1.5, 0.1

    def __init__(self, size: float) -> None:
        super().__init__(size)
        self.divisor = 1.0

    def after(self, score: Score) -> float:
        self.divisor += self.FAST if score > self.before[-1] else self.SLOW
        self.before.append(score)
        return self.size / self.divisor


class Rule(NamedTuple):
    """How shares go over: a step, what changes its size, and the first size."""

    step: Step
    sizes: type[Sizes]
    size: float


METHODS = {
    "gradient": Rule(stepped, Sizes, 3.0),
    "averages": Rule(averaged, Averages, 1.0),
    "self-regulating": Rule(averaged, SelfRegulating, 1.0),
}
