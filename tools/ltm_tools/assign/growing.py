"""How much of the demand is loaded next, where all of it at once leads to a gridlock."""
from __future__ import annotations

LOADINGS = 4  # how often a part of the demand is loaded at most


class Grown:
    """How much of the demand is loaded next, in per cent, where all of it at once leads to a gridlock: half of it, more
    where that has been free, and half way back where it has not."""

    MORE, LEAST = 10, 3

    def __init__(self) -> None:
        self.free = 0  # what has been free
        self.locked: int | None = None  # what has locked since
        self.left = 0  # iterations

    def found(self, part: int, locks: bool, left: int) -> None:
        """Takes in whether a part has locked, and how many iterations are left."""
        self.left = left
        self.free, self.locked = (self.free, part) if locks else (part, None)

    def next(self) -> int:
        """The part to load next; 100 where it is all of the demand, or no part helps."""
        if self.locked is None:
            return min(100, self.free + self.MORE)
        helps = self.left > 2 * LOADINGS and self.locked - self.free > self.LEAST
        return (self.free + self.locked) // 2 if helps else 100
