"""The turns that a source allows, and how signals hold them."""
from __future__ import annotations

from collections.abc import Iterable, Mapping
from dataclasses import dataclass
from fractions import Fraction

from ...demand.cycles import Green
from .options import GapAcceptance

Pair = tuple[str, str]
"""A turn: the link by which it comes to a crossing, its approach, and that on which it goes on, its exit."""


@dataclass(frozen=True, slots=True)
class Held:
    """How a signal or a sign holds a turn. Greens count for the share of its lanes that have them."""

    protected: tuple[Green, ...] = ()
    """Greens in which it need not yield."""
    permitted: tuple[Green, ...] = ()
    """Greens in which it yields to other turns that have green as well."""
    opposing: tuple[Pair, ...] = ()
    """These other turns."""
    opposing_lanes: tuple[tuple[str, int], ...] = ()
    """Their lanes, each an approach and a number."""
    sign: GapAcceptance | None = None
    """Where no signal but a sign holds it, the gap by which it yields at all times."""

    @property
    def always(self) -> bool:
        """Whether it is always green and never yields."""
        whole = sum(
            (green.share for green in self.protected if green.to_ms - green.from_ms == green.cycle_ms), Fraction(0)
        )
        return whole >= 1


@dataclass(frozen=True, slots=True)
class Movement:
    """A turn that is allowed: the lanes of its approach that serve it, by number, and its signal or sign, where it has
    one; the vehicles that it lets pass in an hour, where that is told, and the time in ms that it takes more than its
    length."""

    approach: str
    exit: str
    lanes: tuple[int, ...] = ()
    held: Held | None = None
    capacity: Fraction | None = None
    penalty_ms: int = 0

    @property
    def pair(self) -> Pair:
        """Its approach and exit."""
        return self.approach, self.exit

    @property
    def sign(self) -> GapAcceptance | None:
        """The gap by which it yields at a sign, where it does."""
        return None if self.held is None else self.held.sign

    def through(self, lane: Fraction, saturation: Fraction | None) -> Fraction:
        """What one of its lanes lets through in an hour: as much as the road carries by `lane`, and at a stop line,
        where
        a signal or a sign holds it, at most the saturation."""
        return lane if self.held is None or saturation is None else min(lane, saturation)

    @property
    def is_plain(self) -> bool:
        """Whether it lets pass what its lanes do, in the time of its length."""
        return self.capacity is None and not self.penalty_ms


@dataclass(frozen=True)
class Movements:
    """The turns of a network by approach and exit; of each approach how many lanes it has, where that is known."""

    turns: Mapping[Pair, Movement]
    lanes: Mapping[str, int]

    def exits(self) -> dict[str, list[str]]:
        """Of each approach its exits, in the order of the turns."""
        made: dict[str, list[str]] = {}
        for approach, after in self.turns:
            made.setdefault(approach, []).append(after)
        return made

    def held(self) -> set[str]:
        """The approaches with a turn that a signal holds."""
        return {turn.approach for turn in self.turns.values() if turn.held is not None and turn.held.sign is None}

    def share(self, pair: Pair, lanes: Fraction | None = None) -> Fraction:
        """The part of its approach that a turn has with so many lanes, or with all that serve it; the whole of it where
        lanes are not known."""
        count = self.lanes.get(pair[0], 0)
        served = Fraction(len(self.turns[pair].lanes)) if lanes is None else lanes
        return served / count if count and served else Fraction(1)


def movements_of(turns: Iterable[Movement], lanes: Mapping[str, int]) -> Movements:
    """Turns by approach and exit."""
    return Movements({turn.pair: turn for turn in turns}, lanes)
