"""An approach of a junction without lights whose turns share its lanes: what a lane lets pass, and how long its
vehicles wait in the mean, by the Highway Capacity Manual."""
from __future__ import annotations

import math
from collections.abc import Collection, Mapping
from dataclasses import dataclass
from fractions import Fraction

from . import gaps
from .gaps import LEAST_FACTOR
from .movements import Movement, Pair
from .volumes import Volumes

PERIOD_H = 0.25  # of the manual's formula of delay
SLOWING_S = 5.0
"""What the manual adds to the wait of who yields, for slowing down and speeding up."""


def part_that_yields(movement: Movement) -> float:
    """The part of a turn's lanes that yields at a sign."""
    if movement.held is None or movement.sign is None:
        return 0.0
    return float(sum((green.share for green in movement.held.permitted), Fraction(0)))


@dataclass(frozen=True)
class Approach:
    """The turns of an approach, its lanes, and what a lane lets pass in a second where it need not yield; with the
    traffic by the names of turns."""

    turns: list[Movement]
    lanes: int
    most: float
    volumes: Volumes
    names: Mapping[Pair, str]

    @property
    def name(self) -> str:
        """Its link."""
        return self.turns[0].approach

    @property
    def yields(self) -> bool:
        """Whether one of its turns yields at a sign."""
        return any(part_that_yields(turn) for turn in self.turns)

    def units(self, turn: Movement, number: int) -> int:
        """The thousandths of vehicles of a turn in a slice."""
        return self.volumes.counts.get(self.names[turn.pair], {}).get(number, 0)

    def parts(self, number: int) -> list[float]:
        """The part of each turn in the vehicles of a slice; where there are none, in those of all, or even parts."""
        counts = [self.units(turn, number) for turn in self.turns]
        if not sum(counts):
            counts = [self.volumes.whole(self.names[turn.pair]) for turn in self.turns]
        whole = sum(counts)
        return [count / whole if whole else 1 / len(counts) for count in counts]

    def flow(self, turns: Collection[Pair], number: int) -> float:
        """The vehicles a second of some turns together in a slice; a turn that is given twice counts twice."""
        return self.volumes.flow([self.names[pair] for pair in turns if pair in self.names], number)

    def through_gaps(self, turn: Movement, number: int, twice: Collection[Pair] = ()) -> float:
        """The vehicles a second of a lane that find gaps in the traffic to which a turn yields at a sign, in which some
        turns count twice."""
        if turn.held is None or turn.sign is None:
            return self.most
        against = [*turn.held.opposing, *(pair for pair in turn.held.opposing if pair in twice)]
        return gaps.capacity(self.flow(against, number), turn.sign)

    def turn_capacity(self, turn: Movement, through: float) -> float:
        """The vehicles a second of a lane that take a turn, of which so many pass where they yield."""
        part = part_that_yields(turn)
        return max(self.most * float(LEAST_FACTOR), (1 - part) * self.most + part * min(self.most, through))

    def by_gaps(self, number: int) -> dict[Pair, float]:
        """The vehicles a second of a lane that take each turn in a slice, by gaps alone."""
        return {turn.pair: self.turn_capacity(turn, self.through_gaps(turn, number)) for turn in self.turns}

    def lane_capacity(self, number: int, capacities: Mapping[Pair, float]) -> float:
        """The vehicles a second of a lane that its turns share, by what it lets take each."""
        return 1 / sum(part / capacities[turn.pair] for part, turn in zip(self.parts(number), self.turns) if part)

    def wait(self, number: int, capacity: float) -> float:
        """The mean wait of a vehicle in seconds on a lane that lets so many vehicles a second pass, beside that in a
        queue that stands."""
        flow = self.flow([turn.pair for turn in self.turns], number) / self.lanes
        yielding = sum(part * part_that_yields(turn) for part, turn in zip(self.parts(number), self.turns))
        others = (1 - yielding) * mean_wait(
            flow, self.most
        )  # the time in which they follow one another, which is no wait
        return max(0.0, mean_wait(flow, capacity) - others) + SLOWING_S * yielding


def mean_wait(flow: float, capacity: float) -> float:
    """The manual's mean wait in seconds at the head of a lane and behind others who come at random, without the queue
    that grows while more come than pass; flows are in vehicles a second."""
    load = flow / capacity
    root = math.sqrt((load - 1) ** 2 + load / capacity / (450 * PERIOD_H))
    return 1 / capacity + 900 * PERIOD_H * (load - 1 + root) - 1800 * PERIOD_H * max(0.0, load - 1)
