"""Lanes that turns share: of each lane a turn has the part of the time that its vehicles take there.

That is right for the routes that were counted alone. Where routes change, a turn that got little would stand in a jam.
"""
from __future__ import annotations

from collections.abc import Iterable, Mapping
from fractions import Fraction

from .movements import Movements, Pair
from .turn import Turn
from .volumes import Volumes

LEAST_LANES = Fraction(1, 5)
"""The least that a turn has, so that none is shut."""
UNCOUNTED = Fraction(3, 100)
"""The part of the vehicles of an approach that each of its turns has beside those that were counted."""


def filled(amount: Fraction, loads: Mapping[int, Fraction]) -> dict[int, Fraction]:
    """An amount over lanes so that the lanes that get some end with the same load."""
    order = sorted(loads, key=lambda lane: loads[lane])
    for count in range(len(order), 0, -1):
        level = (amount + sum((loads[lane] for lane in order[:count]), Fraction(0))) / count
        if level >= loads[order[count - 1]]:
            return {lane: level - loads[lane] if place < count else Fraction(0) for place, lane in enumerate(order)}
    return {lane: Fraction(0) for lane in order}


def even_lanes(lanes: Mapping[str, Iterable[int]]) -> dict[str, Fraction]:
    """The lanes that turns have of those that serve them if each lane is parted evenly."""
    users: dict[int, int] = {}
    for of in lanes.values():
        for lane in of:
            users[lane] = users.get(lane, 0) + 1
    return {after: sum((Fraction(1, users[lane]) for lane in of), Fraction(0)) for after, of in lanes.items()}


def counted_lanes(turns: Iterable[Turn], movements: Movements, volumes: Volumes, even: bool) -> dict[Pair, Fraction]:
    """The lanes of turns by the vehicles that were counted on them in their busiest slices; with `even` each has at
    least
    an even part of its lanes, so that it has room where routes change."""
    busy = volumes.busy()
    by_approach: dict[str, dict[str, Turn]] = {}
    for turn in turns:
        by_approach.setdefault(turn.approach, {})[turn.exit] = turn
    made: dict[Pair, Fraction] = {}
    for approach, some in by_approach.items():
        whole = sum(volumes.whole(turn.link) for turn in some.values())
        loads = {
            after: (volumes.whole(turn.link) + UNCOUNTED * max(whole, 1)) / turn.part_of_green(busy)
            for after, turn in some.items()
        }
        lanes = {after: movements.turns[approach, after].lanes for after in some}
        if all(lanes.values()):
            least = even_lanes(lanes) if even else {}
            made |= {
                (approach, after): max(share, least.get(after, share))
                for after, share in shared_lanes(loads, lanes).items()
            }
    return made


def shared_lanes(loads: Mapping[str, Fraction], lanes: Mapping[str, Iterable[int]]) -> dict[str, Fraction]:
    """The lanes that turns have of those that serve them, by the time that the vehicles of each take: turns with fewest
    lanes choose first, and each takes the lanes with least on them."""
    served = {after: list(of) for after, of in lanes.items()}
    level = {lane: Fraction(0) for of in served.values() for lane in of}
    taken: dict[str, dict[int, Fraction]] = {}
    for after in sorted(served, key=lambda name: (len(served[name]), name)):
        taken[after] = filled(loads[after], {lane: level[lane] for lane in served[after]})
        for lane, part in taken[after].items():
            level[lane] += part
    made = {
        after: sum((part / level[lane] for lane, part in of.items() if level[lane]), Fraction(0))
        for after, of in taken.items()
    }
    return {after: max(LEAST_LANES, share).limit_denominator(1000) for after, share in made.items()}
