"""The ranks of the turns of a junction without lights, by the Highway Capacity Manual: a turn that yields to turns
which yield themselves waits for the queues of these, too.

So the capacity of its gaps is multiplied by the probability that none of these queues stands: for each turn before it
in rank 1 - flow / capacity. The queues of left turns from the main road and of turns from the other side road stand
together more often than by chance: where a turn waits for both, the manual makes 0.65 p - p / (p + 3) + 0.6 p^0.5 of
the product p. A left turn from the main road counts twice in the flow in which a turn from a side road finds its gaps.

Where a queue stands nearly all the time, the manual lets nobody behind it in rank pass. Drivers then take turns: so the
factor is at least a half. Flows are best those that queues let come (`queued`), so that none is above its capacity for
long.
"""
from __future__ import annotations

import math
from collections.abc import Iterable, Mapping, Sequence

from .approach import Approach
from .movements import Movement, Pair
from .options import MAJOR_GAP, MINOR_GAP

MOST_ROUNDS = 8
"""More than there are ranks, for turns that go before one another in a ring."""
TAKING_TURNS = 0.5
"""The least factor: where a queue stands all the time, its drivers and those behind it in rank take turns."""
RANKED = (MAJOR_GAP, MINOR_GAP)
"""The gaps of turns that have ranks; into a roundabout, and where the right comes first, there are none."""


def by_ranks(approaches: Sequence[Approach], number: int) -> dict[Pair, float]:
    """The vehicles a second of a lane that take each turn of a junction in a slice, by gaps and by the queues of turns
    before it in rank."""
    every = [(one, turn) for one in approaches for turn in one.turns]
    turns = {turn.pair: turn for _, turn in every}
    lefts = {pair for pair, turn in turns.items() if turn.sign == MAJOR_GAP}
    through = {
        turn.pair: one.through_gaps(turn, number, lefts if turn.sign == MINOR_GAP else ()) for one, turn in every
    }
    before = {pair: some for pair, turn in turns.items() if (some := before_in_rank(turn, turns))}
    flows = {turn.pair: one.flow([turn.pair], number) for one, turn in every}
    found = {turn.pair: one.turn_capacity(turn, through[turn.pair]) for one, turn in every}
    behind = [(one, turn) for one, turn in every if turn.pair in before]
    for _ in range(MOST_ROUNDS):
        last = dict(found)
        for one, turn in behind:
            free = no_queue(before[turn.pair], flows, last)
            found[turn.pair] = one.turn_capacity(turn, through[turn.pair] * free)
        if found == last:
            break
    return found


def before_in_rank(turn: Movement, turns: Mapping[Pair, Movement]) -> list[Movement]:
    """The turns whose queues one waits for: those to which it yields and which yield themselves, but not to it."""
    if turn.held is None or turn.sign not in RANKED:
        return []
    against = (turns[pair] for pair in turn.held.opposing if pair in turns)
    return [one for one in against if one.sign in RANKED and one.held and turn.pair not in one.held.opposing]


def no_queue(before: Iterable[Movement], flows: Mapping[Pair, float], capacities: Mapping[Pair, float]) -> float:
    """The probability that no queue stands on some turns, and at least a half, as drivers take turns; flows are in
    vehicles a second, and capacities those of a lane."""
    free, signs = 1.0, set()
    for one in before:
        free *= max(0.0, 1 - flows[one.pair] / (capacities[one.pair] * max(1, len(one.lanes))))
        signs.add(one.sign)
    return max(TAKING_TURNS, joined(free) if len(signs) > 1 else free)


def joined(product: float) -> float:
    """The probability that neither of two kinds of queues stands, which stand together more often than by chance, by
    the product of the two."""
    return 0.65 * product - product / (product + 3) + 0.6 * math.sqrt(product)
