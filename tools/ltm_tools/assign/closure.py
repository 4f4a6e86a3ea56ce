"""What a closure is, and its effect."""
from __future__ import annotations

from collections.abc import Container, Mapping
from typing import NamedTuple

from ..case import Case
from ..scenario.edits import Edit
from .shares import Pair, PairRows

NOBODY, HALF, ALL = 0, 50, 100
MOMENT = -1
WORDS = {"nobody": NOBODY, "moment": MOMENT, "half": HALF, "all": ALL}


class Closure(NamedTuple):
    """A link whose entry is closed in the slots from `first` up to, and without, `end`."""

    link: str
    first: int
    end: int


class Cost(NamedTuple):
    """The effect of a closure where so many per cent of drivers are informed. Times are thousandths of a vehicle times
    ms.

    informed    per cent of the drivers, or `MOMENT`: each chooses by the times of now
    spent       the total travel time with the closure and the shares that the informed have found
    not_there   who has not arrived by the end, in thousandths of a vehicle
    regret      what the informed lose who do not take the best link of each node; 0 where they do not learn
    iteration   the loading that these shares are of, that with the least travel time
    alone       the total travel time with the same shares where the road is open

    So `alone` less the total travel time of the open case is what rerouting alone changes, and `spent - alone` is the
    effect of the closure itself. Where nobody is informed `alone` is the travel time of the open case. Whoever reports
    an effect names both: in a case that is no equilibrium new shares may gain more than the closure costs.
    """

    informed: int
    spent: int
    not_there: int
    regret: float
    iteration: int
    alone: int


class Response(NamedTuple):
    """The effect of a closure where a share of those who pass choose another route, the edits by which they do, and the
    total travel time of the open case."""

    cost: Cost
    edits: list[Edit]
    open: int


class Passed(NamedTuple):
    """What enters a link in some slots, in thousandths of a vehicle."""

    link: str
    units: int


def lacking_rows(
    case: Case, changed: Mapping[Pair, PairRows], free: Mapping[Pair, PairRows], own: Container[Pair]
) -> list[Pair]:
    """The pairs without rows of their own to which changed rows lead, or the free-flow routes that such pairs get."""
    heads = {link.name: link.head for link in case.links}
    found: dict[Pair, None] = {}
    todo = [*changed.items()]
    while todo:
        (node, end), rows = todo.pop()
        if (node, end) in changed and (node, end) not in own and (node, end) not in found:
            found[node, end] = None
            todo.append(((node, end), free[node, end]))
        for head in dict.fromkeys(heads[name] for _, row in rows for name in row):
            if head != end and (head, end) not in own and (head, end) not in found:
                found[head, end] = None
                todo.append(((head, end), free[head, end]))
    return list(found)
