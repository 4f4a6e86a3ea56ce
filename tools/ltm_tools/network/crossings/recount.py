"""Counts the traffic with priority anew, and gives turns that yield to it their part of the green."""
from __future__ import annotations

from collections.abc import Sequence
from dataclasses import dataclass, replace

from ...case import Case
from ...case.roads import Roads
from ...demand.route_splits import Route
from ...errors import Fault
from .limits import turn_limits
from .options import GapAcceptance
from .turn import Turn
from .turns_file import Turns
from .volumes import Volumes, volumes_of


@dataclass(frozen=True)
class Recounted:
    """The case with new limits of its turns, and these turns by the new volumes."""

    case: Case
    turns: Turns


def recount(
    case: Case, turns: Sequence[Turn], routes: Sequence[Route], slice_ms: int, gap: GapAcceptance | None = None
) -> Recounted:
    """The limits of turns by routes over links of the case; limits of other links stay as they are. A gap stands for
    that of each turn that has one at a signal."""
    if gap is not None:
        turns = [
            turn
            if turn.is_always_green or not isinstance(turn.permissive, GapAcceptance)
            else replace(turn, permissive=gap)
            for turn in turns
        ]
    if not yielding(turns):
        raise Fault("turns.csv has no turn that yields by gaps, so that volumes change nothing")
    return by_volumes(case, turns, volumes_of(routes, Roads.of(case.links), slice_ms))


def yielding(turns: Sequence[Turn]) -> bool:
    """Whether a turn yields by gaps, so that volumes change something."""
    return any(turn.permitted and isinstance(turn.permissive, GapAcceptance) for turn in turns)


def by_volumes(case: Case, turns: Sequence[Turn], volumes: Volumes) -> Recounted:
    """The limits of turns by the vehicles of links; limits of other links stay as they are."""
    links = {link.name: link for link in case.links}
    own = {turn.link for turn in turns if turn.protected or turn.permitted}
    case.signals = [limit for limit in case.signals if limit.link not in own]
    case.signals += turn_limits(turns, volumes, links, case.setup)
    return Recounted(case, Turns(tuple(turns), volumes))
