"""Where queues reach the edge of a cut, so that in the whole case one side holds back the other."""
from __future__ import annotations

from fractions import Fraction

from ..case import Case
from ..case.rows import Link
from ..loading.counts import as_list
from ..loading.curves import Curves
from .inside import Inside

NEARLY = Fraction(19, 20)  # of what may enter a link in a slot: with less room it is full; the rest is rounding


def queues_at_edge(case: Case, curves: Curves, inside: Inside) -> list[tuple[str, int]]:
    """The links that begin at the edge and are full up to their beginning in some slots of the loading, with how many:
    those inside that others lead to from beyond, and those beyond that links inside lead to; the longest first."""
    at_edge = [
        name
        for node in inside.nodes
        for name in [
            *(inside.outs(node) if inside.before(node) else ()),
            *(inside.beyond(node) if inside.ins(node) else ()),
        ]
    ]
    found = [(name, full_slots(inside.roads.links[name], curves, case.setup.step_ms)) for name in at_edge]
    return sorted(((name, slots) for name, slots in found if slots), key=lambda one: (-one[1], one[0]))


def full_slots(link: Link, curves: Curves, step_ms: int) -> int:
    """In how many slots a link has room for less than may enter it in a slot, so that it holds back those before it:
    its room is what has left it a wave time ago, and what stands on it at jam density, less what has entered it."""
    up, down = as_list(curves.up(link.name)), as_list(curves.down(link.name))
    waves, enough = link.wave_ms // step_ms, NEARLY * link.capacity(step_ms)
    return sum(
        down[max(0, slot + 1 - waves)] + link.storage_units - entered < enough for slot, entered in enumerate(up[:-1])
    )
