"""The turns of a net of SUMO, and how its programs hold them.

A way yields to another where the junction says so: without a signal at all times, and in a phase with `g` to those of
these that have green.
"""
from __future__ import annotations

from collections.abc import Iterable, Sequence
from fractions import Fraction

from ..demand.cycles import Green
from ..formats import MINUTE_MS
from ..network.crossings.movements import Held, Movement, Movements, movements_of
from ..network.crossings.options import EQUAL_GAP, MAJOR_GAP, MINOR_GAP, ROUND_GAP, GapAcceptance
from .net import Connection, SumoNet, Program
from .signals import GREEN, OFF, YELLOW, cycle_of

Span = tuple[int, int]
EQUAL = "="  # the letter of a way where the right comes before the left


def movements(net: SumoNet, *, signals: bool, yellow: bool, begin_ms: int, by_kind: bool = True) -> Movements:
    """The turns of a net; with signals how they are held, the case beginning at a time in ms. `by_kind`, roundabouts
    and junctions where the right comes first have gaps of their own."""
    ways: dict[tuple[str, str], list[Connection]] = {}
    at: dict[str, list[Connection]] = {}
    roads = net.network.roads
    for way in net.connections:
        if roads[way.edge].head == roads[way.after].tail:
            ways.setdefault((way.edge, way.after), []).append(way)
            at.setdefault(roads[way.edge].head, []).append(way)
    made = []
    for (edge, after), some in ways.items():
        node = roads[edge].head
        program = next((net.programs[way.signal] for way in some if way.signal in net.programs), None)
        held = by_sign(net, some, at[node], by_kind) if program is None else None
        if signals and program is not None and cycle_of(program) > 0:
            held = held_by(net, program, some, at[node], yellow, begin_ms)
        made.append(Movement(edge, after, tuple(sorted({way.lane for way in some})), held))
    return movements_of(made, {name: len(lanes) for name, lanes in net.lanes.items()})


def priorities(net: SumoNet, way: Connection, others: Iterable[Connection]) -> list[Connection]:
    """The ways over its junction to which a way yields."""
    signs = net.yields.get(net.network.roads[way.edge].head, {}).get(way.request, "")[::-1]
    return [
        other
        for other in others
        if other.edge != way.edge and 0 <= other.request < len(signs) and signs[other.request] == "1"
    ]


def gives_way(net: SumoNet, way: Connection, others: Iterable[Connection]) -> list[Connection]:
    """The ways to which a way without a signal yields: none where its letter is a large one."""
    return [] if way.state.isupper() else priorities(net, way, others)


def by_sign(
    net: SumoNet, ways: Sequence[Connection], others: Sequence[Connection], by_kind: bool = True
) -> Held | None:
    """How a turn without a signal yields, each lane for its part; none where it need not."""
    one_each = list({way.lane: way for way in ways}.values())
    foes = {way: gives_way(net, way, others) for way in one_each}
    against = tuple(dict.fromkeys(foe for some in foes.values() for foe in some))
    if not against:
        return None
    major = any(not gives_way(net, way, others) for way in others if way.edge == ways[0].edge)
    yielding = Fraction(sum(bool(some) for some in foes.values()), len(foes))
    return Held(
        always(1 - yielding),
        always(yielding),
        tuple(dict.fromkeys((foe.edge, foe.after) for foe in against)),
        tuple(dict.fromkeys((foe.edge, foe.lane) for foe in against)),
        sign_gap(net, ways[0], against, major) if by_kind else MAJOR_GAP if major else MINOR_GAP,
    )


def sign_gap(net: SumoNet, way: Connection, against: Iterable[Connection], major: bool) -> GapAcceptance:
    """The gap by which a turn without a signal yields: into a roundabout, where all are equal and the right comes
    first, from a way of which other turns yield to nobody, or else from one without priority."""
    if all(foe.edge in net.circling for foe in against):
        return ROUND_GAP
    if way.state == EQUAL:
        return EQUAL_GAP
    return MAJOR_GAP if major else MINOR_GAP


def always(share: Fraction) -> tuple[Green, ...]:
    """A green at all times for a share of the lanes."""
    return (Green(MINUTE_MS, 0, MINUTE_MS, 0, share),) if share else ()


def held_by(
    net: SumoNet,
    program: Program,
    ways: Sequence[Connection],
    others: Sequence[Connection],
    yellow: bool,
    begin_ms: int,
) -> Held:
    """How a program holds a turn: each way of it counts for its part of the turn's lanes. One that is never green has a
    green for none of them."""
    cycle = cycle_of(program)
    offset = (program.offset_ms - begin_ms) % cycle
    shares: dict[bool, dict[Span, Fraction]] = {False: {}, True: {}}
    against: dict[Connection, None] = {}
    one_each = list({way.lane: way for way in ways}.values())
    for way in one_each:
        yielding = priorities(net, way, others)
        for start, end, foes in green_spans(program, way, yielding, yellow):
            of = shares[bool(foes)]
            of[start, end] = of.get((start, end), Fraction(0)) + Fraction(1, len(one_each))
            against |= dict.fromkeys(foes)
    protected, permitted = (
        tuple(Green(cycle, start, end, offset, share) for (start, end), share in of.items()) for of in shares.values()
    )
    if not protected and not permitted:
        protected = (Green(cycle, 0, cycle, offset, Fraction(0)),)
    return Held(
        protected,
        permitted,
        tuple(dict.fromkeys((foe.edge, foe.after) for foe in against)),
        tuple(dict.fromkeys((foe.edge, foe.lane) for foe in against)),
    )


def green_spans(
    program: Program, way: Connection, yielding: Iterable[Connection], yellow: bool
) -> list[tuple[int, int, tuple[Connection, ...]]]:
    """The spans of a cycle (ms) in which a way is green, each with the ways with green to which it yields then; yellow,
    where vehicles go on it, is part of the green before. A way without a signal is always green."""
    if way.signal != program.signal:
        return [(0, cycle_of(program), ())]
    found: list[tuple[int, int, tuple[Connection, ...]]] = []
    foes: tuple[Connection, ...] = ()
    time = 0
    for length, state in program.phases:
        letter = state[way.index] if 0 <= way.index < len(state) else "r"
        if letter in GREEN + OFF:
            foes = foes_on(program, state, yielding) if letter in "go" else ()
        if length and letter in GREEN + OFF + (YELLOW if yellow else ""):
            if found and found[-1][1] == time and bool(found[-1][2]) == bool(foes):
                found[-1] = found[-1][0], time + length, tuple(dict.fromkeys(found[-1][2] + foes))
            else:
                found.append((time, time + length, foes))
        time += length
    return found


def foes_on(program: Program, state: str, yielding: Iterable[Connection]) -> tuple[Connection, ...]:
    """Those of some ways that have green in a phase."""
    return tuple(
        way
        for way in yielding
        if way.signal == program.signal and 0 <= way.index < len(state) and state[way.index] in GREEN + OFF
    )
