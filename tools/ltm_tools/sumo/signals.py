"""Fixed-time programs of SUMO as greens of edges.

A program has a letter for each way from a lane onto an edge. A link of a case has one exit, so its green at a moment is
the share of its vehicles that may go then; where the lanes of an edge are used unevenly, that much less passes in a
cycle.
"""
from __future__ import annotations

from collections.abc import Iterable, Mapping
from fractions import Fraction

from ..demand.cycles import Green
from ..network.crossings.lanes import filled
from .net import Connection, SumoNet, Program

GREEN, YELLOW, OFF = "Gg", "yY", "oO"


def phase_spans(program: Program, index: int, letters: str) -> list[tuple[int, int]]:
    """The spans of a cycle (ms) in which the way of an index has one of the letters, spans that meet made one."""
    spans: list[tuple[int, int]] = []
    time = 0
    for length, state in program.phases:
        if index < len(state) and state[index] in letters:
            if spans and spans[-1][1] == time:
                spans[-1] = spans[-1][0], time + length
            elif length:
                spans.append((time, time + length))
        time += length
    return spans


def cycle_of(program: Program) -> int:
    """The length of a program in ms."""
    return sum(length for length, _ in program.phases)


def signal_edges(net: SumoNet) -> dict[str, list[Connection]]:
    """Of each edge with a way that a program holds, all its ways."""
    held = {way.edge for way in net.connections if way.signal in net.programs}
    ways: dict[str, list[Connection]] = {}
    for way in net.connections:
        if way.edge in held:
            ways.setdefault(way.edge, []).append(way)
    return ways


def shares_of(ways: Iterable[Connection], turns: Mapping[str, int]) -> dict[Connection, Fraction]:
    """The share of an edge's vehicles on each way: by counted turns, else evenly; the vehicles of a turn take the lanes
    with least on them, turns with fewest lanes first."""
    listed = list(ways)
    counted = {after: Fraction(turns.get(after, 0)) for after in {way.after for way in listed}}
    if not sum(counted.values()):
        counted = {after: Fraction(sum(way.after == after for way in listed)) for after in counted}
    whole = sum(counted.values(), Fraction(0))
    loads: dict[int, Fraction] = {way.lane: Fraction(0) for way in listed}
    shares: dict[Connection, Fraction] = {}
    for after in sorted(counted, key=lambda name: (sum(way.after == name for way in listed), name)):
        some = {way.lane: way for way in listed if way.after == after}
        for lane, part in filled(counted[after] / whole, {lane: loads[lane] for lane in some}).items():
            loads[lane] += part
            shares[some[lane]] = part
    return shares


def greens_of(
    net: SumoNet, ways: list[Connection], turns: Mapping[str, int], begin_ms: int, lanes: int, yellow: bool
) -> tuple[Green, ...]:
    """The greens of an edge by the share of each way; none where it is always green, and one that counts for nothing
    where it never is."""
    shares = shares_of(ways, turns)
    spans: dict[Connection, list[tuple[int, int]]] = {}
    program = next(net.programs[way.signal] for way in ways if way.signal in net.programs)
    cycle = cycle_of(program)
    letters = GREEN + OFF + (YELLOW if yellow else "")
    for way in shares:  # where a lane leads onto several lanes of an edge, one way stands for all
        held = way.signal in net.programs
        spans[way] = phase_spans(net.programs[way.signal or ""], way.index, letters) if held else [(0, cycle)]
    if cycle == 0 or all(some == [(0, cycle)] for some in spans.values()):
        return ()
    factor = lane_factor(shares, spans, cycle, lanes)
    offset = (program.offset_ms - begin_ms) % cycle
    merged: dict[tuple[int, int], Fraction] = {}
    for way, some in spans.items():
        for span in some:
            merged[span] = merged.get(span, Fraction(0)) + shares[way] * factor
    greens = tuple(Green(cycle, start, end, offset, share) for (start, end), share in merged.items() if share)
    return greens or (Green(cycle, 0, cycle, offset, Fraction(0)),)


def lane_factor(
    shares: Mapping[Connection, Fraction], spans: Mapping[Connection, list[tuple[int, int]]], cycle: int, lanes: int
) -> Fraction:
    """By how much less passes in a cycle than the greens by share let, as the first lane to be full holds the others
    back."""
    green = {way: Fraction(sum(end - start for start, end in some), cycle) for way, some in spans.items()}
    by_share = sum((shares[way] * green[way] for way in shares), Fraction(0))
    passing: list[Fraction] = []
    for lane in {way.lane for way in shares}:
        load = sum((shares[way] for way in shares if way.lane == lane), Fraction(0))
        if load:
            passing.append(
                sum((shares[way] * green[way] for way in shares if way.lane == lane), Fraction(0)) / load / lanes / load
            )
    return min(Fraction(1), min(passing) / by_share) if by_share else Fraction(1)
