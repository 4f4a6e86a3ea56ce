"""Reads the signals of a GMNS network: plans, their phases by ring, barrier and position, and the turns of each phase.

A phase is green for its `max_green`, then its `clearance` passes, on which none goes. Phases of a ring follow each
other by position; behind a barrier all rings go on together.
"""
from __future__ import annotations

from collections.abc import Iterable
from dataclasses import dataclass
from fractions import Fraction
from pathlib import Path

from ..demand.cycles import Green
from ..errors import Fault
from ..files import Row
from ..network.crossings.movements import Held, Pair
from ..tables import Table, read, whole_ids
from .movements import MovementTurns, lanes_with
from .net import Read, file_of

PHASE, PLAN = "signal_timing_phase.csv", "signal_timing_plan.csv"
TURNS, COORDINATION = "signal_phase_mvmt.csv", "signal_coordination.csv"
IDS = (
    "timing_phase_id",
    "timing_plan_id",
    "controller_id",
    "mvmt_id",
    "signal_phase_num",
    "coord_phase",
    "ring",
    "barrier",
    "position",
)
NAMES = {
    "timing_phase_id": ("signal_timing_phase_id", "phase_id"),
    "timing_plan_id": ("signal_timing_plan_id", "plan_id"),
    "mvmt_id": ("movement_id",),
    "max_green": ("green", "split"),
    "clearance": ("clearance_time",),
}
PROTECTED, PERMITTED = "protected", "permitted"


@dataclass(frozen=True)
class Phase:
    """A phase: when it is green in the cycle of its plan, and how long its clearance is (ms)."""

    start_ms: int
    end_ms: int
    clear_ms: int
    cycle_ms: int
    offset_ms: int = 0

    def green(self) -> Green:
        """Its green, which lies in a cycle."""
        return Green(self.cycle_ms, self.start_ms, self.end_ms, self.offset_ms)


def read_signals(folder: Path, told: MovementTurns, made: Read) -> dict[Pair, Held]:
    """How signals hold the turns that are told; of turns without a green of their own nothing."""
    paths = [file_of(folder, name) for name in (PLAN, PHASE, TURNS)]
    missing = [path.name for path in paths if not path.exists()]
    if missing:
        if told.signals:
            made.notes.append(
                f"{len(told.signals)} turns have a signal by movement.csv, and there is no"
                f" {' and no '.join(missing)}: they are not held"
            )
        return {}
    plans, phases, turns = (table_of(path, made) for path in paths)
    coordination = file_of(folder, COORDINATION)
    found = phases_of(plans, phases, table_of(coordination, made) if coordination.exists() else None, made)
    return held_of(turns, found, told, made)


def table_of(path: Path, made: Read) -> Table:
    """A table of signals, with its names as whole numbers where they are such."""
    table = read(path, (), NAMES, made.units.reading)
    whole_ids(table.rows, IDS)
    made.notes += table.notes
    return table


def phases_of(plans: Table, phases: Table, coordination: Table | None, made: Read) -> dict[str, Phase]:
    """The phases of one plan of each controller by `timing_phase_id`: of several the first, and that is told."""
    first: dict[str, Row] = {}
    for row in plans.rows:
        first.setdefault(row.text("controller_id", row.text("timing_plan_id")), row)
    if len(first) < len(plans.rows):
        made.notes.append(
            f"{len(plans.rows) - len(first)} further timing plans of a controller are left out: the first"
            " of each stands for the whole time"
        )
    shifts = {row.text("timing_plan_id"): row for row in coordination.rows} if coordination is not None else {}
    of_plan: dict[str, list[Row]] = {}
    for row in phases.rows:
        of_plan.setdefault(row.text("timing_plan_id"), []).append(row)
    found: dict[str, Phase] = {}
    for plan in first.values():
        name = plan.text("timing_plan_id")
        cycle = plan.number("cycle_length", 0)
        rows = of_plan.get(name, [])
        some = timed(rows, int(cycle * 1000), name, made)
        offset = offset_of(shifts[name], rows, some) if name in shifts else 0
        found |= {
            key: Phase(one.start_ms, one.end_ms, one.clear_ms, one.cycle_ms, offset % one.cycle_ms)
            for key, one in some.items()
        }
    return found


def timed(rows: list[Row], cycle: int, plan: str, made: Read) -> dict[str, Phase]:
    """The phases of a plan in its cycle, or where none is told in the time that its longest ring takes."""
    greens = [row.number("max_green", row.number("min_green", 0)) for row in rows]
    lengths = {
        row.text("timing_phase_id"): (int(green * 1000), int(row.number("clearance", 0) * 1000))
        for row, green in zip(rows, greens)
    }
    if any(green < 0 or clear < 0 for green, clear in lengths.values()):
        raise Fault(f"{PHASE}: plan {plan} has a time below 0")
    if any(row.number("min_green", green) != green for row, green in zip(rows, greens)):
        made.notes.append(f"timing plan {plan} is actuated: its phases are green for their max_green")
    whole = laid(rows, lengths)[1]
    if not cycle or whole > cycle:
        if cycle:
            made.notes.append(
                f"the phases of timing plan {plan} take {whole / 1000:g} s, longer than its cycle_length"
                f" of {cycle / 1000:g}: greens are shorter in proportion"
            )
            clear = laid(rows, {name: (0, times[1]) for name, times in lengths.items()})[1]
            share = Fraction(max(0, cycle - clear), max(1, whole - clear))
            lengths = {name: (int(green * share), clear) for name, (green, clear) in lengths.items()}
        cycle = cycle or whole
    return {
        name: Phase(start, start + lengths[name][0], lengths[name][1], cycle)
        for name, start in laid(rows, lengths)[0].items()
        if lengths[name][0] and start + lengths[name][0] <= cycle
    }


def laid(rows: Iterable[Row], lengths: dict[str, tuple[int, int]]) -> tuple[dict[str, int], int]:
    """When each phase begins (ms), and how long all take."""
    starts: dict[str, int] = {}
    begin = end = 0
    last: int | None = None
    at: dict[int, int] = {}
    for row in sorted(rows, key=lambda row: (row.whole("barrier", 1), row.whole("position", 1))):
        if row.whole("barrier", 1) != last:
            last, begin, at = row.whole("barrier", 1), end, {}
        name, ring = row.text("timing_phase_id"), row.whole("ring", 1)
        starts[name] = at.get(ring, begin)
        at[ring] = starts[name] + sum(lengths[name])
        end = max(end, at[ring])
    return starts, end


def offset_of(row: Row, rows: Iterable[Row], phases: dict[str, Phase]) -> int:
    """When a cycle begins (ms), so that the phase that is coordinated has its moment at the offset."""
    offset, number = int(row.number("offset", 0) * 1000), row.text("coord_phase", "")
    name = next(
        (one.text("timing_phase_id") for one in rows if number and one.text("signal_phase_num", "") == number), ""
    )
    if name not in phases:
        return offset
    phase, moment = phases[name], row.text("coord_ref_to", "begin_of_green").lower()
    if moment == "begin_of_yellow":
        return offset - phase.end_ms
    return offset - (phase.end_ms + phase.clear_ms if moment == "begin_of_red" else phase.start_ms)


def held_of(turns: Table, phases: dict[str, Phase], told: MovementTurns, made: Read) -> dict[Pair, Held]:
    """How the phases hold turns."""
    greens: dict[Pair, dict[str, list[Green]]] = {}
    unknown = on_red = 0
    for row in turns.rows:
        pair, phase = told.ids.get(row.text("mvmt_id", "")), phases.get(row.text("timing_phase_id"))
        protection = row.text("protection", PROTECTED).lower()
        on_red += protection == "rtor"
        if pair is None:
            unknown += 1
        elif phase is not None and protection != "rtor":
            kind = PERMITTED if protection.startswith("permi") else PROTECTED
            greens.setdefault(pair, {PROTECTED: [], PERMITTED: []})[kind].append(phase.green())
    made.notes += [
        f"{count} rows of {TURNS} {why}"
        for count, why in (
            (unknown, "name no turn of movement.csv, and are left out"),
            (on_red, "let a turn go on red, which is not carried"),
        )
        if count
    ]
    without = [pair for pair in told.signals if pair not in greens]
    if without:
        made.notes.append(
            f"{len(without)} turns have a signal by movement.csv and no green in {TURNS}: they are not held"
        )
    return {
        pair: Held(tuple(of[PROTECTED]), tuple(of[PERMITTED]), *yielded(pair, greens, told, made))
        for pair, of in greens.items()
    }


def yielded(
    pair: Pair, greens: dict[Pair, dict[str, list[Green]]], told: MovementTurns, made: Read
) -> tuple[tuple[Pair, ...], tuple[tuple[str, int], ...]]:
    """The turns, with their lanes, to which a turn yields in the greens in which it is permitted: those from elsewhere
    that are green then and go straight on or to the right, or where it goes to the right itself those with its exit."""
    roads, node = made.network.roads, made.network.roads[pair[0]].head
    others = [
        other
        for other, of in greens.items()
        if other[0] != pair[0]
        and roads[other[0]].head == node
        and any(overlap(one, green) for one in greens[pair][PERMITTED] for some in of.values() for green in some)
        and (other[1] == pair[1] if told.types[pair] == "right" else told.types[other] in ("thru", "right"))
    ]
    return tuple(others), lanes_with(others, told, made.network, made.units.jam)


def overlap(one: Green, other: Green) -> bool:
    """Whether two greens of a cycle have a time in common."""
    return one.from_ms < other.to_ms and other.from_ms < one.to_ms
