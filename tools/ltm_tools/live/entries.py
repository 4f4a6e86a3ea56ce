"""The list of changes that makes a scenario of a case: its entries, their edits in order, and which are covered."""
from __future__ import annotations

from collections.abc import Iterator, Sequence
from dataclasses import dataclass, field
from fractions import Fraction
from typing import NamedTuple

from ..case import Case, Link
from ..demand.cycles import Green, Plan
from ..demand.signal_plans import limits_of_plan
from ..errors import Fault
from ..formats import HOUR_MS, MOST_SLOT_UNITS, UNITS
from ..scenario import edits
from ..scenario.batches import Batch, in_batches
from ..scenario.edits import Edit, Told, edit_of
from ..scenario.rows import OwnRows
from ..scenario.standing import Percentage, Standing
from .asks import AT_THE_END, OF_NODES, Ask

ROOM = 1_000  # bytes of a line that its edits leave for the rest


class Effect(NamedTuple):
    """The total travel time before a closure with informed drivers, with their shares where the road is open, and with
    the closure too, in thousandths of a vehicle times ms: what rerouting alone changes, and what the closure."""

    before: int
    alone: int
    closed: int


@dataclass(slots=True)
class Entry:
    """An entry of the list: its number, whose it is, its change in words; what was asked for, or the edits of a line of
    a script, and that line; whether it is on; the batches that it is, after the entries before it; and of a closure
    with informed drivers the shares that were found for them, with the effect of these."""

    number: int
    by: str
    text: str
    ask: Ask | None = None
    line: list[Told] | None = None
    source: bytes | None = None
    on: bool = True
    batches: list[Batch] = field(default_factory=list)
    heard: Batch = field(default_factory=list)
    effect: Effect | None = None


def batches_of(case: Case, own: OwnRows, entries: Sequence[Entry]) -> list[list[Batch]]:
    """The batches of each entry of a list over a case, whose own rows these are; of one that is off none."""
    standing = Standing(own)
    found: list[list[Batch]] = []
    for entry in entries:
        if not entry.on:
            found.append([])
        elif entry.ask is None:
            assert entry.line is not None
            line = [edit_of(edit) for edit in entry.line]
            for edit in line:
                edit.make(standing)
            found.append([line])
        else:
            made = edits_of(case, standing, entry.ask)
            for edit in entry.heard:
                edit.make(standing)
            found.append(list(in_batches([*made, *entry.heard], ROOM)))
    return found


def edits_of(case: Case, standing: Standing, ask: Ask) -> list[Edit]:
    """The edits of a change; a Fault where it would change nothing."""
    if ask.kind == "demand":
        found = standing.change_demand(ask.node, Percentage(ask.first, ask.end, ask.percent))
        if not found and not standing.demand.get(ask.node):
            raise Fault(f"No vehicles set out at {ask.node}.")
        return found
    if ask.kind == "share":
        change = Percentage(ask.first, ask.end, ask.percent, ask.link)
        found = standing.change_share(ask.node, change)
        if not found and not any(
            weights.get(ask.link) for rows in standing.splits.get(ask.node, {}).values() for _, weights in rows
        ):
            raise Fault(f"Nobody takes {ask.link} at {ask.node}.")
        return found
    return edits_of_link(case, ask)


def edits_of_link(case: Case, ask: Ask) -> list[Edit]:
    """The edits of a change of a link, or of the links of a road."""
    step, links = case.setup.step_ms, [case.link(name) for name in ask.links]
    if ask.kind in ("close", "let_in"):
        units = slot_units(ask.per_hour, step)
        return [edits.Limit(link.name, ask.first, ask.end, units) for link in links]
    if ask.kind == "let_out":
        all_of_them = sum(link.capacity(HOUR_MS) for link in links)
        parts = [Fraction(ask.per_hour * link.capacity(HOUR_MS), all_of_them) for link in links]
        return [edits.Exit(link.name, ask.first, ask.end, slot_units(part, step)) for link, part in zip(links, parts)]
    if ask.kind == "speed":
        return [edits.Diagram(link.name, link.length_m, ask.kmh, link.wave_kmh, link.jam_per_km) for link in links]
    plans = plans_of(ask, step)
    return [edit for link in links if link.name in plans for edit in signal_edits(ask, case, link, plans[link.name])]


def slot_units(per_hour: Fraction | int, step_ms: int) -> int:
    """What a slot lets pass, in thousandths of a vehicle, rounded down."""
    return min(MOST_SLOT_UNITS, int(per_hour * UNITS * step_ms / Fraction(HOUR_MS)))


def plans_of(ask: Ask, step_ms: int) -> dict[str, tuple[Green, ...]]:
    """The greens of each link that a change gives a signal."""
    if not ask.greens:
        return dict.fromkeys(ask.links, (Green(1000 * ask.cycle, 0, 1000 * ask.green, ask.first * step_ms),))
    return {
        link: tuple(
            Green(1000 * ask.cycle, 1000 * first, 1000 * end, 1000 * ask.offset, Fraction(percent, 100))
            for first, end, percent in spans
        )
        for link, spans in ask.greens
    }


def signal_edits(ask: Ask, case: Case, link: Link, greens: tuple[Green, ...]) -> Iterator[Edit]:
    """Exit limits of a link in all slots of a change: those of its plan, and none between them, whatever stood
    there; without a green it lets nothing out."""
    step, slot = case.setup.step_ms, ask.first
    if not greens:
        yield edits.Exit(link.name, ask.first, ask.end, 0)
        return
    plan = Plan(link.name, greens, ask.first * step, ask.end * step)
    for limit in limits_of_plan(plan, link, case.setup):
        if slot < limit.from_slot:
            yield edits.Exit(link.name, slot, limit.from_slot)
        yield edits.Exit(link.name, limit.from_slot, limit.to_slot, limit.units)
        slot = limit.to_slot
    if slot < ask.end:
        yield edits.Exit(link.name, slot, ask.end)


def covered(entries: Sequence[Entry], slots: int) -> list[bool]:
    """Of each entry whether it is on, and later ones that are on have all that it changes."""
    over: dict[object, bytearray] = {}
    found = []
    for entry in reversed(entries):
        spans = list(spans_of(entry, slots)) if entry.on else []
        seen = not spans
        for key, first, end in spans:
            seen = seen or key is None or 0 in over.get(key, bytearray(slots))[first:end]
        for key, first, end in spans:
            if key is not None:
                over.setdefault(key, bytearray(slots))[first:end] = b"\1" * (end - first)
        found.append(entry.on and not seen)
    return found[::-1]


def spans_of(entry: Entry, slots: int) -> Iterator[tuple[object, int, int]]:
    """What an entry changes, each with the slots from a first up to an end; None where nothing covers it."""
    ask = entry.ask
    if ask is None:
        for edit in map(edit_of, entry.line or ()):
            if isinstance(edit, (edits.Limit, edits.Exit)):
                yield (edit.kind, edit.link), edit.from_slot, edit.to_slot
            else:
                yield ((edit.kind, edit.link) if isinstance(edit, edits.Diagram) else None), 0, slots
        return
    span = (0, slots) if ask.kind == "speed" else (ask.first, ask.end)
    if ask.kind in OF_NODES:
        yield (ask.kind, ask.node, ask.link), *span
    else:
        kind = {"speed": "diagram", **dict.fromkeys(AT_THE_END, "exit")}.get(ask.kind, "limit")
        for link in [name for name, _ in ask.greens] or ask.links:
            yield (kind, link), *span
    if entry.heard:
        yield None, 0, slots
