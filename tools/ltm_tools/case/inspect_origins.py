"""What `inspect` tells of the origins of a case: those that ask for more than they can send, and those that push in."""
from dataclasses import dataclass
from fractions import Fraction

from ..formats import HOUR_MS, clock_text, count_text, counted
from .case import Case
from .rows import Link

MOST_TOLD = 8  # of a list


def more_line(count: int) -> list[str]:
    """How many are not told, where there are some."""
    return [f"            and {count_text(count - MOST_TOLD)} more"] if count > MOST_TOLD else []


@dataclass(slots=True)
class Origin:
    """The most that the demand of an origin asks for in a slot, the slot where that begins, and what the origin can
    send in one."""

    name: str
    asked: Fraction
    slot: int
    sends: int
    by: str


def origin_lines(case: Case) -> list[str]:
    """The origins whose demand is above what they can send."""
    over = sorted(overloaded(case), key=lambda origin: origin.sends / origin.asked)
    if not over:
        return ["origins     none with more demand in a slot than can be sent"]
    told = [
        f"origins     {counted(len(over), 'origin')} with more demand in a slot than can be sent, so that vehicles"
        f" wait there"
    ]
    for origin in over[:MOST_TOLD]:
        step_ms = case.setup.step_ms
        asked, sends = hourly(origin.asked, step_ms), hourly(Fraction(origin.sends), step_ms)
        told.append(
            f"            {origin.name}: {asked} vehicles an hour from {clock_text(origin.slot * step_ms)} on,"
            f" and {origin.by} {sends} at most"
        )
    return told + more_line(len(over))


def pushing_lines(case: Case) -> list[str]:
    """The origins at nodes that others may drive over whose capacity is above that of the links out: a node shares what
    these take by capacities, so that who sets out there comes before who drives by."""
    outs: dict[str, list[Link]] = {}
    ins: dict[str, list[Link]] = {}
    for link in case.links:
        outs.setdefault(link.tail, []).append(link)
        ins.setdefault(link.head, []).append(link)
    step_ms, capacity = case.setup.step_ms, case.setup.origin_capacity
    pushing = []
    for node in dict.fromkeys(row.origin for row in case.standing_demand()):
        carried = sum(link.capacity(step_ms) for link in outs.get(node, ()))
        over = any(link.tail != after.head for link in ins.get(node, ()) for after in outs.get(node, ()))
        if over and capacity > carried:
            pushing.append((carried, node))
    if not pushing:
        return []
    told = [
        f"            {counted(len(pushing), 'origin')} at nodes that others drive over may send more than the links"
        f" out"
        f" carry, so that vehicles that set out there push in: give each a link of its own to its node, or a lower"
        f" origin_capacity"
    ]
    for carried, node in sorted(pushing)[:MOST_TOLD]:
        told.append(
            f"            {node}: {hourly(Fraction(capacity), step_ms)} vehicles an hour may set out, and its links out"
            f" carry {hourly(Fraction(carried), step_ms)}"
        )
    return told + more_line(len(pushing))


def hourly(units: Fraction, step_ms: int) -> str:
    """Thousandths in a slot as vehicles an hour, rounded to a whole number."""
    return count_text(round(units * HOUR_MS / step_ms / 1000))


def links_used(case: Case) -> set[str] | None:
    """The links over which splits send what sets out at their tails, whenever that is; None where there are no
    splits."""
    if case.splits is None:
        return None
    pairs = {(row.origin, row.destination) for row in case.standing_demand()}
    rows = (row for row in case.standing_splits() if (row.node, row.destination) in pairs)
    return {name for row in rows for name, weight in row.weights.items() if weight}


def overloaded(case: Case) -> list[Origin]:
    """The origins whose demand asks, in some slot, for more than the origin capacity, or than the links over which it
    is sent take."""
    changes: dict[str, dict[int, Fraction]] = {}
    for row in case.standing_demand():
        pace = Fraction(row.units, row.to_slot - row.from_slot)
        of_origin = changes.setdefault(row.origin, {})
        of_origin[row.from_slot] = of_origin.get(row.from_slot, Fraction(0)) + pace
        of_origin[row.to_slot] = of_origin.get(row.to_slot, Fraction(0)) - pace
    taken: dict[str, int] = {}
    used = links_used(case)
    for link in case.links:
        if used is None or link.name in used:
            taken[link.tail] = taken.get(link.tail, 0) + link.capacity(case.setup.step_ms)
    found = []
    for name, at in changes.items():
        pace, most, slot = Fraction(0), Fraction(0), 0
        for when in sorted(at):
            pace += at[when]
            if pace > most:
                most, slot = pace, when
        capacity, by_links = case.setup.origin_capacity, taken.get(name, 0)
        sends, by = (capacity, "an origin sends") if capacity <= by_links else (by_links, "its links take")
        if most > sends:
            found.append(Origin(name, most, slot, sends, by))
    return found
