"""Vehicles that stand still until the end of a loading: since when, on which links, and whether the links hold each
other up in a circle (gridlock).

A link stands still where vehicles are on it at the end of the horizon and nothing has entered or left it for so long
that something would have, if it could: for its free-flow time and its wave time, and not because of a red light.
"""
from __future__ import annotations

from bisect import bisect_left
from collections.abc import Iterable, Mapping
from dataclasses import dataclass

from ..case import Case, Limit, Link
from ..case.circles import circle_in
from ..case.closed import by_link, open_slots
from ..case.routes import missing_routes
from ..case.streets import street_and_id
from ..formats import MINUTE_MS, UNITS, clock_text, count_text, counted, told_units
from . import delay
from .counts import as_list
from .curves import Curves

LEAST_UNITS = 1000
"""What stands still on all links together, in thousandths of a vehicle, where it is told."""
FULL = 95
"""Per cent of its storage with which a link is full: flooring leaves a little room."""
MOST_RED_MS = 5 * MINUTE_MS
"""The longest time that a signal is taken to be red: behind a longer one a link stands still."""
MOST_LINKS = 12  # of a circle, that are told


@dataclass(frozen=True)
class Still:
    """A link that stands still: the boundary since which it does, and the thousandths of a vehicle that are on it."""

    name: str
    since: int
    units: int
    full: bool


@dataclass(frozen=True)
class Standstill:
    """All links that stand still, the first to do so first; the links of a circle that hold each other up; what is on
    all links at the end, and what waits to enter, in thousandths of a vehicle."""

    links: tuple[Still, ...]
    circle: tuple[str, ...]
    on_links: int
    waiting: int

    @property
    def units(self) -> int:
        """What stands still, in thousandths of a vehicle."""
        return sum(link.units for link in self.links)

    @property
    def since(self) -> int:
        """The boundary since which all of them stand."""
        return max(link.since for link in self.links)

    @property
    def whole(self) -> bool:
        """Whether nothing moves on any link."""
        return self.units == self.on_links


def standstill(curves: Curves, case: Case) -> Standstill | None:
    """What stands still at the end of a loading; None where that is less than a vehicle."""
    exits = by_link(case.signals)
    on_links, found = 0, []
    for link in case.links:
        up, down = curves.up(link.name), curves.down(link.name)
        units = int(up[-1]) - int(down[-1])
        on_links += units
        since = max(last_change(as_list(up)), last_change(as_list(down)))
        if units and stands(link, since, case, exits.get(link.name, ())):
            found.append(Still(link.name, since, units, 100 * units >= FULL * link.storage_units))
    found.sort(key=lambda link: link.since)
    if sum(link.units for link in found) < LEAST_UNITS:
        return None
    waiting = sum(int(delay.waiting(curves, case, node)[-1]) for node in delay.demand_by_origin(case))
    return Standstill(tuple(found), tuple(circle_of(found, case)), on_links, waiting)


def last_change(counts: list[int]) -> int:
    """The boundary by which a curve has come to its last count."""
    return bisect_left(counts, counts[-1])


def stands(link: Link, since: int, case: Case, exits: Iterable[Limit]) -> bool:
    """Whether a link on which nothing has moved since a boundary would have moved if it could: long enough for its
    times, and not for a red light."""
    step_ms, slots = case.setup.step_ms, case.setup.slots
    still_ms = (slots - since) * step_ms
    if still_ms < max(link.free_ms, link.wave_ms) + step_ms:
        return False
    green = open_slots(exits, slots)
    return any(green[since:]) or not any(green) or still_ms > MOST_RED_MS


def circle_of(still: Iterable[Still], case: Case) -> list[str]:
    """Full links that wait for one another in a circle, if there is one: each is sent on into the next."""
    full = {link.name for link in still if link.full}
    sent: dict[str, set[str]] = {}
    for row in (*(case.splits or ()), *(missing_routes(case) if case.setup.routes else ())):
        sent.setdefault(row.node, set()).update(name for name, weight in row.weights.items() if weight)
    turns: dict[str, dict[str, str]] = {}
    for link in case.links:
        if link.name in full:
            onward = sent.get(link.head, set()) & full
            turns[link.name] = {name: name for name in sorted(onward)}
    return circle_in(turns) or []


def is_full(report: str, links: Iterable[Link]) -> bool:
    """Whether a link is full at the end of a loading, as a report of `load` tells it: else nothing is locked."""
    storage = {link.name: link.storage_units for link in links}
    for line in report.splitlines():
        words = line.split()
        if len(words) == 6 and words[0] == "link" and words[1] in storage:
            on_link = told_units(words[3]) - told_units(words[5])
            if on_link and 100 * on_link >= FULL * storage[words[1]]:
                return True
    return False


def standstill_lines(found: Standstill, case: Case, start: int, streets: Mapping[str, str]) -> list[str]:
    """What is to be told of a standstill of a case whose slot 0 begins at `start`: since when and how many, why, and
    what to do."""

    def when(boundary: int) -> str:
        return clock_text(start + boundary * case.setup.step_ms)

    told = [f"{unmoved(found)} since {when(found.since)}; {on_them(found)}"]
    if len(found.links) > 1:
        first = found.links[0]
        told.append(f"the first link to stand still was {street_and_id(first.name, streets)}, at {when(first.since)}")
    if not found.circle:
        return [*told, "limits.csv or signals.csv may close what lies ahead of them to the end of the horizon"]
    names = " ".join(street_and_id(name, streets) for name in found.circle[:MOST_LINKS])
    more = len(found.circle) - MOST_LINKS
    return [
        *told,
        f"it is a gridlock, in which full links wait for one another: {names}"
        + (f" and {counted(more, 'more link')}" if more > 0 else ""),
        "send the traffic by other routes (ltm-tools assign finds some), or less of it",
    ]


def unmoved(found: Standstill) -> str:
    """What has not moved."""
    return "Nothing has moved" if found.whole else f"Nothing has moved on {counted(len(found.links), 'link')}"


def on_them(found: Standstill) -> str:
    """How many vehicles stand still, and where all do, how many wait to enter."""
    standing = f"{count_text(round(found.units / UNITS))} vehicles are on"
    if not found.whole:
        return f"{standing} {'it' if len(found.links) == 1 else 'them'}"
    waiting = f", and {count_text(round(found.waiting / UNITS))} wait to enter" if found.waiting else ""
    return f"{standing} links{waiting}"
