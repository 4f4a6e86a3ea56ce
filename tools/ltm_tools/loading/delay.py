"""Queues and delay of a loading, worked out from its curves in whole numbers.

The tables of every command take them from here, also that of a map page. The curves of a map page are drawn in the
browser, by the same definitions (`show/web/numbers.js`); the live map has its numbers from the answers of a session.

Counts are thousandths of a vehicle (units), totals over destinations; `h` is the step in ms; boundaries k run from 0 to
T.

    ready of a link at k     how many vehicles may have left it by then in free flow: what had entered it by the moment
                             k*h less its free-flow time, interpolated between boundaries and rounded down; 0 where
                             that moment is not above 0
    queue of a link at k     ready less what has left it: vehicles that could have left and have not (Newell's vertical
                             queue)
    waiting at a node at k   what its demand has produced less what has left its origin
    spent on a link          the vehicle time on it: the sum over k = 1..T of what is on it at k, times h
    queued, waited           the sums over k = 1..T of the queue, and of those waiting, times h; together they are the
                             delay

Times are units times milliseconds: whole numbers of millionths of a vehicle second.
"""
from __future__ import annotations

import re
from collections.abc import Iterator
from dataclasses import dataclass, field
from typing import Protocol

from ..case import Case, Demand, Link
from ..errors import Fault
from ..formats import MOST_SLOT_UNITS, NAME, told_time, told_units, vehicles_text
from .counts import Counts, is_numpy, less, zeros

try:
    import numpy
except ImportError:
    numpy = None  # type: ignore[assignment]

MILLIONTHS = 1_000_000  # units times milliseconds in a vehicle second


class HasCounts(Protocol):
    """Curves, as the delay is worked out of them."""

    step_ms: int
    boundaries: int

    def up(self, link: str) -> Counts:
        """What has entered a link by each boundary."""

    def down(self, link: str) -> Counts:
        """What has left it."""

    def departed(self, node: str) -> Counts:
        """What has left the origin of a node."""


@dataclass(slots=True)
class Delay:
    """Of a link: its vehicle time, the part of it in the queue, the greatest queue in units, and the first boundary
    that has it."""

    spent: int
    queued: int
    most: int
    at: int


@dataclass(slots=True)
class Wait:
    """Of an origin: the vehicle time that was waited there, the most that waited in units, and the first boundary that
    has it."""

    waited: int
    most: int
    at: int


@dataclass(slots=True)
class Report:
    """The delay of a loading, by link in the order of `links.csv` and by origin in the order of node numbers."""

    links: dict[str, Delay] = field(default_factory=dict)
    origins: dict[str, Wait] = field(default_factory=dict)

    @property
    def spent(self) -> int:
        """The vehicle time of all, those waiting at origins with them."""
        return sum(link.spent for link in self.links.values()) + self.waited

    @property
    def queued(self) -> int:
        """The vehicle time in queues of links."""
        return sum(link.queued for link in self.links.values())

    @property
    def waited(self) -> int:
        """The vehicle time that was waited at origins."""
        return sum(node.waited for node in self.origins.values())

    @property
    def delay(self) -> int:
        """What was queued and waited."""
        return self.queued + self.waited

    def lines(self) -> Iterator[str]:
        """The report, a line each, with times in vehicle seconds and amounts in vehicles."""
        yield (
            f"version 0 spent {seconds_text(self.spent)} queued {seconds_text(self.queued)} waited"
            f" {seconds_text(self.waited)}"
        )
        for name, link in self.links.items():
            yield (
                f"link {name} spent {seconds_text(link.spent)} queued {seconds_text(link.queued)} most"
                f" {vehicles_text(link.most)} at {link.at}"
            )
        for name, node in self.origins.items():
            yield f"node {name} waited {seconds_text(node.waited)} most {vehicles_text(node.most)} at {node.at}"


TIME, AMOUNT = r"([0-9]+\.[0-9]{6})", r"([0-9]+\.[0-9]{3})"
TOTALS_LINE = re.compile(f"version 0 spent {TIME} queued {TIME} waited {TIME}", re.ASCII)
LINK_LINE = re.compile(f"link ({NAME.pattern}) spent {TIME} queued {TIME} most {AMOUNT} at ([0-9]+)", re.ASCII)
NODE_LINE = re.compile(f"node ({NAME.pattern}) waited {TIME} most {AMOUNT} at ([0-9]+)", re.ASCII)


def read_report(text: str) -> Report:
    """The report that is told by these lines, as the program writes them; a Fault where they tell none."""
    lines, found = text.splitlines(), Report()
    totals = TOTALS_LINE.fullmatch(lines[0]) if lines else None
    for number, line in enumerate(lines[1:], 2):
        if link := LINK_LINE.fullmatch(line):
            found.links[link[1]] = Delay(told_time(link[2]), told_time(link[3]), told_units(link[4]), int(link[5]))
        elif node := NODE_LINE.fullmatch(line):
            found.origins[node[1]] = Wait(told_time(node[2]), told_units(node[3]), int(node[4]))
        else:
            raise Fault(f"line {number} of a report of delay is {line!r}")
    if totals is None or (found.spent, found.queued, found.waited) != tuple(map(told_time, totals.groups())):
        raise Fault(f"{lines[0] if lines else ''!r} is not the first line of this report of delay")
    return found


def seconds_text(time: int) -> str:
    """Units times milliseconds as vehicle seconds with six decimals, exactly."""
    sign = "-" if time < 0 else ""
    return f"{sign}{abs(time) // MILLIONTHS}.{abs(time) % MILLIONTHS:06}"


def ready(up: Counts, step_ms: int, free_ms: int) -> Counts:
    """What may have left a link by each boundary in free flow. The free-flow time is at least a step."""
    later, part = divmod(-free_ms, step_ms)  # k*h - free is (k + later)*h + part, and `later` is below 0
    count = max(0, len(up) + later)
    before, after = up[:count], up[1 : count + 1]
    if is_numpy(up):
        counts = zeros(len(up))
        counts[len(up) - count :] = before + (after - before) * part // step_ms
        return counts
    return [0] * (len(up) - count) + [a + (b - a) * part // step_ms for a, b in zip(before, after)]


def queue(curves: HasCounts, link: Link) -> Counts:
    """The queue of a link at each boundary."""
    up, down = checked_curves(curves, link)
    return less(ready(up, curves.step_ms, link.free_ms), down)


def checked_curves(curves: HasCounts, link: Link) -> tuple[Counts, Counts]:
    """What has entered a link and what has left it; a Fault where that cannot be of a loading."""
    up, down = curves.up(link.name), curves.down(link.name)
    check_curve(up, f"what has entered {link.name}")
    check_curve(down, f"what has left {link.name}")
    return up, down


def produced(rows: list[Demand], boundaries: int) -> Counts:
    """What these rows of demand have produced by each boundary."""
    counts = zeros(boundaries)
    for row in rows:
        span = row.to_slot - row.from_slot
        if is_numpy(counts):
            counts[row.from_slot : row.to_slot] += row.units * numpy.arange(span, dtype=numpy.int64) // span
            counts[row.to_slot :] += row.units
        else:
            for k in range(row.from_slot, row.to_slot):
                counts[k] += row.units * (k - row.from_slot) // span
            for k in range(row.to_slot, boundaries):
                counts[k] += row.units
    return counts


def demand_by_origin(case: Case) -> dict[str, list[Demand]]:
    """The demand that stands, by origin, in the order of node numbers."""
    rows: dict[str, list[Demand]] = {}
    for row in case.standing_demand():
        rows.setdefault(row.origin, []).append(row)
    return {node: rows[node] for node in case.nodes if node in rows}


def waiting(curves: HasCounts, case: Case, node: str) -> Counts:
    """How many wait at a node at each boundary; none at a node that is no origin."""
    return less(produced(demand_by_origin(case).get(node, []), curves.boundaries), curves.departed(node))


def report(curves: HasCounts, case: Case) -> Report:
    """The delay of a loading of the case."""
    found, step = Report(), curves.step_ms
    for link in case.links:
        up, down = checked_curves(curves, link)
        standing, queued = less(up, down), less(ready(up, step, link.free_ms), down)
        found.links[link.name] = Delay(sum_of_counts(standing) * step, sum_of_counts(queued) * step, *most(queued))
    for node, rows in demand_by_origin(case).items():
        waits = less(produced(rows, curves.boundaries), curves.departed(node))
        found.origins[node] = Wait(sum_of_counts(waits) * step, *most(waits))
    return found


def check_curve(counts: Counts, what: str) -> None:
    """A Fault where a curve of a link cannot be that of a loading: it begins with 0, never falls, and at most 32
    vehicles pass in a slot."""
    if is_numpy(counts):
        steps = numpy.diff(counts)
        fits = (
            counts[0] == 0
            and not len(steps)
            or bool(counts[0] == 0 and steps.min() >= 0 and steps.max() <= MOST_SLOT_UNITS)
        )
    else:
        fits = counts[0] == 0 and all(0 <= b - a <= MOST_SLOT_UNITS for a, b in zip(counts, counts[1:]))
    if not fits:
        raise Fault(f"{what} is no curve of a loading: `ltm check` says where the curve file is wrong")


def sum_of_counts(counts: Counts) -> int:
    """The sum of counts."""
    return int(counts.sum()) if is_numpy(counts) else sum(counts)


def most(counts: Counts) -> tuple[int, int]:
    """The greatest count, and the first boundary that has it."""
    at = int(counts.argmax()) if is_numpy(counts) else counts.index(max(counts))
    return int(counts[at]), at
