"""Signals: greens that come round in a cycle, as exit limits of links slot by slot.

A link may leave its capacity while it is green, and nothing while it is not. A slot that is green in part takes that
part. What is rounded off is carried on, so that over any time a link loses less than a thousandth of a vehicle.
"""
from __future__ import annotations

import math
from collections.abc import Iterator, Mapping, Sequence
from dataclasses import dataclass
from fractions import Fraction
from math import lcm

from ..case import Limit
from ..errors import Fault
from ..formats import MINUTE_MS, MOST_SLOT_UNITS


@dataclass(frozen=True, slots=True)
class Green:
    """A green that comes round: within each cycle from one time up to another (ms), the cycle beginning at the offset;
    it counts for a share of the link's traffic, as that of a turn."""

    cycle_ms: int
    from_ms: int
    to_ms: int
    offset_ms: int = 0
    share: Fraction = Fraction(1)

    def whole_by(self, time_ms: int) -> int:
        """The green in ms, whatever its share, up to a time, from the beginning of a cycle that lies before 0."""
        rounds, rest = divmod(time_ms - self.offset_ms % self.cycle_ms + self.cycle_ms, self.cycle_ms)
        length = self.to_ms - self.from_ms
        return rounds * length + min(max(rest - self.from_ms, 0), length)


@dataclass(frozen=True, slots=True)
class Plan:
    """The greens of a link from a time up to another (ms after slot 0)."""

    link: str
    greens: tuple[Green, ...]
    start_ms: int
    end_ms: int


def check_green(link: str, green: Green) -> None:
    """That a green lies in its cycle."""
    if green.cycle_ms < 1:
        raise Fault(f"link {link}: a cycle of {green.cycle_ms} ms; a cycle is above 0")
    if not 0 <= green.from_ms < green.to_ms <= green.cycle_ms:
        raise Fault(
            f"link {link}: a green from {green.from_ms} to {green.to_ms} ms in a cycle of {green.cycle_ms} ms;"
            " it begins before it ends, and lies in the cycle: give one over the cycle's end as two"
        )


def exit_limits(plan: Plan, *, capacity: int | Fraction, step_ms: int, slots: int) -> list[Limit]:
    """The exit limits of a plan, for a link that takes a capacity in a slot (thousandths, and a part of one too where
    the case carries it); spans of slots with the same limit are one. A slot that is green as a whole has none."""
    limits: list[Limit] = []
    first = last = units = -1
    let = Let(plan, capacity, step_ms)
    for start, end, count in let.spans(max(0, plan.start_ms // step_ms), min(slots, -(-plan.end_ms // step_ms))):
        if start != last or count != units:
            if first >= 0:
                limits.append(Limit(plan.link, first, last, units))
            first, units = start, count
        last = end
    return limits if first < 0 else [*limits, Limit(plan.link, first, last, units)]


class Let:
    """What a plan lets pass, in whole numbers, of a link that takes a capacity in a step: green times count in parts of
    a millisecond, as many as make the shares of all greens whole; what passes is `capacity` over `of`."""

    def __init__(self, plan: Plan, capacity: int | Fraction, step_ms: int) -> None:
        self.plan, self.step_ms = plan, step_ms
        self.capacity, self.of = Fraction(capacity).as_integer_ratio()
        self.parts = lcm(*(green.share.denominator for green in plan.greens))
        self.shares = [(green, int(green.share * self.parts)) for green in plan.greens]
        self.cycle = lcm(*(green.cycle_ms for green in plan.greens))
        self.known: dict[int, int] = {}
        self.of_cycle = self.exact(self.cycle) - self.exact(0)
        self.begun = self.by(plan.start_ms)

    def exact(self, time: int) -> int:
        """The green up to a time, from the beginning of cycles that lie before 0."""
        return sum(share * green.whole_by(time) for green, share in self.shares)

    def by(self, time: int) -> int:
        """The same; in each cycle it is as in the first."""
        rounds, rest = divmod(time, self.cycle)
        if rest not in self.known:
            self.known[rest] = self.exact(rest)
        return self.known[rest] + rounds * self.of_cycle

    def spans(self, first: int, last: int) -> Iterator[tuple[int, int, int]]:
        """The slots from one on up to another that are not green as a whole, and what passes in each; those in which
        nothing does together, where cycles come round with the slots."""
        times = range(0, lcm(self.cycle, self.step_ms), self.step_ms)
        whole, begin = self.parts * self.step_ms * self.of, first
        if self.comes_round(times):
            runs, stop = self.runs(first, len(times)), min(last, self.plan.end_ms // self.step_ms)
            of_round, more = self.by(times.stop) - self.by(0), 0
            while begin < stop:
                for start, end, green, later in runs:
                    if begin + start < stop:
                        count = self.capacity * (later + more) // whole - self.capacity * (green + more) // whole
                        yield begin + start, min(begin + end, stop), min(MOST_SLOT_UNITS, count)
                begin, more = begin + len(times), more + of_round
            begin = stop
        for slot in range(begin, last):
            if (units := self.units(slot)) is not None:
                yield slot, slot + 1, units

    def comes_round(self, times: range) -> bool:
        """Whether the plan begins with a slot, lasts until cycles do so again, with slots at `times` behind the first,
        and at no time lets more pass than the link takes."""
        start = self.plan.start_ms
        return (
            start >= 0
            and start % self.step_ms == 0
            and times.stop <= self.plan.end_ms - start
            and self.of_cycle <= self.parts * self.cycle
            and all(self.by(start + time) - self.begun <= self.parts * time for time in times)
        )

    def runs(self, first: int, count: int) -> list[tuple[int, int, int, int]]:
        """Of so many slots those that are not green as a whole, from the first on, with the green since the plan began
        up to their beginning and end: each, or where there is none all that follow each other."""
        made: list[tuple[int, int, int, int]] = []
        for place in range(count):
            time = (first + place) * self.step_ms
            green, later = self.by(time) - self.begun, self.by(time + self.step_ms) - self.begun
            if made and made[-1][1:] == (place, green, later) and green == later:
                made[-1] = made[-1][0], place + 1, green, later
            elif later - green < self.parts * self.step_ms:
                made.append((place, place + 1, green, later))
        return made

    def units(self, slot: int) -> int | None:
        """What passes in a slot, or nothing where it is green as a whole, or as far as the plan goes."""
        start = max(slot * self.step_ms, self.plan.start_ms)
        end = min((slot + 1) * self.step_ms, self.plan.end_ms)
        time, green, later = end - start, self.by(start), self.by(end)
        if later - green >= self.parts * time:
            return None
        count = self.passed(end, later) - self.passed(start, green)
        return min(MOST_SLOT_UNITS, count + self.capacity * (self.step_ms - time) // (self.step_ms * self.of))

    def passed(self, time: int, green: int) -> int:
        """The thousandths of vehicles that pass from the plan's start to a time, by the green up to it."""
        most = self.parts * (time - self.plan.start_ms)
        return self.capacity * min(green - self.begun, most) // (self.parts * self.step_ms * self.of)


def even_limits(plan: Plan, *, capacity: int | Fraction, step_ms: int, slots: int, carry: bool = False) -> list[Limit]:
    """One limit for the whole plan, the mean of its cycle, rounded down; with `carry` limits that let the mean pass in
    each minute but for less than a thousandth of a vehicle, which is carried to the next."""
    first, last = max(0, plan.start_ms // step_ms), min(slots, -(-plan.end_ms // step_ms))
    share = min(
        sum(
            (green.share * Fraction(green.to_ms - green.from_ms, green.cycle_ms) for green in plan.greens), Fraction(0)
        ),
        Fraction(1),
    )
    exact = min(capacity * share, Fraction(MOST_SLOT_UNITS))
    if first >= last or share == 1:
        return []
    if carry:
        return carried_limits(plan.link, exact, range(first, last), max(1, MINUTE_MS // step_ms))
    return [Limit(plan.link, first, last, exact.numerator // exact.denominator)]


def carried_limits(link: str, units: Fraction, slots: range, count: int) -> list[Limit]:
    """Limits that let so much pass in each slot in the mean of every `count` slots, in whole thousandths of a vehicle:
    in the last ones of these one more than in those before. Spans of slots with the same limit are one."""
    limits: list[Limit] = []
    for begin in range(slots.start, slots.stop, count):
        end = min(begin + count, slots.stop)
        passed = math.floor(units * (end - slots.start)) - math.floor(units * (begin - slots.start))
        least, more = divmod(passed, end - begin)
        for first, last, pace in ((begin, end - more, least), (end - more, end, least + 1)):
            if limits and limits[-1].units == pace and first < last:
                limits[-1].to_slot = last
            elif first < last:
                limits.append(Limit(link, first, last, pace))
    return limits


def by_turn(greens: Mapping[str, Sequence[Green]], shares: Mapping[str, Fraction]) -> tuple[Green, ...]:
    """The greens of turns as those of their link: each counts for the share of the turn."""
    whole = sum((shares.get(turn, Fraction(0)) for turn in greens), Fraction(0))
    made = []
    for turn, some in greens.items():
        share = shares.get(turn, Fraction(0)) / whole if whole else Fraction(1, len(greens))
        made += [Green(green.cycle_ms, green.from_ms, green.to_ms, green.offset_ms, share) for green in some if share]
    return tuple(made)
