"""What a little more and a little less capacity of a link is worth, in exact loadings of both.

The loading rounds to thousandths of a vehicle, and so does each answer. How much that is at a link is seen by the
smallest change that has an effect there: a thousandth less in the slot in which most leaves it. A step is doubled
until its answer is ten times as much; one without any effect is not.
"""
from __future__ import annotations

from collections.abc import Collection, Iterable, Mapping, Sequence
from dataclasses import dataclass
from fractions import Fraction

from ..case import Case, Link
from ..scenario.edits import Exit
from .capacity import Change, capacity_of
from .trials import Effect, Trials

TIMES_ROUNDING = 10
MOST_PART = Fraction(1, 2)  # the largest step, as a part of the capacity


@dataclass(frozen=True)
class Tried:
    """A change of a capacity, in vehicles an hour, and its effect."""

    per_hour: Fraction
    effect: Effect


@dataclass(frozen=True)
class Weighed:
    """A link that is to be weighed, and the slot of the case in which most leaves it, with how much, in units."""

    link: str
    busiest: int
    units: int


@dataclass(frozen=True)
class Worth:
    """What a link lets through, in vehicles an hour, and what holds it; its capacity raised and lowered, each None
    where that cannot be or was not tried; the total travel time by which the smallest change of all changes the answer;
    and what more capacity adds to the delay of each link and origin for which it changes. The last two are None where
    they were not asked for."""

    link: str
    kind: str
    per_hour: Fraction
    more: Tried | None
    less: Tried | None
    rounding: int | None = None
    moved: Mapping[str, int] | None = None

    @property
    def answer(self) -> int:
        """The greater of both changes of the total travel time."""
        return greatest(self.more, self.less)

    @property
    def is_clear(self) -> bool:
        """Whether the answer is known to be ten times as much as rounding makes of it."""
        return self.rounding is not None and self.answer >= TIMES_ROUNDING * self.rounding

    @property
    def falls(self) -> int:
        """All that delays fall by with more capacity."""
        return -sum(change for change in (self.moved or {}).values() if change < 0)

    @property
    def rises(self) -> int:
        """All that delays rise by with more capacity."""
        return sum(change for change in (self.moved or {}).values() if change > 0)

    @property
    def saved(self) -> int:
        """The total travel time that more capacity saves."""
        return -self.more.effect.spent if self.more else 0


def candidates(case: Case, delayed: Collection[str]) -> list[Link]:
    """The links that may hold a queue: those where vehicles are delayed and those they lead into, and the links out
    of an origin where vehicles wait. Origins are named in brackets."""
    heads = {link.head for link in case.links if link.name in delayed}
    return [link for link in case.links if link.name in delayed or link.tail in heads or f"({link.tail})" in delayed]


def greatest(more: Tried | None, less: Tried | None) -> int:
    """The greater of both changes of the total travel time."""
    return max((abs(tried.effect.spent) for tried in (more, less) if tried), default=0)


def scan(trials: Trials, link: str, first: int, end: int, part: Fraction) -> Worth:
    """What a part more of the capacity of a link saves in these slots, and nothing else of its worth."""
    capacity = capacity_of(trials.case.setup, trials.open.own, link, first, end)
    more = tried(trials, capacity.changed(part))
    return Worth(link, capacity.kind, capacity.per_hour, more, None)


def weigh(trials: Trials, one: Weighed, first: int, end: int, part: Fraction) -> Worth:
    """What a part of the capacity of a link is worth in these slots; a larger part where rounding hides the answer."""
    capacity = capacity_of(trials.case.setup, trials.open.own, one.link, first, end)
    rounding: int | None = None
    while True:
        less, more = tried(trials, capacity.changed(-part)), tried(trials, change := capacity.changed(part))
        has_effect = any(one is not None and one.effect != Effect(0, 0, 0) for one in (more, less))
        moved = trials.moved(change.edits) if has_effect and change and more else {}
        if rounding is None:
            rounding = rounding_of(trials, one) if has_effect else 0
        worth = Worth(one.link, capacity.kind, capacity.per_hour, more, less, rounding, moved)
        if not has_effect or worth.is_clear or 2 * part > MOST_PART:
            return worth
        part = larger(part, worth)


def larger(part: Fraction, worth: Worth) -> Fraction:
    """A part doubled, and again until its answer would be clear if it grew as the part does, while it may."""
    times = 2
    wanted = TIMES_ROUNDING * (worth.rounding or 0)
    while 2 * times * part <= MOST_PART and times * worth.answer < wanted:
        times *= 2
    return times * part


def tried(trials: Trials, change: Change | None) -> Tried | None:
    """The effect of a change; None where there is none or it is refused."""
    effect = None if change is None else trials.effect(change.edits)
    return None if change is None or effect is None else Tried(change.per_hour, effect)


def to_weigh(trials: Trials, link: str) -> Weighed:
    """A link that is to be weighed."""
    return Weighed(link, *trials.busiest(link))


def rounding_of(trials: Trials, one: Weighed) -> int:
    """By how much the total travel time changes where a thousandth less leaves a link in its busiest slot."""
    if not one.units:
        return 0
    effect = trials.effect([Exit(one.link, one.busiest, one.busiest + 1, one.units - 1)])
    return abs(effect.spent) if effect else 0


def by_savings(found: Iterable[Worth]) -> list[Worth]:
    """Those that matter, the most saved first; of equals those that lose most by less capacity."""
    return sorted(
        (worth for worth in found if worth.answer),
        key=lambda worth: (-worth.saved, -(worth.less.effect.spent if worth.less else 0)),
    )


def ranked(scanned: Sequence[Worth], delays: Mapping[str, int], most: int) -> tuple[list[str], list[Worth]]:
    """The links to weigh, so many: those where more capacity saves most, of equals those with most delay; and the
    others for which it has an effect."""
    order = sorted(scanned, key=lambda worth: (-worth.saved, -delays.get(worth.link, 0)))
    return [worth.link for worth in order[:most]], [worth for worth in order[most:] if worth.answer]
