"""The cycle of a junction in stages, and what another timing of them makes of the greens of its turns.

A stage lasts from one moment of the cycle at which a green begins or ends to the next. Stages in which nobody has
green, and short ones, are intergreens, which keep their length; the others may be longer or shorter. Which turns
have green together, and in which order, never changes.
"""
from __future__ import annotations

from bisect import bisect_right
from collections.abc import Iterable, Iterator, Mapping, Sequence
from dataclasses import dataclass, replace
from fractions import Fraction
from functools import cached_property
from itertools import accumulate

from ..demand.cycles import Green
from ..errors import Fault
from ..network.crossings.turn import Turn

SECOND = 1000


@dataclass(frozen=True)
class Timing:
    """The offset of a cycle, and how long each of its stages lasts, in ms; and which part less its stop lines let
    through, to see what that costs."""

    offset_ms: int
    lengths: tuple[int, ...]
    less: Fraction = Fraction(0)

    @property
    def cycle_ms(self) -> int:
        """The length of the cycle."""
        return sum(self.lengths)

    @property
    def marks(self) -> list[int]:
        """When each stage begins, in ms of the cycle, and when the last one ends."""
        return [0, *accumulate(self.lengths)]

    def later(self, ms: int) -> Timing:
        """The same, begun so much later."""
        return Timing((self.offset_ms + ms) % self.cycle_ms, self.lengths)

    def moved(self, giver: int, taker: int, ms: int) -> Timing:
        """The same with so much of one stage given to another."""
        lengths = list(self.lengths)
        lengths[giver] -= ms
        lengths[taker] += ms
        return Timing(self.offset_ms, tuple(lengths))


@dataclass(frozen=True)
class Junction:
    """A junction with signals of one cycle: its turns, whose greens begin and end with stages of its own timing."""

    name: str
    turns: tuple[Turn, ...]
    timing: Timing
    shift_ms: int
    """By how much the first stage begins later than the cycle that its source has."""

    @cached_property
    def has_green(self) -> tuple[bool, ...]:
        """Of each stage whether a turn has green in it."""
        spans = [(green.from_ms, green.to_ms) for turn in self.turns for green in turn.protected + turn.permitted]
        marks = self.timing.marks
        return tuple(any(start <= mark < end for start, end in spans) for mark in marks[:-1])

    def changeable(self, least_ms: int) -> list[int]:
        """The stages that may be longer or shorter: those with a green, that last so long at least."""
        lengths = self.timing.lengths
        return [place for place, green in enumerate(self.has_green) if green and lengths[place] >= least_ms]

    def turns_by(self, timing: Timing) -> tuple[Turn, ...]:
        """Its turns by another timing of the same stages."""
        place = {mark: new for mark, new in zip(self.timing.marks, timing.marks)}

        def timed(greens: Iterable[Green]) -> tuple[Green, ...]:
            return tuple(
                replace(
                    green,
                    cycle_ms=timing.cycle_ms,
                    offset_ms=timing.offset_ms,
                    from_ms=place[green.from_ms],
                    to_ms=place[green.to_ms],
                )
                for green in greens
            )

        return tuple(
            replace(turn, protected=timed(turn.protected), permitted=timed(turn.permitted)) for turn in self.turns
        )

    def warped(self, moment_ms: int, timing: Timing) -> int:
        """The moment of another timing's cycle for one of its own: as long after the beginning of its stage, or before
        the end, whichever is nearer."""
        marks, new = self.timing.marks, timing.marks
        place = min(bisect_right(marks, moment_ms) - 1, len(marks) - 2)
        after, before = moment_ms - marks[place], marks[place + 1] - moment_ms
        return new[place] + after if after < before else new[place + 1] - before


@dataclass(frozen=True)
class Controller:
    """A signal that holds the turns of an approach: its name, its cycle, and when its phases begin in it, in ms."""

    name: str
    cycle_ms: int
    phases: tuple[int, ...]


def junctions_of(
    turns: Iterable[Turn], heads: Mapping[str, str], controllers: Mapping[str, Controller] | None = None
) -> list[Junction]:
    """The junctions of turns, by the controller of each approach, or else by the node at its end; turns of one with
    different cycles or offsets are of several. Those that are always green, or never, belong to none."""
    groups: dict[tuple[str, int, int], list[Turn]] = {}
    phases: dict[str, tuple[int, ...]] = {}
    for turn in turns:
        greens = turn.protected + turn.permitted
        if any(green.share for green in greens) and not turn.is_always_green:
            name = heads.get(turn.approach, turn.approach)
            if (by := (controllers or {}).get(turn.approach)) is not None:
                check_cycle(turn, by)
                name, phases[by.name] = by.name, by.phases
            groups.setdefault((name, greens[0].cycle_ms, greens[0].offset_ms), []).append(turn)
    return [
        junction(name, group, cycle, offset, phases.get(name, ())) for (name, cycle, offset), group in groups.items()
    ]


def check_cycle(turn: Turn, controller: Controller) -> None:
    """A Fault where a controller is not that of the greens of a turn."""
    cycle = (turn.protected + turn.permitted)[0].cycle_ms
    if cycle != controller.cycle_ms:
        raise Fault(
            f"signal {controller.name} has a cycle of {controller.cycle_ms / SECOND:g} s, and turn {turn.link} of"
            f" turns.csv one of {cycle / SECOND:g} s: give the files with programs that the case was made with"
        )


def junction(name: str, turns: Sequence[Turn], cycle_ms: int, offset_ms: int, phases: Iterable[int] = ()) -> Junction:
    """The junction of turns with one cycle, which begins with a stage of it; a stage ends where a phase does, too."""
    shift = first_change(turns, cycle_ms)
    turns = tuple(
        replace(turn, protected=later(turn.protected, shift), permitted=later(turn.permitted, shift)) for turn in turns
    )
    ends = {end for turn in turns for green in turn.protected + turn.permitted for end in (green.from_ms, green.to_ms)}
    marks = sorted(ends | {0, cycle_ms} | {(begin - shift) % cycle_ms for begin in phases})
    lengths = tuple(end - start for start, end in zip(marks, marks[1:]))
    return Junction(name, turns, Timing((offset_ms + shift) % cycle_ms, lengths), shift)


def first_change(turns: Sequence[Turn], cycle_ms: int) -> int:
    """The first moment of the cycle at which a green begins or ends; a green that goes on from the end of the cycle
    to its beginning does neither there."""
    moments = set()
    for turn in turns:
        for greens in (turn.protected, turn.permitted):
            starts, ends = {green.from_ms for green in greens}, {green.to_ms % cycle_ms for green in greens}
            moments |= starts ^ ends if 0 in starts & ends else starts | ends
    return min(moments, default=0)


def later(greens: Iterable[Green], shift: int) -> tuple[Green, ...]:
    """Greens as of a cycle that begins so much later; those that met where it began before are one."""
    found: list[Green] = []
    for green in sorted((part for green in greens for part in cut(green, shift)), key=lambda green: green.from_ms):
        if found and found[-1].to_ms == green.from_ms and found[-1].share == green.share:
            found[-1] = replace(found[-1], to_ms=green.to_ms)
        else:
            found.append(green)
    return tuple(found)


def cut(green: Green, shift: int) -> Iterator[Green]:
    """A green as of a cycle that begins so much later: two where it goes on over its end."""
    cycle = green.cycle_ms
    start = (green.from_ms - shift) % cycle
    end = start + green.to_ms - green.from_ms
    offset = (green.offset_ms + shift) % cycle
    yield replace(green, from_ms=start, to_ms=min(end, cycle), offset_ms=offset)
    if end > cycle:
        yield replace(green, from_ms=0, to_ms=end - cycle, offset_ms=offset)


def offsets(timing: Timing, part: int) -> list[Timing]:
    """The same timing begun a part of the cycle later and earlier, in whole seconds."""
    ms = max(1, timing.cycle_ms // part // SECOND) * SECOND
    return list(dict.fromkeys((timing.later(ms), timing.later(-ms))))


def splits(timing: Timing, stages: Sequence[int], part: int, least_ms: int) -> list[Timing]:
    """The same timing with a part of the cycle, in whole seconds, moved between neighbours of these stages, each of
    which keeps so much at least."""
    ms = max(1, timing.cycle_ms // part // SECOND) * SECOND
    pairs = [(one, other) for place, one in enumerate(stages) for other in stages[place + 1 : place + 2]]
    if len(stages) > 2:
        pairs.append((stages[-1], stages[0]))
    return [
        timing.moved(giver, taker, ms)
        for pair in pairs
        for giver, taker in (pair, pair[::-1])
        if timing.lengths[giver] - ms >= least_ms
    ]
