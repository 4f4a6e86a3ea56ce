"""What is told of the turns of a case."""
from __future__ import annotations

from collections.abc import Mapping, Sequence
from fractions import Fraction

from ...case import Link, Setup
from ...formats import HOUR_MS, counted
from .expand import Expanded
from .never_green import never_green_told, shut_turns
from .turn import Turn
from .volumes import Volumes

MOST_TOLD = 5
NO_STREETS: Mapping[str, str] = {}


def whole_told(count: int) -> list[str]:
    """How many crossings stay as they are, as a link before them cannot be cut."""
    return (
        [f"{counted(count, 'crossing')} without turns, as a link before it is too short to be cut: --fit cuts it"]
        if count
        else []
    )


def crossings_told(made: Expanded) -> list[str]:
    """How many crossings have their turns as links."""
    turns = sum(len(own) for own in made.own.values()) - len(made.stops)
    told = (
        [
            f"{counted(len(made.added), 'crossing')} with {counted(turns, 'turn')} as links of their own; turns.csv has"
            f" their lanes and greens"
        ]
        if made.added
        else []
    )
    if made.parted:
        told.append(
            f"{counted(made.parted, 'dead end')} with a node for links that end and one for those that begin,"
            f" as nobody may turn back"
        )
    if made.apart:
        told.append(
            f"{counted(made.apart, 'node')} with a node for each group of links that turns join, as nobody may turn"
            f" from one group into another"
        )
    if made.stops:
        told.append(f"{counted(len(made.stops), 'link')} for trips that end at a crossing, which no signal holds")
    if made.short:
        told.append(
            f"{counted(made.short, 'link')} before a crossing shorter than two links may be at this step, so"
            f" that turns make the way longer"
        )
    return told


def turn_name(turn: Turn, streets: Mapping[str, str]) -> str:
    """A turn as people know it, by the streets that it leads from and to; by its link where neither has a name."""
    if not streets.get(turn.approach) and not streets.get(turn.exit):
        return turn.link
    return f"{streets.get(turn.approach, turn.approach)} to {streets.get(turn.exit, turn.exit)} ({turn.link})"


def turns_told(
    turns: Sequence[Turn],
    volumes: Volumes,
    links: Mapping[str, Link],
    setup: Setup,
    streets: Mapping[str, str] = NO_STREETS,
    whole: int = 0,
) -> list[str]:
    """Which turns never have green, which yield, how little they get of it, and which have more vehicles than they let
    pass. `streets` are those of links of the source, `whole` the thousandths of all vehicles, where these are known."""
    called = {turn.link: turn_name(turn, streets) for turn in turns}
    yielding = [(min(turn.factors(volumes)), turn.link) for turn in turns if turn.permitted]
    told = never_green_told(shut_turns(turns, volumes), streets, whole)
    if yielding:
        least, link = min(yielding)
        told.append(
            f"{counted(len(yielding), 'turn')} that yield, to the traffic of each"
            f" {volumes.slice_ms // 60_000} minutes; the least is {float(least):.3f} of what its lanes let pass"
            f" ({called[link]})"
        )
    over = sorted(
        ((load, turn.link) for turn in turns if (load := load_of(turn, volumes, links, setup)) > 1), reverse=True
    )
    if over:
        more = f" and {len(over) - MOST_TOLD} more" if len(over) > MOST_TOLD else ""
        told.append(
            f"{counted(len(over), 'turn')} with more vehicles than pass: "
            + ", ".join(f"{called[link]} {float(load):.2f}" for load, link in over[:MOST_TOLD])
            + more
        )
    return told


def saturation_told(turns: Sequence[Turn]) -> list[str]:
    """What stop lines let through, in the mean of their lanes; nothing where there are none."""
    held = [turn for turn in turns if turn.protected or turn.permitted]
    lanes = sum((turn.lanes for turn in held), Fraction(0))
    if not lanes:
        return []
    mean = sum((turn.lanes * turn.saturation for turn in held), Fraction(0)) / lanes
    least, most = (choose(turn.saturation for turn in held) for choose in (min, max))
    return [
        f"a lane lets through {float(mean):,.0f} vehicles an hour at stop lines in the mean, {float(least):,.0f} to"
        f" {float(most):,.0f} (--saturation sets the most; turns.csv has each)"
    ]


def load_of(turn: Turn, volumes: Volumes, links: Mapping[str, Link], setup: Setup) -> Fraction:
    """The vehicles of a turn by what its greens let pass, in the slice where that is most; 0 where it has no signal."""
    if not turn.protected and not turn.permitted:
        return Fraction(0)
    rate = links[turn.link].passing(setup.step_ms, setup.carry) * HOUR_MS / setup.step_ms
    factors = turn.factors(volumes) or [Fraction(1)] * volumes.slices
    greens = [
        sum((green.share * (green.to_ms - green.from_ms) / green.cycle_ms for green in some), Fraction(0))
        for some in (turn.protected, turn.permitted)
    ]
    counts = volumes.counts.get(turn.link, {})
    return max(
        (
            Fraction(counts.get(number, 0) * HOUR_MS, volumes.slice_ms) / (rate * share)
            for number, factor in enumerate(factors)
            if (share := greens[0] + greens[1] * factor) > 0
        ),
        default=Fraction(0),
    )
