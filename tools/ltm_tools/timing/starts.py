"""Plans to begin a search with: green times by the flows of a loading, common cycles, and a green wave along a path."""
from __future__ import annotations

from collections.abc import Iterable, Mapping, Sequence
from fractions import Fraction

from ..errors import Fault
from ..network.crossings.turn import Turn
from ..network.crossings.volumes import Volumes
from .stages import SECOND, Junction, Timing
from .trying import Plan


def by_flows(one: Junction, volumes: Volumes, least_ms: int, timing: Timing | None = None) -> Timing:
    """The green of a cycle, its own or that of another timing, shared by flow ratios, as Webster has it: each
    changeable stage by the turn that asks for most of it, what it lets pass and the vehicles of its busiest time; a
    turn with green in several asks each for an even part."""
    timing = one.timing if timing is None else timing
    stages, lengths = one.changeable(least_ms), timing.lengths
    busy, ratios = volumes.busy(), dict.fromkeys(stages, Fraction(0))
    for turn in one.turns:
        own = [stage for stage in stages if has_green(one, turn, stage)]
        passing = turn.lanes * turn.saturation
        if own and passing:
            vehicles = Fraction(busy.whole(turn.link) * 3600, busy.slice_ms)  # an hour
            for stage in own:
                ratios[stage] = max(ratios[stage], vehicles / passing / len(own))
    return with_greens(timing, shared(sum(lengths[stage] for stage in stages), ratios, least_ms))


def has_green(one: Junction, turn: Turn, stage: int) -> bool:
    """Whether a turn has green in a stage."""
    mark = one.timing.marks[stage]
    return any(green.from_ms <= mark < green.to_ms for green in turn.protected + turn.permitted)


def shared(whole: int, ratios: Mapping[int, Fraction], least_ms: int) -> dict[int, int]:
    """A time shared over stages in whole seconds by these ratios, at least so much to each."""
    rest, all_ratios = whole - least_ms * len(ratios), sum(ratios.values(), Fraction(0))
    found, exact, given = {}, Fraction(0), 0
    for stage, ratio in ratios.items():
        exact += ratio / all_ratios if all_ratios else Fraction(1, len(ratios))
        part = int(exact * rest / SECOND) * SECOND - given
        given += part
        found[stage] = least_ms + part
    if found:
        found[max(found)] += rest - given
    return found


def with_greens(timing: Timing, lengths: Mapping[int, int]) -> Timing:
    """A timing with other lengths of some of its stages."""
    return Timing(timing.offset_ms, tuple(lengths.get(place, length) for place, length in enumerate(timing.lengths)))


def with_cycle(one: Junction, timing: Timing, cycle_ms: int, least_ms: int) -> Timing | None:
    """A timing with another cycle: changeable stages in proportion, the others as they are, the offset at the same
    part of the cycle; None where greens would be too short."""
    stages = one.changeable(least_ms)
    green = sum(timing.lengths[stage] for stage in stages)
    room = cycle_ms - (timing.cycle_ms - green)
    if not stages or room < least_ms * len(stages):
        return None
    lengths = shared(room, {stage: Fraction(timing.lengths[stage] - least_ms, 1) for stage in stages}, least_ms)
    made = with_greens(timing, lengths)
    return Timing(timing.offset_ms * cycle_ms // timing.cycle_ms // SECOND * SECOND % cycle_ms, made.lengths)


def wave(
    junctions: Iterable[Junction], plan: Plan, path: Sequence[str], links: Mapping[str, int], turns: Mapping[str, int]
) -> dict[str, Timing]:
    """A plan whose offsets let vehicles that leave the first junction of a path as its green begins come to each of the
    others as theirs does. The free-flow times in ms are those of links by their names in the source, and those of the
    links of turns."""
    found, arrives = dict(plan), 0
    of_pair = {(turn.approach, turn.exit): (one, turn) for one in junctions for turn in one.turns}
    first: int | None = None  # when the first green begins, less the time from the beginning of the path
    for pair in zip(path, path[1:]):
        if pair in of_pair:
            one, turn = of_pair[pair]
            arrives += turns[turn.link]
            timing = plan[one.name]
            begins = green_begins(one, turn, timing)
            if first is None:
                first = timing.offset_ms + begins - arrives
            found[one.name] = Timing((first + arrives - begins) % timing.cycle_ms, timing.lengths)
        if pair[1] not in links:
            raise Fault(f"{pair[1]}, on the path of a green wave, is no link of the case, nor of its source")
        arrives += links[pair[1]]
    if first is None:
        raise Fault(f"no signal stands on the path {' '.join(path)}")
    return found


def green_begins(one: Junction, turn: Turn, timing: Timing) -> int:
    """When the first green of a turn begins in the cycle of a timing, one in which it does not yield where it has
    such."""
    made = one.turns_by(timing)[one.turns.index(turn)]
    return min(green.from_ms for green in made.protected or made.permitted)
