"""Hill climbing over timings: junction by junction, those whose stop lines are worth most first, whatever shortens the
total travel time most is taken; steps are large at first and smaller from round to round."""
from __future__ import annotations

from collections.abc import Iterator, Mapping, Sequence
from dataclasses import dataclass, replace
from fractions import Fraction

from ..network.crossings.volumes import Volumes
from .stages import Junction, Timing, offsets, splits
from .starts import by_flows
from .trying import Plan, Triers

LEVELS = ((4, 12), (8, 20), (16, 30), (32, 45))
"""Of each round the part of the cycle by which offsets are tried, and that by which greens are."""
LEAST_PART = Fraction(1, 20)
"""What a change of a junction has to save, as a part of the total travel time over the number of junctions: small gains
of a loading need not be gains on a street."""
TOGETHER = 4  # junctions that are tried at once
LESS = Fraction(1, 20)  # which part less the stop lines of a junction let through, to see what they are worth


@dataclass(frozen=True)
class Round:
    """What a round has come to: its number, the total travel time in units times ms, how many junctions it has changed,
    and the loadings so far."""

    number: int
    spent: int
    changed: int
    loadings: int


@dataclass(frozen=True)
class Rules:
    """What a search keeps to: the vehicles of a loading, by which green times may be shared, the least green in ms, and
    which part of the total travel time over the number of junctions a change of one has to save."""

    volumes: Volumes
    least_ms: int
    least_part: Fraction = LEAST_PART


class Search:
    """A search among the plans of these junctions, from one and its total travel time; the best is kept as it goes
    on."""

    def __init__(
        self,
        junctions: Sequence[Junction],
        plan: Plan,
        spent: int,
        triers: Triers,
        rules: Rules,
    ) -> None:
        self.junctions, self.triers, self.rules = junctions, triers, rules
        self.plan: dict[str, Timing] = dict(plan)
        self.spent = spent

    def run(self, rounds: int = len(LEVELS)) -> Iterator[Round]:
        """So many rounds, each told as it is done. The junctions of a round come in the order of what the one before
        has saved at each, those of the first by worth. The first begins with green times by the flows at each junction:
        they leave as much in reserve at all its stop lines, and steps from them have to save enough again."""
        order = self.by_worth() if rounds else []
        for number in range(1, rounds + 1):
            saved = dict.fromkeys((one.name for one in order), 0)
            for tried in (self.by_flows, self.near) if number == 1 else (self.near,):
                for place in range(0, len(order), TOGETHER):
                    found = self.improve({one.name: tried(one, number) for one in order[place : place + TOGETHER]})
                    for name, spent in found.items():
                        saved[name] += spent
            order.sort(key=lambda one: -saved[one.name])
            yield Round(number, self.spent, sum(map(bool, saved.values())), self.triers.tries)

    def by_worth(self) -> list[Junction]:
        """The junctions, those first where less capacity of all stop lines costs most."""
        plans = [{**self.plan, one.name: replace(self.plan[one.name], less=LESS)} for one in self.junctions]
        spent = {one.name: told for one, told in zip(self.junctions, self.triers.spent(plans))}
        return sorted(self.junctions, key=lambda one: -spent[one.name])

    def near(self, one: Junction, number: int) -> list[Timing]:
        """The timings of a junction that are tried in a round: steps from the one that it has."""
        timing, least_ms = self.plan[one.name], self.rules.least_ms
        by_offset, by_split = LEVELS[min(number, len(LEVELS)) - 1]
        found = [*offsets(timing, by_offset), *splits(timing, one.changeable(least_ms), by_split, least_ms)]
        return [other for other in dict.fromkeys(found) if other != timing]

    def by_flows(self, one: Junction, _: int) -> list[Timing]:
        """The timing of a junction with green times by the flows, if it is another."""
        timing = self.plan[one.name]
        found = by_flows(one, self.rules.volumes, self.rules.least_ms, timing)
        return [found] if found != timing else []

    def improve(self, near: Mapping[str, Sequence[Timing]]) -> dict[str, int]:
        """Takes the best of some timings of each of a few junctions, if it saves enough: what it saves. All are tried
        at once, from the same plan; where one has changed, the best of the next is tried once more."""
        before, spent_before = self.plan, self.spent
        tried = [(name, timing) for name, timings in near.items() for timing in timings]
        told = self.triers.spent([{**before, name: timing} for name, timing in tried])
        found = {}
        for name in near:
            own = [(spent, place) for place, spent in enumerate(told) if tried[place][0] == name]
            best, place = min(own, default=(spent_before, 0))
            if self.is_enough(spent_before, best):
                plan = {**self.plan, name: tried[place][1]}
                if self.plan is not before:
                    [best] = self.triers.spent([plan])
                if self.is_enough(self.spent, best):
                    found[name] = self.spent - best
                    self.plan, self.spent = plan, best
        return found

    def is_enough(self, before: int, after: int) -> bool:
        """Whether a change saves as much of a total travel time as it has to."""
        return before - after > self.rules.least_part * before / len(self.junctions)
