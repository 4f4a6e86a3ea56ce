"""A turn as a case has it: its link, its lanes and greens, and what it yields to."""
from __future__ import annotations

import math
from collections.abc import Collection, Mapping
from dataclasses import dataclass, replace
from fractions import Fraction

from ...demand.cycles import Green
from . import gaps
from .movements import Held, Movements, Pair
from .options import GapAcceptance
from .volumes import Volumes


@dataclass(frozen=True, kw_only=True)
class Turn:
    """A turn by the names of its source, with its link of the case."""

    approach: str
    exit: str
    link: str
    lanes: Fraction
    """How many lanes of the approach it has."""
    saturation: Fraction
    """What a lane of the approach lets pass, in vehicles an hour."""
    protected: tuple[Green, ...] = ()
    permitted: tuple[Green, ...] = ()
    """Greens in which it yields; these and those above are told for the shares of its lanes."""
    opposing: tuple[str, ...] = ()
    """The links of the case to which it yields then."""
    opposing_saturation: Fraction = Fraction(0)
    """What the lanes of these let pass together, in vehicles an hour."""
    permissive: GapAcceptance | Fraction = GapAcceptance()
    """How it finds its way while it yields: by gaps, or a share of what its lanes let pass."""

    @property
    def is_always_green(self) -> bool:
        """Whether nothing but its yielding holds it, as at a sign."""
        return all(green.to_ms - green.from_ms == green.cycle_ms for green in self.protected + self.permitted)

    def factors(self, volumes: Volumes) -> list[Fraction]:
        """The share that it gets of its greens in which it yields, in each slice; none for a turn that never yields."""
        if not self.permitted:
            return []
        if isinstance(self.permissive, Fraction):
            return [self.permissive] * volumes.slices
        green = sum((one.share * (one.to_ms - one.from_ms) for one in self.permitted), Fraction(0))
        green /= max(one.share for one in self.permitted)
        rates = float(self.opposing_saturation) / 3600, float(self.saturation) / 3600
        return [
            gaps.factor(
                volumes.flow(self.opposing, number),
                rates[0],
                float(green) / 1000,
                self.permitted[0].cycle_ms / 1000,
                rates[1],
                self.permissive,
            )
            for number in range(volumes.slices)
        ]

    def part_of_green(self, volumes: Volumes) -> Fraction:
        """The share of all its greens that it gets in the first slice; 1 for a turn without a signal."""
        protected, permitted = (
            sum((green.share * (green.to_ms - green.from_ms) for green in some), Fraction(0))
            for some in (self.protected, self.permitted)
        )
        if not permitted:
            return Fraction(1)
        return (protected + permitted * self.factors(volumes)[0]) / (protected + permitted)


def turns_of(
    links: Mapping[Pair, str],
    movements: Movements,
    capacities: Mapping[str, Fraction],
    permissive: GapAcceptance | Fraction,
    lanes: Mapping[Pair, Fraction],
    saturation: Fraction | None = None,
    uncut: Collection[Pair] = (),
) -> list[Turn]:
    """The turns that have a link, by `capacities`, what approaches let pass in an hour before they were cut, and the
    `lanes` of turns that do not have all that serve them. With a saturation a lane lets no more through at a stop line;
    where a turn is the whole of its approach, as those that are `uncut`, its greens count for that share of it."""
    rates = {name: capacity / movements.lanes.get(name, 1) for name, capacity in capacities.items()}
    turns = []
    for pair, link in links.items():
        movement, approach = movements.turns[pair], pair[0]
        count = lanes.get(pair, Fraction(len(movement.lanes) or movements.lanes.get(approach, 1)))
        turn = Turn(
            approach=approach,
            exit=pair[1],
            link=link,
            lanes=thousandths(count),
            saturation=thousandths(movement.through(rates[approach], saturation)),
            permissive=permissive,
        )
        if (held := movement.held) is not None:
            most = None if held.sign is not None else saturation
            whole = sum((movement.through(rates[name], most) for name, _ in set(held.opposing_lanes)), Fraction(0))
            part = part_of_road(count, turn.saturation, capacities[approach]) if pair in uncut else Fraction(1)
            opposing = tuple(links[other] for other in held.opposing if other in links)
            turn = held_turn(turn, held, part, opposing, whole)
        turns.append(turn)
    return turns


def held_turn(turn: Turn, held: Held, part: Fraction, opposing: tuple[str, ...], whole: Fraction) -> Turn:
    """A turn as a signal or a sign holds it, whose greens count for a part of its link, with the links to which it
    yields and what their lanes let pass together."""
    permissive = held.sign if held.sign is not None and isinstance(turn.permissive, GapAcceptance) else turn.permissive
    return replace(
        turn,
        permissive=permissive,
        protected=for_part(held.protected, part),
        permitted=for_part(held.permitted, part),
        opposing=opposing,
        opposing_saturation=thousandths(whole),
    )


def part_of_road(lanes: Fraction, saturation: Fraction, capacity: Fraction) -> Fraction:
    """The part of what a road carries in an hour that its stop line lets through, in thousandths, rounded up."""
    return min(Fraction(1), Fraction(math.ceil(lanes * saturation * 1000 / capacity), 1000))


def for_part(greens: tuple[Green, ...], part: Fraction) -> tuple[Green, ...]:
    """Greens that count for a part of what they did."""
    return greens if part == 1 else tuple(replace(green, share=green.share * part) for green in greens)


def thousandths(number: Fraction) -> Fraction:
    """The nearest thousandth, as `turns.csv` has numbers."""
    return Fraction(round(number * 1000), 1000)
