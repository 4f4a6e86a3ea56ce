"""Turns and links whose signal never shows green, though vehicles are sent over them: these wait there for ever."""
from __future__ import annotations

from collections.abc import Mapping, Sequence
from fractions import Fraction

from ...case import Case
from ...case.closed import always_closed
from ...case.streets import street_and_id
from ...demand.route_splits import Route
from ...errors import Fault
from ...formats import counted, short_vehicles
from .turn import Turn
from .volumes import Volumes

MOST_LOST = Fraction(1, 100)
"""The part of the vehicles that an import may lose without a word that allows it."""
MOST_TOLD = 5
TO_DO = "look at the programs of their signals, or give the vehicles other routes"


def shut_turns(turns: Sequence[Turn], volumes: Volumes) -> list[tuple[int, Turn]]:
    """The turns that have vehicles and no green at all, with the thousandths of these."""
    return [
        (units, turn)
        for turn in turns
        if (greens := turn.protected + turn.permitted) and (units := volumes.whole(turn.link))
        if not any(green.share and green.to_ms > green.from_ms for green in greens)
    ]


def shut_links(case: Case, routes: Sequence[Route], turns: Sequence[Turn]) -> dict[str, int]:
    """The other links of a case that have vehicles and no green at all, with the thousandths of these."""
    names = set(always_closed(case.signals, case.setup.slots)) - {turn.link for turn in turns}
    units: dict[str, int] = {}
    for route in routes if names else ():
        for name in names.intersection(route.links):
            units[name] = units.get(name, 0) + route.units
    return units


def never_green_told(shut: Sequence[tuple[int, Turn]], streets: Mapping[str, str], whole: int = 0) -> list[str]:
    """Which turns never have green, so that nobody gets through; of `whole` thousandths of vehicles, where these are
    known, what part that is. `streets` are those of links of the source."""
    return told_of(
        "turn",
        [
            (units, f"{street_and_id(turn.approach, streets)} to {street_and_id(turn.exit, streets)}")
            for units, turn in shut
        ],
        whole,
    )


def never_green_links_told(shut: Mapping[str, int], streets: Mapping[str, str], whole: int) -> list[str]:
    """Which links never have green. `streets` are those of links of the case."""
    return told_of("link", [(units, street_and_id(name, streets)) for name, units in shut.items()], whole)


def told_of(what: str, shut: Sequence[tuple[int, str]], whole: int) -> list[str]:
    """A line on turns or links without green; none where there are none."""
    if not shut:
        return []
    most = sorted(shut, key=lambda item: -item[0])[:MOST_TOLD]
    more = f" and {len(shut) - MOST_TOLD} more" if len(shut) > MOST_TOLD else ""
    units = sum(units for units, _ in shut)
    part = f" ({part_text(units, whole)} of all)" if whole else ""
    return [
        f"{counted(len(shut), what)} without any green, before which {short_vehicles(units)} vehicles{part} wait for"
        f" ever: {', '.join(f'{name} {short_vehicles(count)}' for count, name in most)}{more}; {TO_DO}"
    ]


def part_text(units: int, whole: int) -> str:
    """A part of all vehicles in per cent."""
    return f"{float(100 * min(Fraction(1), Fraction(units, whole))):.2g} %"


def check_never_green(told: Sequence[str], units: int, whole: int) -> None:
    """A Fault where more vehicles wait for ever than an import may lose, in the words of what is told of it."""
    if units > MOST_LOST * whole:
        raise Fault(
            f"more than {float(100 * MOST_LOST):g} % of the vehicles would never arrive: {'; '.join(told)};"
            f" --allow-losses makes the case all the same"
        )
