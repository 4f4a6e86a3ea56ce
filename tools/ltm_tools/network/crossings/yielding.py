"""Approaches of junctions without lights whose turns are no links: what they let pass while they yield, and how long a
vehicle waits there, by the Highway Capacity Manual.

The turns of an approach share its lanes, each with the capacity of its gaps, which queues of turns before it in rank
may lessen (`ranks`), so that a lane lets pass 1 / sum(part / capacity). That is a limit at the end of the link, by
slices of time. Below it a loading has no queue, but vehicles come at random and wait for gaps: the manual's mean wait
at the counted flows, without what a standing queue adds, is added to the free-flow time.
"""
from __future__ import annotations

from collections.abc import Iterable, Mapping, Sequence
from dataclasses import dataclass, replace
from fractions import Fraction

from ...case import Case, Limit, Link, Setup
from ...case.source import Source
from ...demand.cycles import Green, Plan
from ...demand.signal_plans import limits_of_plan
from ...formats import HOUR_MS, MINUTE_MS, UNITS, counted
from ..network import Network
from .approach import Approach
from .movements import Movement, Movements, Pair
from .ranks import by_ranks
from .volumes import Volumes

HOUR_S = 3600
MOST_TOLD = 3


@dataclass(frozen=True)
class Yielding:
    """An approach that yields: what it lets pass in an hour, by slice, and the mean wait in ms of its vehicles, with
    how many thousandths of them there are."""

    approach: str
    capacities: tuple[Fraction, ...]
    wait_ms: int
    units: int


def names_of(movements: Movements) -> dict[Pair, str]:
    """A name for each turn, by which its vehicles are counted."""
    return {pair: f"{pair[0]} {pair[1]}" for pair in movements.turns}


def yields_of(
    network: Network,
    movements: Movements,
    volumes: Volumes,
    saturation: Fraction | None,
    apart: Iterable[str],
    ranks: bool = False,
) -> list[Yielding]:
    """The approaches with a turn that yields at a sign, but for those of some nodes; by gaps alone, or by the ranks of
    turns, too. `volumes` counts turns by `names_of`; a lane that need not yield lets the saturation through, or what
    its road carries."""
    left_out, every = set(apart), approaches_of(network, movements, volumes, saturation)
    at: dict[str, list[Approach]] = {}
    for name, approach in every.items():
        at.setdefault(network.roads[name].head, []).append(approach)
    found: dict[str, Yielding] = {}
    for node, together in at.items():
        if node not in left_out:
            found |= {one.approach: one for one in yields_at(together, ranks)}
    return [found[name] for name in every if name in found]


def approaches_of(
    network: Network, movements: Movements, volumes: Volumes, saturation: Fraction | None
) -> dict[str, Approach]:
    """All approaches of a network by their links."""
    names = names_of(movements)
    turns: dict[str, list[Movement]] = {}
    for movement in movements.turns.values():
        turns.setdefault(movement.approach, []).append(movement)
    made = {}
    for name, some in turns.items():
        lanes = movements.lanes.get(name, 1) or 1
        lane = network.roads[name].capacity / lanes
        most = float(lane if saturation is None else min(lane, saturation)) / HOUR_S
        made[name] = Approach(some, lanes, most, volumes, names)
    return made


def yields_at(approaches: Sequence[Approach], ranks: bool) -> list[Yielding]:
    """The approaches of a junction that yield."""
    yields = [one for one in approaches if one.yields]
    if not yields:
        return []
    numbers = range(yields[0].volumes.slices)
    if ranks:
        together = [by_ranks(approaches, number) for number in numbers]
        return [yielding(one, together) for one in yields]
    return [yielding(one, [one.by_gaps(number) for number in numbers]) for one in yields]


def yielding(approach: Approach, capacities: Sequence[Mapping[Pair, float]]) -> Yielding:
    """What an approach lets pass, and how long its vehicles wait in the mean; by what a lane lets take each turn, by
    slice, in vehicles a second."""
    lane = [approach.lane_capacity(number, of) for number, of in enumerate(capacities)]
    counts = [sum(approach.units(turn, number) for turn in approach.turns) for number in range(len(lane))]
    waits = sum(count * approach.wait(number, lane[number]) for number, count in enumerate(counts) if count)
    whole = sum(counts)
    wait_ms = round(1000 * waits / whole) if whole else 0
    an_hour = tuple(Fraction(round(one * approach.lanes * HOUR_S)) for one in lane)
    return Yielding(approach.name, an_hour, wait_ms, whole)


def passing(network: Network, yields: Iterable[Yielding]) -> dict[str, Sequence[Fraction]]:
    """The vehicles an hour that each link lets pass at its end, by slice: one that does not yield, what it carries."""
    carried = {name: (road.capacity,) for name, road in network.roads.items()}
    return {**carried, **{one.approach: one.capacities for one in yields}}


def add_waits(network: Network, yields: Iterable[Yielding]) -> list[Yielding]:
    """Adds the waits of approaches to their free-flow times, and gives the approaches with what was added. A short link
    gets no more than leaves it room for what it lets pass, with waves no faster than its vehicles."""
    made = []
    for one in yields:
        road = network.roads[one.approach]
        longest = road.storage * HOUR_MS / (2 * max(*one.capacities, Fraction(1)))
        wait = min(one.wait_ms, max(0, int(longest - road.time)))
        road.time += wait
        made.append(replace(one, wait_ms=wait))
    return made


def yield_limits(one: Yielding, link: Link, setup: Setup, slice_ms: int) -> list[Limit]:
    """The exit limits of an approach that is this link of the case; slices begin with whole steps, and the last goes on
    to the end."""
    most = link.passing(setup.step_ms, setup.carry) * HOUR_MS / setup.step_ms / UNITS
    limits: list[Limit] = []
    for number, capacity in enumerate(one.capacities):
        begin = number * slice_ms // setup.step_ms * setup.step_ms
        end = (number + 1) * slice_ms // setup.step_ms * setup.step_ms
        end = setup.horizon_ms if number == len(one.capacities) - 1 else min(end, setup.horizon_ms)
        share = min(Fraction(1), Fraction(round(1000 * capacity / most), 1000))
        if begin < end:
            green = Green(MINUTE_MS, 0, MINUTE_MS, 0, share)
            limits += limits_of_plan(Plan(link.name, (green,), begin, end), link, setup, True)
    return limits


def limit_yields(case: Case, source: Source, yields: Iterable[Yielding], slice_minutes: int) -> None:
    """Gives the approaches that yield their limits, but for those that a fit has contracted."""
    links = {link.name: link for link in case.links}
    for one in yields:
        name = source.links[one.approach].link
        if name is not None:
            case.signals += yield_limits(one, links[name], case.setup, slice_minutes * MINUTE_MS)
    case.setup.signals = bool(case.signals)


def yields_told(yields: list[Yielding], streets: Mapping[str, str]) -> list[str]:
    """How many approaches yield, and what that costs."""
    driven = [one for one in yields if one.units]
    if not driven:
        return []
    hours = sum(one.wait_ms * one.units for one in driven) / UNITS / HOUR_MS
    worst = sorted(driven, key=lambda one: -one.wait_ms * one.units)[:MOST_TOLD]
    return [
        f"vehicles on {counted(len(driven), 'link')} yield at junctions without lights, by gaps in the counted traffic,"
        f" and wait {hours:.2f} hours there, beside what queues cost; most on "
        + ", ".join(f"{streets.get(one.approach, '')} {one.approach}".strip() for one in worst)
        + " (--yielding none leaves these out)"
    ]
