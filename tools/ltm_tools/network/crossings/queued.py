"""Vehicles by turn and slice as queues let them come: each waits at the end of a link for those before it.

Without this a peak is counted at all junctions of a route at once, though the first of them holds it up: those who
yield to it at the others would wait for vehicles that never come together. A signal does not hold anybody up here.
"""
from __future__ import annotations

import heapq
from collections.abc import Callable, Iterable, Mapping, Sequence
from fractions import Fraction

from ...demand.route_splits import Route
from ...formats import HOUR_MS, UNITS
from .movements import Pair
from .volumes import Volumes

ROUNDS = 3
"""Rounds in which vehicles are counted by capacities, and these by the mean of the counts."""


def queued_volumes(
    routes: Iterable[Route],
    times: Mapping[str, Fraction],
    slice_ms: int,
    names: Mapping[Pair, str],
    capacities: Mapping[str, Sequence[Fraction]],
    end_ms: int,
) -> Volumes:
    """The vehicles of turns by the names that they have, each counted when it passes, if that is before the end. In
    each slice a link lets so many vehicles an hour pass at its end, at least one, in the order in which they come;
    after the last slice, as many as in that."""
    ordered = sorted(routes, key=lambda route: route.depart_ms)
    free = {name: float(time) for name, time in times.items()}
    rates = {name: [max(1.0, float(some)) * UNITS / HOUR_MS for some in of] for name, of in capacities.items()}
    made, next_ms = Volumes(slice_ms), dict.fromkeys(rates, 0.0)
    come = [
        (route.depart_ms + free[route.links[0]], place, 0)
        for place, route in enumerate(ordered)
        if len(route.links) > 1
    ]
    heapq.heapify(come)
    while come:
        time, place, at = heapq.heappop(come)
        route = ordered[place]
        link, after = route.links[at : at + 2]
        passes = max(time, next_ms[link])
        if passes >= end_ms:
            continue
        number = int(passes) // slice_ms
        next_ms[link] = passes + route.units / rates[link][min(number, len(rates[link]) - 1)]
        if (link, after) in names:
            made.count(names[link, after], number, route.units)
        if at + 2 < len(route.links):
            heapq.heappush(come, (passes + free[after], place, at + 1))
    return made


def settled(first: Volumes, count: Callable[[Volumes], Volumes]) -> Volumes:
    """The mean of some counts, each by the capacities that the mean of those before it leaves; the first by those that
    `first` leaves."""
    mean = count(first)
    for number in range(2, ROUNDS + 1):
        mean = mixed(mean, count(mean), Fraction(1, number))
    return mean


def mixed(before: Volumes, counted: Volumes, part: Fraction) -> Volumes:
    """Volumes that are those of a count for a part, and those before it for the rest."""
    made = Volumes(before.slice_ms)
    for name in {**before.counts, **counted.counts}:
        old, new = before.counts.get(name, {}), counted.counts.get(name, {})
        for number in {**old, **new}:
            made.count(name, number, round((1 - part) * old.get(number, 0) + part * new.get(number, 0)))
    return made
