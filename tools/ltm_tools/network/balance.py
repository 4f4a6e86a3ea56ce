"""Evens out a fitted network: roads that can be are made a little shorter or longer, so that used routes take the time
they took.

Where a fit makes some roads longer, or takes some away, the routes over them take longer or less. The roads beside them
are changed at their own speed and density, each by at most a share of its length and never below what the step asks
for, so that over the routes the squares of what is still off, as shares of their times, and of what the roads are
changed by, as shares of theirs, are least. The search is by coordinates in floating point; what it finds is rounded to
milliseconds, and the network stays exact.
"""
from __future__ import annotations

from collections.abc import Iterable, Sequence
from dataclasses import dataclass
from fractions import Fraction
from operator import mul

from .exact import exact_sum
from .fit import FittedNetwork, metres_text
from .fitting import FitChange, stretched

MOST_ROUTES = 5000
ROUNDS = 40
MOST_SHARE = 0.2  # the most by which a road is changed, over its own time
HOLD = 0.002  # how much a change of a road by a share of its time counts, beside a route's being off by that share


@dataclass(frozen=True, slots=True)
class Used:
    """A route over roads of the fitted network, the times in ms that its roads took in the source, and how many drive
    it."""

    roads: tuple[str, ...]
    times: tuple[Fraction, ...]
    units: int

    @property
    def time(self) -> Fraction:
        """The time that it took in the source."""
        return exact_sum(self.times)


def balance(fit: FittedNetwork, routes: Iterable[Used]) -> None:
    """Changes the roads of a fitted network for its most used routes, and notes each change."""
    chosen = sorted(
        (route for route in routes if route.roads and any(route.times) and route.units),
        key=lambda route: (-route.units, route.roads),
    )[:MOST_ROUTES]
    times = [route.time for route in chosen]
    off = [
        float(exact_sum(fit.network.roads[name].time for name in route.roads) - time)
        for route, time in zip(chosen, times)
    ]
    if not any(abs(error) > 1 for error in off):
        return
    for name, change in search(fit, chosen, [float(time) for time in times], off).items():
        road = fit.network.roads[name]
        made = stretched(road, Fraction(round(change)))
        if made.time > 0 and not fit.short(made):
            fit.put(made)
            fit.changes.append(
                FitChange(
                    "evened out",
                    name,
                    made.length - road.length,
                    made.time - road.time,
                    f"from {metres_text(road.length)} to {metres_text(made.length)} m",
                )
            )


def bounds(fit: FittedNetwork, name: str) -> tuple[float, float]:
    """The least and the most change of a road's time in ms."""
    road = fit.network.roads[name]
    room = float(road.time + fit.missing(road)) - float(road.time)
    return max(-MOST_SHARE * float(road.time), min(0.0, room)), MOST_SHARE * float(road.time)


def search(fit: FittedNetwork, routes: Sequence[Used], took: Sequence[float], off: list[float]) -> dict[str, float]:
    """The change of each road's time in ms, a road at a time while all others stay; by the times that routes took in
    the source, and what each is off by now."""
    users: dict[str, list[int]] = {}
    for number, route in enumerate(routes):
        for name in dict.fromkeys(route.roads):  # in order, so that each run gives the same
            users.setdefault(name, []).append(number)
    whole = sum(route.units for route in routes)
    weights = [route.units / whole / time**2 for route, time in zip(routes, took)]
    times = {name: float(fit.network.roads[name].time) for name in users}
    limits = {name: bounds(fit, name) for name in users}
    holds = {
        name: HOLD * sum(weights[number] * took[number] ** 2 for number in numbers) / times[name] ** 2
        for name, numbers in users.items()
    }
    own = {name: [weights[number] for number in numbers] for name, numbers in users.items()}
    whole_weights = {name: sum(of) for name, of in own.items()}
    changes = dict.fromkeys(users, 0.0)
    for _ in range(ROUNDS):
        most = 0.0
        for name, numbers in users.items():
            pull = sum(map(mul, own[name], map(off.__getitem__, numbers))) + holds[name] * changes[name]
            wanted = changes[name] - pull / (whole_weights[name] + holds[name])
            made = min(max(wanted, limits[name][0]), limits[name][1])
            moved = made - changes[name]
            if moved:
                changes[name] = made
                for number in numbers:
                    off[number] += moved
                most = max(most, abs(moved))
        if most < 1:
            break
    return {name: change for name, change in changes.items() if abs(change) >= 0.5}
