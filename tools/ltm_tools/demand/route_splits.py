"""Splits from counted routes by slices of time, and no destination has a circle."""
from __future__ import annotations

from bisect import bisect_left
from collections.abc import Callable, Iterable, Mapping, Sequence
from dataclasses import dataclass, field
from itertools import accumulate
from math import gcd
from typing import NamedTuple

from ..case import Demand, Link, Setup, Split
from ..case.leading import strong_parts
from ..case.roads import Roads
from ..formats import HOUR_MS, UNITS, WHOLE_BELOW
from .passages import Passages
from .trips import Trip, by_trips

MOST_WEIGHT = WHOLE_BELOW - 1
Links = tuple[str, ...]


class Route(NamedTuple):
    """Vehicles that set out together: the links they drive, when they begin (ms after slot 0), and how many
    (thousandths)."""

    links: Links
    depart_ms: int
    units: int


class RouteDepartures:
    """When how many vehicles (thousandths) set out on one route."""

    def __init__(self, routes: Sequence[Route]) -> None:
        ordered = sorted((route.depart_ms, route.units) for route in routes)
        self.times = [time for time, _ in ordered]
        self.sums = [0, *accumulate(units for _, units in ordered)]

    def add_to(self, counts: dict[int, int], later_ms: int, width_ms: int, last: int | None = None) -> None:
        """Counts them by slices of a width, so much later; what comes after a last slice counts in that."""
        at, end = 0, len(self.times)
        while at < end:
            part = (self.times[at] + later_ms) // width_ms
            upto = (
                end
                if last is not None and part >= last
                else bisect_left(self.times, (part + 1) * width_ms - later_ms, at)
            )
            part = part if last is None else min(part, last)
            counts[part] = counts.get(part, 0) + self.sums[upto] - self.sums[at]
            at = upto


def by_links(routes: Iterable[Route]) -> dict[Links, RouteDepartures]:
    """Of each row of links, in the order in which they are met, who sets out on it."""
    found: dict[Links, list[Route]] = {}
    for route in routes:
        found.setdefault(route.links, []).append(route)
    return {links: RouteDepartures(together) for links, together in found.items()}


def units_by_links(routes: Iterable[Route]) -> dict[Links, int]:
    """Of each row of links, in the order in which they are met, the thousandths of vehicles on it."""
    found: dict[Links, int] = {}
    for route in routes:
        found[route.links] = found.get(route.links, 0) + route.units
    return found


def led_over(routes: Iterable[Route], lead: Callable[[Links], Links | None]) -> list[Route]:
    """Routes over the links to which theirs lead, each row of links looked at once; those without such are left out."""
    found: dict[Links, Links | None] = {}
    made = []
    for route in routes:
        if route.links not in found:
            found[route.links] = lead(route.links)
        links = found[route.links]
        if links is not None:
            made.append(route if links == route.links else Route(links, route.depart_ms, route.units))
    return made


@dataclass
class Cuts:
    """What was cut from the passages of routes, in thousandths of a vehicle."""

    passages: int = 0
    cut: int = 0
    by_destination: dict[str, tuple[int, int]] = field(default_factory=dict)
    """Of each destination what was cut, and all its passages."""
    time: tuple[int, int] = (0, 0)
    """What was cut, and all, in thousandths of a vehicle times ms on empty roads."""
    metres: tuple[int, int] = (0, 0)
    """The same in thousandths of a vehicle times metres."""
    filled: int = 0
    """How many nodes had no passage left, and go by a least route."""

    def add_roads(self, roads: Roads, cut: Mapping[str, int], counted: Mapping[str, Mapping[int, int]]) -> None:
        """Adds the times and lengths of a destination's passages, and of those that are cut."""
        whole = {name: sum(by_slice.values()) for name, by_slice in counted.items()}
        times, metres = (
            [sum(units * per_link[name] for name, units in some.items()) for some in (cut, whole)]
            for per_link in (
                {name: link.free_ms for name, link in roads.links.items() if name in whole or name in cut},
                {name: link.length_m for name, link in roads.links.items() if name in whole or name in cut},
            )
        )
        self.time = self.time[0] + times[0], self.time[1] + times[1]
        self.metres = self.metres[0] + metres[0], self.metres[1] + metres[1]

    def lines(self) -> list[str]:
        """What was cut, in per cent, in time and in length."""
        told = [
            f"{per_cent(self.cut, self.passages)} of all passages are cut, as they close a loop and lead away"
            f" from their destination"
        ]
        worst = sorted(self.by_destination.items(), key=lambda item: -item[1][0] / max(1, item[1][1]))[:3]
        if self.cut:
            told.append(
                "most by destination: "
                + ", ".join(f"{name} {per_cent(*counts)}" for name, counts in worst if counts[0])
            )
            told.append(
                f"what is cut is {self.time[0] / UNITS / HOUR_MS:.2f} vehicle hours on empty roads"
                f" ({per_cent(*self.time)}) and {self.metres[0] / UNITS / 1000:.1f} km ({per_cent(*self.metres)})"
            )
        if self.filled:
            told.append(
                f"at {self.filled} nodes, by destination, nothing was counted; there vehicles go by the least time"
            )
        return told


def per_cent(part: int, whole: int) -> str:
    """A part of a whole in per cent, with two decimals."""
    return f"{100 * part / whole:.2f} %" if whole else "0.00 %"


def from_routes(
    links: Sequence[Link],
    routes: Iterable[Route],
    demand: Iterable[Demand],
    *,
    step_ms: int,
    slots: int,
    slice_slots: int,
) -> tuple[list[Split], Cuts]:
    """The splits of counted routes by slices of time; a vehicle counts in the slice in which it comes to the node if
    nothing holds it up."""
    roads = Roads.of(links)
    counted = count(roads, routes, step_ms, slots, slice_slots)
    origins: dict[str, list[str]] = {}
    for row in demand:
        if row.units:
            origins.setdefault(row.destination, []).append(row.origin)
    cuts, rows = Cuts(), []
    for destination in sorted({*counted, *origins}):
        made, some = of_destination(
            roads, destination, counted.get(destination, {}), origins.get(destination, []), slice_slots
        )
        rows += made
        passages = sum(sum(by_slice.values()) for by_slice in counted.get(destination, {}).values())
        cut = sum(some.cut.values())
        cuts.passages += passages
        cuts.cut += cut
        cuts.add_roads(roads, some.cut, counted.get(destination, {}))
        cuts.by_destination[destination] = cut, passages
        cuts.filled += len(some.filled)
    return rows, cuts


def count(
    roads: Roads, routes: Iterable[Route], step_ms: int, slots: int, slice_slots: int
) -> dict[str, dict[str, dict[int, int]]]:
    """Of each destination and link the thousandths of vehicles that go on by the link, by slice."""
    counted: dict[str, dict[str, dict[int, int]]] = {}
    last = (slots - 1) // slice_slots
    for links, departures in by_links(routes).items():
        if not links:
            continue
        destination = roads.links[links[-1]].head
        of_links = counted.setdefault(destination, {})
        later = 0
        for name in links:
            departures.add_to(of_links.setdefault(name, {}), later, step_ms * slice_slots, last)
            later += roads.links[name].free_ms
            if roads.links[name].head == destination:
                break
    return counted


def of_destination(
    roads: Roads, destination: str, counted: dict[str, dict[int, int]], origins: Iterable[str], slice_slots: int
) -> tuple[list[Split], Passages]:
    """The rows of a destination, and what became of its passages."""
    whole = {name: sum(by_slice.values()) for name, by_slice in counted.items()}
    passages = Passages(roads, destination, whole, origins)
    left = passages.without_circles()
    rows = []
    for node, names in sorted(passages.by_tail().items()):
        slices = sorted({part for name in names for part in counted.get(name, {})})
        before: dict[str, int] | None = None
        for part in slices or [0]:
            weights = (
                {name: counted.get(name, {}).get(part, 0) for name in names if name in left}
                if slices
                else {name: 1 for name in names}
            )
            weights = whole_weights({name: units for name, units in weights.items() if units})
            if weights and weights != before:
                rows.append(Split(node, destination, 0 if before is None else part * slice_slots, weights))
                before = weights
    return rows, passages


def whole_weights(units: dict[str, int]) -> dict[str, int]:
    """Weights in the same shares, without what all have in common, and small enough for the program."""
    if not units:
        return {}
    divisor = gcd(*units.values())
    greatest = max(units.values()) // divisor
    if greatest > MOST_WEIGHT:
        return {name: max(1, value * MOST_WEIGHT // max(units.values())) for name, value in units.items()}
    return {name: value // divisor for name, value in units.items()}


def circles(links: Sequence[Link], splits: Iterable[Split]) -> dict[str, list[set[str]]]:
    """Of each destination with a circle the sets of nodes that are in one, over all times."""
    heads = {link.name: link.head for link in links}
    after: dict[str, dict[str, set[str]]] = {}
    for row in splits:
        following = after.setdefault(row.destination, {}).setdefault(row.node, set())
        following |= {heads[name] for name, weight in row.weights.items() if weight}
    found = {destination: strong_parts(nodes, nodes) for destination, nodes in after.items()}
    return {destination: parts for destination, parts in found.items() if parts}


def demand_of_routes(routes: Iterable[Route], roads: Roads, setup: Setup, slice_slots: int) -> list[Demand]:
    """The demand of counted routes, counted by slices of so many slots."""
    trips = [
        Trip(roads.links[route.links[0]].tail, roads.links[route.links[-1]].head, route.depart_ms, route.units)
        for route in routes
    ]
    rows, _ = by_trips(
        trips, step_ms=setup.step_ms, slots=setup.slots, slice_slots=slice_slots, most=setup.most_demand_rows
    )
    return rows
