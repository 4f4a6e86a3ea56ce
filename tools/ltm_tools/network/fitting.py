"""A network while it is fitted to a step, with all that was changed, and what has become of its source."""
from __future__ import annotations

from collections.abc import Iterable
from dataclasses import dataclass, replace
from fractions import Fraction

from ..errors import Fault
from .network import Network, Road, diagram_of, road_totals


@dataclass(frozen=True, slots=True)
class FitChange:
    """One thing that was changed, with what it adds to the length (metres) and the free-flow time (ms) of the
    network."""

    kind: str
    name: str
    metres: Fraction
    time: Fraction
    note: str


def stretched(road: Road, time: Fraction) -> Road:
    """The road made longer by a free-flow time in ms, at its speed and density; shorter where the time is below 0."""
    metres = time * road.kmh / 3600
    return replace(
        road, length=road.length + metres, time=road.time + time, storage=road.storage + metres * road.jam / 1000
    )


def longest_road_step(road: Road, step: int | None = None) -> int:
    """The longest step in ms at which the program takes the road."""
    return diagram_of(road, step).longest_step_ms


class Fitting:
    """A network that is being fitted to a step in ms, with all that was changed."""

    def __init__(self, raw: Network, step: int) -> None:
        self.raw, self.step = raw, step
        self.network = raw.copy()
        self.changes: list[FitChange] = []
        self.moved: dict[str, str] = {}
        self.lost: set[str] = set()

    def node_of(self, node: str) -> str:
        """The node that a node of the source has become."""
        while node in self.moved:
            node = self.moved[node]
        return node

    def link_of(self) -> dict[str, str | None]:
        """Of each road of the source the road that it is part of, or none where it was contracted."""
        parts: dict[str, str | None] = {part: road.name for road in self.network.roads.values() for part in road.parts}
        return {name: parts.get(name) for name in self.raw.roads}

    def short(self, road: Road) -> bool:
        """Whether a road is too short for the step."""
        return longest_road_step(road, self.step) < self.step

    def carries(self, road: Road) -> bool:
        """Whether a road has the speed and the storage for its capacity."""
        try:
            diagram_of(road, self.step)
        except Fault:
            return False
        return True

    def too_short(self) -> list[str]:
        """The roads that are too short, the shortest first."""
        return [
            road.name
            for road in sorted(self.network.roads.values(), key=lambda road: (road.time, road.name))
            if self.short(road)
        ]

    def missing(self, road: Road) -> Fraction:
        """The free-flow time in ms by which a road is too short."""
        link = diagram_of(road, self.step)
        fastest = max(link.free_kmh, link.wave_kmh)
        metres = ((self.step - 1) * fastest) // 3600 + 1
        made = Road(
            road.name,
            road.tail,
            road.head,
            Fraction(metres),
            Fraction(metres * 3600) / road.kmh,
            road.jam * metres / 1000,
            road.capacity,
            road.kind,
            road.parts,
        )
        if link.passing_step_ms < self.step:
            raise Fault(
                f"link {road.name}: with {link.jam_per_km} vehicles/km more than 32 vehicles pass in"
                f" {self.step} ms at any wave speed;"
                " take a shorter step"
            )
        while self.short(made):
            made = stretched(made, 3600 / road.kmh)
        return made.time - road.time

    def tell(self, kind: str, name: str, before: Iterable[Road], after: Iterable[Road], note: str = "") -> None:
        """Notes a change from some roads to others."""
        was, now = road_totals(before), road_totals(after)
        self.changes.append(FitChange(kind, name, now[0] - was[0], now[1] - was[1], note))

    def put(self, road: Road) -> None:
        """Puts a road in place of the one of its name, which has the same ends."""
        self.network.roads[road.name] = road
