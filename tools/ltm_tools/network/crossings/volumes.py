"""Vehicles by link and slice of time, as their routes would have them if nothing held them up."""
from __future__ import annotations

from collections.abc import Iterable, Mapping
from dataclasses import dataclass, field
from fractions import Fraction

from ...case.roads import Roads
from ...demand.route_splits import RouteDepartures, Route, by_links
from ...formats import UNITS
from .movements import Pair


@dataclass
class Volumes:
    """Thousandths of vehicles by link and slice; a vehicle counts when it comes to the end of a link."""

    slice_ms: int
    counts: dict[str, dict[int, int]] = field(default_factory=dict)
    slices: int = 1
    """As many as have vehicles."""

    def add(self, link: str, departures: RouteDepartures, later_ms: int) -> None:
        """Counts vehicles that come to the end of a link so much later than they set out."""
        of = self.counts.setdefault(link, {})
        departures.add_to(of, later_ms, self.slice_ms)
        self.slices = max(self.slices, (departures.times[-1] + later_ms) // self.slice_ms + 1)

    def count(self, link: str, number: int, units: int) -> None:
        """Counts vehicles that come to the end of a link in a slice."""
        of = self.counts.setdefault(link, {})
        of[number] = of.get(number, 0) + units
        self.slices = max(self.slices, number + 1)

    def flow(self, links: Iterable[str], number: int) -> float:
        """The vehicles a second of some links together in a slice."""
        units = sum(self.counts.get(link, {}).get(number, 0) for link in links)
        return units / UNITS / (self.slice_ms / 1000)

    def busy(self) -> Volumes:
        """One slice, in which each link has the mean of the two slices in which it has most."""
        return Volumes(
            self.slice_ms,
            {link: {0: sum(most := sorted(of.values())[-2:]) // len(most)} for link, of in self.counts.items()},
        )

    def whole(self, link: str) -> int:
        """The thousandths of vehicles of a link."""
        return sum(self.counts.get(link, {}).values())


def volumes_of(routes: Iterable[Route], roads: Roads, slice_ms: int) -> Volumes:
    """The vehicles of routes over links of a case."""
    return counted_volumes(routes, {name: link.free_ms for name, link in roads.links.items()}, slice_ms)


def counted_volumes(routes: Iterable[Route], times: Mapping[str, int], slice_ms: int) -> Volumes:
    """The vehicles of routes, by the free-flow times of links in ms."""
    made = Volumes(slice_ms)
    for links, departures in by_links(routes).items():
        later = 0
        for name in links:
            later += times[name]
            made.add(name, departures, later)
    return made


def turns_counted(
    routes: Iterable[Route], times: Mapping[str, Fraction], slice_ms: int, names: Mapping[Pair, str]
) -> Volumes:
    """The same of turns by the names that they have, of routes over links of a source."""
    made = Volumes(slice_ms)
    for links, departures in by_links(routes).items():
        later = Fraction(0)
        for pair in zip(links, links[1:]):
            later += times[pair[0]]
            if pair in names:
                made.add(names[pair], departures, int(later))
    return made
