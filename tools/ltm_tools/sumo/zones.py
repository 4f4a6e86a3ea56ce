"""The zones of a file of SUMO (TAZ), and the edges by which trips between zones begin and end."""
from __future__ import annotations

import xml.etree.ElementTree as ElementTree
from collections.abc import Iterable
from dataclasses import dataclass, field
from fractions import Fraction
from pathlib import Path

from ..errors import Fault
from ..files import shown
from ..formats import exact_or_none, number_rule
from .net import elements


@dataclass
class ZoneEdges:
    """The edges of a zone by which trips begin, or end, with weights, and how many have been taken."""

    weights: dict[str, Fraction] = field(default_factory=dict)
    taken: dict[str, int] = field(default_factory=dict)

    def take(self) -> str:
        """The edge that is most behind its share of all that were taken; of several the first."""
        whole, count = sum(self.weights.values(), Fraction(0)), sum(self.taken.values()) + 1
        edge = max(self.weights, key=lambda name: self.weights[name] / whole * count - self.taken.get(name, 0))
        self.taken[edge] = self.taken.get(edge, 0) + 1
        return edge


@dataclass
class Zones:
    """The zones by name: where trips begin, and where they end."""

    sources: dict[str, ZoneEdges] = field(default_factory=dict)
    sinks: dict[str, ZoneEdges] = field(default_factory=dict)

    def ends(self, start: str, end: str, what: str) -> tuple[str, str]:
        """The edges of the next trip between two zones."""
        for zone, sides, word in ((start, self.sources, "begin"), (end, self.sinks, "end")):
            if zone not in sides or not sides[zone].weights:
                raise Fault(f"{what}: zone {shown(zone)} has no edge by which trips {word}; look at the file of zones")
        return self.sources[start].take(), self.sinks[end].take()


def read_zones(paths: Iterable[Path]) -> Zones:
    """The zones of some files: `taz` with `edges`, or with `tazSource` and `tazSink` and their weights."""
    zones = Zones()
    for path in paths:
        for element in elements(path):
            for taz in [element] if element.tag == "taz" else element.findall("taz"):
                read_zone(zones, taz, str(path))
    return zones


def read_zone(zones: Zones, taz: ElementTree.Element, place: str) -> None:
    """One zone; one that stands twice counts as it stands last."""
    name = taz.get("id", "")
    for sides, tag in ((zones.sources, "tazSource"), (zones.sinks, "tazSink")):
        weights = {one.get("id", ""): weight_of(one, f"{place}: taz {name}") for one in taz.findall(tag)}
        weights = {edge: weight for edge, weight in weights.items() if weight}
        sides[name] = ZoneEdges(weights or dict.fromkeys(taz.get("edges", "").split(), Fraction(1)))


def weight_of(element: ElementTree.Element, what: str) -> Fraction:
    """The weight of an edge of a zone."""
    text = element.get("weight", "1")
    weight = exact_or_none(text)
    if weight is None or weight < 0:
        why = number_rule(text) if weight is None else "it is 0 or more"
        raise Fault(f"{what}: weight is {shown(text)}: {why}")
    return weight
