"""Vehicles of SUMO that are sent by the shares of a case: at each node a vehicle takes one of the links by the shares
for its destination at the time when it is there by the loading of the case."""
from __future__ import annotations

import random
import xml.etree.ElementTree as ElementTree
from bisect import bisect_right
from collections.abc import Iterable, Sequence
from dataclasses import dataclass
from pathlib import Path

from ..case import Link
from ..case.clock import read_clock
from ..case.roads import Roads
from ..case.source import Source
from ..errors import Fault
from ..formats import exact_or_none
from ..loading.counts import as_list
from ..loading.loaded import LoadedCase
from ..loading.times import at, first_moment
from .edge_ways import EdgeWays
from .net import elements

GOLDEN = (5**0.5 - 1) / 2  # steps of a sequence that is even over 0 to 1 wherever it is broken off
LATEST = 10**9  # seconds
TYPES = ("vType", "vTypeDistribution")
ENDS = ("from", "to", "fromJunction", "toJunction", "fromTaz", "toTaz", "via", "route")


class NoWay(Fault):
    """The case has no way for a vehicle."""


@dataclass(frozen=True)
class Vehicle:
    """A vehicle of a file: its element, when it sets out in seconds, and the edges of its route, or the edges or the
    junctions between which it goes."""

    element: ElementTree.Element
    depart: float
    edges: tuple[str, ...] = ()
    ends: tuple[str, str] | None = None
    junctions: tuple[str, str] | None = None


class Roadmap:
    """A case with its loading: who goes where, and when they are there."""

    def __init__(self, folder: str, loading: LoadedCase, seed: int) -> None:
        self.case, self.curves = loading.case, loading.curves
        self.step, self.end_ms = self.case.setup.step_ms, self.case.setup.horizon_ms
        self.begin_ms = read_clock(folder) or 0
        self.links = {link.name: link for link in self.case.links}
        self.rows: dict[tuple[str, str], tuple[list[int], list[dict[str, int]]]] = {}
        for row in sorted(self.case.standing_splits(), key=lambda row: row.from_slot):
            slots, weights = self.rows.setdefault((row.node, row.destination), ([], []))
            slots.append(row.from_slot)
            weights.append(row.weights)
        self.counts = {name: (as_list(self.curves.up(name)), as_list(self.curves.down(name))) for name in self.links}
        self.points: dict[tuple[str, str], float] = {}
        self.draw = random.Random(seed).random

    def chosen(self, node: str, end: str, moment: int) -> Link:
        """The link that the next vehicle takes at a node."""
        if (node, end) not in self.rows:
            raise NoWay(f"splits.csv has no row of {node} for {end}")
        slots, weights = self.rows[node, end]
        row = weights[max(0, bisect_right(slots, moment // self.step) - 1)]
        point = self.points.get((node, end), self.draw()) % 1
        self.points[node, end] = point + GOLDEN
        part = point * sum(row.values())
        for name, weight in row.items():
            part -= weight
            if part < 0:
                break
        return self.links[name]

    def leaves(self, link: Link, moment: int) -> int:
        """When one leaves a link who comes to it at a moment; behind the horizon as if it were free."""
        up, down = self.counts[link.name]
        found = first_moment(down, self.step, at(up, self.step, moment)) if moment <= self.end_ms else None
        return moment + link.free_ms if found is None else max(found, moment + link.free_ms)

    def way(self, start: str, end: str, depart: float) -> list[str]:
        """The links of the way of who sets out at so many seconds."""
        node, moment, names = start, max(0, round(depart * 1000) - self.begin_ms), []
        while node != end:
            link = self.chosen(node, end, moment)
            names.append(link.name)
            node, moment = link.head, self.leaves(link, moment)
            if len(names) > len(self.links):
                raise NoWay(f"the way from {start} to {end} has more links than the case")
        return names


class Driver:
    """A roadmap with what has become of the edges of the net."""

    def __init__(self, folder: str, roadmap: Roadmap) -> None:
        self.roadmap, self.case = roadmap, roadmap.case
        self.roads = Roads.of(self.case.links)
        self.source = Source.read(folder, self.roads)
        self.ways = EdgeWays(folder, self.source, self.roads)
        self.nodes, self.origins = set(self.case.nodes), {row.origin for row in self.case.standing_demand()}

    def route(self, vehicle: Vehicle) -> list[str]:
        """The edges of a vehicle's way; NoWay where the case has none."""
        if vehicle.junctions is not None:
            tail, head = vehicle.junctions
            end = self._node(head)
            return self.ways.on(self.roadmap.way(self._start(tail, end), end, vehicle.depart))
        first, last = (vehicle.edges[0], vehicle.edges[-1]) if vehicle.edges else vehicle.ends or ("", "")
        for edge in (first, last):
            if edge not in self.source.links:
                raise NoWay(f"edge {edge} is none of the case")
        begin, end = self._begin(first), self.ways.stop(last) or self._node(self.source.links[last].head)
        way = self.roadmap.way(self._origin(begin), end, vehicle.depart)
        return self.ways.on(way, first, last)

    def _begin(self, edge: str) -> str:
        """The node of the case at which an edge begins."""
        links = self.source.links[edge].all_links
        parts = self.ways.of_link.get(links[0], ()) if links else ()
        if links and parts and parts[0] == edge:
            return self.roads.links[links[0]].tail
        return self._node(self.source.links[edge].tail)

    def _node(self, name: str) -> str:
        """The node of the case for a node of the net."""
        if name not in self.source.nodes:
            raise NoWay(f"junction {name} is none of the case")
        return self.source.nodes[name]

    def _start(self, junction: str, end: str) -> str:
        """The node of the case where trips from a junction to a node begin: of several, where it was parted, the first
        that has shares for that node."""
        start = f"{junction}_start"
        first = self._origin(start if start in self.nodes else self._node(junction))
        if (first, end) in self.roadmap.rows:
            return first
        edges = (name for name, edge in self.source.links.items() if edge.tail == junction)
        origins = (self._origin(self._begin(name)) for name in edges)
        return next((node for node in origins if (node, end) in self.roadmap.rows), first)

    def _origin(self, node: str) -> str:
        """The node at which those set out who begin at a node: its own, or that of its entry."""
        return f"{node}_origin" if f"{node}_origin" in self.origins else node


def vehicles_of(path: Path) -> tuple[list[ElementTree.Element], list[Vehicle], int]:
    """The types of vehicles of a file, its vehicles in the order in which they set out, and how many elements of other
    kinds it has, as flows."""
    types: list[ElementTree.Element] = []
    found: list[Vehicle] = []
    routes: dict[str, tuple[str, ...]] = {}
    others = 0
    for one in list(elements(path))[1:]:
        if one.tag in TYPES:
            types.append(one)
        elif one.tag == "route" and one.get("id"):
            routes[one.get("id", "")] = tuple(one.get("edges", "").split())
        elif one.tag in ("vehicle", "trip") and (vehicle := vehicle_of(one, routes)) is not None:
            found.append(vehicle)
        else:
            others += 1
    if not found:
        raise Fault(f"{path}: no vehicles with routes, and no trips between edges or junctions")
    return types, sorted(found, key=lambda vehicle: vehicle.depart), others


def vehicle_of(one: ElementTree.Element, routes: dict[str, tuple[str, ...]]) -> Vehicle | None:
    """The vehicle of an element; None where it says no edges or junctions."""
    found = exact_or_none(one.get("depart", ""))
    if found is None or not 0 <= found <= LATEST:
        raise Fault(f"{one.tag} {one.get('id', '')}: depart {one.get('depart', '')!r} is no time in seconds")
    depart = float(found)
    route = one.find("route")
    edges = routes.get(one.get("route", ""), ()) if route is None else tuple(route.get("edges", "").split())
    if edges:
        return Vehicle(one, depart, edges=edges)
    if one.get("from") and one.get("to"):
        return Vehicle(one, depart, ends=(one.get("from", ""), one.get("to", "")))
    if one.get("fromJunction") and one.get("toJunction"):
        return Vehicle(one, depart, junctions=(one.get("fromJunction", ""), one.get("toJunction", "")))
    return None


def driven(vehicle: Vehicle, edges: Sequence[str]) -> str:
    """A vehicle with a route, as a line; its type and all else that its element says stay."""
    made = ElementTree.Element("vehicle", {name: text for name, text in vehicle.element.items() if name not in ENDS})
    made.append(ElementTree.Element("route", {"edges": " ".join(edges)}))
    made.extend(child for child in vehicle.element if child.tag != "route")
    return line_of(made)


def line_of(element: ElementTree.Element) -> str:
    """An element as a line."""
    return "  " + ElementTree.tostring(element, "unicode").strip() + "\n"


def routes_text(types: Iterable[ElementTree.Element], lines: Iterable[str]) -> str:
    """A file of routes, the types of vehicles first."""
    return "".join(["<routes>\n", *map(line_of, types), *lines, "</routes>\n"])
