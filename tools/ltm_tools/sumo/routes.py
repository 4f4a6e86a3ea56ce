"""Reads vehicles of SUMO (`.rou.xml`, `.trips.xml`, `.flows.xml`): their edges or their ends, when they set out, and
how many.

A flow with a rate is spread over its time in thousandths of a vehicle; one with a number sets out as its single
vehicles do.
"""
from __future__ import annotations

import xml.etree.ElementTree as ElementTree
from collections.abc import Iterable, Iterator, Sequence
from dataclasses import dataclass, field
from fractions import Fraction
from math import lcm
from pathlib import Path
from typing import NamedTuple

from ..errors import Fault
from ..files import shown
from ..formats import LEAST_ABOVE_0, LONGEST_SECONDS, UNITS, count_text, exact_or_none, number_rule, whole_of
from .net import elements
from .zones import Zones

NOT_ON_ROADS = {
    "pedestrian",
    "bicycle",
    "rail",
    "rail_urban",
    "rail_electric",
    "rail_fast",
    "tram",
    "subway",
    "ship",
    "aircraft",
    "scooter",
    "cable_car",
}
LENGTH, GAP = Fraction(5), Fraction(5, 2)
"""The metres of a vehicle, and before it where it stands, of a type that says none, as those of SUMO."""
SPACING = LENGTH + GAP
MOST_DEPARTURES = 3_000_000  # of vehicles, and of parts of flows
RATE_PART_S = 60
"""A flow with a rate is cut into parts of so many seconds."""


class Vehicles(NamedTuple):
    """Vehicles (thousandths) that set out at a time in ms over edges; where these are not known, by way of these
    alone."""

    edges: tuple[str, ...]
    whole: bool
    depart_ms: int
    units: int


@dataclass
class FoundVehicles:
    """What is read of files of vehicles."""

    vehicles: list[Vehicles] = field(default_factory=list)
    left_out: dict[str, int] = field(default_factory=dict)
    """Why vehicles were left out, and how many thousandths."""
    routes: dict[str, list[tuple[tuple[str, ...], Fraction]]] = field(default_factory=dict)
    """Of each named route, or distribution of routes, the edges with shares."""
    classes: dict[str, str] = field(default_factory=dict)
    """The class of vehicles of each type."""
    spacings: dict[str, Fraction] = field(default_factory=dict)
    """The metres of a standing vehicle of each type."""
    zones: Zones = field(default_factory=Zones)
    by_zones: int = 0
    """The thousandths of vehicles that set out between zones."""
    units: int = 0
    metres: Fraction = Fraction(0)
    """The thousandths of vehicles that were read, and the metres that these take standing."""

    @property
    def spacing(self) -> Fraction:
        """The mean metres of a standing vehicle, to the millimetre."""
        return Fraction(round(self.metres / self.units * 1000), 1000) if self.units else SPACING

    def add(self, vehicles: Iterable[Vehicles], what: str) -> None:
        """Adds those that set out; a Fault where that is too often."""
        self.vehicles.extend(vehicles)
        if len(self.vehicles) > MOST_DEPARTURES:
            raise Fault(
                f"{what}: vehicles set out more than {count_text(MOST_DEPARTURES)} times, which is the most;"
                f" take a part of them"
            )

    def leave_out(self, why: str, units: int) -> None:
        """Counts vehicles that are left out."""
        self.left_out[why] = self.left_out.get(why, 0) + units


def read_vehicles(paths: list[Path], zones: Zones | None = None) -> FoundVehicles:
    """The vehicles of some files, in their order; types and routes may stand in another file. Trips between zones begin
    and end on edges of these."""
    found = FoundVehicles(zones=zones or Zones())
    for path in paths:
        for element in elements(path):
            read_element(found, element, str(path))
    return found


def read_element(found: FoundVehicles, element: ElementTree.Element, place: str) -> None:
    """One element of a file: a type, a route, vehicles, a trip or a flow."""
    tag = element.tag
    if tag == "vType":
        found.classes[element.get("id", "")] = element.get("vClass", "passenger")
        found.spacings[element.get("id", "")] = spacing_of(element, place)
    elif tag == "vTypeDistribution":
        read_types(found, element, place)
    elif tag == "route":
        found.routes[element.get("id", "")] = [(edges_of(element), Fraction(1))]
    elif tag == "routeDistribution":
        found.routes[element.get("id", "")] = distribution(found, element, place)
    elif tag in ("vehicle", "trip", "flow"):
        read_one(found, element, place)
    elif tag in ("person", "personFlow", "container", "containerFlow"):
        found.leave_out("persons and containers", UNITS)


def spacing_of(element: ElementTree.Element, place: str) -> Fraction:
    """The metres of a standing vehicle of a type."""
    what = f"{place}: vType {element.get('id', '')}"
    return (
        sum(
            (
                exact_number(element.get(name, ""), what) if element.get(name) else default
                for name, default in (("length", LENGTH), ("minGap", GAP))
            ),
            Fraction(0),
        )
        or SPACING
    )


def read_types(found: FoundVehicles, element: ElementTree.Element, place: str) -> None:
    """The types of a distribution, which has a class where all have the same one, and the mean of their spacings."""
    types = element.findall("vType")
    for one in types:
        read_element(found, one, place)
    classes = {one.get("vClass", "passenger") for one in types}
    if len(classes) == 1:
        found.classes[element.get("id", "")] = classes.pop()
    chances = [exact_number(one.get("probability", "1"), place) for one in types]
    if sum(chances, Fraction(0)) > 0:
        metres = sum((chance * spacing_of(one, place) for chance, one in zip(chances, types)), Fraction(0))
        found.spacings[element.get("id", "")] = metres / sum(chances, Fraction(0))


def edges_of(element: ElementTree.Element) -> tuple[str, ...]:
    """The edges of a route."""
    return tuple(element.get("edges", "").replace(",", " ").split())


def distribution(
    found: FoundVehicles, element: ElementTree.Element, place: str
) -> list[tuple[tuple[str, ...], Fraction]]:
    """The routes of a distribution with shares that sum to 1; that of the one that was chosen last, where that is
    said."""
    routes: list[tuple[tuple[str, ...], Fraction]] = []
    names, chances = element.get("routes", "").split(), element.get("probabilities", "").split()
    for position, name in enumerate(names):
        if name not in found.routes:
            raise Fault(f"{place}: route {name} is used before it is known; give the file with it first")
        chance = exact_number(chances[position], place) if position < len(chances) else Fraction(1)
        routes += [(edges, share * chance) for edges, share in found.routes[name]]
    inner = element.findall("route")
    last = element.get("last")
    chosen = None if last is None else whole_of(last)
    if chosen is not None and chosen < len(inner):
        return [(edges_of(inner[chosen]), Fraction(1))]
    for route in inner:
        share = exact_number(route.get("probability", "1"), place)
        if route.get("refId"):
            routes += [(edges, part * share) for edges, part in found.routes.get(route.get("refId", ""), [])]
        else:
            routes.append((edges_of(route), share))
            if route.get("id"):
                found.routes[route.get("id", "")] = [(edges_of(route), Fraction(1))]
    whole = sum((share for _, share in routes), Fraction(0))
    if whole <= 0:
        raise Fault(f"{place}: distribution {element.get('id', '')} has no route of a probability above 0")
    return [(edges, share / whole) for edges, share in routes if share]


def read_one(found: FoundVehicles, element: ElementTree.Element, place: str) -> None:
    """The vehicles of a vehicle, a trip or a flow."""
    what = f"{place}: {element.tag} {element.get('id', '')}"
    kind = found.classes.get(element.get("type", ""), "passenger")
    departures = list(departures_of(element, what))
    units = sum(amount for _, amount in departures)
    if kind in NOT_ON_ROADS:
        return found.leave_out(f"of class {kind}", units)
    if not departures:
        return found.leave_out("that wait for a person, a container or another vehicle", UNITS)
    ways, whole = ways_of(found, element, what)
    if not ways and found.zones.sources and element.get("fromTaz") and element.get("toTaz"):
        return read_between_zones(found, element, departures, what)
    if not ways:
        return found.leave_out("between zones or junctions (give the file of zones, TAZ, with it)", units)
    found.units += units
    found.metres += units * found.spacings.get(element.get("type", ""), SPACING)
    if len(ways) == 1:
        found.add((Vehicles(ways[0][0], whole, depart, amount) for depart, amount in departures), what)
    else:
        found.add(
            (
                Vehicles(edges, whole, depart, part)
                for depart, amount in departures
                for edges, part in parted_amount(amount, ways)
            ),
            what,
        )


def read_between_zones(
    found: FoundVehicles, element: ElementTree.Element, departures: Sequence[tuple[int, int]], what: str
) -> None:
    """Vehicles between zones: each takes the edge of its zone that is most behind its share."""
    via = element.get("via", "").split()
    for depart, amount in departures:
        start, end = found.zones.ends(element.get("fromTaz", ""), element.get("toTaz", ""), what)
        found.add([Vehicles((start, *via, end), False, depart, amount)], what)
        found.by_zones += amount
        found.units += amount
        found.metres += amount * found.spacings.get(element.get("type", ""), SPACING)


def parted_amount(
    amount: int, ways: Sequence[tuple[tuple[str, ...], Fraction]]
) -> Iterator[tuple[tuple[str, ...], int]]:
    """What of an amount takes each of some ways with shares, where that is any; the last gets what is left."""
    given = 0
    for number, (edges, share) in enumerate(ways):
        part = amount - given if number == len(ways) - 1 else int(amount * share)
        given += part
        if part:
            yield edges, part


def ways_of(
    found: FoundVehicles, element: ElementTree.Element, what: str
) -> tuple[list[tuple[tuple[str, ...], Fraction]], bool]:
    """The edges with shares, and whether they are whole routes; none where its ends are no edges."""
    inner, several = element.find("route"), element.find("routeDistribution")
    if inner is not None:
        return [(edges_of(inner), Fraction(1))], True
    if several is not None:
        return distribution(found, several, what), True
    name = element.get("route")
    if name is not None:
        if name not in found.routes:
            raise Fault(f"{what}: route {name} is not known; give the file with it before this one")
        return found.routes[name], True
    start, end = element.get("from"), element.get("to")
    if not start or not end:
        return [], False
    return [((start, *element.get("via", "").split(), end), Fraction(1))], False


def departures_of(element: ElementTree.Element, what: str) -> Iterator[tuple[int, int]]:
    """When how many thousandths of vehicles set out; none where that is not told by a time."""
    if element.tag != "flow":
        text = element.get("depart", "")
        if text == "begin":
            text = "0"
        if text in ("triggered", "containerTriggered", "split", "now"):
            return
        yield int(seconds_of(text, what) * 1000), UNITS
        return
    begin = seconds_of(element.get("begin", "0"), what)
    period, count = element.get("period", ""), element.get("number")
    rate = rate_of(element, period, what)
    end = flow_end(element, begin, rate, count, what)
    if end - begin > LONGEST_SECONDS:
        raise Fault(f"{what}: it lasts longer than {count_text(LONGEST_SECONDS)} s, and that is the most")
    if count is not None and not (rate is not None and period.startswith("exp")):
        yield from single(begin, end, whole_number(count, what), what)
    elif rate is not None and period and not period.startswith("exp"):
        yield from single(begin, end, -(-(end - begin) * rate.numerator // rate.denominator), what)
    elif rate is not None:
        yield from by_rate(begin, end, rate)
    else:
        raise Fault(f"{what}: it has no number, period, vehsPerHour or probability; give one")


def rate_of(element: ElementTree.Element, period: str, what: str) -> Fraction | None:
    """The vehicles a second of a flow, where it has a rate."""
    if period:
        if period.startswith("exp"):
            return exact_number(period.removeprefix("exp").strip("()"), what)
        seconds = exact_number(period, what)
        if seconds < LEAST_ABOVE_0:
            raise Fault(f"{what}: a period of {period}; it is above 0")
        return 1 / seconds
    for name in ("vehsPerHour", "perHour"):
        if element.get(name):
            return exact_number(element.get(name, ""), what) / 3600
    return exact_number(element.get("probability", ""), what) if element.get("probability") else None


def flow_end(
    element: ElementTree.Element, begin: Fraction, rate: Fraction | None, count: str | None, what: str
) -> Fraction:
    """The end of a flow in seconds."""
    if element.get("end"):
        end = seconds_of(element.get("end", ""), what)
    elif count is not None and rate:
        end = begin + whole_number(count, what) / rate
    else:
        raise Fault(f'{what}: it has no end; give one, as end="3600"')
    if end < begin:
        raise Fault(f"{what}: it ends at {float(end):g} s, before it begins")
    return end


def single(begin: Fraction, end: Fraction, count: int, what: str) -> Iterator[tuple[int, int]]:
    """Single vehicles at even distances from the beginning on; those of one millisecond together."""
    if count > MOST_DEPARTURES:
        raise Fault(
            f"{what}: {count_text(count)} vehicles, and at most {count_text(MOST_DEPARTURES)} may set out in all"
        )
    parts = lcm(begin.denominator, end.denominator) * count  # of a second, in which all moments are whole
    first, span = 1000 * int(begin * parts), 1000 * (int((end - begin) * parts) // count if count else 0)
    number = 0
    while number < count:
        moment = first + span * number
        depart = moment // parts if moment >= 0 else -(-moment // parts)
        after = (depart + 1) * parts if depart >= 0 else depart * parts + 1  # the next millisecond begins
        upto = min(count, -((first - after) // span)) if span else count
        yield depart, UNITS * (upto - number)
        number = upto


def by_rate(begin: Fraction, end: Fraction, rate: Fraction) -> Iterator[tuple[int, int]]:
    """The thousandths of a flow by parts of a minute, each in the middle of its part; they sum to the whole."""
    given, start = 0, begin
    while start < end:
        stop = min(start + RATE_PART_S, end)
        due = int((stop - begin) * rate * UNITS)
        if due > given:
            yield int((start + stop) / 2 * 1000), due - given
        given, start = due, stop


def exact_number(text: str, what: str) -> Fraction:
    """A number that is 0 or more."""
    value = exact_or_none(text)
    if value is None:
        raise Fault(f"{what}: {shown(text)} is no number: {number_rule(text)}")
    if value < 0:
        raise Fault(f"{what}: {text} is below 0")
    return value


def whole_number(text: str, what: str) -> int:
    """A whole number that is 0 or more."""
    value = exact_number(text, what)
    if value.denominator != 1:
        raise Fault(f"{what}: {shown(text)} is no whole number")
    return int(value)


def seconds_of(text: str, what: str) -> Fraction:
    """A time of SUMO in seconds: a number, or hours, minutes and seconds, or days before these."""
    values = [value for part in text.split(":")[:5] if (value := exact_or_none(part)) is not None]
    if len(values) in (1, 3, 4) and len(values) == text.count(":") + 1:
        seconds = sum((value * scale for value, scale in zip(reversed(values), (1, 60, 3600, 86_400))), Fraction(0))
        if abs(seconds) <= LONGEST_SECONDS:
            return seconds
    raise Fault(
        f"{what}: {shown(text)} is no time; expected seconds, or H:M:S, of at most"
        f" {count_text(LONGEST_SECONDS)} seconds"
    )
