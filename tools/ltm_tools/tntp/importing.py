"""Makes a case of a network and its trips in the format of the Transportation Networks collection (TNTP)."""
from __future__ import annotations

import os
from dataclasses import dataclass, field
from fractions import Fraction
from typing import ClassVar

from ..case.places import DEGREES
from ..case.sizes import ask_for_sizes
from ..errors import Fault
from ..formats import MINUTE_MS, MOST_JAM_PER_KM, agreeing, counted
from ..network.bad_option import BadOption
from ..network.centroids import part_node
from ..network.changes import changes_told
from ..demand.matrices import Amounts
from ..demand.volumes import Volumes
from ..files import existing
from ..network.imported import Imported
from ..network.entries import without
from ..network.early import check_links
from ..network.importing import carried
from ..network.least_routes import least_routes
from ..network.lengths import unit_by_range
from ..network.network import LEAST_M, Network, Node, road_of
from ..network.od_case import OdOptions, case_of, check_times, inner_told, departure_parts, size_told
from ..network.od_entries import enter_zones
from ..network.od_nodes import check_pairs, check_volumes, kept_by_node
from ..network.placing import Map, places_of
from ..network.steps import steps_table
from .reading import TntpLink, TntpNet, read_net, read_places, read_trips
from .units import TntpUnits, network_units

StrPath = str | os.PathLike[str]
UNTIMED_KMH = Fraction(50)
"""The speed of a link without a free-flow time or without a length, as connectors of zones often are."""
NEAR = Fraction(1, 1000)
"""How far the sum of trips may be from what their file says, as a part of it."""


@dataclass(frozen=True, kw_only=True)
class TntpOptions(OdOptions):
    """What the fields of a network mean, and its demand. None stands for what the files say, or a guess."""

    length_unit: str | None = None
    time_unit: str | None = None
    jam: Fraction = Fraction(150)
    """The jam density of a lane, in vehicles/km."""
    lane_capacity: Fraction = Fraction(1800)
    """The vehicles an hour of a lane, by which a link's lanes are counted."""
    wave: Fraction | None = None
    """The wave speed in km/h of each link, whose jam density then follows from its capacity."""
    capacity_hours: Fraction = Fraction(1)
    """The hours in which as many vehicles pass a link as its capacity says."""
    scale: Fraction = Fraction(1)
    """By what the trips are multiplied."""

    RANGES: ClassVar[dict[str, tuple[int, int | None]]] = OdOptions.RANGES

    def __post_init__(self) -> None:
        OdOptions.__post_init__(self)
        if self.jam > MOST_JAM_PER_KM:
            raise BadOption("jam", f"is at most {MOST_JAM_PER_KM}")


@dataclass
class Asked:
    """A network with its demand by nodes, before it is fitted; `notes` are what was read, set and left out."""

    network: Network
    amounts: Amounts
    in_degrees: bool
    notes: list[str] = field(default_factory=list)
    volumes: Volumes = field(default_factory=Volumes)
    entries: frozenset[str] = frozenset()
    """The links by which trips come to nodes that others drive over."""


def import_tntp(
    net: StrPath, trips: StrPath, nodes: StrPath | None = None, options: TntpOptions = TntpOptions()
) -> Imported:
    """The case of a network file and a file of trips, with the places of a file of nodes; NotCarried with all that a
    case cannot have."""
    asked = read_all(net, trips, nodes, options)
    raw = asked.network
    made = carried(raw, options, lambda: least_routes(raw, asked.volumes.units("demand")))
    parts, clock = departure_parts(options, made.step, asked.notes)
    case, last = case_of(made, asked.volumes, options, parts)
    sizes = ask_for_sizes(case, options.moves, options.history, options.routes)
    places, lost = places_of(made, Map(crs=DEGREES if asked.in_degrees else None))
    told = [
        *asked.notes,
        *size_told(made, case, last),
        *inner_told(asked.amounts.inner),
        *changes_told(made, made.routes),
        *lost,
        *sizes,
    ]
    changes = tuple(made.fit.changes) if made.fit is not None else None
    source = without(made.source, raw=raw, links=asked.entries)
    return Imported(case, places, source, changes, tuple(told), clock)


def steps_of_tntp(
    net: StrPath, trips: StrPath, nodes: StrPath | None = None, options: TntpOptions = TntpOptions()
) -> list[str]:
    """What a fit of the network to each of some steps would change, a line each."""
    asked = read_all(net, trips, nodes, options)
    return steps_table(asked.network, horizon_ms=options.horizon * MINUTE_MS, ends=set(asked.volumes.end_names()))


def read_all(net: StrPath, trips: StrPath, nodes: StrPath | None, options: TntpOptions) -> Asked:
    """The network and its demand by nodes."""
    paths = [existing(path) for path in (net, trips)]
    check_times(options)
    read = read_net(paths[0])
    places = {} if nodes is None else read_places(existing(nodes))
    in_degrees = bool(places) and unit_by_range(places.values()) == "degrees"
    units = network_units(read, places, in_degrees, options.length_unit, options.time_unit)
    raw = network_of(read, units, places, options)
    check_links(raw, options, net)
    amounts, said = read_trips(paths[1])
    asked = Asked(raw, amounts, in_degrees, [*units.notes])
    asked.notes += [*links_told(read, units, options), *trips_told(amounts, said, options)]
    amounts.volumes, amounts.inner = amounts.volumes.scaled(options.scale), amounts.inner * options.scale
    place_zones(asked.network, read, asked.notes)
    check_pairs(raw, amounts, options)
    if options.entries:
        asked.entries = enter_zones(asked.network, amounts, options, asked.notes)
    asked.volumes = kept_by_node(asked.network, amounts, options, asked.notes)
    check_volumes(asked.volumes, options)
    return asked


def network_of(
    read: TntpNet, units: TntpUnits, places: dict[str, tuple[float, float]], options: TntpOptions
) -> Network:
    """The network of links in some units."""
    network = Network()
    for link in read.links:
        for node in (link.tail, link.head):
            if node not in network.nodes:
                network.add_node(Node(node, *places.get(node, (None, None))))
        if link.tail != link.head and link.capacity:
            add_road(network, link, units, options)
    if not network.roads:
        raise Fault("no link has a capacity above 0 and two ends")
    return network


def add_road(network: Network, link: TntpLink, units: TntpUnits, options: TntpOptions) -> None:
    """The road of a link, called by its ends, and by a number behind them where others have the same."""
    base, number = f"{link.tail}_{link.head}", 1
    name = base
    while name in network.roads:
        number += 1
        name = f"{base}_{number}"
    metres, seconds = units.metres(link), units.seconds(link)
    metres = max(metres or seconds * UNTIMED_KMH / Fraction(18, 5), LEAST_M)
    kmh = metres / seconds * Fraction(18, 5) if seconds else UNTIMED_KMH
    capacity = min(link.capacity / options.capacity_hours, lanes_capacity(options))
    jam = options.jam * max(1, -(-capacity // options.lane_capacity))
    if options.wave is not None:
        jam = capacity * (1 / kmh + 1 / options.wave)
    network.add(road_of(name, link.tail, link.head, metres=metres, kmh=kmh, jam=jam, capacity=capacity))


def lanes_capacity(options: TntpOptions) -> Fraction:
    """The most vehicles an hour that a link gets: those of as many lanes as its jam density has room for."""
    return MOST_JAM_PER_KM // options.jam * options.lane_capacity


def place_zones(network: Network, read: TntpNet, notes: list[str]) -> None:
    """Lets each node stand for the zone of its number; those that no route may lead through are parted, into one where
    trips begin and one where they end."""
    parted = 0
    for node in network.used_nodes():
        end = node
        if node.isascii() and node.isdecimal() and int(node) < read.first_through:
            if network.ins[node] and network.outs[node]:
                end = part_node(network, node)
                parted += 1
        network.origins[node], network.destinations[node] = {node: Fraction(1)}, {end: Fraction(1)}
    if parted:
        notes.append(
            f"{parted} nodes below {read.first_through}, the first that routes may lead through, are parted: trips to"
            f" NODE end at NODE_end"
        )


def links_told(read: TntpNet, units: TntpUnits, options: TntpOptions) -> list[str]:
    """What was set for links, or left out."""
    counts = {
        "have no capacity and are left out, as nothing can drive there": sum(not it.capacity for it in read.links),
        "are loops from a node to itself and are left out": sum(it.tail == it.head for it in read.links),
        f"have no free-flow time or no length and get {float(UNTIMED_KMH):g} km/h": sum(
            not it.time or not it.length for it in read.links
        ),
        f"have more than {float(lanes_capacity(options)):g} vehicles an hour and get these": sum(
            it.capacity / options.capacity_hours > lanes_capacity(options) for it in read.links
        ),
        "are shorter than 1 m and get 1 m": sum(0 < units.metres(it) < LEAST_M for it in read.links),
        "have a toll, which is left out": sum(it.tolled for it in read.links),
    }
    return [f"{counted(count, 'link')} {agreeing(what, count)}" for what, count in counts.items() if count]


def trips_told(amounts: Amounts, said: Fraction | None, options: TntpOptions) -> list[str]:
    """How many trips there are where their file says another sum, and by what they are multiplied."""
    whole = amounts.volumes.whole() + amounts.inner
    told = []
    if said is not None and abs(whole - said) > NEAR * said:
        told.append(f"the trips sum to {float(whole):,.10g}, and their file says a total of {float(said):,.10g}")
    if options.scale != 1:
        told.append(f"trips are multiplied by {float(options.scale):g}")
    return told
