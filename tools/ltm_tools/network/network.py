"""A raw network, before it is a case: nodes with places, and roads with exact lengths, times, storage and capacities.

Nothing is rounded here. A road keeps what adds up when roads are joined end to end: its length, its free-flow time and
what it stores. `diagram` rounds a road to the whole numbers of `links.csv`. The limits of the program, as the arms of a
node or a step, are the matter of `fit`.
"""
from __future__ import annotations

from collections.abc import Callable, Iterable
from dataclasses import dataclass, field, replace
from fractions import Fraction
from functools import lru_cache

from ..case import Link
from ..case.least import least
from ..errors import Fault
from ..formats import HOUR_MS, MOST_JAM_PER_KM, MOST_KMH, MOST_LENGTH_M, MOST_SLOT_UNITS
from .lines import Line, Point, joined

LEAST_M = Fraction(1)
"""The length of a road that is shorter in its source, as a link of a case has whole metres."""


def nearest_whole(number: Fraction) -> int:
    """The nearest whole number, halves upwards, and at least 1."""
    return max(1, (2 * number.numerator + number.denominator) // (2 * number.denominator))


@dataclass(slots=True)
class Node:
    """A node; `x` and `y` are as in the source, degrees or metres, where it has a place."""

    name: str
    x: float | None = None
    y: float | None = None

    @property
    def place(self) -> Point | None:
        """Where it lies, if that is known."""
        return None if self.x is None or self.y is None else (self.x, self.y)


@dataclass(slots=True)
class Road:
    """A directed road between two nodes, exact."""

    name: str
    tail: str
    head: str
    length: Fraction
    """Metres."""
    time: Fraction
    """Free-flow time in milliseconds."""
    storage: Fraction
    """Vehicles that stand on it at jam density."""
    capacity: Fraction
    """Vehicles an hour, all lanes together."""
    kind: str = ""
    parts: tuple[str, ...] = ()
    """The roads of the source that it is made of, in the order of driving; none for a connector that was made."""
    shape: Line = ()
    """The points that it leads through, as in the source, from its tail on; none where nothing says them."""

    @property
    def kmh(self) -> Fraction:
        """The free speed in km/h."""
        return self.length * 3600 / self.time

    @property
    def jam(self) -> Fraction:
        """The jam density in vehicles/km."""
        return self.storage * 1000 / self.length


def road_of(
    name: str,
    tail: str,
    head: str,
    *,
    metres: Fraction,
    kmh: Fraction,
    jam: Fraction,
    capacity: Fraction,
    kind: str = "",
    shape: Line = (),
) -> Road:
    """The road of a length in metres, a free speed in km/h, a jam density in vehicles/km and a capacity an hour; one
    that is shorter has LEAST_M."""
    metres = max(metres, LEAST_M)
    return Road(name, tail, head, metres, metres * 3600 / kmh, metres * jam / 1000, capacity, kind, (name,), shape)


def top(link: Link) -> Fraction:
    """The top of a link's triangle, in vehicles an hour."""
    return Fraction(link.jam_per_km * link.free_kmh * link.wave_kmh, link.free_kmh + link.wave_kmh)


def wave_of(capacity: Fraction, free: int, jam: int, most: Fraction | None = None) -> int | None:
    """The whole wave speed with which the triangle's top is nearest to a capacity and not above `most`; none where no
    top is so high."""
    if capacity >= free * jam:
        return None
    exact = capacity * free / (free * jam - capacity)
    below = max(1, exact.numerator // exact.denominator)
    tops = [(wave, Fraction(jam * free * wave, free + wave)) for wave in (below, below + 1)]
    fitting = [pair for pair in tops if most is None or pair[1] <= most] or tops[:1]
    return min(fitting, key=lambda pair: abs(pair[1] - capacity))[0]


def diagram_of(road: Road, step: int | None = None) -> Link:
    """The road in the whole numbers of `links.csv`: the nearest length, the speed with the nearest free-flow time, the
    jam density with the nearest storage, and the wave speed with the nearest capacity. With a step in ms the capacity
    is kept to what may pass in a slot."""
    metres, free, jam, wave = whole_diagram(road.length, road.time, road.storage, road.capacity, step)
    if wave is None or wave > MOST_KMH:
        raise Fault(
            f"link {road.name}: a capacity of {float(road.capacity):g} an hour is too much for {free} km/h and"
            f" {jam} vehicles/km;"
            " give a greater --jam, or --fit, which lowers it"
        )
    if metres > MOST_LENGTH_M or free > MOST_KMH or jam > MOST_JAM_PER_KM:
        raise Fault(
            f"link {road.name}: {metres} m, {free} km/h and {jam} vehicles/km, and at most {MOST_LENGTH_M},"
            f" {MOST_KMH} and {MOST_JAM_PER_KM}"
            " are allowed; look at the units of lengths and speeds"
        )
    return Link(road.name, road.tail, road.head, metres, free, wave, jam)


@lru_cache(10_000)  # a fit asks again and again for roads that it has not changed
def whole_diagram(
    length: Fraction, time: Fraction, storage: Fraction, capacity: Fraction, step: int | None
) -> tuple[int, int, int, int | None]:
    """The metres, free speed, jam density and wave speed of such a road; no wave where no top is so high."""
    metres = nearest_whole(length)
    exact = metres * 3600 / time
    below = max(1, exact.numerator // exact.denominator)
    free = min((below, below + 1), key=lambda speed: abs(Fraction(metres * 3600, speed) - time))
    jam = nearest_whole(storage * 1000 / metres)
    return metres, free, jam, wave_of(capacity, free, jam, None if step is None else most_capacity(step))


def most_capacity(step: int) -> Fraction:
    """The most vehicles an hour that a link may have with a step in ms, as the program rounds down to units a slot."""
    return Fraction((MOST_SLOT_UNITS + 1) * HOUR_MS, 1000 * step) - Fraction(1, 1000)


@dataclass
class Network:
    """Nodes and roads by name, and where trips begin and end."""

    nodes: dict[str, Node] = field(default_factory=dict)
    roads: dict[str, Road] = field(default_factory=dict)
    origins: dict[str, dict[str, Fraction]] = field(default_factory=dict)
    """Of each zone the nodes where its trips begin, with shares that sum to 1."""
    destinations: dict[str, dict[str, Fraction]] = field(default_factory=dict)
    """Of each zone the nodes where its trips end, with shares that sum to 1."""
    ends: set[str] = field(default_factory=set)
    """Nodes where trips begin or end; they stay nodes."""
    signals: set[str] = field(default_factory=set)
    """Roads with a signal at their end; they stay, and so does their end."""
    outs: dict[str, list[str]] = field(default_factory=dict)
    ins: dict[str, list[str]] = field(default_factory=dict)

    def copy(self) -> Network:
        """A network of its own, with the same nodes and roads."""
        made = Network(
            dict(self.nodes),
            {},
            {zone: dict(shares) for zone, shares in self.origins.items()},
            {zone: dict(shares) for zone, shares in self.destinations.items()},
            set(self.ends),
            set(self.signals),
        )
        for node in self.nodes:
            made.outs.setdefault(node, [])
            made.ins.setdefault(node, [])
        for road in self.roads.values():
            made.add(replace(road))
        return made

    def add_node(self, node: Node) -> None:
        """A node, in place of one of the same name."""
        self.nodes[node.name] = node
        self.outs.setdefault(node.name, [])
        self.ins.setdefault(node.name, [])

    def add(self, road: Road) -> None:
        """A road of a new name, and its ends where they are not nodes yet."""
        if road.name in self.roads:
            raise Fault(f"link {road.name}: the name stands twice")
        for end in (road.tail, road.head):
            if end not in self.nodes:
                self.add_node(Node(end))
        self.roads[road.name] = road
        self.outs.setdefault(road.tail, []).append(road.name)
        self.ins.setdefault(road.head, []).append(road.name)

    def remove(self, name: str) -> Road:
        """Takes a road out; its ends stay."""
        road = self.roads.pop(name)
        self.outs[road.tail].remove(name)
        self.ins[road.head].remove(name)
        return road

    def move_tail(self, name: str, node: str) -> None:
        """Lets a road begin at another node."""
        road = self.roads[name]
        self.outs[road.tail].remove(name)
        road.tail = node
        self.outs[node].append(name)

    def move_head(self, name: str, node: str) -> None:
        """Lets a road end at another node."""
        road = self.roads[name]
        self.ins[road.head].remove(name)
        road.head = node
        self.ins[node].append(name)

    def drop_node(self, name: str) -> None:
        """Takes out a node without roads."""
        del self.nodes[name], self.outs[name], self.ins[name]

    def line(self, road: Road) -> Line:
        """The points of a road from end to end; fewer than two where too few places are known."""
        ends = [((place,) if (place := self.nodes[end].place) is not None else ()) for end in (road.tail, road.head)]
        return joined([ends[0], road.shape, ends[1]])

    def used_nodes(self) -> list[str]:
        """The nodes on some road, in the order in which a case of these roads numbers them."""
        return list(dict.fromkeys(end for road in self.roads.values() for end in (road.tail, road.head)))


def least_times(
    network: Network, destination: str, cost: Callable[[Road], Fraction | int] | None = None
) -> dict[str, Fraction | int]:
    """The least free-flow time in ms from each node that has a route to the destination."""
    of, roads = cost or (lambda road: road.time), network.roads
    none: Fraction | int = 0
    return least(
        destination, none, lambda node: ((roads[name].tail, of(roads[name])) for name in network.ins.get(node, ()))
    )


def least_route(network: Network, origin: str, destination: str, times: dict[str, Fraction | int]) -> list[str]:
    """The roads of a least route, by the least times to its destination; none where there is no route."""
    if origin not in times:
        return []
    route, node = [], origin
    while node != destination:
        name = min(
            (name for name in network.outs[node] if network.roads[name].head in times),
            key=lambda name: network.roads[name].time + times[network.roads[name].head],
        )
        route.append(name)
        node = network.roads[name].head
    return route


def road_totals(roads: Iterable[Road]) -> tuple[Fraction, Fraction, Fraction]:
    """The metres, the milliseconds and the vehicles stored, over roads."""
    chosen = list(roads)
    return (
        sum((road.length for road in chosen), Fraction(0)),
        sum((road.time for road in chosen), Fraction(0)),
        sum((road.storage for road in chosen), Fraction(0)),
    )
