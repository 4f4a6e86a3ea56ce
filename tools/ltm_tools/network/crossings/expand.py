"""Makes links of the turns of crossings, in a raw network.

An approach `i` keeps its name and ends at the node `i_A`, an exit `j` begins at the node `j_E`, and the turn from one
to the other is the link `i__j`. A turn that is forbidden is not there. An approach with one exit leads to it as it is.
Trips that end at the crossing take the link `i_stop`, which no signal holds, to its own node; trips that begin there
begin at `j_E`, or where they may take each exit take `j_start` to it.
"""
from __future__ import annotations

from collections.abc import Collection, Mapping
from dataclasses import dataclass, field, replace
from fractions import Fraction

from ...demand.route_splits import Links
from ..arms import free_name
from ..fit import most_top
from ..fitting import stretched
from ..lines import Line, cut_at
from ..network import LEAST_M, Network, Node, Road, diagram_of, most_capacity
from . import drawing
from .apart import groups_of
from .chosen import Chosen
from .movements import Movements, Pair


@dataclass
class Expanded:
    """What has become of the crossings of a network."""

    ends: dict[str, tuple[str, str]]
    """Of each road of the source the nodes of the source where it begins and ends."""
    links: dict[Pair, str] = field(default_factory=dict)
    """Of each turn its road: that of its own, or its approach, where that has this exit alone."""
    own: dict[str, list[str]] = field(default_factory=dict)
    """Of each approach that was cut the roads of its turns, and that of its trips that end."""
    stops: dict[str, str] = field(default_factory=dict)
    starts: dict[str, str] = field(default_factory=dict)
    """Of each exit the road from the node where trips begin that may take each."""
    origins: dict[str, str] = field(default_factory=dict)
    """Of each node where trips begin and end the node where they begin now."""
    added: dict[str, int] = field(default_factory=dict)
    """Of each crossing how many roads it has more than before."""
    parted: int = 0
    """How many dead ends were parted."""
    apart: int = 0
    """How many other nodes were parted."""
    heads: dict[str, str] = field(default_factory=dict)
    """Of each link that ends at a node that was parted the node where it ends now."""
    tails: dict[str, str] = field(default_factory=dict)
    """Of each link that begins there the node where it begins now."""
    short: int = 0
    """How many approaches are shorter than two links that the step allows."""

    def uncut(self) -> set[Pair]:
        """The turns that are the whole of their approach, as it leads nowhere else."""
        return {pair for pair, road in self.links.items() if road == pair[0]}

    def route(self, roads: Links) -> Links | None:
        """A route over roads of the source as one over the roads there are now; none where it takes a turn that is
        forbidden."""
        links = [self.starts[roads[0]]] if roads[0] in self.starts else []
        for name, after in zip(roads, roads[1:]):
            links.append(name)
            if self.heads.get(name) != self.tails.get(after):
                return None
            if self.ends[name][1] in self.added:
                if (name, after) not in self.links:
                    return None
                turn = self.links[name, after]
                links += [turn] if turn != name else []
        last = roads[-1]
        return (*links, last, *([self.stops[last]] if last in self.stops else []))


@dataclass(frozen=True, kw_only=True)
class Form:
    """How turns are made: the step that the network is to have, the metres of a turn, the lanes of turns where they are
    not all that serve it, the nodes where trips end, the approaches with an end of their own, the nodes where trips
    begin with each exit open to them, and the most that a lane lets through at a stop line in an hour."""

    step: int
    length_m: int
    lanes: Mapping[Pair, Fraction] = field(default_factory=dict)
    ends: Collection[str] = ()
    own_ends: Collection[str] = ()
    begins: Collection[str] = ()
    saturation: Fraction | None = None


def expand(network: Network, movements: Movements, chosen: Chosen, form: Form) -> Expanded:
    """Makes links of the turns of the chosen crossings, and parts the nodes that are to part."""
    made = Expanded({name: (road.tail, road.head) for name, road in network.roads.items()})
    exits = movements.exits()
    for node in chosen.parted:
        part(network, movements, node, made)
    for node in chosen.crossings:
        Crossing(network, movements, exits, form, made, node).expand()
    for node in [node for node in network.nodes if not network.ins[node] and not network.outs[node]]:
        network.drop_node(node)
    return made


def cut_as_they_are(network: Network, picked: Chosen, step: int) -> Chosen:
    """Of the chosen crossings those before which each road can be cut in two links that a step allows."""
    return replace(
        picked,
        crossings=tuple(
            node
            for node in picked.crossings
            if all((road := network.roads[name]).time >= 2 * part_time(road, step) for name in network.ins[node])
        ),
    )


def part_time(road: Road, step: int) -> Fraction:
    """The free-flow time in ms of a part of a road that is long enough for a step, rounded up to metres."""
    link = diagram_of(replace(road, capacity=min(road.capacity, most_top(road), most_capacity(step))))
    return Fraction(-(-step * max(link.free_kmh, link.wave_kmh) // 3600) + 1) * 3600 / road.kmh


def part(network: Network, movements: Movements, node: str, made: Expanded) -> None:
    """Gives each group of the links of a node a node of its own; the first group, in which links end, keeps the node,
    and that in which they only begin begins at `NODE_start`."""
    groups = groups_of(network, movements.turns, node)
    for number, group in enumerate(groups, 1):
        end = node
        if number > 1:
            end = free_name(f"{node}_{number}" if group.ins else f"{node}_start", network.nodes)
            network.add_node(Node(end, network.nodes[node].x, network.nodes[node].y))
            for name in group.ins:
                network.move_head(name, end)
            for name in group.outs:
                network.move_tail(name, end)
        made.heads.update(dict.fromkeys(group.ins, end))
        made.tails.update(dict.fromkeys(group.outs, end))
        if group.outs and end != node:
            made.origins[node] = end
    is_dead_end = not any(group.ins and group.outs for group in groups)
    made.parted += is_dead_end
    made.apart += not is_dead_end


class Crossing:
    """A crossing that is being expanded."""

    def __init__(
        self,
        network: Network,
        movements: Movements,
        exits: Mapping[str, list[str]],
        form: Form,
        made: Expanded,
        node: str,
    ) -> None:
        self.network, self.movements, self.form, self.made, self.node = network, movements, form, made, node
        self.place = network.nodes[node].place
        self.ins = {name: list(exits.get(name, ())) for name in network.ins[node]}
        self.outs = list(network.outs[node])
        self.before = {name: network.line(network.roads[name]) for name in self.ins}
        self.after = {name: network.line(network.roads[name]) for name in self.outs}

    def expand(self) -> None:
        """Makes the turns, and the roads of trips that end and begin here."""
        before = len(self.network.roads)
        for name in self.outs:
            self.begin_later(name)
        for name, exits in self.ins.items():
            stops = self.node in self.form.ends or name in self.form.own_ends
            if len(exits) == 1 and not stops and self.movements.turns[name, exits[0]].is_plain:
                self.network.move_head(name, self.network.roads[exits[0]].tail)
                self.made.links[name, exits[0]] = name
            elif exits:
                self.cut(name, exits, stops)
        if self.node in self.form.begins:
            self.begin_here()
        self.made.added[self.node] = len(self.network.roads) - before

    def begin_later(self, name: str) -> None:
        """Lets an exit begin at a node of its own, which lies where turns meet it."""
        road = self.network.roads[name]
        line = drawing.behind_corner(self.after[name], float(road.length))
        node = free_name(f"{name}_E", self.network.nodes)
        self.network.add_node(Node(node, *(line[0] if line else self.place or (None, None))))
        self.network.move_tail(name, node)
        road.shape = line[1:-1] if road.shape else ()

    def cut(self, name: str, exits: list[str], stops: bool) -> None:
        """Cuts an approach where its turns part, and makes a road of each."""
        road = self.network.roads[name]
        least = part_time(road, self.form.step)
        own = max(least, min(self.form.length_m * 3600 / road.kmh, road.time - least))
        kept = max(road.time - own, LEAST_M * 3600 / road.kmh)
        self.made.short += road.time < 2 * least
        line = self.before[name]
        first, last = cut_at(line, float(kept / (kept + own))) if len(line) > 1 else ((), ())
        node = free_name(f"{name}_A", self.network.nodes)
        self.network.add_node(Node(node, *(last[0] if last else self.place or (None, None))))
        self.network.move_head(name, node)
        self.network.roads[name] = replace(stretched(road, kept - road.time), shape=first[1:-1])
        rest = stretched(road, own - road.time)
        roads = [self.turn(rest, name, after, node, last, apart) for after, apart in self.apart(name, exits).items()]
        if stops:
            self.made.stops[name] = free_name(f"{name}_stop", self.network.roads)
            end = self.own_end(name) if name in self.form.own_ends else self.node
            roads.append(replace(rest, name=self.made.stops[name], tail=node, head=end, shape=last[1:-1]))
        for one in roads:
            one.parts = (one.name,)
            self.network.add(one)
        self.made.own[name] = [one.name for one in roads]

    def own_end(self, name: str) -> str:
        """A node at which trips on an approach alone end."""
        end = free_name(f"{name}_end", self.network.nodes)
        self.network.add_node(Node(end, *(self.place or (None, None))))
        return end

    def apart(self, name: str, exits: list[str]) -> dict[str, float]:
        """Of each exit of an approach how many lanes to the right of its line the turn is drawn, by where it bears; in
        the order of the exits."""
        order = sorted(exits, key=lambda after: -drawing.bearing(self.before[name], self.after[after]))
        return {after: order.index(after) + 0.5 for after in exits}

    def turn(self, rest: Road, name: str, after: str, start: str, line: Line, apart: float) -> Road:
        """The road of a turn."""
        pair, movement = (name, after), self.movements.turns[name, after]
        share, lanes = self.movements.share(pair, self.form.lanes.get(pair)), self.movements.lanes.get(name) or 1
        most = share * lanes * movement.through(rest.capacity / lanes, self.form.saturation)
        made = replace(
            rest,
            name=free_name(f"{name}__{after}", self.network.roads),
            tail=start,
            head=self.network.roads[after].tail,
            storage=rest.storage * share,
            capacity=min(most, movement.capacity or most),
            kind="turn",
        )
        made = stretched(made, Fraction(movement.penalty_ms))
        end = self.network.nodes[made.head].place
        made.shape = (
            drawing.turn_line(line, float(made.length), self.place, end, apart)[1:-1]
            if self.place is not None and end is not None
            else ()
        )
        self.made.links[pair] = made.name
        return made

    def begin_here(self) -> None:
        """Makes a road to each exit from where trips begin: the crossing's node, or one of its own where trips end at
        that one."""
        start = self.node
        if self.node in self.form.ends:
            start = free_name(f"{self.node}_start", self.network.nodes)
            self.network.add_node(Node(start, *(self.place or (None, None))))
        self.made.origins[self.node] = start
        for name in self.outs:
            road = self.network.roads[name]
            own = part_time(road, self.form.step)
            link = free_name(f"{name}_start", self.network.roads)
            self.network.add(
                replace(
                    stretched(road, own - road.time),
                    name=link,
                    tail=start,
                    head=road.tail,
                    kind="start",
                    parts=(link,),
                    shape=(),
                )
            )
            self.made.starts[name] = link
