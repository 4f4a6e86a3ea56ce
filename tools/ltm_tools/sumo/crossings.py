"""Makes links of the turns of a net of SUMO, and gives its routes over them."""
from __future__ import annotations

from collections.abc import Collection
from dataclasses import dataclass
from fractions import Fraction

from ..demand.route_splits import Route, led_over, units_by_links
from ..formats import MINUTE_MS
from ..network.crossings.chosen import Chosen, chosen
from ..network.crossings.expand import Expanded, Form, cut_as_they_are, expand
from ..network.crossings.lanes import counted_lanes
from ..network.crossings.movements import Movements, Pair
from ..network.crossings.queued import queued_volumes, settled
from ..network.crossings.told import crossings_told, whole_told
from ..network.crossings.turn import turns_of
from ..network.crossings.volumes import Volumes, turns_counted
from ..network.crossings.yielding import Yielding, names_of, passing, yields_of
from ..network.steps import longest_step
from .inputs import Inputs, counted_routes, horizon_ms
from .movements import movements
from .options import SumoOptions


@dataclass
class TurnedNet:
    """A net with turns as links: the turns that it allows, what has become of its crossings, what each approach lets
    pass in an hour, the lanes of turns where these are counted, and the routes by which traffic is counted, where these
    are not those of the case."""

    movements: Movements
    expanded: Expanded
    capacities: dict[str, Fraction]
    lanes: dict[Pair, Fraction]
    counted: list[Route] | None
    vehicles: dict[str, int]
    """Of each node the thousandths of vehicles that drive over it."""


def movements_of_net(inputs: Inputs, options: SumoOptions) -> Movements:
    """The turns of a net; without yielding at junctions without lights all such turns have the gaps of a plain sign."""
    return movements(
        inputs.net,
        signals=options.signals,
        yellow=options.yellow,
        begin_ms=inputs.begin_ms,
        by_kind=options.crossings.yields,
    )


def choose(inputs: Inputs, options: SumoOptions) -> tuple[Movements, Chosen]:
    """The turns of a net, and the crossings that are to have them as links; those alone that can be cut, where nothing
    is fitted."""
    raw = inputs.net.network
    found = movements_of_net(inputs, options)
    asked = options.crossings
    begins, ends = route_begins(inputs, options), route_ends(inputs)
    wanted = chosen(raw, found, ends, asked.turns, begins=begins, apart=asked.apart, joined=asked.joined)
    picked = wanted if options.fit else cut_as_they_are(raw, wanted, net_step(inputs, options))
    inputs.notes += whole_told(len(wanted.crossings) - len(picked.crossings))
    return found, picked


def route_ends(inputs: Inputs, own: Collection[str] = ()) -> set[str]:
    """The nodes where trips end, apart from those on edges with an end of their own."""
    last = {route.links[-1] for route in inputs.routes}
    return {inputs.net.network.roads[name].head for name in last if name not in own}


def route_begins(inputs: Inputs, options: SumoOptions) -> set[str]:
    """The nodes where trips begin that may take each link from there."""
    if options.crossings.origins != "node":
        return set()
    return {inputs.net.network.roads[route.links[0]].tail for route in inputs.routes}


def turn(
    inputs: Inputs, found: Movements, picked: Chosen, options: SumoOptions, own: Collection[str] = ()
) -> TurnedNet:
    """Makes links of the turns of the picked crossings, and leads the routes over them; the edges of `own` have an end
    each."""
    raw, asked = inputs.net.network, options.crossings
    capacities = {name: road.capacity for name, road in raw.roads.items()}
    counted = counted_routes(inputs, options)
    lanes = lanes_by_counts(inputs, counted, found, capacities, options) if asked.lanes != "full" else {}
    form = Form(
        step=net_step(inputs, options),
        length_m=asked.length_m,
        lanes=lanes,
        ends=route_ends(inputs, own),
        own_ends=own,
        begins=route_begins(inputs, options),
        saturation=asked.saturation,
    )
    made = expand(raw, found, picked, form)
    vehicles = units_by_node(inputs.routes, made)
    driven = led_over(inputs.routes, made.route)
    inputs.notes += crossings_told(made)
    if lost := route_units(inputs.routes) - route_units(driven):
        inputs.found.leave_out("that take a turn which is forbidden", lost)
    inputs.routes = driven
    return TurnedNet(
        found, made, capacities, lanes, None if options.volumes is None else led_over(counted, made.route), vehicles
    )


def lanes_by_counts(
    inputs: Inputs, routes: list[Route], found: Movements, capacities: dict[str, Fraction], options: SumoOptions
) -> dict[Pair, Fraction]:
    """The lanes of turns by the vehicles that take them."""
    asked, names = options.crossings, {pair: f"{pair[0]} {pair[1]}" for pair in found.turns}
    volumes = turns_counted(
        routes,
        {name: road.time for name, road in inputs.net.network.roads.items()},
        asked.slice_minutes * MINUTE_MS,
        names,
    )
    inputs.notes.append(
        "turns have lanes by the counted routes (--lanes counted): where vehicles choose others, as in"
        " an assignment, take --lanes full"
        if asked.lanes == "counted"
        else "turns have of lanes that they share what their vehicles take by the counted routes, and at least an even"
        " part (--lanes shared): where vehicles choose others, as in an assignment, take --lanes full"
    )
    turns = turns_of(names, found, capacities, asked.permissive, {}, asked.saturation)
    return counted_lanes(turns, found, volumes, asked.lanes == "shared")


def yields_by_counts(inputs: Inputs, picked: Chosen, options: SumoOptions) -> list[Yielding]:
    """The approaches of junctions without lights whose turns are no links, by the counted traffic: as it would drive if
    nothing held it up, or, where turns have ranks, as queues let it come."""
    found = movements_of_net(inputs, options)
    raw, asked = inputs.net.network, options.crossings
    times = {name: road.time for name, road in raw.roads.items()}
    routes, slice_ms, names = counted_routes(inputs, options), asked.slice_minutes * MINUTE_MS, names_of(found)
    ranks, end_ms = asked.yielding == "ranks", horizon_ms(inputs, options)

    def yields(volumes: Volumes) -> list[Yielding]:
        return yields_of(raw, found, volumes, asked.saturation, picked.crossings, ranks)

    def count(volumes: Volumes) -> Volumes:
        return queued_volumes(routes, times, slice_ms, names, passing(raw, yields(volumes)), end_ms)

    volumes = turns_counted(routes, times, slice_ms, names)
    return yields(settled(volumes, count) if ranks else volumes)


def net_step(inputs: Inputs, options: SumoOptions) -> int:
    """The step in ms that a net is fitted to, or the longest that it allows as it is."""
    return options.fit or options.step or min(longest_step(inputs.net.network), MINUTE_MS)


def route_units(routes: list[Route]) -> int:
    """The thousandths of vehicles of routes."""
    return sum(route.units for route in routes)


def units_by_node(routes: list[Route], made: Expanded) -> dict[str, int]:
    """Of each node of the source the thousandths of vehicles whose routes come to it."""
    counts: dict[str, int] = {}
    for links, units in units_by_links(routes).items():
        for name in links:
            node = made.ends[name][1]
            counts[node] = counts.get(node, 0) + units
    return counts
