"""What is read of SUMO: a net, and the route of each vehicle over its edges."""
from __future__ import annotations

import os
from collections.abc import Collection, Container, Iterable, Mapping, Sequence
from dataclasses import dataclass, field, replace
from fractions import Fraction
from functools import partial
from pathlib import Path

from ..demand.route_splits import Links, Route, led_over
from ..demand.values import quarter_before
from ..case.background import Background
from ..errors import Fault
from ..files import existing
from ..formats import MINUTE_MS, MOST_DESTINATIONS_ASKED, short_vehicles
from ..network.ends import nearest_kept, most_used
from ..network.early import check_cells, check_ends, check_links, destinations_that_fit
from ..network.network import Network
from ..network.steps import longest_step
from .ends import Cut, cut_ends, over_parts
from .background import background_of
from .net import Connection, SumoNet, elements, read_net, read_programs
from .options import SumoOptions
from .routes import SPACING, FoundVehicles, Vehicles, read_vehicles
from .ways import Leg, Ways
from .zones import read_zones

StrPath = str | os.PathLike[str]


@dataclass
class Inputs:
    """What was read, with the routes of vehicles over edges of the net."""

    net: SumoNet
    found: FoundVehicles
    routes: list[Route] = field(default_factory=list)
    turns_before: list[Route] = field(default_factory=list)
    """The routes before edges were cut, where some were."""
    counted: list[Route] | None = None
    """The routes of other vehicles by which traffic at crossings is counted, once they were read."""
    begin_ms: int = 0
    background: Background = Background()
    notes: list[str] = field(default_factory=list)


def end_before_signals(
    inputs: Inputs,
    held: dict[str, list[Connection]],
    options: SumoOptions,
    turned: Container[str],
    own: Collection[str] | None = None,
) -> Cut:
    """Lets trips end before a signal at the end of their last edge, or on that edge where it has an end of its own, and
    tells it; `turned` are the nodes whose turns are links."""
    raw = inputs.net.network
    step = options.fit or options.step or min(longest_step(raw), MINUTE_MS)
    shared = 0 if own is not None else ends_shared(inputs, turned)
    whole = [name for name in own or () if raw.roads[name].head not in turned]
    cut = cut_ends(raw, inputs.routes, set(held), step, whole)
    inputs.turns_before = inputs.routes
    inputs.routes = led_over(inputs.routes, partial(over_parts, cut=cut))
    if shared:
        inputs.notes.append(
            f"{short_vehicles(shared)} vehicles end where other edges lead too, and may come there by these (--ends"
            f" edge gives each edge an end of its own)"
        )
    if len(cut.exits) > len(cut.own):
        inputs.notes.append(
            f"{len(cut.exits) - len(cut.own)} edges are cut a step before a signal, so that trips that end there need"
            f" not wait for it (--wait-at-ends leaves them whole)"
        )
    if cut.too_short:
        inputs.notes.append(
            f"trips that end on {cut.too_short} edges wait for the signal at their end, as these are"
            f" too short to be cut"
        )
    return cut


def ends_shared(inputs: Inputs, turned: Container[str]) -> int:
    """The thousandths of vehicles that end at a node to which several edges lead, apart from those at these nodes."""
    raw = inputs.net.network
    heads = ((raw.roads[route.links[-1]].head, route.units) for route in inputs.routes)
    return sum(units for node, units in heads if len(raw.ins[node]) > 1 and node not in turned)


def read_inputs(net_file: StrPath, files: Iterable[StrPath], options: SumoOptions) -> Inputs:
    """Reads all files, and finds the route of each vehicle."""
    net_path, (vehicles, programs, zones, polygons) = existing(net_file), by_kind(map(existing, files))
    found = read_vehicles(vehicles, read_zones(zones))
    spacing = options.spacing or found.spacing
    net = read_net(net_path, vehicle_class=options.vehicle_class, headway=options.headway, spacing=spacing)
    check_links(net.network, options, net_path)
    inputs = Inputs(net, found, background=background_of(net_path, net.unused, polygons, net.drawn))
    if options.spacing is None and spacing != SPACING:
        inputs.notes.append(
            f"a standing vehicle takes {float(spacing):g} m in the mean, as the types of vehicles say"
            f" by length and minGap (--spacing sets it)"
        )
    for path in programs:
        inputs.notes.append(
            f"{path} has {read_programs(net, path)} programs of signals, which go over those of the net"
        )
    if found.by_zones:
        inputs.notes.append(
            f"{short_vehicles(found.by_zones)} vehicles set out between zones, on edges of these by their weights"
        )
    set_times(inputs, options)
    find_routes(inputs, options)
    return inputs


def by_kind(files: Iterable[Path]) -> tuple[list[Path], list[Path], list[Path], list[Path]]:
    """The files with vehicles, types or routes, those with programs of signals, those with zones, and those with
    polygons; a Fault where one has none of these."""
    vehicles, programs, zones, polygons = [], [], [], []
    for path in files:
        tags = {element.tag for element in elements(path)}
        if "tlLogic" in tags:
            programs.append(path)
        if tags & {"taz", "tazs"}:
            zones.append(path)
        if tags & {"poly", "polygon"}:
            polygons.append(path)
        if tags & {"vehicle", "trip", "flow", "vType", "vTypeDistribution", "route", "routeDistribution"}:
            vehicles.append(path)
        elif not tags & {"tlLogic", "taz", "tazs", "poly", "polygon"}:
            raise Fault(
                f"{path}: no vehicles, trips, flows, types, routes, zones or programs of signals in it; leave it out"
            )
    return vehicles, programs, zones, polygons


def set_times(inputs: Inputs, options: SumoOptions) -> None:
    """Sets when slot 0 begins, and leaves out who sets out before it or after the end."""
    found = inputs.found
    first = min((one.depart_ms for one in found.vehicles), default=0)
    inputs.begin_ms = options.begin_ms if options.begin_ms is not None else quarter_before(first)
    end = options.end_ms
    kept = []
    for one in found.vehicles:
        if one.depart_ms < inputs.begin_ms:
            found.leave_out("that set out before --begin", one.units)
        elif end is not None and one.depart_ms >= end:
            found.leave_out("that set out after --end", one.units)
        else:
            kept.append(one)
    found.vehicles = kept


def find_routes(inputs: Inputs, options: SumoOptions) -> None:
    """The routes of vehicles, those of trips by least free-flow time. What is surely too much for a case is refused
    before they are sought."""
    ways, found, net = Ways(inputs.net), inputs.found, inputs.net.network
    if options.destinations is None:
        last = options.horizon or 120
        most = destinations_that_fit(net, last * MINUTE_MS, options.fit or options.step)
        pairs = sure_ends(found.vehicles, ways, net)
        check_ends(pairs, options, most)
        if options.horizon is not None:
            check_cells(net, {end for _, end in pairs}, options, last * MINUTE_MS)
    trips = [one for one in found.vehicles if not one.whole and all(name in net.roads for name in one.edges)]
    legs = ways.legs(leg for one in trips for leg in zip(one.edges, one.edges[1:]))
    routed = 0
    known: dict[tuple[Links, bool], tuple[Links, str]] = {}
    for given, whole, depart, units in found.vehicles:
        if (given, whole) not in known:
            known[given, whole] = driven_or_why(given, given if whole else by_legs(given, legs), ways)
        edges, why = known[given, whole]
        if why:
            found.leave_out(why, units)
        else:
            routed += 0 if whole else units
            inputs.routes.append(Route(edges, depart - inputs.begin_ms, units))
    if routed:
        inputs.notes.append(f"{short_vehicles(routed)} vehicles have no route and take the least one by free-flow time")


def driven_or_why(given: Links, edges: Links, ways: Ways) -> tuple[Links, str]:
    """The edges of a route, of those that were given; or why they are none."""
    if not edges or not ways.is_route(edges):
        missing = any(name not in ways.roads for name in given)
        return (), (
            "over edges that are not in the net, or not for cars" if missing else "without a route that is connected"
        )
    if ways.roads[edges[0]].tail == ways.roads[edges[-1]].head:
        return (), "that end where they begin"
    return edges, ""


def counted_routes(inputs: Inputs, options: SumoOptions) -> list[Route]:
    """The routes by which traffic at crossings is counted: those of the case, or of other vehicles, which are read the
    first time, before edges are cut."""
    if options.volumes is None:
        return inputs.routes
    if inputs.counted is None:
        other = Inputs(inputs.net, read_vehicles([existing(options.volumes)]), begin_ms=inputs.begin_ms)
        other.found.vehicles = [one for one in other.found.vehicles if one.depart_ms >= inputs.begin_ms]
        find_routes(other, replace(options, destinations=options.destinations or MOST_DESTINATIONS_ASKED))
        inputs.counted = other.routes
        inputs.notes += [
            f"traffic at crossings is counted by {options.volumes}: {len(other.routes)} routes",
            *(
                f"{short_vehicles(units)} vehicles of {options.volumes} are not counted: {why}"
                for why, units in other.found.left_out.items()
            ),
        ]
    return inputs.counted


def by_legs(places: Sequence[str], legs: Mapping[Leg, tuple[str, ...]]) -> tuple[str, ...]:
    """The route by way of these edges; none where one of its legs has none."""
    route = list(places[:1])
    for leg in zip(places, places[1:]):
        if leg not in legs:
            return ()
        route += legs[leg][1:]
    return tuple(route)


def sure_ends(vehicles: Iterable[Vehicles], ways: Ways, net: Network) -> dict[tuple[str, str], None]:
    """The nodes where vehicles begin and end that surely have a route: whole routes, and trips between edges of a part
    of the net in which ways lead from each edge to each other."""
    parts = ways.circling()
    pairs: dict[tuple[str, str], None] = {}
    for edges, whole in dict.fromkeys((one.edges, one.whole) for one in vehicles):
        part = parts.get(edges[0]) if edges else None
        if ways.is_route(edges) if whole else part is not None and all(parts.get(name) == part for name in edges):
            if edges and net.roads[edges[0]].tail != net.roads[edges[-1]].head:
                pairs[net.roads[edges[0]].tail, net.roads[edges[-1]].head] = None
    return pairs


def horizon_ms(inputs: Inputs, options: SumoOptions) -> int:
    """The horizon as asked for, or 30 minutes after the last vehicle sets out, in fives of minutes."""
    last = max((route.depart_ms for route in inputs.routes), default=0)
    return int(options.horizon or -(-(last + 30 * MINUTE_MS) // (5 * MINUTE_MS)) * 5) * MINUTE_MS


def fewer_ends(inputs: Inputs, most: int) -> list[Route]:
    """The routes, those to other than the most used destinations cut short or driven on to the nearest of these."""
    net, ways = inputs.net.network, Ways(inputs.net)
    units: dict[str, int] = {}
    for route in inputs.routes:
        end = net.roads[route.links[-1]].head
        units[end] = units.get(end, 0) + route.units
    kept = set(most_used(units, most))
    near = nearest_kept(net, kept, [end for end in units if end not in kept])
    made, moved, time, whole = [], 0, Fraction(0), sum(units.values())
    for route in inputs.routes:
        end = net.roads[route.links[-1]].head
        if end in kept:
            made.append(route)
            continue
        links, off = nearer_end(ways, route.links, kept, net.ins[near[end].node] if end in near else ())
        if not links or net.roads[links[0]].tail == net.roads[links[-1]].head:
            inputs.found.leave_out("without a way to a destination that is kept", route.units)
            continue
        moved += route.units
        time += off * route.units
        made.append(Route(links, route.depart_ms, route.units))
    inputs.notes.append(
        f"{len(kept)} of {len(units)} destinations are kept; {100 * moved / max(1, whole):.1f} % of the"
        f" vehicles end elsewhere,"
        f" in the mean {float(time / moved) / 1000 if moved else 0:.0f} s from where they would"
    )
    return made


def nearer_end(
    ways: Ways, links: Sequence[str], kept: set[str], goals: Iterable[str]
) -> tuple[tuple[str, ...], Fraction]:
    """A route cut at the last kept node on its way, or driven on to the end of an edge, whichever is less of a change
    in ms."""
    roads = ways.roads
    lost, place = Fraction(0), len(links)
    while place and roads[links[place - 1]].head not in kept:
        place -= 1
        lost += roads[links[place]].time
    best = (tuple(links[:place]), lost)
    for goal in goals:
        gained = ways.gain(links[-1], goal)
        if gained is not None and (not best[0] or gained < best[1]):
            best = (*links[:-1], *ways.leg(links[-1], goal)), gained
    return best
