"""The rows of a case that is made of a net: its demand, splits and signals, by the routes of vehicles."""
from __future__ import annotations

from collections.abc import Container, Mapping
from fractions import Fraction
from functools import partial

from ..case import Case, Demand, Limit, Setup, Split
from ..case.cells import ask_for_cells
from ..demand.cycles import Plan
from ..demand.route_splits import Cuts, Route, circles, from_routes, led_over, units_by_links
from ..demand.signal_plans import limits_of_plan
from ..demand.trips import Trip, by_trips
from ..errors import Fault, TooLarge
from ..formats import MINUTE_MS, MOST_DEMAND_ROWS, MOST_ROWS_ASKED, MOST_SPLIT_ROWS, UNITS, many, short_vehicles
from ..network.crossings.limits import turn_limits
from ..network.crossings.never_green import (
    check_never_green,
    never_green_links_told,
    never_green_told,
    part_text,
    shut_links,
    shut_turns,
)
from ..network.crossings.sources import links_of_turns
from ..network.crossings.told import saturation_told, turns_told
from ..network.crossings.turn import for_part, part_of_road, turns_of
from ..network.crossings.turns_file import Turns
from ..network.crossings.volumes import volumes_of
from ..network.importing import Carried, horizon_slots
from .crossings import TurnedNet
from .ends import Cut
from .inputs import Inputs, horizon_ms
from .net import Connection
from .options import SumoOptions
from .signals import greens_of

SLICES = (1, 2, 3, 5, 10, 15, 20, 30, 60, 120)
"""Minutes of a slice, from which the first is taken with which the rows are not too many: of the shorter ones with
which a case may have them without asking, else of all with which it may by asking for them."""
LONGEST_FREE = {"demand": 15, "splits": 30}
"""The longest of these shorter ones."""


def over_links(made: Carried, routes: list[Route]) -> list[Route]:
    """Routes over edges of the net as routes over links of the case."""
    return led_over(routes, partial(made.source.route, roads=made.roads))


def case_of(
    made: Carried,
    inputs: Inputs,
    routes: list[Route],
    held: dict[str, list[Connection]],
    cut: Cut,
    options: SumoOptions,
) -> Case:
    """The case: its links, demand, splits and signals of whole links; the routes are those over its links."""
    slots = horizon_slots(horizon_ms(inputs, options), made.step)
    case = Case(Setup(made.step, slots, options.origin_capacity * UNITS, carry=options.carry), made.links)
    case.demand = demand_of(routes, case, inputs, options)
    ask_for_cells(case, options.history)  # before the splits take their time
    case.splits = splits_of(routes, case, inputs, options)
    case.signals = signals_of(made, inputs, held, cut, case, options)
    case.setup.signals = bool(case.signals)
    return case


def demand_of(routes: list[Route], case: Case, inputs: Inputs, options: SumoOptions) -> list[Demand]:
    """The demand by slices, the shortest with which the rows are not too many."""
    links = {link.name: link for link in case.links}
    trips = [
        Trip(links[route.links[0]].tail, links[route.links[-1]].head, route.depart_ms, route.units)
        for route in routes
        if route.links
    ]
    fault: Fault | None = None
    for minutes, most in slices_tried("demand", options.demand_slice, MOST_DEMAND_ROWS, options.most_rows):
        try:
            rows, late = by_trips(
                trips,
                step_ms=case.setup.step_ms,
                slots=case.setup.slots,
                slice_slots=max(1, minutes * MINUTE_MS // case.setup.step_ms),
                most=most,
            )
        except Fault as found:
            fault = found
            continue
        inputs.notes.append(f"{many(len(rows), 'row')} of demand in slices of {minutes} minutes, of at most {most}")
        if late:
            inputs.notes.append(
                f"{short_vehicles(late)} vehicles ({part_text(late, sum(trip.units for trip in trips))} of all) set out"
                f" past the horizon and are left out (give a longer --horizon)"
            )
        return rows
    raise TooLarge(str(fault) if fault else "no slices")


def splits_of(routes: list[Route], case: Case, inputs: Inputs, options: SumoOptions) -> list[Split]:
    """The splits by slices; what was cut is told."""
    made: dict[int, tuple[list[Split], Cuts]] = {}
    rows: list[Split] = []
    most = MOST_SPLIT_ROWS
    for minutes, most in slices_tried("splits", options.slice, MOST_SPLIT_ROWS, options.most_rows):
        if minutes not in made:
            made[minutes] = from_routes(
                case.links,
                routes,
                case.demand,
                step_ms=case.setup.step_ms,
                slots=case.setup.slots,
                slice_slots=max(1, minutes * MINUTE_MS // case.setup.step_ms),
            )
        rows, cuts = made[minutes]
        if len(rows) <= most:
            inputs.notes += [
                f"{many(len(rows), 'row')} of splits in slices of {minutes} minutes, of at most {most}",
                *cuts.lines(),
            ]
            if circles(case.links, rows):
                raise Fault("a destination has a loop, which is a fault of this tool")
            return rows
    raise TooLarge(
        f"{len(rows)} rows of splits, and at most {most} may be; give a longer --slice, or fewer" " --destinations"
    )


def slices_tried(what: str, asked: int | None, most: int, largest: int) -> list[tuple[int, int]]:
    """The minutes of slices to try, in order, and how many rows there may be with each: without asking, by asking for
    more, and with the longest ones as many as there may ever be."""
    sizes = (asked,) if asked else tuple(size for size in SLICES if what == "demand" or size >= 15)
    free = [size for size in sizes if asked or size <= LONGEST_FREE[what]]
    asking = [(size, MOST_ROWS_ASKED) for size in sizes]
    return [*((size, most) for size in free), *asking, *([(sizes[-1], largest)] if largest > MOST_ROWS_ASKED else [])]


def signals_of(
    made: Carried, inputs: Inputs, held: dict[str, list[Connection]], cut: Cut, case: Case, options: SumoOptions
) -> list[Limit]:
    """The exit limits of edges with signals, by the shares of their turns in the routes."""
    turns = turns_driven(inputs, held)
    limits: list[Limit] = []
    by_turn = 0
    links = {link.name: link for link in case.links}
    for edge, ways in held.items():
        greens = greens_of(
            inputs.net, ways, turns.get(edge, {}), inputs.begin_ms, len(inputs.net.lanes[edge]), options.yellow
        )
        if (saturation := options.crossings.saturation) is not None:
            lanes = Fraction(len(inputs.net.lanes[edge]))
            greens = for_part(greens, part_of_road(lanes, saturation, made.raw.roads[edge].capacity))
        name = made.source.links[cut.exits.get(edge, edge)].link
        if greens and name is not None:
            by_turn += len({(green.from_ms, green.to_ms) for green in greens}) > 1
            plan = Plan(name, greens, 0, case.setup.horizon_ms)
            limits += limits_of_plan(plan, links[name], case.setup)
    inputs.notes += signals_told(limits, by_turn, inputs) if limits else []
    return limits


def turns_driven(inputs: Inputs, held: Container[str]) -> dict[str, dict[str, int]]:
    """Of some edges the thousandths of vehicles that drive on by each edge behind it."""
    turns: dict[str, dict[str, int]] = {}
    for edges, units in units_by_links(inputs.turns_before or inputs.routes).items():
        for edge, after in zip(edges, edges[1:]):
            if edge in held:
                of = turns.setdefault(edge, {})
                of[after] = of.get(after, 0) + units
    return turns


def signals_told(limits: list[Limit], by_turn: int, inputs: Inputs) -> list[str]:
    """How many signals hold whole links, and on how many of these turns have greens of their own."""
    told = [
        f"{many(len(limits), 'record')} of signals, of {many(len({limit.link for limit in limits}), 'link')}; on"
        f" {by_turn} of them turns have greens"
        " of their own, and a link's limit is theirs by the share of each turn in the routes"
    ]
    kinds = sorted(set(inputs.net.not_fixed.values()))
    if kinds:
        told.append(
            f"{len(inputs.net.not_fixed)} programs are {' or '.join(kinds)} and not of fixed times;"
            f" the times of their phases are taken as fixed"
        )
    return told


def turns_of_case(
    made: Carried, turned: TurnedNet, case: Case, routes: list[Route], inputs: Inputs, options: SumoOptions
) -> Turns:
    """The turns of the case, whose limits are added to its signals."""
    asked = options.crossings
    counted = routes if turned.counted is None else over_links(made, turned.counted)
    volumes = volumes_of(counted, made.roads, asked.slice_minutes * MINUTE_MS)
    turns = turns_of(
        links_of_turns(made.source, turned.expanded),
        turned.movements,
        turned.capacities,
        asked.permissive,
        turned.lanes,
        asked.saturation,
        turned.expanded.uncut(),
    )
    links = {link.name: link for link in case.links}
    limits = turn_limits(turns, volumes, links, case.setup)
    case.signals += limits
    case.setup.signals = bool(case.signals)
    if limits:
        links_held = len({limit.link for limit in limits})
        inputs.notes.append(f"{many(len(limits), 'record')} of signals, of {many(links_held, 'turn')}")
    whole = sum(row.units for row in case.demand)
    inputs.notes += [*saturation_told(turns), *turns_told(turns, volumes, links, case.setup, inputs.net.streets, whole)]
    return Turns(tuple(turns), volumes)


def check_greens(
    case: Case, routes: list[Route], turns: Turns | None, streets: Mapping[str, str], inputs: Inputs, allowed: bool
) -> None:
    """Tells which links never have green though vehicles are sent over them; a Fault where too many vehicles would wait
    there, or before such turns, and this is not allowed. `streets` are those of links of the case."""
    whole, made = sum(row.units for row in case.demand), () if turns is None else turns.turns
    told = never_green_links_told(shut_links(case, routes, made), streets, whole)
    inputs.notes += told
    if not allowed:
        told += [] if turns is None else never_green_told(shut_turns(made, turns.volumes), inputs.net.streets, whole)
        check_never_green(told, sum(shut_links(case, routes, ()).values()), whole)
