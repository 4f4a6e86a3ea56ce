"""Makes a case of a network of SUMO, with its vehicles and its fixed-time programs."""
from __future__ import annotations

from collections.abc import Iterable
from dataclasses import dataclass, field, replace
from fractions import Fraction

from ..case import Case
from ..case.sizes import ask_for_sizes
from ..demand.route_splits import led_over, units_by_links
from ..errors import TooLarge
from ..formats import clock_text, many, short_vehicles
from ..network.changes import changes_told
from ..network.crossings.chosen import Chosen
from ..network.crossings.sizes import links_told
from ..network.crossings.sources import with_turns
from ..network.crossings.yielding import Yielding, add_waits, limit_yields, yields_told
from ..network.entries import add_entries, entries_told, without
from ..network.imported import Imported
from ..network.early import check_ends
from ..network.importing import Carried, NotCarried, carried
from ..network.network import Network
from ..network.placing import places_of
from ..network.steps import steps_table
from ..network.street_names import street_names
from .crossings import TurnedNet, choose, net_step, turn, yields_by_counts
from .ends import Cut, over_parts, whole_again
from .inputs import Inputs, StrPath, counted_routes, end_before_signals, fewer_ends, horizon_ms, read_inputs
from .losses import check_losses, losses_told
from .net import Connection
from .options import SumoOptions
from .own_begins import (
    LINKS_OF_A_BEGIN,
    OwnBegins,
    cut_begins,
    forked,
    may_leave_by_others,
    units_of_first,
    whole_edges,
)
from .own_ends import OwnEnds, own_ends
from .rows import case_of, check_greens, over_links, turns_of_case
from .signals import signal_edges


@dataclass
class Asked:
    """A net with the routes over it, before it is fitted; the edges that signals hold as a whole, those that were cut
    before one, and the crossings whose turns are links."""

    inputs: Inputs
    held: dict[str, list[Connection]]
    cut: Cut
    turned: TurnedNet | None = None
    entries: frozenset[str] = frozenset()
    """The links by which trips come to nodes that others drive over."""
    yields: list[Yielding] = field(default_factory=list)
    """The approaches of junctions without lights that yield as a whole."""
    own: OwnEnds = OwnEnds()
    """The edges at which trips end that have an end of their own."""
    begins: OwnBegins = field(default_factory=OwnBegins)
    """The edges on which trips begin that have a beginning of their own."""

    @property
    def raw(self) -> Network:
        """The network as it was read."""
        return self.inputs.net.network

    def ends(self) -> dict[tuple[str, str], None]:
        """The pairs of nodes where routes begin and end, in the order in which they are met."""
        roads = self.raw.roads
        edges = dict.fromkeys((route.links[0], route.links[-1]) for route in self.inputs.routes)
        return dict.fromkeys((roads[first].tail, roads[last].head) for first, last in edges)


def import_sumo(net: StrPath, files: Iterable[StrPath] = (), options: SumoOptions = SumoOptions()) -> Imported:
    """The case of a net, with the vehicles and the programs of signals in files; NotCarried with all that a case cannot
    have."""
    paths = tuple(files)
    asked = read_all(net, paths, options, True)
    apart = bool(asked.own.edges or asked.begins.parts)
    try:  # rather than with an end for each edge and no history, with ends at nodes
        return import_asked(asked, replace(options, history=True) if apart and options.history is None else options)
    except TooLarge as fault:
        if not apart:
            raise
        crossings = replace(options.crossings, origins="turns") if asked.begins.parts else options.crossings
        made = import_sumo(net, paths, replace(options, ends="node", crossings=crossings))
        told = [
            *(["trips end at nodes, by whichever edge (--ends node)"] if asked.own.edges else []),
            *(["trips begin at nodes, but for crossings (--origins turns)"] if asked.begins.parts else []),
        ]
        return replace(made, told=(*made.told, f"{'; '.join(told)}; with an end for each edge: {fault}"))


def import_asked(asked: Asked, options: SumoOptions) -> Imported:
    """The case of what was read."""
    inputs = asked.inputs
    check_losses(inputs, options)
    check_ends(asked.ends(), options)
    try:
        made = carried(asked.raw, options, lambda: units_by_links(inputs.routes).items())
    except NotCarried as fault:
        fault.advice += fewer_turns(asked.turned, len(asked.raw.roads), True)
        raise
    driven = over_links(made, inputs.routes)
    case = case_of(made, inputs, driven, asked.held, asked.cut, options)
    limit_yields(case, made.source, asked.yields, options.crossings.slice_minutes)
    turns = None if asked.turned is None else turns_of_case(made, asked.turned, case, driven, inputs, options)
    source = without(made.source, raw=asked.raw, links=asked.entries)
    source = source if asked.turned is None else with_turns(source, asked.turned.expanded)
    source = whole_edges(whole_again(source, asked.cut), made.source, asked.begins)
    streets = {**streets_of_parts(made, asked), **street_names(source, inputs.net.streets, turns)}
    check_greens(case, driven, turns, streets, inputs, options.allow_losses)
    sizes = ask_for_sizes(case, options.moves, options.history, options.routes)
    sizes += fewer_turns(asked.turned, len(case.links), False)
    places, lost = places_of(made, inputs.net.drawn)
    told = [
        *size_told(case, inputs),
        *left_out_told(inputs),
        *inputs.notes,
        *changes_told(made, made.routes, set(asked.cut.stops.values()), inputs.net.streets),
        *lost,
        *sizes,
    ]
    return Imported(
        case,
        places,
        source,
        tuple(made.fit.changes) if made.fit is not None else None,
        tuple(told),
        inputs.begin_ms if inputs.found.vehicles or options.begin_ms is not None else None,
        turns,
        streets,
        inputs.background,
    )


def streets_of_parts(made: Carried, asked: Asked) -> dict[str, str]:
    """The streets of the links that edges were cut into where trips begin and end on them."""
    cut = asked.cut
    parts = [*asked.begins.parts.items(), *((name, of[name]) for name in cut.own for of in (cut.exits, cut.stops))]
    streets = asked.inputs.net.streets
    return {
        link: streets[edge]
        for edge, part in parts
        if streets.get(edge) and (link := made.source.links[part].link) is not None
    }


def fewer_turns(turned: TurnedNet | None, links: int, whole: bool) -> list[str]:
    """Which crossings may have turns, where all have too many."""
    return [] if turned is None else links_told(turned.expanded, links, turned.vehicles, whole)


def steps_of_sumo(net: StrPath, files: Iterable[StrPath] = (), options: SumoOptions = SumoOptions()) -> list[str]:
    """What a fit of a net to each of some steps would change, a line each."""
    asked = read_all(net, files, options, False)
    return steps_table(asked.raw, horizon_ms=horizon_ms(asked.inputs, options), ends={end for _, end in asked.ends()})


def read_all(net: StrPath, files: Iterable[StrPath], options: SumoOptions, cutting: bool) -> Asked:
    """The net and the routes; with `cutting` its crossings have turns where that is asked for, and other edges are cut
    before signals."""
    inputs = read_inputs(net, files, options)
    if options.destinations is not None:
        inputs.routes = fewer_ends(inputs, options.destinations)
    raw = inputs.net.network
    if cutting and (options.crossings.turns != "none" or options.crossings.yields):
        counted_routes(inputs, options)  # before edges are cut
    found, picked = choose(inputs, options) if cutting and options.crossings.turns != "none" else (None, Chosen((), ()))
    yields = give_way(inputs, picked, options) if cutting and options.crossings.yields else []
    held = {
        name: ways
        for name, ways in (signal_edges(inputs.net) if options.signals else {}).items()
        if raw.roads[name].head not in picked.crossings
    }
    own, cut, begins = OwnEnds(), Cut(), OwnBegins()
    on_edges = cutting and options.entries and options.crossings.origins == "edge"
    if cutting and not options.wait_at_ends:
        each = options.ends == "edge"
        more = LINKS_OF_A_BEGIN * len(forked(raw, units_of_first(inputs.routes), picked.crossings)) * on_edges
        own = own_ends(inputs, found, picked, options, more) if each else own
        turned_nodes = {*picked.crossings, *picked.parted}
        cut = end_before_signals(inputs, held, options, turned_nodes, own.edges if each else None)
        inputs.notes += own.told()
    is_turned = found is not None and (picked.crossings or picked.parted)
    turned = turn(inputs, found, picked, options, own.edges) if found is not None and is_turned else None
    if on_edges:
        begins = begin_on_edges(inputs, options)
    elif cutting:
        inputs.notes += may_leave_by_others(raw, inputs.routes)
    if turned is not None and turned.counted is not None:
        turned.counted = led_over(turned.counted, lambda links: begins.over_parts(over_parts(links, cut)))
    entries = enter(inputs, options) if cutting and options.entries else frozenset()
    asked = Asked(inputs, held, cut, turned, entries, yields, own, begins)
    raw.signals = {cut.exits.get(name, name) for name in held}
    if turned is not None:
        raw.signals |= {
            road for pair, road in turned.expanded.links.items() if turned.movements.turns[pair].held is not None
        }
    raw.ends = {node for ends in asked.ends() for node in ends}
    return asked


def give_way(inputs: Inputs, picked: Chosen, options: SumoOptions) -> list[Yielding]:
    """The approaches of junctions without lights that yield as a whole, whose waits are added to the network."""
    yields = add_waits(inputs.net.network, yields_by_counts(inputs, picked, options))
    inputs.notes += yields_told(yields, inputs.net.streets)
    return yields


def begin_on_edges(inputs: Inputs, options: SumoOptions) -> OwnBegins:
    """Lets trips leave by the edge on which they begin, and tells it."""
    begins = cut_begins(inputs.net.network, inputs.routes, net_step(inputs, options))
    inputs.turns_before = inputs.turns_before or inputs.routes
    inputs.routes = led_over(inputs.routes, begins.over_parts)
    inputs.notes += begins.told()
    return begins


def enter(inputs: Inputs, options: SumoOptions) -> frozenset[str]:
    """Gives trips that begin at nodes that others drive over a link of their own, and leads their routes over it."""
    raw = inputs.net.network
    begins: dict[str, dict[str, Fraction]] = {}
    for name in dict.fromkeys(route.links[0] for route in inputs.routes):
        begins.setdefault(raw.roads[name].tail, {})[name] = raw.roads[name].capacity
    entries = add_entries(raw, begins, net_step(inputs, options))
    entry_of = {name: entries[node] for node, names in begins.items() if node in entries for name in names}
    inputs.routes = led_over(
        inputs.routes, lambda links: (entry_of[links[0]], *links) if links[0] in entry_of else links
    )
    units: dict[str, int] = {}
    for route in inputs.routes:
        units[route.links[0]] = units.get(route.links[0], 0) + route.units
    inputs.notes += entries_told(raw, entries.values(), units)
    return frozenset(entries.values())


def size_told(case: Case, inputs: Inputs) -> list[str]:
    """How large the case is."""
    total = sum(row.units for row in case.demand)
    return [
        f"{many(len(case.links), 'link')}, {many(len(case.nodes), 'node')},"
        f" {many(len(case.destinations), 'destination')}",
        f"{short_vehicles(total)} vehicles, {many(case.setup.slots, 'slot')} of {case.setup.step_ms} ms from"
        f" {clock_text(inputs.begin_ms)}",
    ]


def left_out_told(inputs: Inputs) -> list[str]:
    """What was left out of the net and of its vehicles."""
    told = [f"{count} edges are left out: {why}" for why, count in inputs.net.left_out.items()]
    if inputs.net.shorter:
        told.append(f"{inputs.net.shorter} edges are shorter than 1 m and get 1 m")
    return told + losses_told(inputs)
