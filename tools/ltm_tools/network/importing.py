"""From a raw network to the links of a case: the step, the fit and the names; what `from-gmns` and `from-sumo`
share."""
from __future__ import annotations

from collections.abc import Callable, Iterable, Iterator, Sequence
from dataclasses import dataclass, field, replace

from ..case import Link
from ..case.roads import Roads
from ..case.source import Source, SourceLink
from ..errors import Fault, one_line
from ..formats import MINUTE_MS, MOST_SLOTS, MOST_SLOT_UNITS, MOST_STEP_MS, NAME_RULE
from .arms import ARMS
from .balance import Used, balance
from .fit import FittedNetwork
from .names import names_for
from .network import Network, diagram_of
from .options import Options
from .steps import fit_advice

Driven = tuple[tuple[str, ...], int]
"""A route by roads of the source, and how many drive it."""
MOST_TOLD = 20
"""The most lines about faults of one kind."""


class NotCarried(Fault):
    """A network that a case cannot carry: lines of what is wrong, and what to do."""

    def __init__(self, lines: Sequence[str], advice: Iterable[str] = ()) -> None:
        more = f", and {len(lines) - 1} more such faults" if len(lines) > 1 else ""
        super().__init__(f"cannot be carried: {lines[0]}{more}")
        self.lines, self.advice = list(lines), list(advice)

    def told(self) -> list[str]:
        """The lines, and of many of one kind the first ones alone, a kind being how a line begins; then what to do."""
        told: list[str] = []
        counts: dict[str, int] = {}
        for line in self.lines:
            kind = line.split(" ", 1)[0]
            counts[kind] = counts.get(kind, 0) + 1
            if counts[kind] <= MOST_TOLD:
                told.append(line)
        told += [
            f"{count - MOST_TOLD} more such faults of {kind.rstrip(':')}s"
            for kind, count in counts.items()
            if count > MOST_TOLD
        ]
        return [one_line(f"cannot be carried: {line}") for line in told] + self.advice


@dataclass
class Carried:
    """A network that a case can carry: its links, with the nodes of the case that zones begin and end at."""

    network: Network
    raw: Network
    links: list[Link]
    step: int
    fit: FittedNetwork | None
    source: Source
    link_names: dict[str, str]
    node_names: dict[str, str]
    routes: list[Driven] = field(default_factory=list)
    """The used routes by which a fit was evened out."""

    @property
    def roads(self) -> Roads:
        """The links by name and node."""
        return Roads.of(self.links)

    def node(self, name: str) -> str:
        """The node of the case for a node of the raw network."""
        return self.source.nodes[name]


def carried(raw: Network, options: Options, routes: Callable[[], Iterable[Driven]] = tuple) -> Carried:
    """The network as a case can carry it; NotCarried with all that is wrong, and what to do. With a fit the times of
    used routes are kept as near as may be; they are asked for once it is seen that the network can be carried."""
    if not raw.roads:
        raise Fault("the network has no links")
    step, fit = (options.fit, FittedNetwork(raw, options.fit)) if options.fit else (step_of(raw, options), None)
    network = fit.run() if fit else raw
    faults = arm_faults(network)
    if len(network.roads) > options.most_links:
        longer = "take a longer step by --fit (--steps shows how many links each leaves), " * (fit is not None)
        faults.append(
            f"there are {len(network.roads)} links, and at most {options.most_links} may be: {longer}cut out a smaller"
            f" area, or leave out small roads"
        )
    link_names, node_names = names_for(network.roads, options.rename), names_for(network.used_nodes(), options.rename)
    named = name_faults(network, link_names, node_names)
    if faults or named:
        raise NotCarried(
            faults + named,
            [
                *(fit_advice(raw) if faults and not fit else []),
                *(["give --rename, which makes names and lists both"] if named else []),
            ],
        )
    driven = list(routes()) if fit else []
    if fit and options.balance:
        balance(fit, used_routes(fit, driven))
    links = []
    for road in network.roads.values():
        link = diagram_of(road, step if fit else None)
        link = replace(link, name=link_names[road.name], tail=node_names[road.tail], head=node_names[road.head])
        links.append(kept_to_a_slot(link, step) if options.carry else link)
    source = source_of(raw, network, fit, link_names, node_names)
    return Carried(network, raw, links, step, fit, source, link_names, node_names, driven)


def kept_to_a_slot(link: Link, step: int) -> Link:
    """The link with waves so slow that no slot passes more than a slot may where capacities are carried, so that some
    slots pass what is rounded up."""
    while link.most_capacity(step, True) > MOST_SLOT_UNITS:
        link = replace(link, wave_kmh=link.wave_kmh - 1)
    return link


def used_routes(fit: FittedNetwork, routes: Iterable[Driven]) -> Iterator[Used]:
    """Routes over the roads of a fitted network."""
    same = {name: name for name in (*fit.network.roads, *fit.network.nodes)}
    source = source_of(fit.raw, fit.network, fit, same, same)
    roads = Roads.of(diagram_of(road, fit.step) for road in fit.network.roads.values())
    for names, units in routes:
        yield Used(source.route(names, roads), tuple(fit.raw.roads[name].time for name in names), units)


def source_of(
    raw: Network, network: Network, fit: FittedNetwork | None, link_names: dict[str, str], node_names: dict[str, str]
) -> Source:
    """What the links and nodes of a raw network have become."""
    parts = fit.link_of() if fit else {name: name for name in raw.roads}
    links = {
        name: SourceLink(road.tail, road.head, link_names[part] if (part := parts[name]) is not None else None)
        for name, road in raw.roads.items()
    }
    now = {name: fit.node_of(name) if fit else name for name in raw.nodes}
    return Source(links, {name: node_names[node] for name, node in now.items() if node in node_names})


def name_faults(network: Network, link_names: dict[str, str], node_names: dict[str, str]) -> list[str]:
    """A line for each name that a case cannot have."""
    return [
        f"{kind} {name!r}: a name is {NAME_RULE}"
        for kind, names, given in (("link", network.roads, link_names), ("node", network.used_nodes(), node_names))
        for name in names
        if name not in given
    ]


def arm_faults(network: Network) -> list[str]:
    """A line for each node with too many links on a side."""
    return [
        f"node {node}: {len(names)} links lead {word} it, and at most {ARMS} may: {', '.join(names)}"
        for word, side in (("out of", network.outs), ("into", network.ins))
        for node, names in side.items()
        if len(names) > ARMS
    ]


def step_of(raw: Network, options: Options) -> int:
    """The step of a network that is left as it is: as asked for, or the longest that every link allows and that divides
    a minute."""
    faults, longest = [], MOST_STEP_MS
    least = options.step or options.least_step
    for name, road in raw.roads.items():
        try:
            link = diagram_of(road)
        except Fault as fault:
            faults.append(str(fault))
            continue
        allowed = link.longest_step(options.carry)
        longest = min(longest, allowed)
        if allowed < least:
            faults.append(
                f"link {name}: {link.length_m} m at {link.free_kmh} and {link.wave_kmh} km/h allow a step of"
                f" at most"
                f" {allowed} ms, and {least} ms are asked for"
            )
    if faults:
        raise NotCarried(faults + arm_faults(raw), fit_advice(raw))
    return options.step or max(number for number in range(1, longest + 1) if MINUTE_MS % number == 0)


def horizon_slots(horizon_ms: int, step: int) -> int:
    """The slots of a horizon; a Fault where they are too many."""
    slots = -(-horizon_ms // step)
    if slots > MOST_SLOTS:
        raise Fault(
            f"a horizon of {horizon_ms // MINUTE_MS} minutes has {slots} slots of {step} ms, and at most"
            f" {MOST_SLOTS} may be;"
            f" take --horizon {MOST_SLOTS * step // MINUTE_MS}, or a longer step by --fit"
        )
    return max(1, slots)
