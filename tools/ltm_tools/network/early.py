"""Bounds that a source surely passes, refused before the work that takes long: the search for routes, and writing.

What is counted here is never more than the case would have. A fit joins roads that are too short for its step, and may
join others beside them, so that with a fit twice as many links as are too short are not counted, and as many nodes.
"""
from __future__ import annotations

import os
from collections.abc import Collection, Iterable
from dataclasses import dataclass, replace

from ..case import Case, Demand, Link, Setup
from ..errors import Fault, TooLarge
from ..formats import (
    MOST_CELLS_ASKED,
    MOST_DESTINATIONS_ASKED,
    MOST_DESTINATIONS_NO_HISTORY,
    MOST_LINKS_NO_HISTORY,
    MOST_SLOTS,
    count_text,
)
from .fitting import longest_road_step
from .network import Network
from .options import Options
from .reach import Reach

SMALLER = "cut out a smaller area"


@dataclass(frozen=True)
class Sure:
    """How many links and nodes a case of a network has at least."""

    links: int
    joined: int
    """How many nodes a fit may join to others."""

    @classmethod
    def of(cls, raw: Network, options: Options) -> Sure:
        """The least sizes of a network with these options."""
        short = 0 if options.fit is None else sum(is_short(raw, name, options.fit) for name in raw.roads)
        return cls(max(1, len(raw.roads) - 2 * short), short)


def is_short(raw: Network, name: str, step: int) -> bool:
    """Whether a road may be too short for a step; one that no link can be is not judged here, but by the fit."""
    try:
        return longest_road_step(raw.roads[name], step) < step
    except Fault:
        return True


def check_links(raw: Network, options: Options, source: str | os.PathLike[str]) -> None:
    """TooLarge where a network has more links than a case may have."""
    if len(raw.roads) <= options.most_links:
        return
    sure = Sure.of(raw, options)
    if sure.links > options.most_links:
        raise TooLarge(
            f"{os.fspath(source)}: {count_text(sure.links)} links{' or more' * (sure.joined > 0)}, and at most"
            f" {count_text(options.most_links)} may be{with_history(options)}:"
            f" {without(options, sure.links <= MOST_LINKS_NO_HISTORY, MOST_LINKS_NO_HISTORY)}{SMALLER}"
        )


def with_history(options: Options) -> str:
    """Said of a bound of cases that are to keep a history."""
    return " with --history 1" if options.history else ""


def without(options: Options, helps: bool, most: int | None = None) -> str:
    """Advice to keep no history, where one is asked for and that would help."""
    allowed = "" if most is None else f", with which {count_text(most)} may be"
    return f"give --history 0{allowed}, or " if options.history and helps else ""


def check_destinations(nodes: Iterable[str], options: Options, fitting: int | None = None) -> None:
    """A Fault where destinations are too many. Of a case that is to keep a history so many are advised as fit into its
    cells."""
    ends, allowed = list(dict.fromkeys(nodes)), options.most_destinations
    if len(ends) > allowed:
        most = min(allowed, fitting or allowed) if options.history else allowed
        less = "" if most == allowed else f" (about {most} fit into the cells that a case may have)"
        helps = len(ends) <= MOST_DESTINATIONS_NO_HISTORY
        raise TooLarge(
            f"there are {len(ends)} destinations, and at most {allowed} may be: give"
            f" --destinations {most}{less},"
            f" which keeps those with most vehicles, and lets the other trips end at the nearest of them"
            f"{', or --history 0' * (bool(options.history) and helps)}; past"
            f" these are the nodes {', '.join(ends[most:most + 10])}"
        )


def check_ends(pairs: Collection[tuple[str, str]], options: Options, fitting: int | None = None) -> None:
    """A Fault where the destinations of these pairs of origin and destination are too many, or the pairs, each of which
    has a row of demand."""
    check_destinations((end for _, end in pairs), options, fitting)
    if len(pairs) > options.most_rows:
        raise TooLarge(
            f"there are {count_text(len(pairs))} pairs of origin and destination, and at most"
            f" {count_text(options.most_rows)} rows of demand may"
            " be: give fewer --destinations, or join nodes where trips begin"
        )


def destinations_that_fit(
    raw: Network, horizon_ms: int, step: int | None, cells: int = MOST_CELLS_ASKED, more: int = 0
) -> int:
    """How many destinations a case of this network may have, by its cells, with so many links more; as many as any case
    may have, where the step is not known yet. Where roads are merged, more fit; where turns become links, fewer do."""
    if step is None:
        return MOST_DESTINATIONS_ASKED
    setup = Setup(step, min(MOST_SLOTS, -(-horizon_ms // step)), 1)
    links = [Link(road.name, road.tail, road.head, 1, 1, 1, 1) for road in raw.roads.values()]
    links += links[:1] * more
    one, two = (Case(setup, links, [Demand("", str(end), 0, 1, 1) for end in range(count)]).cells() for count in (1, 2))
    return max(1, min(MOST_DESTINATIONS_ASKED, (cells - one) // (two - one) + 1))


def check_cells(raw: Network, ends: Collection[str], options: Options, horizon_ms: int) -> None:
    """TooLarge where a case that is to keep a history surely has more cells than may be: of each link and destination 8
    a slot, and more by node."""
    step = options.fit or options.step
    if not options.history or step is None or not ends:
        return
    cells = 8 * Sure.of(raw, options).links * len(ends) * min(MOST_SLOTS, -(-horizon_ms // step))
    if cells > MOST_CELLS_ASKED:
        raise TooLarge(
            f"{count_text(cells)} cells or more, and at most {count_text(MOST_CELLS_ASKED)} may be with --history 1:"
            f" give --history 0, or --destinations {destinations_that_fit(raw, horizon_ms, step)}, a longer step or a"
            f" shorter horizon"
        )


def check_routes(raw: Network, ends: Iterable[str], options: Options) -> None:
    """TooLarge where routes to these nodes surely are more than may be, or than `ltm routes` writes if it has to: each
    other node from which ways lead to one of them has a row."""
    reach, joined = Reach(raw), Sure.of(raw, options).joined
    each = reach.by_part(dict.fromkeys(raw.nodes, 1))
    listed = list(ends)
    rows = sum(max(0, reach.sum_of(end, each) - 1 - joined) for end in listed)
    most = options.most_routes
    if rows > most:
        fewer = max(1, len(listed) * most // rows)
        helps = options.routes is False and rows <= replace(options, routes=True).most_routes
        raise TooLarge(
            f"{count_text(rows)} rows of routes or more, one for each node and destination, and at most"
            f" {count_text(most)} may be{' with --routes 0' * helps}: give {'--routes 1, or ' * helps}--destinations"
            f" {fewer} or fewer, or {SMALLER}"
        )
