"""Splits from turning counts, by iterative proportional fitting over nodes.

Counts say how many vehicles go on from a link by each link, and not where they want to go. Vehicles of each destination
begin with shares that fall off with what a link costs them over the least route, on links that lead nearer to the
destination alone, so that no circle can come about. In each round the flows are worked out, and at each counted node
the shares of every destination are scaled by what was counted over what flows, link by link of those it comes by.
"""
from __future__ import annotations

import math
import os
from collections.abc import Iterable, Mapping, Sequence
from dataclasses import dataclass

from ..case import Demand, Link, Split
from ..case.roads import Roads
from ..case.source import Source
from ..errors import Fault
from ..files import Row, existing
from ..tables import Reading, read
from .flows import amounts_by_destination, link_flows, node_order

NAMES = {
    "from_link": ("link", "in_link", "from", "ib_link_id", "from_edge"),
    "to_link": ("out_link", "to", "ob_link_id", "to_edge"),
    "vehicles": ("volume", "count", "number", "flow", "turns"),
    "node": ("node_id",),
}
ROUNDS = 200
WEIGHT = 1_000_000
SPREAD = 8.0
"""How fast a share falls with the cost of a detour, over the least time from the node."""


@dataclass(frozen=True, slots=True)
class TurnCount:
    """A turning count: vehicles that came by a link and went on by another."""

    link: str
    after: str
    vehicles: float


@dataclass
class Fitted:
    """Splits that were fitted to counts."""

    splits: list[Split]
    rounds: int
    off: float
    """How much of the counted shares is not met: the mean over counts of the difference in share, by vehicles."""


@dataclass
class FittedShares:
    """The shares by destination, node and link while they are fitted."""

    roads: Roads
    amounts: Mapping[str, Mapping[str, float]]
    shares: dict[str, dict[str, dict[str, float]]]
    order: dict[str, list[str]]

    def flows(self) -> dict[str, dict[str, float]]:
        """The vehicles by destination and link."""
        heads = {name: link.head for name, link in self.roads.links.items()}
        return {
            destination: link_flows(heads, shares, self.amounts[destination], self.order[destination])
            for destination, shares in self.shares.items()
        }


def first_shares(roads: Roads, destination: str) -> dict[str, dict[str, float]]:
    """Shares on links that lead nearer to a destination, lower for a detour."""
    times = roads.least_times(destination)
    shares: dict[str, dict[str, float]] = {}
    for node, time in times.items():
        if node == destination:
            continue
        costs = {
            name: roads.links[name].free_ms + times[roads.links[name].head] - time
            for name in roads.outs[node]
            if times.get(roads.links[name].head, time) < time
        }
        weights = {name: math.exp(-SPREAD * cost / time) for name, cost in costs.items()}
        whole = sum(weights.values())
        shares[node] = {name: weight / whole for name, weight in weights.items() if weight / whole > 1e-6}
    return shares


def from_turn_counts(links: Sequence[Link], demand: Iterable[Demand], turns: Sequence[TurnCount]) -> Fitted:
    """The splits with which the turns of a demand are as near as they come to the counts."""
    roads = Roads.of(links)
    check_turns(roads, turns)
    amounts = amounts_by_destination(demand)
    if not amounts:
        raise Fault("turning counts say nothing of where vehicles want to go: the case needs its demand first")
    shares = {destination: first_shares(roads, destination) for destination in amounts}
    for destination, of in amounts.items():
        for origin in of:
            if origin not in shares[destination]:
                raise Fault(
                    f"no route leads from node {origin} to node {destination}; leave that demand out, or add a link"
                )
    heads = {link.name: link.head for link in links}
    state = FittedShares(
        roads, amounts, shares, {destination: node_order(heads, of) for destination, of in shares.items()}
    )
    counted = shares_counted(turns)
    rounds = 0
    for rounds in range(1, ROUNDS + 1):
        if adjust(state, counted) < 1e-6:
            break
    return Fitted(share_rows(state), rounds, distance(state, turns, counted))


def check_turns(roads: Roads, turns: Iterable[TurnCount]) -> None:
    """That each turn leads from a link to one that begins where it ends."""
    for turn in turns:
        for name in (turn.link, turn.after):
            if name not in roads.links:
                raise Fault(f"turning count: {name} is no link of the case")
        if roads.links[turn.link].head != roads.links[turn.after].tail:
            raise Fault(f"turning count: link {turn.after} does not begin where link {turn.link} ends")


def shares_counted(turns: Iterable[TurnCount]) -> dict[str, dict[str, float]]:
    """Of each counted link the share of those that go on by each link."""
    counts: dict[str, dict[str, float]] = {}
    for turn in turns:
        of = counts.setdefault(turn.link, {})
        of[turn.after] = of.get(turn.after, 0.0) + turn.vehicles
    return {
        name: {after: value / sum(of.values()) for after, value in of.items()}
        for name, of in counts.items()
        if sum(of.values()) > 0
    }


def turn_flows(state: FittedShares, flows: Mapping[str, Mapping[str, float]], link: str) -> dict[str, float]:
    """The vehicles that go on from a link by each link."""
    node = state.roads.links[link].head
    flowing: dict[str, float] = {}
    for destination, of in flows.items():
        if destination != node:
            for after, share in state.shares[destination].get(node, {}).items():
                flowing[after] = flowing.get(after, 0.0) + of.get(link, 0.0) * share
    return flowing


def adjust(state: FittedShares, counted: Mapping[str, Mapping[str, float]]) -> float:
    """Scales the shares at each counted node once, and gives the greatest change of a share."""
    flows = state.flows()
    factors: dict[str, dict[str, float]] = {}
    for link, wanted in counted.items():
        flowing = turn_flows(state, flows, link)
        whole = sum(flowing.values())
        if whole > 0:
            factors[link] = {
                after: wanted.get(after, 0.0) * whole / flow for after, flow in flowing.items() if flow > 0
            }
    change = 0.0
    for destination, shares in state.shares.items():
        for node, at in shares.items():
            coming = [
                (name, flows[destination].get(name, 0.0)) for name in state.roads.ins.get(node, ()) if name in factors
            ]
            whole = sum(flow for _, flow in coming)
            if whole <= 0 or len(at) < 2:
                continue
            scaled = {
                after: share * max(1e-6, sum(flow * factors[name].get(after, 1.0) for name, flow in coming) / whole)
                for after, share in at.items()
            }
            total = sum(scaled.values())
            for after in at:
                change = max(change, abs(at[after] - scaled[after] / total))
                at[after] = scaled[after] / total
    return change


def distance(state: FittedShares, turns: Iterable[TurnCount], counted: Mapping[str, Mapping[str, float]]) -> float:
    """The mean difference between counted shares and those that flow, by the vehicles counted."""
    flows = state.flows()
    off = counts = 0.0
    for turn in turns:
        flowing = turn_flows(state, flows, turn.link)
        whole = sum(flowing.values())
        if whole > 0 and turn.link in counted:
            off += turn.vehicles * abs(flowing.get(turn.after, 0.0) / whole - counted[turn.link][turn.after])
        counts += turn.vehicles
    return off / counts if counts else 0.0


def share_rows(state: FittedShares) -> list[Split]:
    """The rows of the shares, of nodes to which vehicles come."""
    rows = []
    for destination, shares in sorted(state.shares.items()):
        due, seen = list(state.amounts[destination]), set()
        while due:
            node = due.pop()
            if node == destination or node in seen:
                continue
            seen.add(node)
            weights = {name: round(share * WEIGHT) for name, share in shares[node].items() if round(share * WEIGHT) > 0}
            rows.append(Split(node, destination, 0, weights))
            due += [state.roads.links[name].head for name in weights]
    return sorted(rows, key=lambda row: (row.destination, row.node))


def read_turn_counts(
    path: str | os.PathLike[str], roads: Roads, source: Source, reading: Reading = Reading()
) -> tuple[list[TurnCount], list[str], int]:
    """The turning counts of a table, over links of a case; notes on how the table was read; and how many counts are of
    links that were contracted, which are left out. A count by node alone is one of each link that ends there."""
    table = read(existing(path), ("to_link", "vehicles"), NAMES, reading)
    turns, contracted = [], 0
    for row in table.rows:
        after = link_in(row, "to_link", source)
        came = (
            [link_in(row, "from_link", source)]
            if row.text("from_link", "")
            else list(roads.ins.get(roads.links[after].tail, ()))
            if after
            else []
        )
        count = float(row.number("vehicles"))
        if count < 0:
            raise row.fault("vehicles", "a count is 0 or more")
        if after is None or None in came:
            contracted += 1
        else:
            turns += [TurnCount(name, after, count) for name in came if name is not None]
    return turns, list(table.notes), contracted


def link_in(row: Row, field: str, source: Source) -> str | None:
    """The link of the case for a name of the source in a field; None where it was contracted."""
    name = row.text(field)
    if name not in source.links:
        raise row.fault(field, "it is no link of the case, nor of its source")
    return source.links[name].link
