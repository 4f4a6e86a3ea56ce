"""Flows on splits where nothing is held up: how many vehicles of each destination come to each link, in all.

They say which share of a link's vehicles goes on by which link. Splits have to be without circles.
"""
from __future__ import annotations

from collections.abc import Iterable, Mapping
from graphlib import TopologicalSorter

from ..case import Demand, Link, Split

Shares = Mapping[str, Mapping[str, float]]
"""Of each node the share by link."""


def mean_shares(splits: Iterable[Split], destination: str) -> dict[str, dict[str, float]]:
    """The shares by node and link toward a destination, the mean of the rows over their number."""
    sums: dict[str, dict[str, float]] = {}
    for row in splits:
        if row.destination == destination:
            whole = sum(row.weights.values())
            for name, weight in row.weights.items():
                at = sums.setdefault(row.node, {})
                at[name] = at.get(name, 0.0) + weight / whole
    return {node: {name: value / sum(at.values()) for name, value in at.items() if value} for node, at in sums.items()}


def node_order(heads: Mapping[str, str], shares: Shares) -> list[str]:
    """The nodes with shares, each after all that send to it."""
    sorter: TopologicalSorter[str] = TopologicalSorter()
    for node, at in shares.items():
        for name in at:
            sorter.add(heads[name], node)
    return list(sorter.static_order())


def link_flows(
    heads: Mapping[str, str], shares: Shares, amounts: Mapping[str, float], order: Iterable[str]
) -> dict[str, float]:
    """The vehicles on each link toward a destination, for amounts by origin."""
    at_node: dict[str, float] = dict(amounts)
    flows: dict[str, float] = {}
    for node in order:
        amount = at_node.get(node, 0.0)
        if not amount:
            continue
        for name, share in shares.get(node, {}).items():
            flows[name] = flows.get(name, 0.0) + amount * share
            at_node[heads[name]] = at_node.get(heads[name], 0.0) + amount * share
    return flows


def amounts_by_destination(demand: Iterable[Demand]) -> dict[str, dict[str, float]]:
    """Vehicles by destination and origin."""
    amounts: dict[str, dict[str, float]] = {}
    for row in demand:
        of = amounts.setdefault(row.destination, {})
        of[row.origin] = of.get(row.origin, 0.0) + row.units / 1000
    return amounts


def turn_shares(
    links: Iterable[Link], demand: Iterable[Demand], splits: Iterable[Split]
) -> dict[str, dict[str, float]]:
    """Of each link the vehicles that go on by each link, over all destinations."""
    heads = {link.name: link.head for link in links}
    rows = list(splits)
    turns: dict[str, dict[str, float]] = {}
    for destination, amounts in amounts_by_destination(demand).items():
        shares = mean_shares(rows, destination)
        flows = link_flows(heads, shares, amounts, node_order(heads, shares))
        for name, flow in flows.items():
            for after, share in shares.get(heads[name], {}).items():
                if heads[name] != destination:
                    of = turns.setdefault(name, {})
                    of[after] = of.get(after, 0.0) + flow * share
    return turns
