"""What passes inside by the nodes where it leaves, worked out of a loading: what enters each link slot by slot, and
what comes in from beyond the edge at each node, or sets out there."""
from __future__ import annotations

from collections.abc import Sequence
from dataclasses import dataclass, field

from ..case import Case
from ..case.rows import Link
from ..loading.counts import as_list
from ..loading.curves import Curves
from .exits import Exits
from .inside import Inside

Flow = list[float]
"""Thousandths of a vehicle in each slot."""


@dataclass
class Flows:
    """By link inside and exit what enters the link; by node and exit what comes in; and the thousandths of vehicles
    that would leave where they come in, which no demand has."""

    slots: int
    entering: dict[tuple[str, str], Flow] = field(default_factory=dict)
    coming: dict[tuple[str, str], Flow] = field(default_factory=dict)
    back: float = 0.0

    def enter(self, link: str, end: str) -> Flow:
        """What enters a link and leaves at an exit."""
        return self._of(self.entering, (link, end))

    def come(self, node: str, end: str) -> Flow:
        """What comes in at a node and leaves at an exit."""
        return self._of(self.coming, (node, end))

    def _of(self, flows: dict[tuple[str, str], Flow], key: tuple[str, str]) -> Flow:
        if key not in flows:
            flows[key] = [0.0] * self.slots
        return flows[key]


def flows_of(case: Case, curves: Curves, inside: Inside, exits: Exits) -> Flows:
    """What passes inside in the loading of a case."""
    found = Flows(case.setup.slots)
    origins = {row.origin for row in case.standing_demand()}
    for destination in case.destinations:
        for node in inside.nodes:
            outs = {
                name: flow for name in inside.outs(node) if (flow := entered(curves, name, destination)) is not None
            }
            if outs:
                outer = from_beyond(curves, inside, node, destination, node in origins, found.slots)
                for name, flow in outs.items():
                    add(found, exits, destination, inside.roads.links[name], flow, outer)
    return found


def add(found: Flows, exits: Exits, destination: str, link: Link, flow: Sequence[int], outer: Sequence[float]) -> None:
    """Adds what enters a link for a destination, of which a part in each slot comes from beyond."""
    for slot, units in enumerate(flow):
        if units:
            for end, part in exits.behind(destination, link.name, slot).items():
                found.enter(link.name, end)[slot] += units * part
                if end == link.tail:
                    found.back += units * part * outer[slot]
                elif outer[slot]:
                    found.come(link.tail, end)[slot] += units * part * outer[slot]


def entered(curves: Curves, link: str, destination: str) -> list[int] | None:
    """What enters a link for a destination in each slot; None where nothing does."""
    return by_slot(as_list(curves.up(link, destination)))


def by_slot(counts: Sequence[int]) -> list[int] | None:
    """What cumulative counts have in each slot; None for nothing."""
    return [after - before for before, after in zip(counts, counts[1:])] if counts[-1] else None


def from_beyond(
    curves: Curves, inside: Inside, node: str, destination: str, is_origin: bool, slots: int
) -> Sequence[float]:
    """Which part of those that come to a node for a destination in each slot comes from beyond, or sets out there."""
    beyond = [by_slot(as_list(curves.down(link, destination))) for link in inside.before(node)]
    if is_origin:
        beyond.append(by_slot(as_list(curves.departed(node, destination))))
    outer, own = total(beyond, slots), total(
        [by_slot(as_list(curves.down(link, destination))) for link in inside.ins(node)], slots
    )
    return [units / (units + more) if units else 0.0 for units, more in zip(outer, own)]


def total(flows: Sequence[list[int] | None], slots: int) -> list[int]:
    """Flows together."""
    found = [0] * slots
    for flow in flows:
        if flow is not None:
            found = [one + other for one, other in zip(found, flow)]
    return found
