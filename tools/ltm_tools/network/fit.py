"""Fits a raw network to a step and to the arms that a node may have, and tells all that it changes.

A road is too short for a step where a vehicle drives through it, or a queue's front runs back through it, in less than
the step. In this order a road that is too short is

1. merged with the next one in series (`merging`): lengths, free-flow times and storage add up, the capacity is the
   lesser one;
2. contracted, so that its ends become one node, where this opens no way that was not there (`contracting`): its length,
   time and storage go to the roads before it or behind it where every route over it takes one of them, and else are
   lost;
3. shifted longer at one end, as much as all roads beyond that end become shorter, so that every route takes the time it
   took;
4. lengthened at its own speed and density.

A node with too many roads on a side gets a node of its own for some of them, and a connector to it, which is taken from
their lengths where they have it (`arms`).
"""
from __future__ import annotations

from fractions import Fraction

from .arms import split_node
from .contracting import contract_some
from .fitting import FitChange, Fitting, stretched
from .merging import merge_some
from .network import Network, Road, most_capacity


def most_top(road: Road) -> Fraction:
    """The capacity an hour with which the wave speed is no more than the free speed."""
    return road.kmh * road.jam / 2


class FittedNetwork(Fitting):
    """A network that is fitted to a step in ms."""

    def run(self) -> Network:
        """Makes all changes, and gives the network that fits."""
        self.lower_capacities()
        while merge_some(self) or contract_some(self):
            pass
        for name in self.too_short():
            if name in self.network.roads and self.short(self.network.roads[name]) and not self.shift(name):
                self.lengthen(name)
        for node in list(self.network.nodes):
            split_node(self, node)
        for node in [node for node in self.network.nodes if not self.network.ins[node] and not self.network.outs[node]]:
            self.network.drop_node(node)
        return self.network

    def lower_capacities(self) -> None:
        """Keeps every capacity to what a slot, and a wave no faster than the traffic, can carry."""
        for road in self.network.roads.values():
            most = min(most_capacity(self.step), most_top(road))
            if road.capacity > most:
                note = f"from {float(road.capacity):g} to {float(most):g} vehicles an hour"
                self.changes.append(FitChange("capacity lowered", road.name, Fraction(0), Fraction(0), note))
                road.capacity = most

    def shift(self, name: str) -> bool:
        """Moves one end of a road away from it, so that the roads beyond become as much shorter; whether that could
        be."""
        road = self.network.roads[name]
        missing = self.missing(road)
        for node, longer, shorter in (
            (road.head, self.network.ins, self.network.outs),
            (road.tail, self.network.outs, self.network.ins),
        ):
            if node in self.network.ends or not shorter[node]:
                continue
            grown = [self.network.roads[other] for other in longer[node]]
            cut = [self.network.roads[other] for other in shorter[node]]
            if any(other.time <= 2 * missing or self.short(stretched(other, -missing)) for other in cut) or set(
                longer[node]
            ) & set(shorter[node]):
                continue
            made = [stretched(other, missing) for other in grown] + [stretched(other, -missing) for other in cut]
            for other in made:
                self.put(other)
            self.tell(
                "shifted",
                name,
                [*grown, *cut],
                made,
                f"longer by {seconds_tenths(missing)} s, as roads beyond {node} are shorter",
            )
            return True
        return False

    def lengthen(self, name: str) -> None:
        """Makes a road as long as the step asks for."""
        road = self.network.roads[name]
        made = stretched(road, self.missing(road))
        self.put(made)
        self.tell(
            "lengthened", name, [road], [made], f"from {metres_text(road.length)} to {metres_text(made.length)} m"
        )


def seconds_tenths(time: Fraction) -> str:
    """A time in ms as seconds with one decimal."""
    return f"{float(time) / 1000:.1f}"


def metres_text(length: Fraction) -> str:
    """A length as metres with at most one decimal."""
    return f"{float(length):.1f}".removesuffix(".0")
