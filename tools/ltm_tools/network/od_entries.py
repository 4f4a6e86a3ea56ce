"""Entries of zones: trips between zones that begin at a node that others drive over come to it by a link of their
own."""
from __future__ import annotations

from fractions import Fraction

from ..demand.matrices import Amounts
from ..formats import MINUTE_MS, UNITS
from .entries import add_entries, entries_told
from .network import Network
from .od_case import OdOptions
from .steps import longest_step


def enter_zones(network: Network, amounts: Amounts, options: OdOptions, notes: list[str]) -> frozenset[str]:
    """Gives trips that begin at nodes that others drive over a link of their own, which carries as much as the greatest
    road from there, or as they are, where they are more; gives the links, and tells of them."""
    trips: dict[str, Fraction] = {}
    for zone, volume in amounts.volumes.by_origin().items():
        for node, share in network.origins.get(zone, {}).items():
            trips[node] = trips.get(node, Fraction(0)) + volume * share
    begins = {}
    for node, volume in trips.items():
        if network.outs.get(node):
            greatest = max((network.roads[name] for name in network.outs[node]), key=lambda road: road.capacity)
            begins[node] = {greatest.name: max(greatest.capacity, volume * 60 / options.period)}
    entries = add_entries(network, begins, options.fit or options.step or min(longest_step(network), MINUTE_MS))
    network.origins = {
        zone: {network.roads[entries[node]].tail if node in entries else node: share for node, share in of.items()}
        for zone, of in network.origins.items()
    }
    units = {entries[node]: int(volume * UNITS) for node, volume in trips.items() if node in entries}
    notes += entries_told(network, entries.values(), units)
    return frozenset(entries.values())
