"""The nodes of zones."""
from __future__ import annotations

from fractions import Fraction

from ..errors import Fault
from ..network.centroids import part_node
from ..network.network import Network
from .net import Read


def place_zones(read: Read, zone_nodes: str) -> None:
    """The nodes of each zone, with shares; each node stands for itself where no zone has its name."""
    network, nodes = read.network, set(read.network.used_nodes())
    if (
        read.nodes is not None
        and read.nodes.rows
        and not any(row.text("node_id", "") in nodes for row in read.nodes.rows)
    ):
        raise Fault(
            f"no node of node.csv, as {read.nodes.rows[0].text('node_id', '')!r}, is on a link of link.csv, as"
            f" {next(iter(network.roads.values())).tail!r}"
        )
    shares: dict[str, dict[str, Fraction]] = {}
    has_shares = read.nodes is not None and "zone_share" in read.nodes.fields
    for row in read.nodes.rows if read.nodes is not None else []:
        zone, node = row.text("zone_id", ""), row.text("node_id", "")
        if zone and node in nodes:
            shares.setdefault(zone, {})[node] = row.number("zone_share", 0) if has_shares else Fraction(1)
    several = [zone for zone, of in shares.items() if len(of) > 1]
    if several and not has_shares:
        read.notes.append(
            f"{len(several)} zones have several nodes; "
            + (
                "the first stands for each (--zone-nodes even shares them)"
                if zone_nodes == "first"
                else "each has an even part"
            )
        )
    for zone, of in shares.items():
        if not has_shares and zone_nodes == "first":
            of = dict(list(of.items())[:1])
        whole = sum(of.values(), Fraction(0))
        if whole <= 0:
            raise Fault(f"zone {zone}: the zone_share of its nodes sum to {whole}; expected a number above 0")
        network.origins[zone] = network.destinations[zone] = {node: part / whole for node, part in of.items() if part}
    for node in nodes:
        network.origins.setdefault(node, {node: Fraction(1)})
        network.destinations.setdefault(node, {node: Fraction(1)})
    part_centroids(network, read, [zone for zone, of in shares.items() if of])


def part_centroids(network: Network, read: Read, zones: list[str]) -> None:
    """Parts each node of connectors alone into one where trips begin and one where they end, so that no route leads
    through it."""
    parted = 0
    for zone in zones:
        for node in list(network.origins[zone]):
            ins, outs = network.ins[node], network.outs[node]
            if (
                not ins
                or len({network.roads[name].head for name in outs}) < 2
                or not all(is_connector(network, name) for name in ins + outs)
            ):
                continue
            end = part_node(network, node)
            network.destinations[zone] = {
                end if one == node else one: share for one, share in network.destinations[zone].items()
            }
            network.destinations[node] = {end: Fraction(1)}
            parted += 1
    if parted:
        read.notes.append(
            f"{parted} zone nodes of connectors alone are parted, so that no route leads through them:"
            f" trips to ZONE end at ZONE_end"
        )


def is_connector(network: Network, name: str) -> bool:
    """Whether a road is a connector of a zone, by its kind."""
    return any(word in network.roads[name].kind.lower() for word in ("connector", "centroid"))
