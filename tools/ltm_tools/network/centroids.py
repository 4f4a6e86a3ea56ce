"""Nodes that trips begin and end at, and that no route leads through."""
from __future__ import annotations

from .arms import free_name
from .network import Network, Node


def part_node(network: Network, node: str) -> str:
    """Parts a node in two, so that no route leads through it: the roads out of it stay, those into it lead to a new
    node, whose name is given."""
    end = free_name(f"{node}_end", network.nodes)
    network.add_node(Node(end, network.nodes[node].x, network.nodes[node].y))
    for name in list(network.ins[node]):
        network.move_head(name, end)
    return end
