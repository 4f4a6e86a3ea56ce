"""Whether ways lead from a node of a network to another, asked of many pairs."""
from __future__ import annotations

from ..case.leading import Leading
from .network import Network


class Reach(Leading):
    """The ways of a network. Within a part in which ways lead from each node to each other nothing is sought."""

    def __init__(self, network: Network) -> None:
        super().__init__({node: [network.roads[name].head for name in names] for node, names in network.outs.items()})
