"""Nodes at which the allowed turns fall apart: groups of links that end and begin there, of which no turn leads into
another group."""
from __future__ import annotations

from collections.abc import Container
from typing import NamedTuple

from ..network import Network
from .movements import Pair


class Group(NamedTuple):
    """Links that end at a node, and links that begin there to which turns lead from these."""

    ins: tuple[str, ...]
    outs: tuple[str, ...]


def groups_of(network: Network, turns: Container[Pair], node: str) -> list[Group]:
    """The groups of a node, in the order of the links that end there; then the links from which no turn leads on, and
    those to which none leads, each as one group."""
    joined: list[Group] = []
    ending = []
    for name in network.ins[node]:
        outs = {after for after in network.outs[node] if (name, after) in turns}
        if not outs:
            ending.append(name)
            continue
        met = [group for group in joined if not outs.isdisjoint(group.outs)]
        ins = [one for group in met for one in group.ins] + [name]
        outs.update(after for group in met for after in group.outs)
        made = Group(tuple(ins), tuple(after for after in network.outs[node] if after in outs))
        place = joined.index(met[0]) if met else len(joined)
        joined = [group for group in joined if group not in met]
        joined.insert(place, made)
    reached = {after for group in joined for after in group.outs}
    beginning = tuple(after for after in network.outs[node] if after not in reached)
    more = [Group(tuple(ending), ()), Group((), beginning)]
    return joined + [group for group in more if group.ins or group.outs]
