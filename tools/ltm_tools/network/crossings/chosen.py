"""Which crossings have their turns as links, and which nodes are parted so that nobody turns back there."""
from __future__ import annotations

from collections.abc import Collection, Iterable
from dataclasses import dataclass

from ...errors import Fault
from ..network import Network
from .apart import groups_of
from .movements import Movements

Asked = str | tuple[str, ...]


@dataclass(frozen=True)
class Chosen:
    """The crossings whose turns become links; the dead ends, which part in two nodes: one where links end, and one
    where they begin; and the nodes whose turns fall apart, which part in a node for each group of links where they are
    no crossings."""

    crossings: tuple[str, ...]
    dead_ends: tuple[str, ...]
    apart: tuple[str, ...] = ()

    @property
    def parted(self) -> tuple[str, ...]:
        """The nodes that part."""
        crossings = set(self.crossings)
        return (*self.dead_ends, *(node for node in self.apart if node not in crossings))


def chosen(
    network: Network,
    movements: Movements,
    ends: Collection[str],
    asked: Asked,
    *,
    begins: Collection[str] = (),
    apart: bool = True,
    joined: bool = False,
) -> Chosen:
    """The nodes that are asked for: by a word of the options, or by their names. `ends` are those where trips end, by
    any link, `begins` those where they begin on any; without `apart` no nodes part but dead ends. With `joined` those
    are crossings too where a turn back alone joins groups of links."""
    if asked == "none":
        return Chosen((), ())
    view = View(network, movements, ends, begins)
    if not isinstance(asked, str):
        return named(view, asked)
    crossings, dead_ends, fallen = [], [], []
    for node in network.nodes:
        falls = apart and view.falls_apart(node)
        if view.is_dead_end(node):
            dead_ends.append(node)
        elif view.is_wanted(node, asked == "all") or falls and view.is_open(node):
            crossings.append(node)
        elif joined and view.is_joined(node):
            crossings.append(node)
        if falls and not view.is_open(node) and not view.is_dead_end(node):
            fallen.append(node)
    return Chosen(tuple(crossings), tuple(dead_ends), tuple(fallen))


def named(view: View, names: Collection[str]) -> Chosen:
    """The nodes of these names; all others stay as they are."""
    check_named(view.network, names)
    known = [node for node in view.network.nodes if node in names]
    dead_ends = tuple(node for node in known if view.is_dead_end(node))
    return Chosen(tuple(node for node in known if node not in dead_ends and view.has_turns(node)), dead_ends)


def check_named(network: Network, names: Iterable[str]) -> None:
    """A Fault where a node is not in the network."""
    for name in names:
        if name not in network.nodes:
            raise Fault(f"--turns: {name} is no node of the network, and neither signals, all nor none")


class View:
    """What is to be known of a node to choose it."""

    def __init__(
        self, network: Network, movements: Movements, ends: Collection[str], begins: Collection[str] = ()
    ) -> None:
        self.network, self.turns, self.ends, self.begins = network, movements.turns, ends, begins
        self.exits, self.held = movements.exits(), movements.held()

    def has_turns(self, node: str) -> bool:
        """Whether a link that ends at a node leads on."""
        return any(name in self.exits for name in self.network.ins[node])

    def is_dead_end(self, node: str) -> bool:
        """Whether no link that ends at a node leads on, though links begin there: then nobody may turn back."""
        return bool(self.turns and self.network.ins[node] and self.network.outs[node]) and not self.has_turns(node)

    def falls_apart(self, node: str) -> bool:
        """Whether links end and begin at a node, and its turns fall apart into groups of them."""
        is_passed = bool(self.turns and self.network.ins[node] and self.network.outs[node])
        return is_passed and len(groups_of(self.network, self.turns, node)) > 1

    def is_open(self, node: str) -> bool:
        """Whether trips end at a node, or begin there, by links of several groups: such a node cannot part."""
        groups = groups_of(self.network, self.turns, node)
        several = (sum(bool(group.ins) for group in groups) > 1, sum(bool(group.outs) for group in groups) > 1)
        return several[0] and node in self.ends or several[1] and node in self.begins

    def is_joined(self, node: str) -> bool:
        """Whether a turn back alone joins groups of the links of a node, and another turn back is forbidden: nobody
        is kept from that one but by turns that are links."""
        ins, outs = self.network.ins[node], self.network.outs[node]
        back = {(name, after) for name in ins for after in outs if self.is_back(name, after)}
        if not back & self.turns.keys() or back <= self.turns.keys():
            return False
        onward = {(name, after) for name in ins for after in outs if (name, after) in self.turns} - back
        return len(groups_of(self.network, onward, node)) > 1

    def is_back(self, name: str, after: str) -> bool:
        """Whether a link leads to where another comes from."""
        return self.network.roads[after].head == self.network.roads[name].tail

    def is_wanted(self, node: str, every: bool) -> bool:
        """Whether a node is a crossing with several ways, held by a signal where not every one is wanted, or one where
        a turn is forbidden."""
        ins = [name for name in self.network.ins[node] if name in self.exits]
        held = any(name in self.held for name in ins)
        branches = any(len(self.exits[name]) > 1 for name in ins)
        if held and (branches or node in self.ends):
            return True
        return self.forbids(node) or every and branches and len(ins) > 1

    def forbids(self, node: str) -> bool:
        """Whether a turn is forbidden at a node, other than back to where a link comes from."""
        return self.has_turns(node) and any(
            (name, after) not in self.turns and not self.is_back(name, after)
            for name in self.network.ins[node]
            for after in self.network.outs[node]
        )
