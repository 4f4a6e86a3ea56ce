"""The links of a case by node, and the least free-flow times over them."""
from __future__ import annotations

import functools
from collections.abc import Iterable
from dataclasses import dataclass, field

from .least import least
from .rows import Link


@dataclass
class Roads:
    """The links of a case by name and by node, with free-flow times in ms."""

    links: dict[str, Link]
    outs: dict[str, list[str]] = field(default_factory=dict)
    ins: dict[str, list[str]] = field(default_factory=dict)

    @classmethod
    def of(cls, links: Iterable[Link]) -> Roads:
        """The roads of some links."""
        made = cls({link.name: link for link in links})
        for link in made.links.values():
            made.outs.setdefault(link.tail, []).append(link.name)
            made.ins.setdefault(link.head, []).append(link.name)
        return made

    @functools.cached_property
    def before(self) -> dict[str, list[tuple[str, int]]]:
        """Of each node that a link leads to the nodes before it, and the free-flow times from them."""
        return {
            node: [(self.links[name].tail, self.links[name].free_ms) for name in names]
            for node, names in self.ins.items()
        }

    def least_times(self, destination: str) -> dict[str, int]:
        """The least free-flow time in ms to a destination, from each node that has a route to it."""
        return least(destination, 0, lambda node: self.before.get(node, ()))
