"""Passages toward a destination, without circles.

The passages of a destination are counts by link: how many vehicles that want there go on by the link. Where they make a
circle, vehicles may go round in it for ever, since a split knows a node and a destination and not where a vehicle came
from. `without` cuts passages of links that are part of a circle and lead no nearer to the destination, the lightest
ones, and no others.
"""
from __future__ import annotations

from collections.abc import Iterable, Mapping

from ..case.leading import strong_parts
from ..case.roads import Roads
from ..errors import Fault


class Passages:
    """The passages toward one destination, by link, while circles are cut and gaps are filled."""

    def __init__(self, roads: Roads, destination: str, counts: Mapping[str, int], origins: Iterable[str]) -> None:
        self.roads, self.destination = roads, destination
        self.times = roads.least_times(destination)
        self.counts = {
            name: count for name, count in counts.items() if count > 0 and roads.links[name].tail != destination
        }
        self.origins = [origin for origin in origins if origin != destination]
        self.cut: dict[str, int] = {}
        self.filled: set[str] = set()

    def without_circles(self) -> dict[str, int]:
        """The counts by link that are left, with a count of 1 on a link of a least route where a node had none."""
        self.fill()
        while parts := self.parts():
            for part in parts:
                self.cut_in(part)
            self.fill()
        return self.counts

    def by_tail(self) -> dict[str, list[str]]:
        """The links with passages that leave each node."""
        leaving: dict[str, list[str]] = {}
        for name in self.counts:
            leaving.setdefault(self.roads.links[name].tail, []).append(name)
        return leaving

    def after(self) -> dict[str, list[str]]:
        """The nodes to which each node has passages."""
        return {tail: [self.roads.links[name].head for name in names] for tail, names in self.by_tail().items()}

    def parts(self) -> list[set[str]]:
        """The sets of nodes that are in circles with one another."""
        after = self.after()
        return strong_parts(after, after)

    def fill(self) -> None:
        """Gives each node to which vehicles come, and that has no passage on, the first link of a least route."""
        leaving = set(self.by_tail())
        due = [*self.origins, *(self.roads.links[name].head for name in self.counts)]
        while due:
            node = due.pop()
            if node == self.destination or node in leaving:
                continue
            name = self.least_link(node)
            self.counts[name] = 1
            self.filled.add(name)
            leaving.add(node)
            due.append(self.roads.links[name].head)

    def least_link(self, node: str) -> str:
        """The first link of a least route from a node."""
        if node not in self.times:
            raise Fault(
                f"no route leads from node {node} to node {self.destination}; leave that demand out, or add a link"
            )
        leading = [name for name in self.roads.outs[node] if self.roads.links[name].head in self.times]
        return min(leading, key=lambda name: self.roads.links[name].free_ms + self.times[self.roads.links[name].head])

    def leads_away(self, name: str) -> bool:
        """Whether a link leads no nearer to the destination, by least time."""
        link = self.roads.links[name]
        return link.head not in self.times or self.times[link.head] >= self.times[link.tail]

    def cut_in(self, part: set[str]) -> None:
        """Cuts links that lead away within a set, and takes back the heaviest ones that close no circle."""
        inner = [
            name for name in self.counts if self.roads.links[name].tail in part and self.roads.links[name].head in part
        ]
        away = sorted((name for name in inner if self.leads_away(name)), key=lambda name: (-self.counts[name], name))
        taken = {name: self.counts.pop(name) for name in away}
        after = self.after()
        for name in away:
            link = self.roads.links[name]
            if leads(after, link.head, link.tail):
                if name not in self.filled:
                    self.cut[name] = taken[name]
            else:
                self.counts[name] = taken[name]
                after.setdefault(link.tail, []).append(link.head)


def leads(after: Mapping[str, Iterable[str]], start: str, end: str) -> bool:
    """Whether a node leads to another."""
    seen, due = {start}, [start]
    while due:
        node = due.pop()
        if node == end:
            return True
        for following in after.get(node, ()):
            if following not in seen:
                seen.add(following)
                due.append(following)
    return False
