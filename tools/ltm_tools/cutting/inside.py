"""Which links of a case are inside: those with both ends in a box, or those that a file names."""
from __future__ import annotations

import os
from collections.abc import Collection, Sequence
from dataclasses import dataclass
from functools import cached_property

from ..case import Case
from ..case.places import Places
from ..case.roads import Roads
from ..case.rows import Link
from ..case.source import Source
from ..errors import Fault
from ..files import read_table

LINK = "link"


@dataclass(frozen=True)
class Inside:
    """The links of a case that a cut keeps, in its order, and all that lead to or from their ends."""

    links: tuple[Link, ...]
    roads: Roads

    @classmethod
    def of(cls, case: Case, names: Collection[str]) -> Inside:
        """The links of these names; a Fault where there is none, or no other."""
        links = tuple(link for link in case.links if link.name in names)
        if not links:
            raise Fault("no link of the case has both ends inside, so that there is nothing to cut out")
        return cls(links, Roads.of(case.links))

    @cached_property
    def names(self) -> frozenset[str]:
        """The names of these links."""
        return frozenset(link.name for link in self.links)

    @cached_property
    def nodes(self) -> list[str]:
        """The nodes at their ends, in order."""
        return list(dict.fromkeys(end for link in self.links for end in (link.tail, link.head)))

    def outs(self, node: str) -> list[str]:
        """The links inside that leave a node."""
        return [name for name in self.roads.outs.get(node, ()) if name in self.names]

    def ins(self, node: str) -> list[str]:
        """The links inside that lead to a node."""
        return [name for name in self.roads.ins.get(node, ()) if name in self.names]

    def beyond(self, node: str) -> list[str]:
        """The links that leave a node and are not inside."""
        return [name for name in self.roads.outs.get(node, ()) if name not in self.names]

    def before(self, node: str) -> list[str]:
        """The links that lead to a node and are not inside."""
        return [name for name in self.roads.ins.get(node, ()) if name not in self.names]


def in_box(case: Case, places: Places | None, box: Sequence[float]) -> set[str]:
    """The links with both ends in a box, its sides with it; the box has x and y of two corners."""
    if places is None:
        raise Fault("the case has no nodes.csv, so that nobody knows what lies in a box: name its links with --links")
    (left, right), (low, high) = sorted(box[::2]), sorted(box[1::2])
    within = {name for name, (x, y) in places.of.items() if left <= x <= right and low <= y <= high}
    return {link.name for link in case.links if link.tail in within and link.head in within}


def in_file(case: Case, source: Source, path: str | os.PathLike[str]) -> set[str]:
    """The links that a file names in its column `link`, as the case or its source calls them, and their parts."""
    known, found = {link.name for link in case.links}, set()
    for row in read_table(path, (LINK,)):
        name = row.text(LINK)
        parts = source.links[name].all_links if name in source.links else ()
        if not (of_case := {part for part in parts if part in known}):
            raise row.fault(LINK, "it is no link of the case, nor of its source")
        found |= of_case
    return found
