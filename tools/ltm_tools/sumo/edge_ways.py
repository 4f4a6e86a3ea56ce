"""The edges of a net of SUMO on a way over links of a case: parts of links that were merged, edges that were
contracted, and what was cut before a crossing or an end."""
from __future__ import annotations

from collections import deque
from collections.abc import Sequence
from pathlib import Path

from ..case.beside import LINKS_FILE
from ..case.roads import Roads
from ..case.source import Source, has_source, read_links

CUTS = ("exit", "stop")  # what the parts are called behind an edge that was cut before its end


class EdgeWays:
    """The edges of links, by what `source_links.csv` says."""

    def __init__(self, folder: str, source: Source, roads: Roads) -> None:
        self.source, self.roads = source, roads
        names = read_links(Path(folder) / LINKS_FILE, roads) if has_source(folder) else source.links
        self.ends = {name: (source.links[name].tail, source.links[name].head) for name in names}
        for name in [name for name in self.ends if self._is_cut(name)]:
            edge, kind = name.rsplit("_", 1)
            if kind == "exit" and edge in self.ends:
                self.ends[edge] = (self.ends[edge][0], self.ends[name][1])
            del self.ends[name]
        self.of_link: dict[str, list[str]] = {}
        self.contracted: dict[str, list[str]] = {}  # by the node where they begin
        for name, (tail, _) in self.ends.items():
            for part in source.links[name].all_links:
                self.of_link.setdefault(part, []).append(name)
            if source.links[name].link is None:
                self.contracted.setdefault(tail, []).append(name)
        for part, edges in self.of_link.items():
            self.of_link[part] = self._chained(edges)

    def _is_cut(self, name: str) -> bool:
        """Whether this is a part of an edge that was cut, behind the cut."""
        edge, _, kind = name.rpartition("_")
        return kind in CUTS and edge in self.source.links and self.ends[name][0] == self.source.links[edge].head

    def _chained(self, names: list[str]) -> list[str]:
        """Edges in the order in which they follow one another."""
        by_tail = {self.ends[name][0]: name for name in names}
        heads = {self.ends[name][1] for name in names}
        found = [name for name in names if self.ends[name][0] not in heads][:1] or names[:1]
        while (after := by_tail.get(self.ends[found[-1]][1])) is not None and after not in found:
            found.append(after)
        return found if len(found) == len(names) else names

    def stop(self, edge: str) -> str | None:
        """The node of the case at which trips end on an edge that was cut before its end."""
        link = self.source.links.get(f"{edge}_stop")
        if link is None or link.link is None:
            return self.source.stop(edge, self.roads)
        return self.roads.links[link.link].head

    def on(self, way: Sequence[str], first: str | None = None, last: str | None = None) -> list[str]:
        """The edges on a way over links, from the first edge of a trip to its last one where these are known; between
        edges that were contracted."""
        edges: list[str] = []
        for link in way:
            for edge in self.of_link.get(link, ()):
                if edge not in edges[-1:]:
                    edges.append(edge)
        if first in edges:
            edges = edges[edges.index(first) :]
        elif first is not None:
            edges.insert(0, first)
        if last in edges:
            edges = edges[: len(edges) - edges[::-1].index(last)]
        elif last is not None and self.source.links[last].link is None:
            edges.append(last)
        return self._filled(edges)

    def _filled(self, edges: Sequence[str]) -> list[str]:
        """Edges with those between that were contracted."""
        found = list(edges[:1])
        for edge in edges[1:]:
            start, end = self.ends[found[-1]][1], self.ends[edge][0]
            found += [*(self._between(start, end) or ()), edge]
        return found

    def _between(self, start: str, end: str) -> list[str] | None:
        """The fewest contracted edges from a node of the net to another; None where none lead there."""
        came: dict[str, list[str]] = {start: []}
        queue = deque([start])
        while queue and end not in came:
            node = queue.popleft()
            for name in self.contracted.get(node, ()):
                head = self.ends[name][1]
                if head not in came:
                    came[head] = [*came[node], name]
                    queue.append(head)
        return came.get(end)
