"""What has become of the links and nodes of a source in a case: the files `source_links.csv` and `source_nodes.csv`
beside a case.

Later steps, as splits of counted routes or plans of signals, may so name links as their source does.
"""
from __future__ import annotations

import os
from collections import deque
from collections.abc import Iterable, Mapping, Sequence
from dataclasses import dataclass, field, replace
from pathlib import Path

from ..errors import Fault
from ..files import read_table, write_text
from ..formats import record_text
from .beside import LINKS_FILE, NODES_FILE
from .roads import Roads
from .rows import Link


@dataclass(frozen=True, slots=True)
class SourceLink:
    """A link of the source: the nodes of the source where it begins and ends, the link of the case that it is part of,
    none where it was contracted, and the links of its turns, where it was cut before a crossing."""

    tail: str
    head: str
    link: str | None
    turns: tuple[str, ...] = ()

    @property
    def all_links(self) -> tuple[str, ...]:
        """The links of the case that are parts of it or that it is part of."""
        return (() if self.link is None else (self.link,)) + self.turns


@dataclass
class Source:
    """The links and nodes of a source by name, and the node of the case that each node has become."""

    links: dict[str, SourceLink] = field(default_factory=dict)
    nodes: dict[str, str] = field(default_factory=dict)
    between: frozenset[str] | None = None
    """The links of the case that lie between those of the source: connectors and turns; None for all."""

    @classmethod
    def read(cls, folder: str | os.PathLike[str], roads: Roads) -> Source:
        """The source of a case; that of the case itself, name by name, where the files are not there. What has become
        of links and nodes that the case has no longer is passed over."""
        made = cls()
        for link in roads.links.values():
            made.links[link.name] = SourceLink(link.tail, link.head, link.name)
            made.nodes[link.tail], made.nodes[link.head] = link.tail, link.head
        path = Path(folder)
        if (path / LINKS_FILE).exists():
            told = read_links(path / LINKS_FILE, roads)
            own = {
                name: link for name, link in made.links.items() if name in told and told[name].link != name
            }  # a name that is both is the case's own
            made.between = frozenset(made.links).difference(own, (link.link or "" for link in told.values()))
            made.links = {**made.links, **told, **own}
            made.nodes |= {
                row.text("source"): node
                for row in read_table(path / NODES_FILE, ("source", "node"))
                if (node := row.text("node")) in made.nodes
            }
        return made

    def write(self, folder: str | os.PathLike[str]) -> None:
        """Writes the two files beside a case; a link with turns has a row for each, behind its own."""
        links = [
            ("source", "from", "to", "link"),
            *(
                (name, link.tail, link.head, part)
                for name, link in self.links.items()
                for part in (link.link or "", *link.turns)
            ),
        ]
        write_text(Path(folder) / LINKS_FILE, quoted_lines(links))
        write_text(Path(folder) / NODES_FILE, quoted_lines([("source", "node"), *self.nodes.items()]))

    def node(self, name: str) -> str:
        """The node of the case for a node of the source."""
        if name not in self.nodes:
            raise Fault(f"{name} is no node of the case, nor of its source")
        return self.nodes[name]

    def known(self, name: str) -> SourceLink:
        """What has become of a link of the source, or of the case."""
        if name not in self.links:
            raise Fault(f"{name} is no link of the case, nor of its source")
        return self.links[name]

    def link(self, name: str) -> str:
        """The link of the case for a link of the source, or of the case."""
        link = self.known(name).link
        if link is None:
            raise Fault(f"link {name} of the source was contracted, so that it is no part of a link of the case")
        return link

    def joined(self, one: SourceLink, after: SourceLink) -> bool:
        """Whether a link begins where another ends, by the nodes of the source, or where one of them is told by those
        of the case by these."""
        return one.head == after.tail or self.nodes.get(one.head, "") == self.nodes.get(after.tail)

    def route(self, names: Sequence[str], roads: Roads) -> tuple[str, ...]:
        """The links of the case on a route over links of the source, with the connectors between; a Fault where it is
        none."""
        if not names:
            return ()
        start, end = self.nodes.get(self.known(names[0]).tail), self.nodes.get(self.known(names[-1]).head)
        start = self.begin(names[0], roads) or start
        stop = self.stop(names[-1], roads)
        end = end if stop is None else stop
        route = self.over(names, roads, start)
        place = roads.links[route[-1]].head if route else start
        return (*route, *(self.connectors(place, end, roads) or () if place is not None and end is not None else ()))

    def begin(self, name: str, roads: Roads) -> str | None:
        """The node of the case at which trips begin on a link of the source that has a beginning of its own; None where
        it has none."""
        link = self.known(name).link
        tail = None if link is None else roads.links[link].tail
        return tail if any(roads.links[part].head == tail for part in self.known(name).turns) else None

    def stop(self, name: str, roads: Roads) -> str | None:
        """The node of the case at which trips end on a link of the source that has an end of its own; None where it has
        none."""
        heads = [roads.links[link].head for link in self.known(name).turns]
        node = self.nodes.get(self.known(name).head)
        return next((head for head in heads if head != node and not roads.outs.get(head)), None)

    def over(self, names: Sequence[str], roads: Roads, place: str | None = None) -> list[str]:
        """The links of the case over links of the source, with the connectors between, and those from a node on where
        one is told; a Fault where one of the source does not begin where the one before ends."""
        for name in names:
            self.known(name)
        for name, after in zip(names, names[1:]):
            if not self.joined(self.links[name], self.links[after]):
                raise Fault(f"link {after} does not begin where link {name} ends")
        route: list[str] = []
        for name in names:
            link = self.links[name].link
            if link is not None and not (route and route[-1] == link):
                start = roads.links[link].tail
                between = None if place is None else self.connectors(place, start, roads)
                if between is None and route:
                    raise Fault(f"no way leads from node {place} to node {start}, where a route goes on")
                route += [*(between or ()), link]
                place = roads.links[link].head
        return route

    def connectors(self, start: str, end: str, roads: Roads) -> list[str] | None:
        """The fewest links from a node to another of those that lie between links of the source; in a fitted case these
        are connectors that split a node, or turns. None where no way leads there."""
        came: dict[str, list[str]] = {start: []}
        queue = deque([start])
        while queue:
            node = queue.popleft()
            if node == end:
                return came[node]
            for name in roads.outs.get(node, ()):
                if roads.links[name].head not in came and (self.between is None or name in self.between):
                    came[roads.links[name].head] = [*came[node], name]
                    queue.append(roads.links[name].head)
        return None


def read_links(path: Path, roads: Roads) -> dict[str, SourceLink]:
    """The links of `source_links.csv`; further rows of a link are its turns. Links that the case does not have are
    passed over."""
    links: dict[str, SourceLink] = {}
    unknown: set[str] = set()
    for row in read_table(path, ("source", "from", "to", "link")):
        name, link = row.text("source"), row.text("link", "") or None
        is_known = link is None or link in roads.links
        if name in links and link is not None and is_known:
            links[name] = replace(links[name], turns=(*links[name].turns, link))
        elif name not in links and name not in unknown and is_known:
            links[name] = SourceLink(row.text("from"), row.text("to"), link)
        elif name not in links:
            unknown.add(name)
    return links


def links_named(folder: str | os.PathLike[str], links: Iterable[Link], names: Sequence[str]) -> list[str]:
    """The links of a case by these names, its own or those of its source."""
    own = {link.name: link for link in links}
    if all(name in own for name in names) or not has_source(folder):
        return list(names)
    source = Source.read(folder, Roads.of(own.values()))
    return [source.link(name) for name in names]


def path_named(folder: str | os.PathLike[str], links: Iterable[Link], names: Sequence[str]) -> list[str]:
    """The links of a case on a path by these names, its own or those of its source, which may have become parts of one
    link, or none; and the connectors between."""
    roads = Roads.of(links)
    if is_path(roads, names) or not has_source(folder):
        return list(names)
    path = Source.read(folder, roads).over(names, roads)
    if not path:
        raise Fault(f"{' '.join(names)}: these links of the source were contracted, and nothing is left of the path")
    return path


def is_path(roads: Roads, names: Sequence[str]) -> bool:
    """Whether these are links of a case, each of which begins where the one before it ends."""
    return all(name in roads.links for name in names) and all(
        roads.links[name].head == roads.links[after].tail for name, after in zip(names, names[1:])
    )


def parts_of_links(folder: str | os.PathLike[str], links: Iterable[Link]) -> dict[str, list[str]]:
    """The links of the source, called otherwise, that have become part of each link of a case."""
    parts: dict[str, list[str]] = {}
    for name, link in Source.read(folder, Roads.of(links)).links.items() if has_source(folder) else ():
        if link.link is not None and link.link != name:
            parts.setdefault(link.link, []).append(name)
    return parts


def approaches_of(folder: str | os.PathLike[str], links: Iterable[Link]) -> dict[str, tuple[str, ...]]:
    """The links of the source that were cut before a crossing, each with its links of the case."""
    if not has_source(folder):
        return {}
    return {name: link.all_links for name, link in Source.read(folder, Roads.of(links)).links.items() if link.turns}


def approach_heads(folder: str | os.PathLike[str], links: Iterable[Link]) -> dict[str, str]:
    """The nodes of the source at which its links end that were cut before a crossing."""
    if not has_source(folder):
        return {}
    return {name: link.head for name, link in Source.read(folder, Roads.of(links)).links.items() if link.turns}


def links_or_approaches(
    folder: str | os.PathLike[str], links: Iterable[Link], names: Sequence[str], approaches: Mapping[str, object]
) -> list[str]:
    """Links of a case by these names, its own or those of its source; a name of an approach stays."""
    own = list(links)
    found = [name if name in approaches else links_named(folder, own, [name])[0] for name in names]
    for name in found:
        if name not in approaches and all(link.name != name for link in own):
            raise Fault(f"{name} is no link of the case, nor of its source")
    return found


def has_source(folder: str | os.PathLike[str]) -> bool:
    """Whether the folder of a case says what has become of a source's links."""
    return os.path.exists(os.path.join(folder, LINKS_FILE))


def quoted_lines(rows: Iterable[Sequence[str]]) -> str:
    """Records with quotes where a field needs them, a line each."""
    return "".join(record_text(row) + "\n" for row in rows)
