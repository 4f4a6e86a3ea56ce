"""What the links and nodes of a source have become where crossings have turns."""
from __future__ import annotations

from ...case.source import Source, SourceLink
from .expand import Expanded
from .movements import Pair


def links_of_turns(source: Source, made: Expanded) -> dict[Pair, str]:
    """Of each turn its link of the case, by what the roads of an expanded network have become; none for an approach
    with one exit that was contracted."""
    return {pair: link for pair, road in made.links.items() if (link := source.links[road].link) is not None}


def with_turns(source: Source, made: Expanded) -> Source:
    """The links of the source with their turns, by what the roads of an expanded network have become."""
    links = {}
    for name, (tail, head) in made.ends.items():
        own = (source.links[turn].link for turn in made.own.get(name, ()))
        links[name] = SourceLink(tail, head, source.links[name].link, tuple(link for link in own if link is not None))
    nodes = dict.fromkeys(node for ends in made.ends.values() for node in ends)
    return Source(links, {node: source.nodes[node] for node in nodes if node in source.nodes})
