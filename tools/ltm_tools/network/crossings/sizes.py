"""Which crossings may have their turns as links so that a case has no more links than it may."""
from __future__ import annotations

from collections.abc import Mapping

from ...formats import MOST_LINKS, MOST_LINKS_ASKED, count_text, counted
from .expand import Expanded


def links_told(made: Expanded, links: int, vehicles: Mapping[str, int], whole: bool = False) -> list[str]:
    """What to do where a case has more links by its turns than it may without asking, or with `whole` by asking: which
    crossings would fit, those with most vehicles first; nothing where it has no more, or would without turns."""
    most = MOST_LINKS_ASKED if whole else MOST_LINKS
    added = sum(made.added.values())
    if links <= most or links - added > most:
        return []
    nodes = fitting(made.added, vehicles, links - added, most)
    return [
        f"{counted(added, 'link')} of {count_text(links)} are of turns, and without asking for more a case has"
        f" {count_text(MOST_LINKS)}, by asking {count_text(MOST_LINKS_ASKED)}; {count_text(most)} are kept by turns"
        f" at {counted(len(nodes), 'crossing')} alone: --turns {','.join(nodes)}"
    ]


def fitting(added: Mapping[str, int], vehicles: Mapping[str, int], links: int, most: int) -> list[str]:
    """The crossings with most vehicles, as many as leave no more links than may be."""
    kept = []
    for node in sorted(added, key=lambda name: (-vehicles.get(name, 0), name)):
        if links + added[node] <= most:
            links += added[node]
            kept.append(node)
    return kept
