"""Links with the turns that follow them, told as one: of a case whose crossings have their turns as links."""
from __future__ import annotations

from collections.abc import Iterable, Mapping, Sequence

Approaches = Mapping[str, Sequence[str]]
"""By a name the links that are told as one: a link before a crossing, and its turns."""


def grouped(names: Iterable[str], approaches: Approaches) -> dict[str, list[str]]:
    """Names of links in their order, those of an approach as one where its first one stands."""
    of = {link: name for name, links in approaches.items() for link in links}
    made: dict[str, list[str]] = {}
    for link in names:
        made.setdefault(of.get(link, link), []).append(link)
    return made
