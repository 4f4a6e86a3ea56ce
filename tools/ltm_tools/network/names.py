"""Names of a case for names of a source: letters, digits, `_` and `-`, at most 32, and each once."""
from __future__ import annotations

import re
from collections.abc import Iterable

from ..formats import is_name

MOST = 32


def names_for(sources: Iterable[str], rename: bool) -> dict[str, str]:
    """A name for each name of a source: itself where it can be one; else, with `rename`, one as near to it as can
    be."""
    listed = list(dict.fromkeys(sources))
    made = {source: source for source in listed if is_name(source)}
    if not rename:
        return made
    taken = set(made)
    for source in listed:
        if source not in made:
            made[source] = untaken(made_name(source), taken)
            taken.add(made[source])
    return made


def made_name(source: str) -> str:
    """The source with a `_` for each sign that a name may not have, cut to its end where it is too long."""
    return re.sub(r"[^A-Za-z0-9_-]", "_", source)[-MOST:] or "_"


def untaken(name: str, taken: set[str]) -> str:
    """The name, or with a number behind it the first that is not taken."""
    number, made = 1, name
    while made in taken:
        number += 1
        made = f"{name[:MOST - 1 - len(str(number))]}_{number}"
    return made
