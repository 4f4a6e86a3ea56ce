"""The names of streets of a case, by those that the links of its source have."""
from __future__ import annotations

from collections.abc import Mapping

from ..case.source import Source
from ..case.streets import BETWEEN
from .crossings.turns_file import Turns

MOST_NAMES = 3  # of a link


def street_names(source: Source, streets: Mapping[str, str], turns: Turns | None = None) -> dict[str, str]:
    """The streets of the links of a case, and of links of its source that are told with their turns. A link that is
    made of several has the names of all, in their order; a turn has those of the streets that it leads from and to."""
    found: dict[str, list[str]] = {}
    for name, link in source.links.items():
        street = streets.get(name, "")
        for part in (name,) * bool(link.turns) + (() if link.link is None else (link.link,)):
            if street and street not in found.setdefault(part, []):
                found[part].append(street)
    made = {link: names_in_line(names) for link, names in found.items() if names}
    for turn in () if turns is None else turns.turns:
        both = [streets.get(name, "") for name in (turn.approach, turn.exit)]
        if any(both) and turn.link not in made:
            made[turn.link] = " to ".join(name or link for name, link in zip(both, (turn.approach, turn.exit)))
    return made


def names_in_line(names: list[str]) -> str:
    """Names in one line; of many the first ones and the last."""
    return BETWEEN.join(names if len(names) <= MOST_NAMES else [*names[: MOST_NAMES - 1], "..", names[-1]])
