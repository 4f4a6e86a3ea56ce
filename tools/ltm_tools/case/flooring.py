"""Where what a node moves is so little that flooring it to whole thousandths takes a part of it (docs/MODEL.md)."""
from __future__ import annotations

from collections.abc import Mapping
from dataclasses import dataclass
from ..formats import count_text, counted
from .rows import Rows
from .streets import street_and_id

UNITS_EACH = 20
"""Thousandths of a vehicle that a link passes in a slot for each destination that uses it, with which flooring takes
little."""
ALIKE = 100
"""Thousandths of a vehicle that a link passes in a slot for each of several rows of demand that are alike, with which
what is floored of them in the same slots takes little: one in a hundred."""


@dataclass(frozen=True, slots=True)
class Narrow:
    """A link that passes less in a slot, in thousandths of a vehicle, than flooring for so many destinations asks
    for."""

    name: str
    units: int
    destinations: int


def narrow_links(case: Rows) -> list[Narrow]:
    """The links that pass less than `UNITS_EACH` in a slot for each destination that uses them, the worst first; none
    without splits."""
    users = uses(case)
    found = [
        Narrow(link.name, link.capacity(case.setup.step_ms), users[link.name])
        for link in case.links
        if link.name in users
    ]
    found = [link for link in found if link.units < UNITS_EACH * link.destinations]
    return sorted(found, key=lambda link: (link.units / link.destinations, link.name))


def uses(case: Rows) -> dict[str, int]:
    """Of each link that splits send somebody over, from where demand sets out, for how many destinations."""
    heads = {link.name: link.head for link in case.links}
    ways: dict[str, dict[str, dict[str, None]]] = {}  # by destination and node the links of positive weights
    for row in case.standing_splits():
        of_node = ways.setdefault(row.destination, {}).setdefault(row.node, {})
        of_node.update((name, None) for name, weight in row.weights.items() if weight)
    origins: dict[str, list[str]] = {}
    for demand in case.standing_demand():
        origins.setdefault(demand.destination, []).append(demand.origin)
    users: dict[str, int] = {}
    for destination, starts in origins.items():
        for name in used(ways.get(destination, {}), starts, heads):
            users[name] = users.get(name, 0) + 1
    return users


def used(ways: Mapping[str, Mapping[str, None]], starts: list[str], heads: Mapping[str, str]) -> list[str]:
    """The links over which these ways lead from some nodes."""
    seen, left, found = set(starts), list(dict.fromkeys(starts)), []
    while left:
        for name in ways.get(left.pop(), ()):
            found.append(name)
            if heads[name] not in seen:
                seen.add(heads[name])
                left.append(heads[name])
    return found


def flooring_lines(case: Rows, streets: Mapping[str, str]) -> list[str]:
    """The warning about such links, with the worst and what to do; none where there are none."""
    narrow = narrow_links(case)
    if not narrow:
        return []
    worst, whole = narrow[0], case.setup.moves
    takes = (
        "what passes is shared over the destinations in coarse parts"
        if whole
        else "flooring takes a part of what could pass"
    )
    return [
        f"flooring    {counted(len(narrow), 'link')} with less than {UNITS_EACH} thousandths of a vehicle in a slot"
        f" for each destination that uses it: {takes}",
        f"            the worst is {street_and_id(worst.name, streets)}: {count_text(worst.units)} thousandths in a"
        f" slot, and"
        f" {counted(worst.destinations, 'destination')}",
        f"            {'' if whole else 'write 1 in the column moves of setup.csv, or '}take longer steps or fewer"
        f" destinations",
    ]


def pulse_lines(case: Rows) -> list[str]:
    """The warning about rows of demand from one origin that are alike, so that what is floored of them falls into the
    same slots, with the worst and what to do; none where what moves is floored for the turn, and no part is lost."""
    if case.setup.moves:
        return []
    alike: dict[tuple[str, int, int, int], int] = {}
    for row in case.standing_demand():
        key = row.origin, row.from_slot, row.to_slot, row.units
        alike[key] = alike.get(key, 0) + 1
    taken: dict[str, int] = {}
    for link in case.links:
        taken[link.tail] = taken.get(link.tail, 0) + link.capacity(case.setup.step_ms)
    over = [(count / taken[key[0]], count, key[0]) for key, count in alike.items() if count > 1 and key[0] in taken]
    over = [item for item in over if item[0] * ALIKE > 1]
    if not over:
        return []
    part, count, origin = max(over)
    return [
        f"pulses      {count_text(count)} rows of demand from {origin} are alike, so that what is floored of each falls"
        f" into the same slots: a full road behind it may lose {100 * part:.1f} % of its capacity",
        "            write 1 in the column moves of setup.csv, which floors what moves once for all of them",
    ]
