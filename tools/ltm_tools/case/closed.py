"""Links that the files of a case close, by signals that never show green and by entry limits of 0."""
from __future__ import annotations

from collections.abc import Iterable, Mapping, Sequence

from ..formats import counted
from .flooring import uses
from .rows import Limit, Rows
from .streets import street_and_id

MOST_TOLD = 8  # links


def open_slots(limits: Iterable[Limit], slots: int) -> list[bool]:
    """In which slots the records on a link, in their order, let anything pass."""
    opened = [True] * slots
    for row in limits:
        opened[row.from_slot : row.to_slot] = [row.units > 0] * (row.to_slot - row.from_slot)
    return opened


def by_link(limits: Iterable[Limit]) -> dict[str, list[Limit]]:
    """The records of each link that has some."""
    found: dict[str, list[Limit]] = {}
    for row in limits:
        found.setdefault(row.link, []).append(row)
    return found


def always_closed(limits: Iterable[Limit], slots: int) -> list[str]:
    """The links whose records let nothing pass in any slot."""
    return [name for name, rows in by_link(limits).items() if not any(open_slots(rows, slots))]


def closed_lines(case: Rows, streets: Mapping[str, str]) -> list[str]:
    """The warning about links over which traffic is sent though nothing may ever leave or enter them; none where there
    are none."""
    users, slots = uses(case), case.setup.slots
    told = told_of(
        [street_and_id(name, streets) for name in always_closed(case.signals, slots) if name in users],
        "without any green, where vehicles wait for ever",
        "look at signals.csv, or send them another way",
    )
    return told + told_of(
        [street_and_id(name, streets) for name in always_closed(case.limits, slots) if name in users],
        "that nobody may ever enter, before which vehicles wait for ever",
        "look at limits.csv, or send them another way",
    )


def told_of(names: Sequence[str], what: str, to_do: str) -> list[str]:
    """A line on such links, and one with what to do."""
    if not names:
        return []
    more = f" and {len(names) - MOST_TOLD} more" if len(names) > MOST_TOLD else ""
    return [
        f"closed      {counted(len(names), 'link')} with traffic {what}: {' '.join(names[:MOST_TOLD])}{more}",
        f"            {to_do}",
    ]
