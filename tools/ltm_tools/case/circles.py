"""Circles in the splits of a case: traffic for a destination that is sent round."""
from collections.abc import Iterable, Mapping
from dataclasses import dataclass
from graphlib import CycleError, TopologicalSorter

from .case import Case
from .rows import Split


@dataclass(slots=True)
class Circle:
    """Links that send traffic for a destination round, from a slot on; each begins where the one before ended."""

    destination: str
    from_slot: int
    links: list[str]


def find_circles(case: Case) -> list[Circle]:
    """One circle for each destination that has some, the earliest, in the order of destinations."""
    heads = {link.name: link.head for link in case.links}
    by_end: dict[str, list[Split]] = {end: [] for end in case.destinations}
    for split in case.standing_splits():
        by_end[split.destination].append(split)
    found = (first_circle(end, rows, heads) for end, rows in by_end.items())
    return [circle for circle in found if circle is not None]


def first_circle(destination: str, rows: list[Split], heads: Mapping[str, str]) -> Circle | None:
    """The earliest circle in the rows of a destination that are in force together."""
    if circle_in(_all_turns(rows, heads)) is None:
        return None
    turns: dict[str, dict[str, str]] = {}
    by_slot: dict[int, list[Split]] = {}
    for row in rows:
        by_slot.setdefault(row.from_slot, []).append(row)
    for slot in sorted(by_slot):
        for row in by_slot[slot]:
            turns[row.node] = _turns(row, heads)
        links = circle_in(turns)
        if links is not None:
            return Circle(destination, slot, links)
    return None


def _turns(row: Split, heads: Mapping[str, str]) -> dict[str, str]:
    """The links of a row that take some of its traffic, by the node to which each leads."""
    return {heads[name]: name for name, weight in row.weights.items() if weight}


def _all_turns(rows: Iterable[Split], heads: Mapping[str, str]) -> dict[str, dict[str, str]]:
    """The same of all rows of each node, whenever they are in force."""
    turns: dict[str, dict[str, str]] = {}
    for row in rows:
        turns.setdefault(row.node, {}).update(_turns(row, heads))
    return turns


def circle_in(turns: Mapping[str, Mapping[str, str]]) -> list[str] | None:
    """The links of a circle, where there is one."""
    try:
        TopologicalSorter({node: list(links) for node, links in turns.items()}).prepare()
    except CycleError as error:
        nodes = error.args[1][::-1]  # the sorter names each node before the one that leads to it
        return [turns[tail][head] for tail, head in zip(nodes, nodes[1:])]
    return None
