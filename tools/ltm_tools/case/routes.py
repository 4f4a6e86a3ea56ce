"""The free-flow routes of nodes that have no record of splits for a destination (`routes` 1 in `setup.csv`): the rows
that `ltm routes` would write for them."""
from __future__ import annotations

from collections.abc import Iterator
from dataclasses import replace
from typing import TypeVar

from . import bad_case
from .least import least
from .rows import Link, Rows, Split
from .valid import leading_of, rows_of


Case = TypeVar("Case", bound=Rows)


def give_routes(case: Rows) -> None:
    """Adds to the splits of a case a row for each node and destination without one, where a route leads there."""
    assert case.splits is not None
    case.splits += list(missing_routes(case))


def with_routes(case: Case) -> Case:
    """The case with a row of its own for each route that it asks for, beside the case as it stands in its files."""
    if not case.setup.routes or case.splits is None:
        return case
    made = replace(case, splits=[*case.splits])
    give_routes(made)
    return made


def check_split_rows(case: Rows) -> None:
    """BadCase where a case that asks for routes has more split rows with these than may be."""
    rows = split_rows(case)
    if rows > case.setup.most_split_rows:
        raise bad_case.too_many_routes(rows, case.setup)


def split_rows(case: Rows) -> int:
    """How many split rows of a case stand, with those of routes where it asks for them, whether they were made or
    not."""
    return len(case.standing_splits()) + missing_rows(case)


def missing_rows(case: Rows) -> int:
    """How many rows of routes a case lacks that it asks for: one for each destination and each other node from which
    links lead there, without a record."""
    if not case.setup.routes:
        return 0
    leading = leading_of(case)
    there = {(row.node, row.destination) for row in case.splits or ()}
    return rows_of(case, leading) - sum(leading.leads(node, end) for node, end in there)


def missing_routes(case: Rows) -> Iterator[Split]:
    """The rows of routes that a case lacks, in order of destination, then of node: a node shares what is for a
    destination in equal parts over the links with which fastest routes begin."""
    out: dict[str, list[Link]] = {node: [] for node in case.nodes}
    into: dict[str, list[Link]] = {node: [] for node in case.nodes}
    for link in case.links:
        out[link.tail].append(link)
        into[link.head].append(link)
    there = {(row.node, row.destination) for row in case.splits or ()}
    for end in case.destinations:
        times = least(end, 0, lambda node: ((link.tail, link.free_ms) for link in into[node]))
        for node, links in out.items():
            if node != end and node in times and (node, end) not in there:
                begin = [link for link in links if times.get(link.head, times[node]) + link.free_ms == times[node]]
                yield Split(node, end, 0, {link.name: 1 for link in begin})
