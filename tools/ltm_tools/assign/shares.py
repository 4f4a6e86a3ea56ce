"""Shares of links by destination and span of slots, as whole weights that sum to `WHOLE` at each node.

They are arrays `[spans, L, D]`, links in the order of a `Net`. The rows of a node and a destination say the same for
a case: one where the weights change.
"""
from __future__ import annotations

from collections.abc import Iterable, Mapping, Sequence
from dataclasses import dataclass
from typing import Protocol

import numpy

from ..case import Split
from ..case.writing import split_line
from ..errors import Fault
from ..formats import weights_or_none
from .net import FAR, WHOLE, Net, Real, Whole
from .spans import Spans

Pair = tuple[str, str]  # a node and a destination
PairRows = list[tuple[int, dict[str, int]]]  # the first slot of each row, and its weights


class Shares(Protocol):
    """Split rows, as engines are told them."""

    def rows(self) -> dict[Pair, PairRows]:
        """The rows of each pair."""

    def lines(self) -> list[bytes]:
        """The same as lines of `splits.csv` in the same order, in as many pieces as they are made in."""


@dataclass(frozen=True)
class RowShares:
    """Shares that are kept as rows."""

    of_pairs: dict[Pair, PairRows]

    def rows(self) -> dict[Pair, PairRows]:
        return self.of_pairs

    def lines(self) -> list[bytes]:
        return [lines_of(self.of_pairs)]


@dataclass(frozen=True)
class LineShares:
    """Shares that are kept as lines, in a tenth of the memory."""

    pieces: list[bytes]

    def rows(self) -> dict[Pair, PairRows]:
        found: dict[Pair, PairRows] = {}
        for line in b"".join(self.pieces).decode().splitlines():
            node, end, slot, text = line.split(",")
            weights = weights_or_none(text)
            assert weights is not None, "these are lines that have been written here"
            found.setdefault((node, end), []).append((int(slot), weights))
        return found

    def lines(self) -> list[bytes]:
        return self.pieces


def rounded(net: Net, shares: Real) -> Whole:
    """Shares that sum to 1 at each node with a way, as whole weights: each rounded down, and what is left goes to those
    with the largest remainders, the first of several. `[.., L, D]`"""
    wanted = shares * WHOLE
    down = numpy.floor(wanted + 1e-9)
    rest = wanted - down
    whole = down.astype(numpy.int64)
    left = (WHOLE * net.routed - net.sum_of(whole))[..., net.group, :]
    rank = numpy.zeros(shares.shape, dtype=numpy.int64)
    for start, end in zip(net.layers, net.layers[1:]):  # how many links of the node come before this one
        for other, stop in zip(net.layers, net.layers[1:]):
            both = min(end - start, stop - other)
            mine, its = rest[..., start : start + both, :], rest[..., other : other + both, :]
            rank[..., start : start + both, :] += (its > mine) | ((its == mine) & (other < start))
    found: Whole = numpy.where(net.leads, whole + (rank < left), 0)
    return found


def free_flow(net: Net) -> Real:
    """The shares of routes of least free-flow time, equal among several links, `[L, D]`."""
    fits = (net.free[:, None] + net.free_time[net.head] == net.free_time[net.tail]) & net.leads
    count = numpy.maximum(net.sum_of(fits.astype(numpy.int64)), 1)[net.group]
    found: Real = fits / count
    return found


def of_splits(net: Net, splits: Iterable[Split], spans: Spans) -> Whole:
    """The weights of split rows: of each span those in force in its first slot, and of free-flow routes where a node
    has none. A row counts as far as its links lead to the destination."""
    found: Whole = numpy.repeat(rounded(net, free_flow(net))[None], len(spans), axis=0)
    end = {name: place for place, name in enumerate(net.end_names)}
    group = dict(zip((net.node_names[node] for node in net.tails.tolist()), range(len(net.tails))))
    for row in sorted(splits, key=lambda row: row.from_slot):
        if row.destination not in end:
            continue
        links = net.links_of(group[row.node])
        shares = numpy.array([row.weights.get(net.names[link], 0) for link in links], dtype=numpy.float64)
        shares *= net.leads[links, end[row.destination]]
        if shares.any():
            first = int(numpy.searchsorted(spans.starts, row.from_slot))
            found[first:, links, end[row.destination]] = in_whole(shares)
    return found


def in_whole(weights: Real) -> Whole:
    """The weights of one row as whole ones that come to `WHOLE`."""
    wanted = weights * WHOLE / float(sum(weights.tolist()))
    whole: Whole = numpy.floor(wanted + 1e-9).astype(numpy.int64)
    for place in numpy.argsort(whole - wanted, kind="stable")[: WHOLE - int(whole.sum())]:
        whole[place] += 1
    return whole


def rows_of(net: Net, weights: Whole, starts: Sequence[int]) -> dict[Pair, PairRows]:
    """The split rows of each node with a way to a destination, in the order of destinations, by the slots at which
    spans begin."""
    changes = numpy.ones((len(weights), *net.routed.shape), dtype=bool)
    changes[1:] = net.some_of(weights[1:] != weights[:-1])
    ends, groups, spans = (changes & net.routed).transpose(2, 1, 0).nonzero()
    columns = []
    for start, stop in zip(net.layers, net.layers[1:]):
        has = groups < stop - start
        column = numpy.zeros(len(groups), dtype=weights.dtype)
        column[has] = weights[spans[has], groups[has] + start, ends[has]]
        columns.append(column.tolist())
    names = [[net.names[link] for link in net.links_of(group)] for group in range(len(net.tails))]
    nodes = [net.node_names[node] for node in net.tails.tolist()]
    found: dict[Pair, PairRows] = {}
    last, rows = (-1, -1), []
    for end, group, span, *row in zip(ends.tolist(), groups.tolist(), spans.tolist(), *columns):
        if (end, group) != last:
            last, rows = (end, group), found.setdefault((nodes[group], net.end_names[end]), [])
        rows.append((starts[span], {name: weight for name, weight in zip(names[group], row) if weight}))
    return found


def split_rows(rows: dict[Pair, PairRows]) -> list[Split]:
    """The same as rows of a case."""
    return [Split(node, end, slot, weights) for (node, end), of_pair in rows.items() for slot, weights in of_pair]


def lines_of(rows: dict[Pair, PairRows]) -> bytes:
    """The same as lines of `splits.csv`."""
    return "".join(f"{split_line(row)}\n" for row in split_rows(rows)).encode()


def check_ways(net: Net) -> None:
    """A Fault where no way leads from an origin to one of its destinations."""
    lost = [
        f"{net.node_names[node]} to {row.destination}"
        for node, rows in net.origins.items()
        for row in rows
        if net.free_time[node, net.end_names.index(row.destination)] >= FAR
    ]
    if lost:
        names = list(dict.fromkeys(lost))
        more = f" and {len(names) - 3} others" if len(names) > 3 else ""
        raise Fault(f"no links lead from {', from '.join(names[:3])}{more}: add a link, or take the demand out")


def with_last(weights: Whole, last: int) -> Whole:
    """The weights with those of a span for all behind it, in which nothing flows."""
    found = weights.copy()
    found[last + 1 :] = found[last]
    return found


def total_rows(rows: Mapping[Pair, PairRows]) -> int:
    """How many rows these are."""
    return sum(map(len, rows.values()))
