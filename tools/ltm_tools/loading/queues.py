"""Where queues stand, and when."""
from __future__ import annotations

from collections.abc import Iterator
from typing import NamedTuple

from ..case import Case
from . import delay
from .approaches import Approaches, grouped
from .counts import Counts, is_numpy, less, total
from .curves import Curves

try:
    import numpy
except ImportError:
    numpy = None  # type: ignore[assignment]

LEAST_UNITS = 1000


class Queue(NamedTuple):
    """A queue: of a link or of an origin; its first and last boundary; whether it lasts beyond the horizon; its worst
    in units, with the first boundary that has it; what the link stores, None for an origin; and its delay in units
    times ms."""

    kind: str
    name: str
    first: int
    last: int
    lasts: bool
    worst: int
    at: int
    storage: int | None
    delay: int


def queues(curves: Curves, case: Case, least: int = LEAST_UNITS, approaches: Approaches | None = None) -> list[Queue]:
    """All queues of at least so many units, of links in the order of `links.csv`, those of an approach as one, and then
    of origins by node number."""
    found: list[Queue] = []
    links = {link.name: link for link in case.links}
    for name, names in grouped(links, approaches or {}).items():
        counts = total([delay.queue(curves, links[one]) for one in names])
        found += _queues("link", name, counts, least, sum(links[one].storage_units for one in names), curves.step_ms)
    for node, rows in delay.demand_by_origin(case).items():
        counts = less(delay.produced(rows, curves.boundaries), curves.departed(node))
        found += _queues("origin", node, counts, least, None, curves.step_ms)
    return found


def _queues(kind: str, name: str, counts: Counts, least: int, storage: int | None, step_ms: int) -> Iterator[Queue]:
    for first, last in queue_spans(counts, least):
        part = counts[first : last + 1]
        worst, at = delay.most(part)
        yield Queue(
            kind,
            name,
            first,
            last,
            last == len(counts) - 1,
            worst,
            first + at,
            storage,
            delay.sum_of_counts(part) * step_ms,
        )


def queue_spans(counts: Counts, least: int) -> Iterator[tuple[int, int]]:
    """The first and last boundary of each longest row of counts of at least so much."""
    if is_numpy(counts):
        edges = numpy.flatnonzero(numpy.diff(numpy.concatenate(([0], (counts >= least).astype(numpy.int8), [0]))))
        yield from ((int(first), int(end) - 1) for first, end in zip(edges[::2], edges[1::2]))
        return
    first = None
    for k, count in enumerate([*counts, least - 1]):
        if count >= least and first is None:
            first = k
        elif count < least and first is not None:
            yield first, k - 1
            first = None
