"""How long a path takes, by departure."""
from __future__ import annotations

from bisect import bisect_left
from collections.abc import Iterable, Iterator, Sequence
from typing import NamedTuple

from ..case import Case, Link
from ..errors import Fault
from . import delay
from .counts import as_list
from .curves import Curves


class TripTimes(NamedTuple):
    """A departure, in ms since the start of slot 0; the wait at the origin and the time on each link in ms, up to the
    first that is not left by the end of the horizon, which is None."""

    departs: int
    parts: list[int | None]

    @property
    def total(self) -> int | None:
        """The time from departure to the end of the path, where that comes before the horizon ends."""
        return None if None in self.parts else sum(part for part in self.parts if part is not None)


def at(counts: Sequence[int], step_ms: int, moment: int) -> int:
    """A count at a moment up to the end of the horizon, interpolated between boundaries and rounded down."""
    k, part = divmod(moment, step_ms)
    return counts[k] if part == 0 else counts[k] + (counts[k + 1] - counts[k]) * part // step_ms


def first_moment(counts: Sequence[int], step_ms: int, count: int) -> int | None:
    """The first moment in ms at which a curve that never falls has so much; None where it does not come to that."""
    k = bisect_left(counts, count)
    if k == len(counts):
        return None
    if k == 0:
        return 0
    below, above = counts[k - 1], counts[k]
    return (k - 1) * step_ms + -(-(count - below) * step_ms // (above - below))


class Trips:
    """Links one behind the other, of each what has entered and left it by each boundary, and what has been produced at
    the first node and what has left it."""

    def __init__(
        self,
        links: Sequence[Link],
        step_ms: int,
        curves: Sequence[tuple[Sequence[int], Sequence[int]]],
        produced: Sequence[int],
        departed: Sequence[int],
    ) -> None:
        self.links, self.step_ms, self.curves = links, step_ms, curves
        self.end = step_ms * (len(produced) - 1)
        self.produced, self.departed = produced, departed

    @property
    def free_ms(self) -> int:
        """The time of the path on empty roads."""
        return sum(link.free_ms for link in self.links)

    def trip(self, departs: int) -> TripTimes:
        """The trip of whoever departs at a moment, in ms."""
        leaves = first_moment(self.departed, self.step_ms, at(self.produced, self.step_ms, departs))
        if leaves is None:
            return TripTimes(departs, [None])
        parts: list[int | None] = [max(0, leaves - departs)]
        moment = departs + max(0, leaves - departs)
        for link, (up, down) in zip(self.links, self.curves):
            took = self.passing(link, up, down, moment)
            parts.append(took)
            if took is None:
                break
            moment += took
        return TripTimes(departs, parts)

    def passing(self, link: Link, up: Sequence[int], down: Sequence[int], moment: int) -> int | None:
        """How long a link takes whoever enters it at a moment."""
        if moment > self.end:
            return None
        leaves = first_moment(down, self.step_ms, at(up, self.step_ms, moment))
        return None if leaves is None else max(link.free_ms, leaves - moment)

    def trips(self, every_ms: int) -> Iterator[TripTimes]:
        """The trips of departures at every so many ms, from the first slot's beginning on, and before the end."""
        return (self.trip(moment) for moment in range(0, self.end, every_ms))


class Path(Trips):
    """A path of links with the curves along it, and what its first node's demand has produced."""

    def __init__(self, curves: Curves, case: Case, names: Sequence[str], wait: bool = True) -> None:
        links = path_links(case.links, names)
        node = links[0].tail
        rows = delay.demand_by_origin(case).get(node, []) if wait else []
        produced = as_list(delay.produced(rows, curves.boundaries))
        along = [(as_list(up), as_list(down)) for up, down in (delay.checked_curves(curves, link) for link in links)]
        super().__init__(links, curves.step_ms, along, produced, as_list(curves.departed(node)) if wait else produced)


def path_links(links: Iterable[Link], names: Sequence[str]) -> list[Link]:
    """Of links those of a path by name; a Fault where one does not begin where the one before it ends."""
    by_name = {link.name: link for link in links}
    for name in names:
        if name not in by_name:
            raise Fault(f"the case has no link {name}")
    path = [by_name[name] for name in names]
    for one, after in zip(path, path[1:]):
        if one.head != after.tail:
            raise Fault(f"{after.name} begins at {after.tail}, and {one.name} ends at {one.head}")
    return path
