"""What a loading counts where vehicles were counted, and how long it takes where times were measured."""
from __future__ import annotations

from collections.abc import Callable, Sequence
from fractions import Fraction

from ..case import Case, Link
from ..errors import Fault
from ..formats import UNITS
from ..loading.curves import Curves
from ..loading.flows import Passings
from ..loading.times import Path
from ..case.source import path_named
from .counts import Count, Point, Timed

Passed = Callable[[str, bool, int], int]
"""What has entered a link, or left it (True), by a moment in ms, in units; nothing has before slot 0."""


def modelled_units(count: Count, links: dict[str, Link], passed: Passed) -> int:
    """What a loading counts at the place of a count in its span, in units."""
    return sum(by(point, count.span.end, links, passed) for point in count.points) - sum(
        by(point, count.span.begin, links, passed) for point in count.points
    )


def by(point: Point, moment: int, links: dict[str, Link], passed: Passed) -> int:
    """What has passed a point by a moment. Between the ends of a link that is the least of what can have come from its
    entry in free flow, and of what its exit has made room for (Newell), rounded down."""
    if point.metres is None:
        return passed(point.link, point.is_exit, moment)
    link = links[point.link]
    rest = link.length_m - point.metres
    from_entry = moment - -(-point.metres * 3600 // link.free_kmh)
    from_exit = moment - -(-rest * 3600 // link.wave_kmh)
    room = rest * link.jam_per_km
    ahead = passed(point.link, False, max(0, from_entry))
    behind = passed(point.link, True, max(0, from_exit)) + room.numerator // room.denominator
    return min(ahead, behind)


def of_passings(passings: Passings) -> Passed:
    """What has passed, by the curves of a loading."""
    return lambda name, is_exit, moment: passings.of(name)[is_exit].at(moment)


def all_counted(counts: Sequence[Count], curves: Curves, case: Case) -> list[int]:
    """What a loading counts at each count, in units."""
    passings = Passings(curves, case)
    passed = of_passings(passings)
    return [modelled_units(count, passings.links, passed) for count in counts]


def all_timed(times: Sequence[Timed], curves: Curves, case: Case, folder: str) -> list[Fraction | None]:
    """How long each measured route takes in a loading, in seconds; None where that is not before the end."""
    paths: dict[tuple[str, ...], Path] = {}
    found = []
    for timed in times:
        if timed.links not in paths:
            try:
                paths[timed.links] = Path(curves, case, path_named(folder, case.links, timed.links), wait=False)
            except Fault as fault:
                raise Fault(f"{timed.row}: {fault}") from None
        total = paths[timed.links].trip(timed.departs).total
        found.append(None if total is None else Fraction(total, UNITS))
    return found
