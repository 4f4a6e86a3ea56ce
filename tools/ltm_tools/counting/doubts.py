"""What is suspicious about counts beside a loading, and told before the fit: nothing of it is refused."""
from __future__ import annotations

from collections.abc import Iterator, Sequence
from fractions import Fraction

from ..case import Case
from ..formats import clock_text, short_vehicles
from ..listing import rounded
from ..loading import delay
from ..loading.curves import Curves
from ..loading.flows import Span
from .counts import Count, root_of
from .validating import Hour, Met, hours_of

MOST_TOLD = 5  # lines of one kind
LATE_PART = 100  # one in so many that stand in queues at the end is told
ERRORS = 3  # by how many errors places are to contradict each other


def doubts(met: Sequence[Met], case: Case, curves: Curves, start: int) -> list[str]:
    """A line for each thing that is suspicious, few of each kind."""
    kinds = (
        above_capacity(met, case),
        nobody_passes(met, curves),
        contradictions(met, case, start),
        still_queued(case, curves),
        empty_roads(met, start),
    )
    return [line for kind in kinds for line in first_of(list(kind))]


def first_of(lines: Sequence[str]) -> list[str]:
    """The first lines of a kind, and how many more there are."""
    more = len(lines) - MOST_TOLD
    return [*lines[:MOST_TOLD], *([f"and {more} more such counts"] if more > 0 else [])]


class Bounds:
    """What may pass each link, by its capacity and limits."""

    def __init__(self, case: Case) -> None:
        self.step, self.slots = case.setup.step_ms, case.setup.slots
        self.links = {link.name: link for link in case.links}
        self.limits: dict[tuple[str, bool], dict[int, int]] = {}
        for is_exit, rows in ((False, case.limits), (True, case.signals)):
            for row in rows:
                of = self.limits.setdefault((row.link, is_exit), {})
                of.update(dict.fromkeys(range(row.from_slot, row.to_slot), row.units))

    def most(self, name: str, is_exit: bool, span: Span) -> int:
        """The units that may pass an end of a link in a span, or a little more."""
        capacity, limits = self.links[name].capacity(self.step), self.limits.get((name, is_exit), {})
        slots = range(span.begin // self.step, -(-span.end // self.step))
        return sum(min(capacity, limits.get(slot, capacity)) for slot in slots)


def above_capacity(met: Sequence[Met], case: Case) -> Iterator[str]:
    """Counts that cannot pass."""
    bounds = Bounds(case)
    for one in met:
        most = sum(bounds.most(point.link, point.is_exit, one.count.span) for point in one.count.points)
        if one.count.units > most:
            yield (
                f"{one.count.row}: {thousandths_text(one.count.vehicles)} vehicles were counted at {one.count.name},"
                f" and no more than {short_vehicles(most)} can pass there in that time: see its capacity, lanes and"
                " limits"
            )


def nobody_passes(met: Sequence[Met], curves: Curves) -> Iterator[str]:
    """Places that are counted and that no vehicle of this demand passes."""
    seen = set()
    for one in met:
        if one.count.name in seen or not one.count.vehicles:
            continue
        seen.add(one.count.name)
        if all(int(curves.up(point.link)[-1]) == 0 for point in one.count.points):
            yield (
                f"{one.count.row}: no vehicle of this demand passes {one.count.name}, where"
                f" {thousandths_text(one.count.vehicles)} were counted: routes or demand are missing"
            )


def contradictions(met: Sequence[Met], case: Case, start: int) -> Iterator[str]:
    """Nodes at which nobody sets out, out of which more was counted in an hour than came to them."""
    hours: dict[tuple[str, Span], Hour] = {}
    simple = [one for one in met if len(one.count.points) == 1 and one.count.points[0].metres is None]
    for hour in hours_of(simple):
        hours[hour.name, hour.span] = hour
    links = {one.count.name: one.count.points[0].link for one in simple}
    by_link = {(links[name], span): hour.vehicles for (name, span), hour in hours.items()}
    origins = {row.origin for row in case.standing_demand()}
    for node in case.nodes:
        ins, outs = case.in_links(node), case.out_links(node)
        if node in origins or not ins or not outs:
            continue
        for span in sorted({span for _, span in by_link}):
            came = [by_link.get((link.name, span)) for link in ins]
            went = [by_link[link.name, span] for link in outs if (link.name, span) in by_link]
            if not went or any(one is None for one in came):
                continue
            entered, left = sum((one for one in came if one is not None), Fraction(0)), sum(went, Fraction(0))
            error = root_of(sum((square_of(one) for one in (*went, *came) if one is not None), Fraction(0)))
            stored = Fraction(sum(link.storage_units for link in ins), 1000)
            if left > entered + ERRORS * error + stored:
                yield (
                    f"out of node {node} {thousandths_text(left)} vehicles were counted from"
                    f" {clock_text(start + span.begin)} to {clock_text(start + span.end)}, and"
                    f" {thousandths_text(entered)} into it, where nobody sets out"
                )


def square_of(vehicles: Fraction) -> Fraction:
    """The square of the error of a count of whom nothing else is known."""
    return Count("", (), Span(0, 1), vehicles, None, "", "").square


def still_queued(case: Case, curves: Curves) -> Iterator[str]:
    """A loading that ends while many stand in queues, or wait at their origins."""
    produced = sum(row.units for row in case.standing_demand())
    late = sum(int(delay.queue(curves, link)[-1]) for link in case.links)
    late += produced - sum(int(curves.departed(node)[-1]) for node in delay.demand_by_origin(case))
    if late * LATE_PART > produced:
        share = rounded(100 * late, produced, 1)
        yield (
            f"{short_vehicles(late)} vehicles ({share} %) still stand in queues at the end: the horizon is short, or"
            f" they are in a gridlock, in which counts mean little"
        )


def empty_roads(met: Sequence[Met], start: int) -> Iterator[str]:
    """Counts that begin with the loading, on empty roads."""
    first = next((one for one in met if one.count.span.begin == 0 and one.count.vehicles), None)
    if first is not None:
        yield (
            f"{first.count.row}: counts begin at {clock_text(start)}, when the loading begins on empty roads; let the"
            f" case begin some minutes before them"
        )


def thousandths_text(vehicles: Fraction) -> str:
    """Vehicles as a text, to the nearest thousandth."""
    return format(rounded(vehicles.numerator, vehicles.denominator, 3).normalize(), "f")
