"""The answers of a session as numbers. Amounts are thousandths of a vehicle, vehicle times thousandths of a vehicle
times ms, and boundaries are counted from 0, the beginning of slot 0, up to the number of slots of the loading that is
shown."""
from __future__ import annotations

from collections.abc import Mapping, Sequence
from typing import TYPE_CHECKING, NamedTuple, TypeVar

from ..errors import Fault
from ..formats import told_time, told_units

if TYPE_CHECKING:
    from .delay import Delay, Wait

Value = TypeVar("Value")


class Settled(NamedTuple):
    """What a settle tells: the accepted batches, and how many pairs of node and slot were worked out anew."""

    version: int
    recomputed: int


class Totals(NamedTuple):
    """The totals at the end of the horizon, in thousandths of a vehicle."""

    version: int
    generated: int
    arrived: int
    on_links: int
    waiting: int


class Sampled(NamedTuple):
    """All links and origins by the boundaries `every`, 2 `every`, .. and by the last, in thousandths of a vehicle: of
    each link, in the order of `links.csv`, what has entered and left it; of each node, in order of number, what has
    left its origin, 0 where it is no origin."""

    version: int
    every: int
    entered: Mapping[str, Sequence[int]]
    left: Mapping[str, Sequence[int]]
    departed: Mapping[str, Sequence[int]]


class LinkTotals(NamedTuple):
    """What has entered and left a link by the end of the horizon, in thousandths of a vehicle."""

    version: int
    entered: int
    left: int


class LinkTime(NamedTuple):
    """How long a link takes whoever enters in a slot, in ms; None where those before have not left by the end."""

    version: int
    ms: int | None


class Delays(NamedTuple):
    """Vehicle time in thousandths of a vehicle times ms: of all, in queues of links, and waited at origins (see the
    module `delay`)."""

    version: int
    spent: int
    queued: int
    waited: int


class LinkQueue(NamedTuple):
    """What has entered and left a link by a boundary, and its queue then, in thousandths of a vehicle."""

    version: int
    entered: int
    left: int
    queue: int


class OriginQueue(NamedTuple):
    """What the demand of a node has produced by a boundary, what has left it, and what waits then, in thousandths of a
    vehicle."""

    version: int
    produced: int
    left: int
    waiting: int


class State(NamedTuple):
    """All links and origins at a boundary, in thousandths of a vehicle: of each link, in the order of `links.csv`, what
    has entered and left it and its queue; of each node, in order of number, what waits there, 0 where it is no
    origin."""

    version: int
    slot: int
    entered: Mapping[str, int]
    left: Mapping[str, int]
    queue: Mapping[str, int]
    waiting: Mapping[str, int]


class LinkCurve(NamedTuple):
    """What has entered and left a link by each boundary, in thousandths of a vehicle."""

    version: int
    entered: Sequence[int]
    left: Sequence[int]


class OriginCurve(NamedTuple):
    """What the demand of a node has produced by each boundary and what has left it, in thousandths of a vehicle; 0
    where it is no origin."""

    version: int
    produced: Sequence[int]
    left: Sequence[int]


class AllDelays(NamedTuple):
    """Vehicle times as of `Delays`, and with them those of each link, in the order of `links.csv`, and of each node, in
    order of number; a node that is no origin has a wait of 0."""

    version: int
    spent: int
    queued: int
    waited: int
    links: Mapping[str, Delay]
    nodes: Mapping[str, Wait]


class Gap(NamedTuple):
    """The total travel time and an estimate of it on the fastest routes at the link times of the loading, in
    thousandths of a vehicle times ms; the first less the second, which may be below 0; and the vehicles that no route
    brings to their destination by the end, in thousandths."""

    version: int
    spent: int
    least: int
    gap: int
    late: int


class Names(NamedTuple):
    """The links of a case in the order of `links.csv`, and its nodes in order of number. No edit changes them."""

    links: Sequence[str]
    nodes: Sequence[str]


def totals_of(words: Sequence[str]) -> Totals:
    """The answer to `totals`."""
    return Totals(int(words[1]), *(told_units(words[place]) for place in (3, 5, 7, 9)))


def sampled_of(words: Sequence[str], names: Names) -> Sampled:
    """The answer to `totals` with a member `every`."""
    entered, left, departed = answer_parts(words, 4, "in", "out", "departed")
    links, nodes = names
    return Sampled(
        int(words[1]), int(words[3]), by_name(links, entered), by_name(links, left), by_name(nodes, departed)
    )


def state_of(words: Sequence[str], names: Names) -> State:
    """The answer to `state`."""
    entered, left, queue, waiting = (
        list(map(int, part)) for part in answer_parts(words, 4, "in", "out", "queue", "waiting")
    )
    return State(
        int(words[1]),
        int(words[3]),
        named(names.links, entered),
        named(names.links, left),
        named(names.links, queue),
        named(names.nodes, waiting),
    )


def link_curve_of(words: Sequence[str]) -> LinkCurve:
    """The answer to `curve`."""
    entered, left = (tuple(map(int, part)) for part in answer_parts(words, 4, "in", "out"))
    return LinkCurve(int(words[1]), entered, left)


def origin_curve_of(words: Sequence[str]) -> OriginCurve:
    """The answer to `departures`."""
    produced, left = (tuple(map(int, part)) for part in answer_parts(words, 4, "produced", "left"))
    return OriginCurve(int(words[1]), produced, left)


def all_delays_of(words: Sequence[str], names: Names) -> AllDelays:
    """The answer to `delays`."""
    from .delay import Delay, Wait

    links, nodes = answer_parts(words, 8, "links", "nodes")
    delays = [
        Delay(told_time(spent), told_time(queued), told_units(most), int(at))
        for spent, queued, most, at in in_groups(links, 4)
    ]
    waits = [Wait(told_time(waited), told_units(most), int(at)) for waited, most, at in in_groups(nodes, 3)]
    spent, queued, waited = (told_time(words[place]) for place in (3, 5, 7))
    return AllDelays(int(words[1]), spent, queued, waited, named(names.links, delays), named(names.nodes, waits))


def gap_of(words: Sequence[str]) -> Gap:
    """The answer to `gap`."""
    spent, least, gap = (told_time(words[place].removeprefix("-")) for place in (3, 5, 7))
    return Gap(int(words[1]), spent, least, -gap if words[7].startswith("-") else gap, told_units(words[9]))


def both_texts(answer: bytes, word: bytes) -> tuple[bytes, bytes]:
    """The texts of both rows of counts of an answer to `curve` or `departures`, the second behind a word, which the
    name in front may be too."""
    front, _, second = answer.rpartition(b" " + word + b" ")
    return b" ".join(front.split(b" ", 5)[5:]), second


def answer_parts(words: Sequence[str], place: int, *names: str) -> list[Sequence[str]]:
    """What stands behind each of these words, which follow one another from a place on; a Fault where they do not."""
    try:
        places = [place]
        for name in names[1:]:
            places.append(words.index(name, places[-1] + 1))
    except ValueError:
        places = []
    if not places or words[place : place + 1] != [names[0]]:
        raise Fault(f"the answer {' '.join(words[:8])!r} has not the parts {', '.join(names)}")
    return [words[start + 1 : end] for start, end in zip(places, (*places[1:], len(words)))]


def named(names: Sequence[str], values: Sequence[Value]) -> dict[str, Value]:
    """A value for each name; a Fault where they are not as many."""
    if len(names) != len(values):
        raise Fault(
            f"the answer tells of {len(values)}, and the case has {len(names)}: its files are no longer those"
            f" the session began with"
        )
    return dict(zip(names, values))


def by_name(names: Sequence[str], words: Sequence[str]) -> dict[str, tuple[int, ...]]:
    """As many numbers for each name as for any other; a Fault where they are not as many."""
    many = max(1, len(words) // max(1, len(names)))
    return named(names, [tuple(map(int, group)) for group in in_groups(words, many)])


def in_groups(values: Sequence[str], size: int) -> list[Sequence[str]]:
    """Values in groups of a size, the last of which may be smaller."""
    return [values[place : place + size] for place in range(0, len(values), size)]
