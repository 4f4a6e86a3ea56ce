"""What a map draws of a boundary: queues and vehicles of all links and who waits at all nodes, beside the base.

A frame is a row of 64 bit floating point numbers, the lower bytes first, which hold these whole numbers exactly: the
revision and the boundary, then of each link the queue and the vehicles on it and of each node those who wait there, all
in thousandths of a vehicle; then the same of the base. Where a browser asks for it, there follows of each link what has
left it since an earlier boundary, now and in the base.
"""
from __future__ import annotations

import sys
from array import array
from collections.abc import Iterable, Sequence
from typing import NamedTuple

from ..loading.answers import answer_parts

MOST_BYTES = 64 << 20  # of frames that are kept


class Boundary(NamedTuple):
    """All links and nodes at a boundary, in thousandths of a vehicle: of the links, in order, what has entered and left
    each and its queue, and who waits at each node."""

    entered: array[int]
    left: array[int]
    queue: array[int]
    waiting: array[int]

    def numbers(self) -> Iterable[float]:
        """Queues, vehicles on the links, and who waits."""
        yield from self.queue
        yield from (entered - left for entered, left in zip(self.entered, self.left))
        yield from self.waiting


def boundary_of(words: Sequence[str]) -> Boundary:
    """The answer to `state`. What passes or stands on a link in a horizon fits in 32 bits, who waits may not."""
    entered, left, queue, waiting = answer_parts(words, 4, "in", "out", "queue", "waiting")
    return Boundary(
        array("I", map(int, entered)),
        array("I", map(int, left)),
        array("I", map(int, queue)),
        array("Q", map(int, waiting)),
    )


class BaseLoading:
    """The loading of the case itself, boundary by boundary as they are asked for in order, and the curves of its
    origins."""

    def __init__(self) -> None:
        self.at: list[Boundary] = []
        self.departures: dict[str, tuple[Sequence[int], Sequence[int]]] = {}

    def link(self, place: int) -> tuple[list[int], list[int]]:
        """What has entered and left a link by each boundary."""
        return [one.entered[place] for one in self.at], [one.left[place] for one in self.at]


def frame(
    revision: int, boundary: int, now: Boundary, base: Boundary, before: tuple[Boundary, Boundary] | None = None
) -> bytes:
    """The bytes of a frame; with what has left the links since an earlier boundary, now and in the base, if told."""
    numbers = array("d", (revision, boundary))
    numbers.extend(now.numbers())
    numbers.extend(base.numbers())
    for here, earlier in zip((now, base), before or ()):
        numbers.extend(left - was for left, was in zip(here.left, earlier.left))
    if sys.byteorder == "big":
        numbers.byteswap()
    return numbers.tobytes()


class Kept:
    """The frames that were made last, up to so many bytes."""

    def __init__(self, most: int = MOST_BYTES) -> None:
        self.most, self.bytes = most, 0
        self.frames: dict[tuple[int, int, int | None], bytes] = {}

    def get(self, revision: int, boundary: int, since: int | None = None) -> bytes | None:
        """The frame of a revision and a boundary, with what has left links since another if told, if it is kept."""
        return self.frames.get((revision, boundary, since))

    def put(self, revision: int, boundary: int, made: bytes, since: int | None = None) -> None:
        """Keeps a frame, and lets go of those of other revisions, and of the oldest ones where they are too many."""
        if any(of != revision for of, *_ in self.frames):
            self.frames, self.bytes = {}, 0
        self.frames[revision, boundary, since] = made
        self.bytes += len(made)
        while self.bytes > self.most and len(self.frames) > 1:
            self.bytes -= len(self.frames.pop(next(iter(self.frames))))
