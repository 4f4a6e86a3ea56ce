"""What `ltm totals N` writes: cumulative counts of links and origins at every N-th boundary, and at the last."""
from __future__ import annotations

from collections.abc import Iterable, Iterator
from typing import NamedTuple

from ..errors import Fault
from .counts import Counts, counts_of

WORDS = {b"link": (b"entered ", b" left "), b"origin": (b"departed ", b"")}
"""What stands before the counts of a line, and between the first and the second of them."""


class Told(NamedTuple):
    """A line: `link` or `origin`, its name, and its counts: what has entered a link and what has left it, or what has
    left an origin."""

    kind: str
    name: str
    counts: list[Counts]


class Written(NamedTuple):
    """A line as it is written: its counts are texts."""

    kind: str
    name: str
    texts: list[bytes]


def written_totals(lines: Iterable[bytes], boundaries: int) -> Iterator[Written]:
    """The lines, each with as many numbers as there are boundaries; a Fault where one is none."""
    for line in lines:
        kind, _, rest = line.rstrip(b"\n").partition(b" ")
        name, _, rest = rest.partition(b" ")
        before, between = WORDS.get(kind, (b"", b""))
        texts = rest[len(before) :].split(between) if between else [rest[len(before) :]]
        whole = all(text.count(b" ") == boundaries - 1 for text in texts)
        if not before or not rest.startswith(before) or len(texts) != 1 + bool(between) or not whole:
            raise none_of(line, boundaries)
        yield Written(kind.decode(), name.decode(), texts)


def told_totals(lines: Iterable[bytes], boundaries: int) -> Iterator[Told]:
    """The lines with the counts of so many boundaries each; a Fault where one is none."""
    for kind, name, texts in written_totals(lines, boundaries):
        found = [counts_of(text) for text in texts]
        if not all(counts is not None and len(counts) == boundaries for counts in found):
            raise none_of(f"{kind} {name}".encode(), boundaries)
        yield Told(kind, name, found)


def none_of(line: bytes, boundaries: int) -> Fault:
    """What is wrong with a line that tells no counts."""
    return Fault(f"the program writes {line[:60]!r}, which is no line of {boundaries} counts")
