"""Counts of a curve at each boundary: numpy arrays of int64 where numpy is installed, and else lists of int."""
from __future__ import annotations

from collections.abc import Sequence
from typing import Any

try:
    import numpy
except ImportError:
    numpy = None  # type: ignore[assignment]

Counts = Any  # list[int], or an array of int64
DIGITS_AND_SPACE = b"0123456789 "
COUNT_DIGITS = 15


def zeros(boundaries: int) -> Counts:
    """A curve that counts nothing."""
    return numpy.zeros(boundaries, dtype=numpy.int64) if numpy is not None else [0] * boundaries


def less(one: Counts, other: Counts) -> Counts:
    """One curve less another, boundary by boundary."""
    return one - other if is_numpy(one) else [a - b for a, b in zip(one, other)]


def total(curves: Sequence[Counts]) -> Counts:
    """The sum of curves, boundary by boundary."""
    if len(curves) == 1:
        return curves[0]
    return sum(curves) if is_numpy(curves[0]) else [sum(counts) for counts in zip(*curves)]


def greatest(counts: Counts) -> int:
    """The greatest count."""
    return int(counts.max() if is_numpy(counts) else max(counts))


def is_numpy(counts: Counts) -> bool:
    """Whether these counts are a numpy array, and not a list."""
    return numpy is not None and isinstance(counts, numpy.ndarray)


def float_vehicles(counts: Counts) -> Counts:
    """Counts in vehicles, for a picture: floating point, never for a result."""
    return counts / 1000 if is_numpy(counts) else [count / 1000 for count in counts]


def as_list(counts: Counts) -> list[int]:
    """Counts as a list of int."""
    return counts if isinstance(counts, list) else list(counts.tolist())


def as_counts(units: list[int]) -> Counts:
    """A list of int as counts."""
    return units if numpy is None else numpy.array(units, dtype=numpy.int64)


def counts_of(text: bytes) -> Counts | None:
    """The counts of a field, or None where one is no row of at most 15 digits."""
    if text.translate(None, DIGITS_AND_SPACE):
        return None
    if numpy is not None and text:
        counts = numpy.fromstring(text, dtype=numpy.int64, sep=" ")
        return counts if len(counts) == text.count(b" ") + 1 else None
    words = text.split(b" ")
    return [int(word) for word in words] if all(0 < len(word) <= COUNT_DIGITS for word in words) else None
