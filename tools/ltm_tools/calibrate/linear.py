"""Sums, products and factorisations in a fixed order, so that they have the same last bits on each machine.

Numbers are worked out element by element and added one row after another; no library of linear algebra has a part in
it, as its order of adding differs by machine and by the number of threads.
"""
from __future__ import annotations

import math
from collections.abc import Iterator, Sequence
from itertools import groupby
from random import Random

import numpy

from ..assign.net import Real

BLOCK = 48  # rows or columns that are worked out at a time
SWEEPS = 30  # of rotations, at most; a few are enough
SMALL = 1e-15  # of the greatest: what is taken for 0 beside it
ROUNDS = 4  # of a subspace, until it has the greatest directions


def dot(one: Real, other: Real) -> float:
    """The sum of products, rounded once."""
    return math.fsum((one * other).tolist())


def square(one: Real) -> float:
    """The sum of squares."""
    return dot(one, one)


def summed_rows(rows: Real) -> Real:
    """The sum over the first axis, one row after another."""
    if not len(rows):
        return numpy.zeros(rows.shape[1:])
    return numpy.asarray(numpy.add.accumulate(rows, axis=0)[-1])


def product(matrix: Real, vector: Real) -> Real:
    """A matrix `[m, n]` times a vector `[n]`, or times a matrix `[n, k]`."""
    found = numpy.zeros((len(matrix), *vector.shape[1:]))
    for column, part in zip(numpy.ascontiguousarray(matrix.T), vector):
        found += column * part if vector.ndim == 1 else column[:, None] * part[None, :]
    return found


def gram(matrix: Real) -> Real:
    """A matrix times its transpose. Each entry is a sum over the columns of the matrix in their order; the rows of the
    result are worked out in blocks that stay in a processor's cache, and entries below the diagonal are copied."""
    size, columns = len(matrix), numpy.ascontiguousarray(matrix.T)
    found = numpy.zeros((size, size))
    sparse = (numpy.count_nonzero(columns, axis=1) * 2 < size).tolist()
    for few, first, end in runs(sparse):
        if few:
            for column in columns[first:end]:
                used = numpy.flatnonzero(column)
                part = column[used]
                found[used[:, None], used] += part[:, None] * part
        else:
            for rows in blocks(size):
                add_products(found[rows, rows.start :], columns[first:end, rows], columns[first:end, rows.start :])
    return numpy.triu(found) + numpy.triu(found, 1).T


def runs(kinds: Sequence[bool]) -> Iterator[tuple[bool, int, int]]:
    """Neighbours of one kind: the kind, the first place, and the place behind the last."""
    first = 0
    for kind, some in groupby(kinds):
        end = first + len(list(some))
        yield kind, first, end
        first = end


def blocks(size: int) -> list[slice]:
    """Places from 0 on in blocks."""
    return [slice(first, min(size, first + BLOCK)) for first in range(0, size, BLOCK)]


def add_products(found: Real, left: Real, right: Real, operation: numpy.ufunc = numpy.add) -> None:
    """Adds to a matrix `[m, n]` the outer products of the rows of `left`, `[k, m]`, and `right`, `[k, n]`, one after
    another; or subtracts them."""
    room = numpy.empty(found.shape)
    for one, other in zip(left[:, :, None], right):
        numpy.multiply(one, other, out=room)
        operation(found, room, out=found)


class Factor:
    """The factor L of a positive definite matrix L L'."""

    def __init__(self, matrix: Real) -> None:
        lower = numpy.tril(matrix)
        for some in blocks(len(lower)):
            panel, width = lower[some.start :, some].copy(), some.stop - some.start
            before = numpy.ascontiguousarray(lower[some.start :, : some.start].T)
            add_products(panel, before, before[:, :width], numpy.subtract)
            for k in range(width):
                panel[k, k] = math.sqrt(panel[k, k])
                panel[k + 1 :, k] /= panel[k, k]
                panel[k + 1 :, k + 1 :] -= panel[k + 1 :, k, None] * panel[k + 1 : width, k]
            lower[some.start :, some] = panel
        self.lower = numpy.tril(lower)
        self.upper = numpy.ascontiguousarray(self.lower.T)

    def solve(self, right: Real) -> Real:
        """What the matrix times it is this vector `[n]`, or these columns `[n, k]`."""
        if right.ndim == 1:
            return self.solve(right[:, None])[:, 0]
        found = numpy.empty(right.shape)
        for some in blocks(right.shape[1]):
            found[:, some] = self._solved(right[:, some].T.copy()).T
        return found

    def _solved(self, found: Real) -> Real:
        """The same for some columns, given as rows whose place it takes."""
        for k in range(found.shape[1]):
            found[:, k] /= self.upper[k, k]
            found[:, k + 1 :] -= self.upper[k, k + 1 :] * found[:, k, None]
        for k in range(found.shape[1] - 1, -1, -1):
            found[:, k] /= self.lower[k, k]
            found[:, :k] -= self.lower[k, :k] * found[:, k, None]
        return found


def eigenvectors(matrix: Real) -> tuple[Real, Real]:
    """The eigenvalues of a small symmetric matrix, the greatest first, and its eigenvectors as rows, by rotations of
    two axes at a time (Jacobi)."""
    left, vectors = matrix.copy(), numpy.eye(len(matrix))
    most = float(numpy.abs(left).max()) if left.size else 0.0
    for _ in range(SWEEPS):
        if float(numpy.abs(left - numpy.diag(numpy.diag(left))).max()) <= SMALL * most:
            break
        for p in range(len(left)):
            for q in range(p + 1, len(left)):
                if abs(left[p, q]) > SMALL * most:
                    rotate(left, vectors, p, q)
    values = numpy.diag(left)
    order = sorted(range(len(values)), key=lambda k: (-values[k], k))
    return values[order], vectors[order]


def rotate(left: Real, vectors: Real, p: int, q: int) -> None:
    """Turns two axes so that their common entry becomes 0."""
    slope = (left[q, q] - left[p, p]) / (2 * left[p, q])
    tangent = math.copysign(1.0, slope) / (abs(slope) + math.sqrt(slope * slope + 1))
    cosine = 1 / math.sqrt(tangent * tangent + 1)
    sine = tangent * cosine
    for rows in (left, left.T, vectors):
        one, other = rows[p].copy(), rows[q].copy()
        rows[p], rows[q] = cosine * one - sine * other, sine * one + cosine * other


def directions(matrix: Real, most: int) -> list[Real]:
    """The right singular vectors of a matrix `[m, n]` whose singular values are above 1, the greatest first, at most so
    many: of unit length, with the greatest entry above 0. By iteration on a subspace from a fixed start."""
    number = min(len(matrix), most + 8)
    basis = uniform(Random(0), number * len(matrix)).reshape(number, len(matrix))
    inner = gram(matrix)
    for _ in range(ROUNDS):
        basis = orthonormal(product(basis, inner))
    small = product(basis, matrix)
    squares, turns = eigenvectors(gram(small))
    found: list[Real] = []
    for size, turn in zip(squares.tolist(), turns):
        if size > 1 and len(found) < most:
            vector = summed_rows(small * turn[:, None]) / math.sqrt(size)
            found.append(vector * math.copysign(1.0, vector[numpy.argmax(numpy.abs(vector))]))
    return found


def orthonormal(rows: Real) -> Real:
    """Rows at right angles to those before, of unit length; those that are part of the others are left out."""
    found: list[Real] = []
    for row in rows:
        before = math.sqrt(square(row))
        for _ in range(2):
            for one in found:
                row = row - dot(row, one) * one
        length = math.sqrt(square(row))
        if length > 1e-10 * before:
            found.append(row / length)
    return numpy.array(found).reshape(len(found), rows.shape[1])


def uniform(random: Random, number: int) -> Real:
    """Numbers from -0.5 to 0.5 of a fixed generator."""
    return numpy.array([random.random() - 0.5 for _ in range(number)])


def normal(random: Random, number: int) -> Real:
    """Numbers of a fixed generator, normal to within some thousandths: sums of twelve uniform ones, which need no
    function that differs by machine."""
    return numpy.array([math.fsum(random.random() for _ in range(12)) - 6 for _ in range(number)])
