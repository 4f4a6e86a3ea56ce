"""Places for nodes that have none: a drawing in which nodes are about as far apart as the roads between them are long.

First the distances to some nodes far from one another are drawn in two directions (pivot multidimensional scaling:
Brandes and Pich 2007), then each node is moved a little towards its distances, with less and less force (stochastic
gradient descent on stress: Zheng, Pawar and Goodman 2018). The same network gives the same drawing.
"""
from __future__ import annotations

import math
import random
from collections.abc import Iterable, Sequence

from ..case.least import least

Place = tuple[float, float]
Neighbours = dict[str, dict[str, float]]
MOST_PIVOTS = 50
MOST_MOVES = 1_500_000
ROUNDS = 30
TURNS = 60  # of the power iteration


def laid_out(nodes: Sequence[str], links: Iterable[tuple[str, str, float]]) -> dict[str, Place]:
    """A place for each node; links are given by their ends and length. Parts of the network that do not hang together
    stand side by side."""
    near: Neighbours = {node: {} for node in nodes}
    for tail, head, length in links:
        shortest = min(length, near[tail].get(head, math.inf))
        near[tail][head] = near[head][tail] = max(shortest, 1e-9)
    found: dict[str, Place] = {}
    edge = 0.0
    for part in connected_parts(near):
        drawn = draw(part, near)
        left, right = min(x for x, _ in drawn.values()), max(x for x, _ in drawn.values())
        if found:
            edge += 0.1 * (right - left) or 1.0
        found.update({node: (x - left + edge, y) for node, (x, y) in drawn.items()})
        edge += right - left
    return found


def connected_parts(near: Neighbours) -> list[list[str]]:
    """The nodes of each part that hangs together, in order of their first nodes."""
    seen: set[str] = set()
    found = []
    for first in near:
        if first in seen:
            continue
        part, reached = [first], {first}
        for node in part:
            part += (fresh := [other for other in near[node] if other not in reached])
            reached.update(fresh)
        seen |= reached
        found.append(part)
    return found


def distances(near: Neighbours, start: str) -> dict[str, float]:
    """How far each node is from one, along roads in both directions."""
    return least(start, 0.0, lambda node: near[node].items())


def draw(part: list[str], near: Neighbours) -> dict[str, Place]:
    """A drawing of a part that hangs together, longest from left to right, its first node in the left half."""
    if len(part) == 1:
        return {part[0]: (0.0, 0.0)}
    far: dict[str, dict[str, float]] = {}
    nearest = dict.fromkeys(part, math.inf)
    pivot = part[0]
    while len(far) < min(MOST_PIVOTS, len(part)):
        far[pivot] = distances(near, pivot)
        nearest = {node: min(nearest[node], far[pivot][node]) for node in part}
        pivot = max(part, key=nearest.__getitem__)
    xs, ys = scaled([[far[pivot][node] for pivot in far] for node in part])
    at = {node: [x, y] for node, x, y in zip(part, xs, ys)}
    settle(at, far, near)
    middle = sum(x for x, _ in at.values()) / len(at)
    turn = -1.0 if at[part[0]][0] > middle else 1.0
    return {node: (x * turn, y) for node, (x, y) in at.items()}


def scaled(rows: list[list[float]]) -> tuple[list[float], list[float]]:
    """Two coordinates for each node, from its distances to the pivots."""
    squares = [[length * length for length in row] for row in rows]
    by_row = [sum(row) / len(row) for row in squares]
    by_pivot = [sum(column) / len(column) for column in zip(*squares)]
    middle = sum(by_row) / len(by_row)
    centred = [
        [(of_row + of_pivot - square - middle) / 2 for square, of_pivot in zip(row, by_pivot)]
        for row, of_row in zip(squares, by_row)
    ]
    columns = list(zip(*centred))
    products = [[sum(map(float.__mul__, one, other)) for other in columns] for one in columns]
    found: list[list[float]] = []
    for _ in range(2):
        vector, value = greatest_eigenvector(products)
        axis = [sum(map(float.__mul__, row, vector)) for row in centred]
        size = math.sqrt(sum(x * x for x in axis))
        shrink = value**0.25 / size if size > 0 and value > 0 else 0.0
        found.append([x * shrink * (len(rows) / len(products)) ** 0.25 for x in axis])
        products = [[entry - value * a * b for entry, b in zip(row, vector)] for row, a in zip(products, vector)]
    return found[0], found[1]


def greatest_eigenvector(matrix: list[list[float]]) -> tuple[list[float], float]:
    """The eigenvector of the greatest eigenvalue of a symmetric matrix, about, and that value."""
    pick = random.Random(1)
    vector, value = [pick.random() - 0.5 for _ in matrix], 0.0
    for _ in range(TURNS):
        product = [sum(map(float.__mul__, row, vector)) for row in matrix]
        size = math.sqrt(sum(x * x for x in product))
        if size <= 1e-12 * max(1.0, abs(matrix[0][0])):
            return vector, 0.0
        vector, value = [x / size for x in product], size
    return vector, value


def settle(at: dict[str, list[float]], far: dict[str, dict[str, float]], near: Neighbours) -> None:
    """Moves nodes towards their distances from the pivots and from their neighbours."""
    pairs = [
        (at[pivot], at[node], length) for pivot, row in far.items() for node, length in row.items() if node != pivot
    ]
    pairs += [
        (at[node], at[other], length) for node, row in near.items() if node in at for other, length in row.items()
    ]
    longest, shortest = max(pair[2] for pair in pairs), min(pair[2] for pair in pairs)
    rounds = max(3, min(ROUNDS, MOST_MOVES // len(pairs)))
    cooling = math.log(max(longest / shortest, 10.0) ** 2) / max(1, rounds - 1)
    pick = random.Random(1)
    for turn in range(rounds):
        force = longest**2 * math.exp(-cooling * turn)
        pick.shuffle(pairs)
        for one, other, length in pairs:
            east, north = one[0] - other[0], one[1] - other[1]
            apart = math.sqrt(east * east + north * north) or 1e-9
            move = min(1.0, force / (length * length)) * (apart - length) / (2 * apart)
            one[0] -= move * east
            one[1] -= move * north
            other[0] += move * east
            other[1] += move * north


BENT_LINKS = 400  # in a larger drawing no link is bent
CLEAR = 0.06


def bends(at: dict[str, Place], ends: Sequence[tuple[str, str]]) -> list[float]:
    """How far each link is to be bent to the left, in parts of its length: 0.12 where its line would run over a node
    that is not an end of it, and else 0."""
    if len(ends) > BENT_LINKS:
        return [0.0] * len(ends)
    return [
        0.12 if any(lies_between(at[tail], at[head], at[node]) for node in at if node not in (tail, head)) else 0.0
        for tail, head in ends
    ]


def lies_between(one: Place, other: Place, point: Place) -> bool:
    """Whether a point lies on the line between two others, or nearly so."""
    east, north = other[0] - one[0], other[1] - one[1]
    square = east * east + north * north or 1e-9
    along = ((point[0] - one[0]) * east + (point[1] - one[1]) * north) / square
    beside = abs((point[0] - one[0]) * north - (point[1] - one[1]) * east) / square
    return 0 < along < 1 and beside < CLEAR
