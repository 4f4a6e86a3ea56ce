"""Lines of points: joined, cut and turned; what shapes of links are made of."""
from __future__ import annotations

import math
from collections.abc import Iterable, Sequence

Point = tuple[float, float]
Line = tuple[Point, ...]


def joined(lines: Iterable[Sequence[Point]]) -> Line:
    """Lines one after the other as one, without a point that stands twice in a row."""
    points: list[Point] = []
    for line in lines:
        points += [
            point
            for place, point in enumerate(line)
            if point != (line[place - 1] if place else points[-1] if points else None)
        ]
    return tuple(points)


def cut_at(line: Sequence[Point], share: float) -> tuple[Line, Line]:
    """A line cut at a share of its length."""
    lengths = [math.dist(one, other) for one, other in zip(line, line[1:])]
    left = share * sum(lengths)
    for place, length in enumerate(lengths):
        if left <= length and length > 0:
            (x, y), (to_x, to_y), part = line[place], line[place + 1], left / length
            middle = (x + part * (to_x - x), y + part * (to_y - y))
            return joined([line[: place + 1], [middle]]), joined([[middle], line[place + 1 :]])
        left -= length
    return joined([line]), tuple(line[-1:])


def towards(line: Sequence[Point], start: Point | None, end: Point | None) -> Line:
    """A line so turned that it leads from one place to another, as near as may be; as it is where these are not
    known."""
    if start is None or end is None or not line:
        return tuple(line)
    here = math.dist(start, line[0]) + math.dist(line[-1], end)
    back = math.dist(start, line[-1]) + math.dist(line[0], end)
    return tuple(line) if here <= back else tuple(reversed(line))
