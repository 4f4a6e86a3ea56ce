"""Where the turns of a crossing are drawn: side by side to the right of the last metres of their approach, then round
the corner."""
from __future__ import annotations

import math
from collections.abc import Sequence

from ..lines import Line, Point, cut_at, joined

LANE_M = 3.2
"""How far turns of an approach are drawn apart."""
CORNER_M = 14.0
"""How far from the crossing's middle a turn leaves the line of its approach, and meets that of its exit."""
MOST_CORNER = 0.25
"""The most of an exit that this may be."""
PARTS = 4
"""The parts of which a corner is drawn."""
BACK = 3.0
"""An exit that bears to the right by more radians is one back."""


def length(line: Sequence[Point]) -> float:
    """The length of a line, in the unit of its places."""
    return sum(math.dist(one, other) for one, other in zip(line, line[1:]))


def scale(line: Sequence[Point], metres: float) -> float:
    """How many units of its places a metre of a line has."""
    return length(line) / metres if metres > 0 else 0.0


def behind_corner(line: Line, metres: float) -> Line:
    """The line of an exit from where turns meet it."""
    if len(line) < 2 or metres <= 0:
        return line
    return cut_at(line, min(CORNER_M / metres, MOST_CORNER))[1]


def moved_aside(line: Sequence[Point], apart: float) -> Line:
    """A line moved to its right by so much, and to its left below 0; each point by the direction of what follows it,
    the last by that of what comes before."""
    moved = []
    for place, (x, y) in enumerate(line):
        one, other = (line[place], line[place + 1]) if place + 1 < len(line) else (line[place - 1], line[place])
        whole = math.dist(one, other) or 1.0
        moved.append((x + apart * (other[1] - one[1]) / whole, y - apart * (other[0] - one[0]) / whole))
    return tuple(moved)


def corner(start: Point, middle: Point, end: Point) -> Line:
    """The points within a bend from one place to another that is drawn towards a third."""
    made = []
    for part in range(1, PARTS):
        share = part / PARTS
        weights = (1 - share) ** 2, 2 * share * (1 - share), share**2
        made.append(
            (
                sum(weight * point[0] for weight, point in zip(weights, (start, middle, end))),
                sum(weight * point[1] for weight, point in zip(weights, (start, middle, end))),
            )
        )
    return tuple(made)


def turn_line(approach: Line, metres: float, node: Point, exit_start: Point, apart: float) -> Line:
    """The line of a turn: along the part of its approach that is its own, of so many metres, so many lanes to the right
    of its line, then round the corner to where its exit begins."""
    if len(approach) < 2:
        return ()
    before = cut_at(approach, 1 - min(CORNER_M / metres, 0.5))[0] if metres > 0 else approach
    lane = moved_aside(before, apart * LANE_M * scale(approach, metres))
    return joined([approach[:1], lane, corner(lane[-1], node, exit_start), [exit_start]])


def bearing(approach: Line, after: Line) -> float:
    """By how much an exit bears to the left of its approach, in radians, a turn back some pi; 0 where places are not
    known."""
    if len(approach) < 2 or len(after) < 2:
        return 0.0
    (x, y), (to_x, to_y) = approach[-2:]
    come = math.atan2(to_y - y, to_x - x)
    (x, y), (to_x, to_y) = after[:2]
    gone = math.atan2(to_y - y, to_x - x)
    angle = math.remainder(gone - come, 2 * math.pi)
    return angle if angle > -BACK else angle + 2 * math.pi
