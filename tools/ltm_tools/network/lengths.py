"""Lengths from places: of lines by their points, of links by their nodes, in metres, to the millimetre.

Places are degrees of longitude and latitude, or lengths in some unit. Where some links have a length of their own, the
unit is the one with which most of their lines are as long as they say.
"""
from __future__ import annotations

import math
import re
from collections.abc import Iterable, Sequence
from fractions import Fraction

from .lines import Point

EARTH_M = 6_371_008.8
MOST_PLACE = 1e10  # a coordinate beyond it is none
METRES = {"m": Fraction(1), "km": Fraction(1000), "mi": Fraction(1609344, 1000), "ft": Fraction(3048, 10000)}
LENGTH_WORDS = {
    "m": "m",
    "meter": "m",
    "meters": "m",
    "metre": "m",
    "metres": "m",
    "km": "km",
    "kilometer": "km",
    "kilometers": "km",
    "kilometre": "km",
    "kilometres": "km",
    "mi": "mi",
    "mile": "mi",
    "miles": "mi",
    "ft": "ft",
    "foot": "ft",
    "feet": "ft",
}
UNITS = {"degrees": None, "m": 1.0, "km": 1000.0, "ft": 0.3048, "mi": 1609.344}
NUMBER = re.compile(r"[-+]?(?:[0-9]+\.?[0-9]*|\.[0-9]+)(?:[eE][-+]?[0-9]+)?")


def wkt_points(text: str) -> list[Point]:
    """The points of a LINESTRING in well-known text (the first part of a MULTILINESTRING); none where it is no such
    line, or one of its numbers can be no place."""
    head, _, rest = text.partition("(")
    if "LINESTRING" not in head.upper():
        return []
    points = []
    for part in rest.strip("() \t").split(")")[0].split(","):
        numbers = NUMBER.findall(part)
        if len(numbers) < 2:
            return []
        points.append((float(numbers[0]), float(numbers[1])))
    return points if len(points) > 1 and all(abs(number) < MOST_PLACE for point in points for number in point) else []


def metres(points: Sequence[Point], unit: str) -> Fraction:
    """The length of a line in metres."""
    scale = UNITS[unit]
    length = sum(
        (degrees_apart(a, b) if scale is None else math.dist(a, b) * scale) for a, b in zip(points, points[1:])
    )
    return Fraction(round(length * 1000), 1000)


def degrees_apart(a: Point, b: Point) -> float:
    """The metres between two places in degrees, on a sphere (the haversine formula)."""
    east, north = math.radians(b[0] - a[0]), math.radians(b[1] - a[1])
    half = (
        math.sin(north / 2) ** 2 + math.cos(math.radians(a[1])) * math.cos(math.radians(b[1])) * math.sin(east / 2) ** 2
    )
    return 2 * EARTH_M * math.asin(math.sqrt(min(1.0, max(0.0, half))))  # below 0 past the poles


def unit_by_range(points: Iterable[Point]) -> str:
    """Degrees where every place can be one, else metres."""
    return "degrees" if all(abs(x) <= 180 and abs(y) <= 90 for x, y in points) else "m"


def unit_by_lengths(lines: Sequence[tuple[Sequence[Point], Fraction]]) -> tuple[str, float]:
    """The unit of places with which lines are nearest to lengths in metres, and the middle ratio of a length to its
    line."""
    best = ("degrees", 0.0)
    for unit in UNITS:
        ratios = sorted(float(length / line) for points, length in lines if (line := metres(points, unit)) > 0)
        if ratios and abs(math.log(ratios[len(ratios) // 2])) < (abs(math.log(best[1])) if best[1] else math.inf):
            best = unit, ratios[len(ratios) // 2]
    return best
