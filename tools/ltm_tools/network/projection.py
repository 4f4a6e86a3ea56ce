"""Projections undone: the degrees of places that a transverse Mercator projection, as UTM, has made metres of.

By Krüger's series to the sixth order (Krüger 1912; Karney 2011, equations 7 to 21 and 36), which within some thousand
kilometres of the meridian are right to less than a thousandth of a millimetre.
"""
from __future__ import annotations

import math
from dataclasses import dataclass

Point = tuple[float, float]

WGS84 = (6_378_137.0, 1 / 298.257223563)
GRS80 = (6_378_137.0, 1 / 298.257222101)
ELLIPSOIDS = {"WGS84": WGS84, "GRS80": GRS80}
UTM_SCALE, UTM_EAST, UTM_SOUTH = 0.9996, 500_000.0, 10_000_000.0
STEPS = 5  # of Newton's method, of which three are enough


@dataclass(frozen=True, slots=True)
class TransverseMercator:
    """An ellipsoid by its greater half axis in metres and its flattening; the meridian in the middle in degrees, the
    scale on it, and what was added to metres east of it and north of the equator."""

    ellipsoid: tuple[float, float]
    meridian: float
    scale: float
    east: float
    north: float

    def degrees(self, place: Point) -> Point:
        """The longitude and latitude of a place in metres."""
        axis, flattening = self.ellipsoid
        n = flattening / (2 - flattening)
        radius = self.scale * axis / (1 + n) * (1 + n**2 / 4 + n**4 / 64 + n**6 / 256)
        up, right = (place[1] - self.north) / radius, (place[0] - self.east) / radius
        up, right = (
            up - sum(beta * math.sin(2 * j * up) * math.cosh(2 * j * right) for j, beta in enumerate(series(n), 1)),
            right - sum(beta * math.cos(2 * j * up) * math.sinh(2 * j * right) for j, beta in enumerate(series(n), 1)),
        )
        conformal = math.sin(up) / math.hypot(math.sinh(right), math.cos(up))
        longitude = math.degrees(math.atan2(math.sinh(right), math.cos(up)))
        return self.meridian + longitude, math.degrees(math.atan(tangent(conformal, flattening)))


def series(n: float) -> tuple[float, ...]:
    """The coefficients of the series for the third flattening `n` of an ellipsoid."""
    return (
        n / 2 - 2 / 3 * n**2 + 37 / 96 * n**3 - n**4 / 360 - 81 / 512 * n**5 + 96_199 / 604_800 * n**6,
        n**2 / 48 + n**3 / 15 - 437 / 1440 * n**4 + 46 / 105 * n**5 - 1_118_711 / 3_870_720 * n**6,
        17 / 480 * n**3 - 37 / 840 * n**4 - 209 / 4480 * n**5 + 5569 / 90_720 * n**6,
        4397 / 161_280 * n**4 - 11 / 504 * n**5 - 830_251 / 7_257_600 * n**6,
        4583 / 161_280 * n**5 - 108_847 / 3_991_680 * n**6,
        20_648_693 / 638_668_800 * n**6,
    )


def tangent(conformal: float, flattening: float) -> float:
    """The tangent of a latitude, by that of its conformal latitude."""
    square = flattening * (2 - flattening)
    found = conformal
    for _ in range(STEPS):
        root = math.hypot(1, found)
        sigma = math.sinh(math.sqrt(square) * math.atanh(math.sqrt(square) * found / root))
        now = found * math.hypot(1, sigma) - sigma * root
        found += (conformal - now) / math.hypot(1, now) * (1 + (1 - square) * found**2) / ((1 - square) * root)
    return found


def projection_of(text: str) -> TransverseMercator | None:
    """The projection that words of PROJ tell, where it is UTM on an ellipsoid as that of GPS, as `+proj=utm +zone=32
    +ellps=WGS84`; None for any other."""
    words = dict(word.lstrip("+").partition("=")[::2] for word in text.split())
    ellipsoid = ELLIPSOIDS.get(words.get("ellps", words.get("datum", "")))
    zone = int(words["zone"]) if words.get("zone", "").isdecimal() else 0
    shifted = words.get("towgs84", "").strip("-0.,") != ""
    if (
        words.get("proj") != "utm"
        or ellipsoid is None
        or not 1 <= zone <= 60
        or shifted
        or words.get("units", "m") != "m"
    ):
        return None
    return TransverseMercator(ellipsoid, 6.0 * zone - 183, UTM_SCALE, UTM_EAST, UTM_SOUTH if "south" in words else 0.0)
