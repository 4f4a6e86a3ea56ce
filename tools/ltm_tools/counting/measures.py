"""How well a loading meets counts: GEH, RMSN, slope and R2, and the bands of the guidelines, in exact fractions.

With m modelled and c counted vehicles an hour, GEH is the root of 2 (m - c)^2 / (m + c). RMSN is the root of the mean
square of m - c by the mean of c. Slope and R2 are those of the line by least squares of m over c, and R2 is the square
of the correlation. The bands are those of the United Kingdom's TAG unit M3.1, which FHWA's guide on traffic analysis
tools has too.
"""
from __future__ import annotations

from collections.abc import Sequence
from dataclasses import dataclass
from decimal import Decimal
from fractions import Fraction
from math import isqrt

from ..listing import rounded

GEH_GOOD, GEH_BAD = 5, 10
FLOW_BANDS = ((700, Fraction(100)), (2700, None), (None, Fraction(400)))
FLOW_PART = Fraction(15, 100)
WANTED_PART = Fraction(85, 100)  # of counts, and of times, that are to be within their bands
LINE_PART = Fraction(5, 100)  # of a screen line
TIME_PART, TIME_LEAST = Fraction(15, 100), 60  # of a travel time, and in seconds


@dataclass(frozen=True, slots=True)
class Pair:
    """What was counted and what is modelled, in vehicles an hour."""

    counted: Fraction
    modelled: Fraction

    @property
    def geh_square(self) -> Fraction:
        """The square of GEH."""
        both = self.counted + self.modelled
        return 2 * (self.modelled - self.counted) ** 2 / both if both else Fraction(0)

    @property
    def geh(self) -> Decimal:
        """GEH, to the nearest hundredth."""
        return root(self.geh_square, 2)

    def is_within(self, geh: int) -> bool:
        """Whether GEH is below a bound."""
        return self.geh_square < geh * geh

    @property
    def is_in_band(self) -> bool:
        """Whether the flow is within 100 an hour below 700, 15 % up to 2,700, and 400 above."""
        most = next(
            FLOW_PART * self.counted if band is None else band
            for end, band in FLOW_BANDS
            if end is None or self.counted < end or (band is None and self.counted == end)
        )
        return abs(self.modelled - self.counted) <= most


def root(square: Fraction, decimals: int) -> Decimal:
    """A square root, to the nearest number with so many decimals."""
    scale = 10**decimals
    doubled = isqrt(4 * scale * scale * square.numerator // square.denominator)
    return Decimal((doubled + 1) // 2).scaleb(-decimals)


@dataclass(frozen=True, slots=True)
class Fit:
    """The measures of pairs: how many there are, the parts with GEH below 5 and below 10 and within the band, RMSN, the
    sums, slope and R2; None where these are not defined."""

    count: int
    below_5: Fraction
    below_10: Fraction
    in_band: Fraction
    counted: Fraction
    modelled: Fraction
    rmsn_square: Fraction | None
    slope: Fraction | None
    r2: Fraction | None

    @property
    def rmsn(self) -> Decimal | None:
        """RMSN in per cent, to the nearest tenth."""
        return None if self.rmsn_square is None else root(self.rmsn_square * 10_000, 1)

    @property
    def total_geh(self) -> Decimal:
        """GEH of the sums, to the nearest hundredth."""
        return Pair(self.counted, self.modelled).geh


def fit_of(pairs: Sequence[Pair]) -> Fit:
    """The measures of pairs, of which there is one at least."""
    number = len(pairs)
    counted, modelled = sum((pair.counted for pair in pairs), Fraction(0)), sum(
        (pair.modelled for pair in pairs), Fraction(0)
    )
    squares = sum(((pair.modelled - pair.counted) ** 2 for pair in pairs), Fraction(0))
    over = sum((pair.counted * pair.counted for pair in pairs), Fraction(0)) - counted * counted / number
    up = sum((pair.modelled * pair.modelled for pair in pairs), Fraction(0)) - modelled * modelled / number
    across = sum((pair.counted * pair.modelled for pair in pairs), Fraction(0)) - counted * modelled / number
    return Fit(
        number,
        Fraction(sum(pair.is_within(GEH_GOOD) for pair in pairs), number),
        Fraction(sum(pair.is_within(GEH_BAD) for pair in pairs), number),
        Fraction(sum(pair.is_in_band for pair in pairs), number),
        counted,
        modelled,
        number * squares / counted**2 if counted else None,
        across / over if over else None,
        across * across / (over * up) if over and up else None,
    )


def is_time_met(measured: Fraction, modelled: Fraction | None) -> bool:
    """Whether a travel time is within 15 %, or within a minute where that is more."""
    return modelled is not None and abs(modelled - measured) <= max(TIME_PART * measured, Fraction(TIME_LEAST))


def is_line_met(counted: Fraction, modelled: Fraction) -> bool:
    """Whether a screen line is within 5 %."""
    return abs(modelled - counted) <= LINE_PART * counted


def percent(part: Fraction) -> Decimal:
    """A part in per cent, to the nearest tenth."""
    return rounded(100 * part.numerator, part.denominator, 1)
