"""Values in the fields of tables of demand: clock times, and numbers of vehicles in thousandths."""
from __future__ import annotations

from fractions import Fraction

from ..errors import Fault
from ..files import Row
from ..formats import CLOCK, LONGEST_SECONDS, MINUTE_MS, MOST_UNITS, clock_ms, count_text, whole_of
from .volumes import too_many_vehicles


def moment_ms(row: Row, field: str) -> int:
    """The time of a field, a clock time or seconds, in ms."""
    text = row.text(field)
    if CLOCK.fullmatch(text):
        return clock_ms(text)
    days, _, clock = text.partition(":")
    if text.count(":") == 3 and len(days) < 4 and (count := whole_of(days)) is not None:
        return count * 1440 * MINUTE_MS + clock_ms(clock)
    seconds = row.number(field)
    if abs(seconds) > LONGEST_SECONDS:
        raise row.fault(field, f"expected a clock time, or seconds, of at most {count_text(LONGEST_SECONDS)}")
    return int(seconds * 1000)


def whole_units(volume: Fraction, what: str) -> int:
    """Vehicles in the nearest thousandths."""
    units = (2000 * volume.numerator + volume.denominator) // (2 * volume.denominator)
    if not 0 <= units <= MOST_UNITS:
        raise too_many_vehicles(volume, what)
    return units


def quarter_before(time_ms: int) -> int:
    """The quarter of an hour at or before a time."""
    return time_ms // (15 * MINUTE_MS) * 15 * MINUTE_MS


def slots_of(minutes: int, step_ms: int) -> int:
    """The slots of a slice of so many minutes, at least one; a Fault where the slice is shorter than a minute."""
    if minutes < 1:
        raise Fault("--slice is at least 1")
    return max(1, minutes * MINUTE_MS // step_ms)
