"""The kinds and limits of all fields and files of a case, and texts of amounts and of times.

Each limit is that of the program (docs/FORMATS.md, docs/MODEL.md); no other module writes one down again.
"""
import re
from collections.abc import Iterable
from decimal import Decimal
from fractions import Fraction
from functools import lru_cache

from .errors import Fault

# files, in bytes
MOST_FILE_BYTES = 16_777_216
MOST_LARGE_FILE_BYTES = 268_435_456  # of demand and of splits, with more rows than a case with a history may have
MOST_CURVES_BYTES = 268_435_456
MOST_COUNT = 281_474_976_710_656  # of a curve file, in thousandths of a vehicle

# names and whole numbers
NAME = re.compile(r"[A-Za-z0-9_-]{1,32}", re.ASCII)
NAME_RULE = "1 to 32 ASCII letters, digits, _ or -"
WHOLE = re.compile(r"[0-9]{1,10}", re.ASCII)
WHOLE_BELOW = 2**32
WHOLE_RULE = "1 to 10 digits with a value below 4294967296"
TOLD = re.compile(r"[0-9]{1,20}", re.ASCII)
VEHICLES = re.compile(r"[0-9]+(?:\.[0-9]{1,3})?", re.ASCII)
VEHICLES_RULE = "digits, or digits, a point and 1 to 3 digits, at most 1000000 vehicles"
NUMBER = re.compile(r"([+-]?(?:[0-9]+\.?[0-9]*|\.[0-9]+))(?:e([+-]?[0-9]+))?", re.ASCII | re.IGNORECASE)
RATIO = re.compile(r"[0-9]+/[0-9]+", re.ASCII)
# of a number in a table of others, or on the command line
MOST_NUMBER, MOST_SIGNS, MOST_POWERS = 10**15, 60, range(-400, 61)
LEAST_ABOVE_0 = Fraction(1, 10**30)  # of one that others are divided by
LONGEST_SECONDS = 10_000_000  # of a time in files of others: some 115 days
NUMBER_RULE = "expected a number, of at most 10^15 and written with at most 60 signs"
WEIGHTS_RULE = "1 to 4 entries NAME=NUMBER with one space between two, and no name twice"

# amounts, in thousandths of a vehicle
UNITS = 1000  # in a vehicle
MOST_UNITS = 1_000_000_000  # of a row of demand, and of any field with vehicles
MOST_SLOT_UNITS = 32_000  # that pass a link or leave an origin in a slot

# time
MOST_STEP_MS = 60_000
MOST_SLOTS = 10_000
MINUTE_MS = 60_000
HOUR_MS = 3_600_000

# the diagram of a link
MOST_LENGTH_M = 1_000_000
MOST_KMH = 1_000
MOST_JAM_PER_KM = 10_000

# the network and its tables
MOST_LINKS = 4_000  # of a case whose setup has no column `links`
MOST_LINKS_ASKED = 16_000  # in that column, and so on below
MOST_LINKS_NO_HISTORY = 40_000  # in that column, with 0 in the column `history`, and so on below
MOST_OUT = 4  # links out of a node
MOST_IN = 4  # links into a node
MOST_DESTINATIONS = 64  # of a case whose setup has no column `destinations`
MOST_DESTINATIONS_ASKED = 256
MOST_DESTINATIONS_NO_HISTORY = 2_000
MOST_DEMAND_ROWS = 10_000  # of a case whose setup has no column `rows`
MOST_SPLIT_ROWS = 50_000  # of such a case too
MOST_ROWS_ASKED = 500_000  # of either
MOST_ROWS_NO_HISTORY = 8_000_000
MOST_ROUTED_ROWS = 160_000_000  # of splits, with 1 in the column `routes` and 0 in `history`
MOST_WEIGHTS = 4  # of a split row
MOST_SHARE = 1_000_000  # of a slice of a profile
MOST_CELLS = 54_000_000  # of a case whose setup has no column `cells`
MOST_CELLS_ASKED = 4_294_967_295
ANSWERING = "load, delay, gap, totals and routes"  # the words that answer of a case without history
WITHOUT_HISTORY = f"with which {ANSWERING} answer, and no session"  # what 0 in the column `history` means

# scripts and batches
MOST_EDITS = 32  # of a batch
MOST_LINES = 100_000  # of a script
MOST_LINE_BYTES = 65_536  # of a line of a script
MOST_EDITOR_LINES = 10_000  # of a file of edits
MOST_WORKERS = 64
MOST_EDITORS = 8

# the files of a case, in the order in which they are read: the fields of each header
SETUP = ("step_ms", "slots", "origin_capacity")
# may stand behind these three, each or not, in this order
SETUP_MORE = ("signals", "limits", "cells", "rows", "links", "destinations", "moves", "carry", "history", "routes")
LINKS = ("link", "from", "to", "length_m", "free_kmh", "wave_kmh", "jam_per_km")
DEMAND = ("origin", "destination", "from_slot", "to_slot", "vehicles")
MATRIX = ("origin", "destination", "vehicles")  # of a demand.csv that is split over the slices of profile.csv
PROFILE = ("from_slot", "to_slot", "share")
SPLITS = ("node", "destination", "from_slot", "weights")
SIGNALS = ("link", "from_slot", "to_slot", "vehicles")
HEADERS = {
    "setup": SETUP,
    "links": LINKS,
    "demand": DEMAND,
    "profile": PROFILE,
    "splits": SPLITS,
    "signals": SIGNALS,
    "limits": SIGNALS,
}
CURVES = ("kind", "name", "destination", "counts")
QUOTE = '"'  # of a field of CSV, and within it twice


def headers_of(file: str) -> list[tuple[str, ...]]:
    """The headers that a file of a case may have: one; for `demand` that of rows and that of a matrix; and for `setup`
    its three fields with each column behind them or not, in order."""
    headers: list[tuple[str, ...]] = [HEADERS[file], MATRIX] if file == "demand" else [HEADERS[file]]
    for column in SETUP_MORE if file == "setup" else ():
        headers += [(*header, column) for header in headers]
    return headers


def is_name(text: str) -> bool:
    """Whether the text can name a link or a node."""
    return NAME.fullmatch(text) is not None


def whole_of(text: str) -> int | None:
    """The whole number that a field of a case tells, or None where it is not of that kind."""
    if WHOLE.fullmatch(text) is None or int(text) >= WHOLE_BELOW:
        return None
    return int(text)


def exact_or_none(text: str) -> Fraction | None:
    """The exact number that a text of others tells, as `12`, `-0.5` or `1.2e3`, or None where it tells none, or one of
    a size with which nothing could be worked out."""
    found = NUMBER.fullmatch(text.strip())
    if found is None or len(found[0]) > MOST_SIGNS or int(found[2] or 0) not in MOST_POWERS:
        return None
    number = Fraction(found[0])
    return number if abs(number) <= MOST_NUMBER else None


def above_0_or_none(text: str) -> Fraction | None:
    """The exact number above 0 that a text tells, which may be two with a `/` between, or None where it tells none, or
    one so small that nothing can be divided by it."""
    number = exact_or_none(text)
    is_ratio = len(text) <= 2 * MOST_SIGNS and RATIO.fullmatch(text.strip()) is not None
    if number is None and is_ratio and text.partition("/")[2].strip("0 "):
        number = Fraction(text.strip())
    return number if number is not None and MOST_NUMBER >= number >= LEAST_ABOVE_0 else None


def number_rule(text: str) -> str:
    """What is wrong with a text that tells no number."""
    return NUMBER_RULE if NUMBER.fullmatch(text.strip()) else "expected a number"


def units_or_none(text: str) -> int | None:
    """The amount that a field of a case tells, in thousandths of a vehicle, or None where it is not of that kind."""
    if VEHICLES.fullmatch(text) is None:
        return None
    whole, _, part = text.partition(".")
    front = whole.lstrip("0") or "0"
    if len(front) > 7:
        return None
    units = int(front) * UNITS + int((part + "000")[:3])
    return units if units <= MOST_UNITS else None


def units_of(text: str) -> int:
    """The amount that a text tells in vehicles, as `7`, `7.2` or `7.225`, in thousandths of a vehicle."""
    units = units_or_none(text)
    if units is None:
        raise Fault(f"{text!r} is no number of vehicles: {VEHICLES_RULE}")
    return units


def exact_units(vehicles: int | str | Decimal | Fraction) -> int:
    """Vehicles as thousandths, where they are exactly that: `"1.25"`, `Decimal("1.25")` and `Fraction(5, 4)` give
    1250."""
    if isinstance(vehicles, str):
        return units_of(vehicles)
    exact = Fraction(vehicles) * UNITS
    if exact.denominator != 1:
        raise Fault(f"{vehicles} vehicles are no whole number of thousandths")
    return exact.numerator


def weights_or_none(text: str) -> dict[str, int] | None:
    """The weights by link that a field of a case tells, or None where it is not of that kind."""
    weights: dict[str, int] = {}
    entries = text.split(" ")
    for entry in entries:
        name, equals, number = entry.partition("=")
        weight = whole_of(number)
        if not equals or weight is None or not is_name(name) or name in weights:
            return None
        weights[name] = weight
    return weights if len(entries) <= MOST_WEIGHTS else None


def vehicles_text(units: int) -> str:
    """Thousandths as vehicles with three decimals, as the program prints them: 1250 is `1.250`."""
    sign = "-" if units < 0 else ""
    return f"{sign}{abs(units) // UNITS}.{abs(units) % UNITS:03}"


def told_or_none(text: str) -> int | None:
    """A whole number as the program prints it, of up to 20 digits, or None where a text is none."""
    return int(text) if TOLD.fullmatch(text) else None


def told_units(text: str) -> int:
    """Thousandths of an amount as the program prints it, with three decimals and of any size."""
    return _told(text, 3)


def told_time(text: str) -> int:
    """Thousandths times milliseconds of a vehicle time as the program prints it, in vehicle seconds with six decimals
    and of any size."""
    return _told(text, 6)


def _told(text: str, decimals: int) -> int:
    whole, _, part = text.partition(".")
    if (
        not whole
        or len(part) != decimals
        or not (whole + part).isdecimal()
        or not text.isascii()
        or len(text) > MOST_SIGNS
    ):
        raise Fault(f"{text[:MOST_SIGNS]!r} is no number with {decimals} decimals")
    return int(whole + part)


@lru_cache(10_000)  # signals have few amounts, many times over
def short_vehicles(units: int) -> str:
    """Thousandths as vehicles without zeros at the end, for files: 1250 is `1.25`, and 7000 is `7`."""
    return vehicles_text(units).rstrip("0").rstrip(".")


def weights_text(weights: dict[str, int]) -> str:
    """Weights as a field of `splits.csv`: `a=1 b=3`."""
    return " ".join(f"{name}={weight}" for name, weight in weights.items())


def record_text(fields: Iterable[object]) -> str:
    """A record of CSV without its end: fields with commas between, in quotes where one has a comma, a quote or a line's
    end, or is empty and stands alone."""
    texts = [field_text(field) for field in fields]
    return QUOTE + QUOTE if texts == [""] else ",".join(texts)


def field_text(field: object) -> str:
    """A field of such a record, in quotes where it needs them."""
    text = str(field)
    return f'"{text.replace(QUOTE, QUOTE + QUOTE)}"' if any(sign in text for sign in ',"\n\r') else text


def count_text(number: int) -> str:
    """A whole number with commas between thousands: `54,000,000`."""
    return f"{number:,}"


def counted(number: int, what: str) -> str:
    """A number of things: `1 link`, `4,000 links`."""
    return f"{count_text(number)} {plural(number, what)}"


OF_ONE = {"are": "is", "have": "has", "get": "gets"}


def many(number: int, what: str) -> str:
    """The same without commas in the number, as lines that programs read have it: `1 link`, `4000 links`."""
    return f"{number} {plural(number, what)}"


def agreeing(what: str, count: int) -> str:
    """What is said of several things, as it is said of so many: of one `is`, `has` and `gets` in place of `are`, `have`
    and `get`."""
    return what if count != 1 else re.sub(r"\b(are|have|get)\b", lambda it: OF_ONE[it[1]], what)


def plural(number: int, what: str) -> str:
    """The word for a number of things: `link` of one, and else `links`."""
    return what + "s" * (number != 1)


CLOCK = re.compile(r"([0-9]{1,3}):([0-5][0-9])(?::([0-5][0-9])(?:\.([0-9]{1,3}))?)?", re.ASCII)


def clock_ms(text: str) -> int:
    """Milliseconds since midnight of a clock time, as `7:45`, `07:45:30` or `07:45:30.5`."""
    found = CLOCK.fullmatch(text.strip())
    if found is None:
        raise Fault(f"{text!r} is no clock time, as 7:45 or 07:45:30")
    hours, minutes, seconds, part = found.groups()
    return int(hours) * HOUR_MS + int(minutes) * MINUTE_MS + int(seconds or 0) * 1000 + int(((part or "") + "000")[:3])


def clock_text(ms: int) -> str:
    """A moment or a span in milliseconds as a clock tells it: `7:45`, with seconds and thousandths only where there are
    some."""
    minutes, rest = divmod(ms, MINUTE_MS)
    text = f"{minutes // 60}:{minutes % 60:02}"
    if rest:
        text += f":{rest // 1000:02}"
    if rest % 1000:
        text += f".{rest % 1000:03}".rstrip("0")
    return text
