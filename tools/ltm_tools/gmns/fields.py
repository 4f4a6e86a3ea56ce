"""The fields of a GMNS network: their names in files of several tools, their units, and what a kind of link has where
nothing is said."""
from __future__ import annotations

import math
import re
from collections.abc import Mapping
from fractions import Fraction

from ..files import Row
from ..formats import above_0_or_none, exact_or_none
from ..network.lengths import MOST_PLACE

KMH = {"kmh": Fraction(1), "mph": Fraction(1609344, 1000000), "ms": Fraction(18, 5)}
SPEED_WORDS = {
    "kmh": "kmh",
    "kph": "kmh",
    "km/h": "kmh",
    "kmph": "kmh",
    "km/hr": "kmh",
    "kilometers per hour": "kmh",
    "kilometres per hour": "kmh",
    "mph": "mph",
    "mi/h": "mph",
    "mi/hr": "mph",
    "miles per hour": "mph",
    "m/s": "ms",
    "mps": "ms",
    "meters per second": "ms",
    "metres per second": "ms",
}
EMPTY = ("", "nan", "none", "null")
THOUSANDS = re.compile(r"[0-9]{1,3}(?:,[0-9]{3})+(?:\.[0-9]*)?")
MEASURE = re.compile(r"([0-9.]+(?:[eE][-+]?[0-9]+)?)\s*([a-z/ ]+)")
LIST = re.compile(r"[\[{(]?\s*['\"]?[0-9.]+(?:['\"]?\s*[;,|]\s*['\"]?[0-9.]+)+['\"]?\s*[\]})]?")

LINK_NAMES = {
    "link_id": ("id", "linkid", "link", "no", "link_no"),
    "from_node_id": (
        "from_node",
        "a_node",
        "from",
        "a",
        "from_id",
        "anode",
        "node_a",
        "fromnode",
        "from_node_no",
        "fromnodeno",
        "init_node",
        "start_node",
        "inode",
        "source",
        "u",
    ),
    "to_node_id": (
        "to_node",
        "b_node",
        "to",
        "b",
        "to_id",
        "bnode",
        "node_b",
        "tonode",
        "to_node_no",
        "tonodeno",
        "term_node",
        "end_node",
        "jnode",
        "target",
        "v",
    ),
    "length": ("length_m", "link_length", "distance", "dist"),
    "free_speed": (
        "freespeed",
        "speed",
        "speed_limit",
        "speedlimit",
        "free_flow_speed",
        "vf",
        "ffs",
        "maxspeed",
        "v0prt",
    ),
    "lanes": ("lane", "num_lanes", "numlanes", "nlanes", "permlanes", "lane_count", "number_of_lanes"),
    "capacity": ("cap", "link_capacity", "capacity_per_lane", "capprt"),
    "facility_type": ("link_type_name", "type", "highway", "road_type", "class", "typeno", "link_type"),
    "directed": ("is_directed", "oneway"),
    "allowed_uses": ("allowed_use", "uses", "modes"),
    "geometry": ("wkt", "geom", "shape"),
}
NODE_NAMES = {
    "node_id": ("id", "nodeid", "node", "no", "node_no", "osmid"),
    "x_coord": ("x", "lon", "longitude", "xcoord"),
    "y_coord": ("y", "lat", "latitude", "ycoord"),
    "zone_id": ("zone", "zoneid", "taz"),
    "zone_share": ("share", "zone_weight"),
}

KINDS = (
    # words in a kind, vehicles an hour and lane, km/h, lanes
    (("connector", "centroid"), 1800, 50, 4),
    (("ramp", "_link", "slip"), 1700, 60, 1),
    (("motorway", "freeway", "highway", "interstate", "expressway"), 2000, 110, 2),
    (("trunk",), 1900, 90, 2),
    (("primary", "principal", "major", "arterial"), 1800, 60, 2),
    (("secondary", "minor"), 1700, 50, 1),
    (("tertiary", "collector"), 1600, 50, 1),
    (("residential", "local", "unclassified", "living", "service", "track", "road"), 1400, 30, 1),
)
OTHER_KIND = 1700, 50, 1
NOT_FOR_CARS = (
    "footway",
    "path",
    "pedestrian",
    "cycleway",
    "steps",
    "rail",
    "tram",
    "subway",
    "bridleway",
    "ferry",
    "walk",
    "bike",
)
CAR_USES = ("auto", "car", "all", "motor", "vehicle", "truck", "hov", "sov", "drive", "passenger")
YES, NO = ("1", "true", "t", "yes", "y"), ("0", "false", "f", "no", "n")


def fraction_or_none(row: Row, name: str) -> Fraction | None:
    """The exact number above 0 of a field, or none."""
    return above_0_or_none(row.fields.get(name, ""))


def measure(row: Row, name: str, words: Mapping[str, str], scales: Mapping[str, Fraction], unit: str) -> None:
    """Writes a field with a unit behind its number, as `30 mph`, in the unit of the others."""
    found = MEASURE.fullmatch(row.fields.get(name, "").strip().lower())
    number = above_0_or_none(found[1]) if found else None
    if found and number and found[2].strip() in words:
        row.fields[name] = str(number * scales[words[found[2].strip()]] / scales[unit])


def least_of(row: Row, name: str) -> bool:
    """Writes the least number of a field that has several, as `['2', '3']` or `50;70`; whether it had."""
    text = row.fields.get(name, "").strip()
    if LIST.fullmatch(text) and not THOUSANDS.fullmatch(text):
        numbers = [number for part in re.findall(r"[0-9.]+", text) if (number := above_0_or_none(part))]
        if numbers:
            row.fields[name] = str(min(numbers))
            return True
    return False


def fraction_zero(text: str) -> bool:
    """Whether a text is the number 0."""
    return exact_or_none(text) == 0


def number_or_none(row: Row, name: str) -> float | None:
    """The number of a field, or none where there is none that can be a place."""
    try:
        value = float(row.fields.get(name, ""))
    except ValueError:
        return None
    return value if math.isfinite(value) and abs(value) < MOST_PLACE else None


def kind_defaults(text: str) -> tuple[int, int, int]:
    """Vehicles an hour and lane, km/h and lanes that a link of a kind has where nothing else is said."""
    low = text.lower()
    return next(
        ((flow, kmh, lanes) for words, flow, kmh, lanes in KINDS if any(word in low for word in words)), OTHER_KIND
    )


def for_cars(row: Row) -> bool:
    """Whether cars may use a link."""
    uses = row.text("allowed_uses", "").lower()
    if (
        uses
        and not any(word in uses for word in CAR_USES)
        and any(word in uses for word in (*NOT_FOR_CARS, "ped", "transit", "bus", "cycl"))
    ):
        return False
    return not any(word in row.text("facility_type", "").lower().split("|")[0] for word in NOT_FOR_CARS)
