"""Reads a network in the General Modeling Network Specification (GMNS): `link.csv`, and `node.csv` and `config.csv`
where they are.

A link needs its ends, and a length or places to work it out. What else is missing is set by its kind, and that is told.
"""
from __future__ import annotations

import re
from collections.abc import Sequence
from dataclasses import dataclass, field, replace
from fractions import Fraction
from pathlib import Path

from ..errors import Fault
from ..formats import agreeing, many
from ..files import Row
from ..network.lengths import LENGTH_WORDS, METRES, metres, wkt_points, unit_by_lengths, unit_by_range
from ..network.lines import Point, towards
from ..network.network import LEAST_M, Network, Node, Road, road_of
from ..tables import Reading, Table, read, whole_ids
from .fields import (
    EMPTY,
    KMH,
    LINK_NAMES,
    NO,
    NODE_NAMES,
    SPEED_WORDS,
    YES,
    for_cars,
    fraction_or_none,
    fraction_zero,
    kind_defaults,
    least_of,
    measure,
    number_or_none,
)
from .sides import TurnedRow, by_side


@dataclass
class FieldUnits:
    """The units of a network's fields; None where nothing says them."""

    length: str | None = None
    speed: str | None = None
    places: str | None = None
    capacity: str = "lane"
    jam: Fraction = Fraction(150)
    reading: Reading = Reading()
    rename: bool = False
    """Whether a name that stands twice gets a number."""
    crs: str | None = None
    """The projection of places, where that is not degrees of longitude and latitude."""
    turns: bool = False
    """Whether turns are read."""


@dataclass
class Read:
    """A network that was read, what is wrong with it, and what was set or left out."""

    network: Network = field(default_factory=Network)
    faults: list[str] = field(default_factory=list)
    guesses: list[str] = field(default_factory=list)
    """What was guessed, which is reported before all else, a line each."""
    notes: list[str] = field(default_factory=list)
    counts: dict[str, int] = field(default_factory=dict)
    streets: dict[str, str] = field(default_factory=dict)
    """The name of the street of each link that has one."""
    nodes: Table | None = None
    units: FieldUnits = field(default_factory=FieldUnits)

    def count(self, what: str) -> None:
        """Counts a link for which something was set, or that was left out."""
        self.counts[what] = self.counts.get(what, 0) + 1

    def told(self) -> list[str]:
        """What was set and left out, a line each."""
        return [*self.notes, *(f"{many(count, 'link')} {agreeing(what, count)}" for what, count in self.counts.items())]


def read_gmns(folder: Path, units: FieldUnits) -> Read:
    """The network in a folder; its `faults` are to be looked at."""
    path = file_of(folder, "link.csv")
    if not path.exists():
        raise Fault(f"{folder}: no link.csv; {instead(folder)}")
    made = Read(units=units)
    read_config(folder, made)
    made.nodes = read_nodes(folder, made)
    table = read(path, ("from_node_id", "to_node_id"), LINK_NAMES, units.reading)
    made.notes += table.notes
    if not units.turns and file_of(folder, "movement.csv").exists():
        made.notes.append(
            "movement.csv is not read: from each link traffic may go on by each link that leaves its end"
            " node, except where splits do not send it"
        )
    whole_ids(table.rows, ("link_id", "from_node_id", "to_node_id"))
    if "link_id" not in table.fields:
        made.notes.append("link.csv has no link_id; links are named by their ends")
    rows = by_side(table)
    for row in rows:
        plain_numbers(row, made)
    shapes = read_shapes(folder, units)
    lines = [link_line(row, made, shapes) for row in rows]
    check_units(rows, lines, made)
    taken: set[str] = set()
    for row, line in zip(rows, lines):
        read_link(row, line, made, taken)
    if not made.network.roads and not made.faults:
        raise Fault("; ".join([f"{path}: no link that cars may use", *made.told()]))
    return made


def file_of(folder: Path, name: str) -> Path:
    """The file of a name in a folder, in small or in capital letters; the path of that name where there is none."""
    path = folder / name
    others = (
        sorted(one for one in folder.iterdir() if one.name.lower() == name)
        if folder.is_dir() and not path.exists()
        else []
    )
    return others[0] if others else path


def instead(folder: Path) -> str:
    """What to do with a folder, or a file, that has no link.csv."""
    if not folder.is_dir():
        return "expected a folder with link.csv and node.csv" + (
            ", and this is a file" if folder.exists() else ", and there is none of this name"
        )
    near = sorted(found.name for found in folder.iterdir())
    packed = next((name for name in near if name.lower().endswith((".zip", ".gz", ".tar", ".7z"))), None)
    links = next((name for name in near if name.lower().endswith((".csv", ".txt")) and "link" in name.lower()), None)
    if links or packed:
        return (
            f"if {links} has the links, call it link.csv"
            if links
            else f"unpack {packed}, and name the folder of its link.csv"
        )
    return f"it has {', '.join(near[:8])}" if near else "expected a folder with link.csv and node.csv, and it is empty"


def read_config(folder: Path, made: Read) -> None:
    """The units that `config.csv` says, where none are given."""
    path = file_of(folder, "config.csv")
    if not path.exists():
        return
    rows = read(path, (), None, made.units.reading).rows
    fields = rows[0].fields if rows else {}
    said = {name: fields.get(name, "").strip().lower() for name in ("long_length", "speed")}
    length, speed = LENGTH_WORDS.get(said["long_length"]), SPEED_WORDS.get(said["speed"])
    for name, known, option, asked in (
        ("long_length", length, "--length-unit", made.units.length),
        ("speed", speed, "--speed-unit", made.units.speed),
    ):
        if said[name] and not known and not asked:
            raise Fault(f"config.csv: {name} is {said[name]!r}, a unit that is not known; give {option}")
    made.units.crs = made.units.crs or crs_of(fields.get("crs", ""))
    if made.units.length is None and length:
        made.units.length = length
        made.notes.append(f"config.csv says that lengths are in {length}")
    if made.units.speed is None and speed:
        made.units.speed = speed
        made.notes.append(f"config.csv says that speeds are in {speed}")


def crs_of(text: str) -> str | None:
    """The EPSG code that a text tells, as `EPSG:25832`; None where it tells none."""
    found = re.fullmatch(r"(?:urn:ogc:def:crs:)?(?:epsg *:*)? *([0-9]{4,6})", text.strip().lower())
    return f"EPSG:{found[1]}" if found is not None else None


def read_nodes(folder: Path, made: Read) -> Table | None:
    """The places of `node.csv`, where it is there."""
    path = file_of(folder, "node.csv")
    if not path.exists():
        return None
    table = read(path, ("node_id",), NODE_NAMES, made.units.reading)
    made.notes += table.notes
    whole_ids(table.rows, ("node_id", "zone_id"))
    for row in table.rows:
        name = row.text("node_id", "")
        if name:
            made.network.add_node(Node(name, number_or_none(row, "x_coord"), number_or_none(row, "y_coord")))
    return table


def read_shapes(folder: Path, units: FieldUnits) -> dict[str, str]:
    """The lines of `geometry.csv` by id, where it is there."""
    path = file_of(folder, "geometry.csv")
    if not path.exists():
        return {}
    rows = read(path, ("geometry_id", "geometry"), None, units.reading).rows
    return {row.text("geometry_id", ""): row.text("geometry", "") for row in rows}


def plain_numbers(row: Row, made: Read) -> None:
    """Writes numbers with units, and lists of numbers, as single numbers in the units of the other rows."""
    measure(row, "length", LENGTH_WORDS, METRES, made.units.length or "m")
    measure(row, "free_speed", SPEED_WORDS, KMH, made.units.speed or "kmh")
    for name in ("lanes", "free_speed"):
        if least_of(row, name):
            made.count(f"have several {name.replace('_', ' ').rstrip('s')}s, of which the least counts")


def link_line(row: Row, made: Read, shapes: dict[str, str]) -> list[Point]:
    """The points of a link: of its geometry, else its ends; none where they have no places."""
    points = wkt_points(row.text("geometry", "") or shapes.get(row.text("geometry_id", ""), ""))
    if points:
        return points[::-1] if isinstance(row, TurnedRow) else points
    ends = [made.network.nodes.get(row.text(name, "")) for name in ("from_node_id", "to_node_id")]
    return (
        [(node.x, node.y) for node in ends if node is not None and node.x is not None and node.y is not None]
        if None not in ends
        else []
    )


def check_units(rows: Sequence[Row], lines: Sequence[list[Point]], made: Read) -> None:
    """Settles the unit of places, and says where lengths do not go with them."""
    unit = made.units.length or "m"
    known, points = [], []
    for row, line in zip(rows, lines):
        points += line
        length = fraction_or_none(row, "length")
        if len(line) > 1 and length:
            known.append((line, length * METRES[unit]))
    if made.units.places is None:
        found, ratio = unit_by_lengths(known) if len(known) > 2 else ("", 0.0)
        made.units.places = found if 0.5 < ratio < 2 else unit_by_range(points)
    ratios = sorted(float(length / drawn) for line, length in known if (drawn := metres(line, made.units.places)) > 0)
    middle = ratios[len(ratios) // 2] if ratios else 1.0
    if made.units.length is None and len(ratios) > 2 and made.units.places == "degrees":
        for other, scale in METRES.items():
            if other != "m" and abs(middle * float(scale) - 1) < 0.15 and not 0.5 < middle < 2:
                made.guesses.append(
                    f"no unit of lengths is given: they are read as {other}, as the places of nodes and lines say;"
                    f" --length-unit m reads them as metres"
                )
                made.units.length = other
                return
        if not 0.2 < middle < 5:
            made.notes.append(
                f"lengths are {middle:.3g} times what the places of nodes and lines say: look at"
                f" --length-unit and --places"
            )


def positive_number(row: Row, name: str, default: Fraction | None, what: str, made: Read) -> Fraction | None:
    """The number above 0 of a field; the default, where it is empty; none, with a fault, where there is none."""
    text = row.fields.get(name, "").strip()
    if text.lower() in EMPTY and default is not None:
        return default
    found = fraction_or_none(row, name)
    if found is None:
        made.faults.append(
            f"{what}: {name} is {text!r}; expected a number above 0"
            + ("; left empty it is set by the link's kind" if default is not None else "")
        )
    return found


def read_link(row: Row, line: list[Point], made: Read, taken: set[str]) -> None:
    """The road, or the two roads, of a row."""
    ends = row.text("from_node_id", ""), row.text("to_node_id", "")
    name = row.text("link_id", "") or f"{ends[0]}_{ends[1]}"
    what = f"link {name}"
    if not all(ends):
        made.faults.append(f"{what}: {row.place} has no {'to' if ends[0] else 'from'}_node_id")
        return
    if not for_cars(row):
        made.count("are not for cars and are left out")
        return
    if any((value := row.text(field, "")) and fraction_zero(value) for field in ("lanes", "capacity")):
        made.count("have no lanes or no capacity, so nothing can drive there, and are left out")
        return
    road = road_of_row(row, name, ends, line, what, made)
    if road is None:
        return
    for one in (road, *both_ways(row, road, made)):
        if one.tail == one.head:
            made.count("end where they begin and are left out")
            continue
        if one.name in taken and (made.units.rename or not row.text("link_id", "")):
            one.name = another_name(one.name, taken)
            one.parts = (one.name,)
            made.count("have a name that stands twice, and get a number behind it")
        if one.name in taken:
            made.faults.append(f"link {one.name}: the name stands twice; --rename puts a number behind it")
        else:
            taken.add(one.name)
            made.network.add(one)
            if street := row.text("name", ""):
                made.streets[one.name] = street


def another_name(name: str, taken: set[str]) -> str:
    """The name with the first number behind it with which it is not taken."""
    number = 2
    while f"{name}_{number}" in taken:
        number += 1
    return f"{name}_{number}"


def both_ways(row: Row, road: Road, made: Read) -> list[Road]:
    """The way back of a link that is not directed."""
    text = row.text("directed", "0" if row.text("dir_flag", "1") == "0" else "1").lower()
    if text not in (*YES, *NO) and not fraction_zero(text):
        made.faults.append(f"link {road.name}: directed is {text!r}; expected 1 or true, 0 or false")
    if text not in NO and not fraction_zero(text):
        return []
    name = road.name + "_r"
    return [replace(road, name=name, tail=road.head, head=road.tail, parts=(name,), shape=road.shape[::-1])]


def road_of_row(row: Row, name: str, ends: tuple[str, str], line: list[Point], what: str, made: Read) -> Road | None:
    """The road of a row, with what is missing set by its kind."""
    units, kind = made.units, row.text("facility_type", "")
    lane_flow, kmh, lanes_of_kind = kind_defaults(kind)
    for name_of, word in (("lanes", "lane count"), ("free_speed", "speed"), ("capacity", "capacity")):
        if row.text(name_of, "").lower() in EMPTY:
            made.count(f"get their {word} by their kind")
    lanes = positive_number(row, "lanes", Fraction(lanes_of_kind if kind else 1), what, made)
    speed = positive_number(row, "free_speed", Fraction(kmh) / KMH[units.speed or "kmh"], what, made)
    length = length_of(row, line, what, made)
    whole = units.capacity == "link" and row.text("capacity", "") != ""
    capacity = positive_number(row, "capacity", Fraction(lane_flow), what, made)
    if lanes is None or speed is None or length is None or capacity is None:
        return None
    tail, head = (made.network.nodes[end].place if end in made.network.nodes else None for end in ends)
    return road_of(
        name,
        *ends,
        metres=length,
        kmh=speed * KMH[units.speed or "kmh"],
        jam=units.jam * lanes,
        capacity=capacity if whole else capacity * lanes,
        kind=kind,
        shape=towards(line, tail, head) if len(line) > 1 else (),
    )


def length_of(row: Row, line: list[Point], what: str, made: Read) -> Fraction | None:
    """The metres of a link, by its field or, where that is empty or 0, its places."""
    text = row.text("length", "").lower()
    drawn = metres(line, made.units.places or "m") if len(line) > 1 else Fraction(0)
    if text not in EMPTY and not (fraction_zero(text) and drawn > 0):
        length = Fraction(0) if fraction_zero(text) else positive_number(row, "length", None, what, made)
        length = None if length is None else length * METRES[made.units.length or "m"]
    elif drawn > 0:
        made.count("get their length by their places")
        length = drawn
    else:
        made.faults.append(
            f"{what}: no length, and no geometry or places of its nodes to work it out; give the field length"
        )
        return None
    if length is not None and length < LEAST_M:
        made.count("are shorter than 1 m and get 1 m")
    return length
