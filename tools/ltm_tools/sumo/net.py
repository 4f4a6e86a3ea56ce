"""Reads a network of SUMO (`.net.xml`) and its fixed-time programs.

An edge that cars may use becomes a road: its length and speed are those of its lanes. Inner edges of junctions are
passed over, as SUMO's mesoscopic run passes over them.
"""
from __future__ import annotations

import gzip
import re
import xml.etree.ElementTree as ElementTree
import zlib
from collections.abc import Iterator
from dataclasses import dataclass, field
from fractions import Fraction
from pathlib import Path
from typing import IO

from ..errors import Fault
from ..case.places import Line
from ..files import shown
from ..formats import LEAST_ABOVE_0, exact_or_none, number_rule, whole_of
from ..network.network import LEAST_M, Network, Node, road_of
from ..network.placing import Map
from .places import map_of, shape_of

INNER = {"internal", "crossing", "walkingarea"}
VIA = re.compile(r":.*_([0-9]{1,6})_([0-9]{1,6})")
"""The inner lane of a way: its edge has the number of the first way over it, and its lanes count from there."""


@dataclass(frozen=True, slots=True)
class Connection:
    """A way from a lane of an edge onto another edge, with its signal where it has one."""

    edge: str
    after: str
    lane: int
    signal: str | None
    index: int
    request: int = -1
    """Its number among the ways over its junction, where the net tells it."""
    state: str = ""
    """Its letter where no signal holds it: a large one where it has priority."""


@dataclass(frozen=True, slots=True)
class Program:
    """A program of a signal: phases of a length in ms, each with a letter for each way."""

    signal: str
    name: str
    kind: str
    offset_ms: int
    phases: tuple[tuple[int, str], ...]


@dataclass
class SumoNet:
    """What is read of a net file."""

    network: Network = field(default_factory=Network)
    lanes: dict[str, list[int]] = field(default_factory=dict)
    """Of each edge the lanes that cars may use."""
    connections: list[Connection] = field(default_factory=list)
    programs: dict[str, Program] = field(default_factory=dict)
    left_out: dict[str, int] = field(default_factory=dict)
    """Why edges were left out, and how many."""
    shorter: int = 0
    """How many edges are shorter than the least length of a road, and get that."""
    letters: dict[str, int] = field(default_factory=dict)
    """Of each signal how many ways it holds, those on foot too: so many letters its phases have."""
    not_fixed: dict[str, str] = field(default_factory=dict)
    """The kind of each program that is not of fixed times."""
    yields: dict[str, dict[int, str]] = field(default_factory=dict)
    """Of each junction and way over it, by number, a sign for each way: 1 where it yields to that one; the last sign is
    of way 0."""
    circling: set[str] = field(default_factory=set)
    """The edges of roundabouts."""
    streets: dict[str, str] = field(default_factory=dict)
    """The name of the street of each edge that has one."""
    unused: list[tuple[str, Line]] = field(default_factory=list)
    """The edges that are left out as not for these vehicles: `road` or `rail`, and their points."""
    drawn: Map = Map()
    """How places of the net become those of the world."""


def opened(path: Path) -> IO[bytes]:
    """A file to read from, unpacked where it is packed by gzip."""
    try:
        file = open(path, "rb")
        packed = file.read(2) == b"\x1f\x8b"
        file.seek(0)
    except OSError as error:
        raise Fault(f"{path}: {(error.strerror or str(error)).lower()}") from None
    return gzip.open(file) if packed else file  # type: ignore[return-value]


def elements(path: Path, depth: int = 1) -> Iterator[ElementTree.Element]:
    """The elements at a depth below the root, each whole, with the memory of those before given back; the root's start
    comes first, without what is in it."""
    level = 0
    root: ElementTree.Element | None = None
    try:
        with opened(path) as file:
            for event, element in ElementTree.iterparse(file, ("start", "end")):
                if event == "start":
                    level += 1
                    if root is None:
                        root = element
                        yield ElementTree.Element(element.tag, element.attrib)
                    continue
                level -= 1
                if level == depth:
                    yield element
                    root.clear() if root is not None and depth == 1 else element.clear()
    except ElementTree.ParseError as error:
        raise Fault(f"{path}: this is no XML file, or it is cut off: {error}") from None
    except (EOFError, gzip.BadGzipFile, zlib.error) as error:
        raise Fault(f"{path}: the packed file is cut off or damaged: {error}") from None
    except OSError as error:
        raise Fault(f"{path}: it cannot be read: {error}") from None
    except (LookupError, ValueError) as error:  # of an encoding that Python's reader of XML does not have
        raise Fault(f"{path}: it cannot be read: {error}; iconv turns it into UTF-8") from None


def number_attribute(element: ElementTree.Element, name: str, what: str) -> Fraction:
    """A number that an attribute has."""
    text = element.get(name, "")
    found = exact_or_none(text)
    if found is None:
        raise Fault(f"{what}: {name} is {shown(text)}, and {number_rule(text)}")
    return found


def whole_attribute(element: ElementTree.Element, name: str, default: int) -> int:
    """A whole number that an attribute has; the default where it is not there."""
    text = element.get(name)
    if text is None:
        return default
    found = whole_of(text.strip().removeprefix("-"))
    if found is None:
        raise Fault(
            f"{element.tag} {element.get('id') or element.get('from', '')}: {name} is {shown(text)};"
            f" expected a whole number"
        )
    return -found if text.strip().startswith("-") else found


def may_use(lane: ElementTree.Element, vehicle_class: str) -> bool:
    """Whether vehicles of a class may use a lane; those of the class `ignoring` may use each, as in SUMO."""
    if vehicle_class == "ignoring":
        return True
    allowed, forbidden = lane.get("allow"), lane.get("disallow")
    if allowed:
        return vehicle_class in allowed.split() or allowed == "all"
    if forbidden:
        return not (vehicle_class in forbidden.split() or forbidden == "all")
    return True


def read_net(path: Path, *, vehicle_class: str, headway: Fraction, spacing: Fraction) -> SumoNet:
    """The network in a net file. A lane takes a vehicle every `headway` seconds and the time to drive `spacing` metres,
    and stores one every `spacing` metres."""
    net = SumoNet()
    for element in elements(path):
        if element.tag == "location":
            net.drawn = map_of(element)
        elif element.tag == "edge":
            read_edge(net, element, vehicle_class, headway, spacing)
        elif element.tag == "junction" and element.get("type") != "internal":
            read_junction(net, element)
        elif element.tag == "connection":
            read_connection(net, element)
        elif element.tag == "roundabout":
            net.circling.update(element.get("edges", "").split())
        elif element.tag == "tlLogic":
            read_program(net, element, path)
        elif element.tag not in ("net", "type", "request", "roundabout", "param", "prohibition", "junction"):
            if element.tag in ("routes", "nodes", "edges", "additional"):
                raise Fault(
                    f"{path}: this is no net; its root is {element.tag}. Make one by: netconvert -n NODES -e"
                    f" EDGES -o NET"
                )
    check_roads(net, path, vehicle_class)
    for program in net.programs.values():
        check_letters(net, program, path)
    net.connections = [
        way
        for way in net.connections
        if way.edge in net.network.roads and way.after in net.network.roads and way.lane in net.lanes[way.edge]
    ]
    for node in [node for node in net.network.nodes if not net.network.ins[node] and not net.network.outs[node]]:
        net.network.drop_node(node)
    return net


def read_junction(net: SumoNet, element: ElementTree.Element) -> None:
    """A junction: its place, and which of its ways yield to which."""
    name = element.get("id", "")
    x, y = (number_attribute(element, axis, f"junction {name}") if element.get(axis) else None for axis in "xy")
    net.network.add_node(Node(name, None if x is None else float(x), None if y is None else float(y)))
    net.yields[name] = {
        whole_attribute(one, "index", -1): one.get("response", "") for one in element.findall("request")
    }


def check_roads(net: SumoNet, path: Path, vehicle_class: str) -> None:
    """A Fault where a net has no edge that these vehicles may use."""
    if not net.network.roads and not net.left_out:
        raise Fault(f"{path}: no edges; expected a net of SUMO, as netconvert writes it")
    if not net.network.roads:
        raise Fault(f"{path}: no edge that a {vehicle_class} may use; --vehicle-class names another")


def leave_out(net: SumoNet, why: str) -> None:
    """Counts an edge that is left out."""
    net.left_out[why] = net.left_out.get(why, 0) + 1


def keep_unused(net: SumoNet, element: ElementTree.Element) -> None:
    """Keeps how an edge runs that carries no vehicles, by its own points or those of its first lane."""
    lane = element.find("lane")
    line = shape_of(element) or (shape_of(lane) if lane is not None else ())
    is_rail = any(word in element.get("type", "").lower() for word in ("rail", "tram", "subway"))
    if len(line) > 1:
        net.unused.append(("rail" if is_rail else "road", line))


def read_edge(
    net: SumoNet, element: ElementTree.Element, vehicle_class: str, headway: Fraction, spacing: Fraction
) -> None:
    """The road of an edge, where cars may use it."""
    if element.get("function", "normal") in INNER or element.get("id", "").startswith(":"):
        return
    name, tail, head = (element.get(key, "") for key in ("id", "from", "to"))
    lanes = [lane for lane in element.findall("lane") if may_use(lane, vehicle_class)]
    if not tail or not head:
        return leave_out(net, "without ends")
    if not lanes:
        keep_unused(net, element)
        return leave_out(net, f"not for a {vehicle_class}")
    if tail == head:
        return leave_out(net, "ending where they begin")
    what = f"edge {name}"
    metres = sum((number_attribute(lane, "length", what) for lane in lanes), Fraction(0)) / len(lanes)
    speed = sum((number_attribute(lane, "speed", what) for lane in lanes), Fraction(0)) / len(lanes)
    if metres <= 0 or speed < LEAST_ABOVE_0:
        return leave_out(net, "without length or speed")
    net.shorter += metres < LEAST_M
    capacity = len(lanes) * 3600 / (headway + spacing / speed)
    net.network.add(
        road_of(
            name,
            tail,
            head,
            metres=metres,
            kmh=speed * Fraction(18, 5),
            jam=1000 / spacing * len(lanes),
            capacity=capacity,
            kind=element.get("type") or element.get("function") or "",
            shape=shape_of(element),
        )
    )
    if street := " ".join(element.get("name", "").split()):
        net.streets[name] = street
    net.lanes[name] = [whole_attribute(lane, "index", place) for place, lane in enumerate(lanes)]


def read_connection(net: SumoNet, element: ElementTree.Element) -> None:
    """A way from an edge onto another; those within junctions are passed over."""
    edge, after, signal = element.get("from", ""), element.get("to", ""), element.get("tl")
    lane, index = whole_attribute(element, "fromLane", 0), whole_attribute(element, "linkIndex", -1)
    if signal is not None:
        net.letters[signal] = max(net.letters.get(signal, 0), index + 1)
    if edge.startswith(":") or after.startswith(":"):
        return
    via = VIA.fullmatch(element.get("via", ""))
    request = int(via[1]) + int(via[2]) if via else -1
    net.connections.append(Connection(edge, after, lane, signal, index, request, element.get("state", "")))


def read_program(net: SumoNet, element: ElementTree.Element, path: Path) -> None:
    """A program of a signal in a file; the last one of a signal counts, as for SUMO."""
    signal, kind = element.get("id", ""), element.get("type", "static")
    if element.get("programID") == "off" or not element.findall("phase"):
        return
    what = f"{path}: signal {signal}"
    phases = tuple(
        (nearest_ms(number_attribute(phase, "duration", what)), phase.get("state", ""))
        for phase in element.findall("phase")
    )
    if any(length < 0 for length, _ in phases):
        raise Fault(f"{what}: a phase of {min(length for length, _ in phases) / 1000:g} s; a duration is 0 or more")
    offset = nearest_ms(number_attribute(element, "offset", what)) if element.get("offset") else 0
    net.programs[signal] = Program(signal, element.get("programID", ""), kind, offset, phases)
    net.not_fixed.pop(signal, None)
    if kind not in ("static", ""):
        net.not_fixed[signal] = kind


def check_letters(net: SumoNet, program: Program, path: Path) -> None:
    """A Fault where the phases of a program have fewer letters than its signal holds ways, or not all the same number:
    SUMO takes none."""
    ways, counts = net.letters.get(program.signal, 0), sorted({len(state) for _, state in program.phases})
    what = f"{path}: signal {program.signal}, program {program.name}"
    if len(counts) > 1:
        raise Fault(
            f"{what}: its phases have {' and '.join(map(str, counts))} letters, and all are to have the same"
            f" number, one for each way"
        )
    if counts[0] < ways:
        raise Fault(
            f"{what}: its phases have {counts[0]} letters, and the signal holds {ways} ways: expected one for each"
        )


def read_programs(net: SumoNet, path: Path) -> int:
    """The programs of an additional file, over those of the net; how many there are."""
    known = {way.signal for way in net.connections}
    count = 0
    for element in elements(path):
        if element.tag == "tlLogic":
            read_program(net, element, path)
            if (program := net.programs.get(element.get("id", ""))) is not None:
                check_letters(net, program, path)
            count += 1
            if element.get("id") not in known:
                raise Fault(
                    f"{path}: signal {element.get('id')} holds no way of the net; the file belongs to another net"
                )
    return count


def nearest_ms(time: Fraction) -> int:
    """Seconds in whole milliseconds."""
    return int(time * 1000 + Fraction(1, 2))
