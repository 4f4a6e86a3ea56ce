"""Reads files in the format of the Transportation Networks collection (TNTP): lines of metadata, as
`<NUMBER OF ZONES> 24`, up to `<END OF METADATA>`; then rows of fields with blanks or tabs between, each ended by `;`.
What stands behind `~` is a remark.
"""
from __future__ import annotations

import re
from collections.abc import Iterable, Iterator
from dataclasses import dataclass, field
from fractions import Fraction
from itertools import chain
from pathlib import Path

from ..errors import Fault
from ..files import read_text, shown
from ..formats import exact_or_none, number_rule, whole_of
from ..demand.matrices import Amounts
from ..demand.volumes import Volumes

META = re.compile(r"<([^>]*)>\s*(.*)")
END = "END OF METADATA"
LINK_FIELDS = ("init_node", "term_node", "capacity", "length", "free_flow_time")
"""The first fields of a link, all that a loading takes; behind them stand b, power, speed, toll and type."""
TOLL = 8
BLOCK = 65_536  # signs of a text that are cut into lines together
PLAIN = 15
"""The signs up to which a number without sign and power surely is no larger than one may be."""
POWERS = [10**power for power in range(PLAIN)]
HEADED = {
    name: re.compile(words + r"\s*[(\[]\s*([^)\]]+?)\s*[)\]]", re.IGNORECASE)
    for name, words in {"length": r"\blength", "time": r"\bfree[ _]flow[ _](?:travel[ _])?time"}.items()
}
"""Units that a header names, as in `Length (ft)`."""


@dataclass(frozen=True, slots=True)
class TntpLink:
    """A row of a network, in the units of its file; `place` is its file and line."""

    place: str
    tail: str
    head: str
    capacity: Fraction
    length: Fraction
    time: Fraction
    tolled: bool


@dataclass
class TntpNet:
    """What a network file says. `first_through` is the least number of a node that routes may lead through."""

    links: list[TntpLink] = field(default_factory=list)
    zones: int = 0
    first_through: int = 1
    units: dict[str, str] = field(default_factory=dict)
    """The unit of `length` and of `time`, where a header names it."""


@dataclass
class Parts:
    """The metadata of a file by name, its remarks as far as lines were asked for, and its other lines that are not
    empty, each with its number, which are read one by one."""

    path: Path
    lines: Iterator[tuple[int, str]]
    metadata: dict[str, str] = field(default_factory=dict)
    remarks: list[str] = field(default_factory=list)

    def whole(self, name: str, default: int) -> int:
        """A whole number of the metadata."""
        text = self.metadata.get(name, "")
        if not text:
            return default
        number = whole_of(text.partition(".")[0])
        if number is None:
            raise Fault(f"{self.path}: <{name}> is {shown(text)}; expected a whole number")
        return number


def file_parts(path: Path) -> Parts:
    """The parts of a file; a Fault where it has no metadata."""
    numbered = enumerate(lines_of(read_text(path)), 1)
    made, before = Parts(path, iter(())), []
    for number, line in numbered:
        found = META.match(line.strip())
        if found is None:
            before.append((number, line))
            continue
        name = found[1].strip().upper()
        made.metadata[name] = found[2].strip()
        if name == END:
            made.lines = plain_lines(chain(before, numbered), made.remarks)
            return made
    raise Fault(
        f"{path}: no line <{END}>; expected a file of the Transportation Networks collection, which begins with"
        f" lines as <NUMBER OF ZONES> 24"
    )


def lines_of(text: str) -> Iterator[str]:
    """The lines of a text, as `splitlines` cuts it, a block after the other."""
    begin = 0
    while begin < len(text):
        end = text.find("\n", begin + BLOCK) + 1 or len(text)
        yield from text[begin:end].splitlines()
        begin = end


def plain_lines(numbered: Iterable[tuple[int, str]], remarks: list[str]) -> Iterator[tuple[int, str]]:
    """The lines that are not empty, without remarks, which are noted."""
    for number, line in numbered:
        if "~" in line:
            line, _, remark = line.partition("~")
            remarks.append(remark)
        if text := line.strip():
            yield number, text


def read_net(path: Path) -> TntpNet:
    """The links of a network file, and what its metadata says."""
    parts = file_parts(path)
    made = TntpNet(zones=parts.whole("NUMBER OF ZONES", 0), first_through=parts.whole("FIRST THRU NODE", 1))
    made.links = [link_of(f"{path} line {number}", text) for number, text in parts.lines]
    if not made.links:
        raise Fault(f"{path}: no links; expected a network file first, then the trips")
    said = parts.whole("NUMBER OF LINKS", len(made.links))
    if said != len(made.links):
        raise Fault(
            f"{path}: {len(made.links)} links, and <NUMBER OF LINKS> says {said}: the file is cut off, or the number"
            f" is to be put right"
        )
    for text in (parts.metadata.get("ORIGINAL HEADER", ""), *parts.remarks):
        for name, unit in HEADED.items():
            if (found := unit.search(text)) is not None:
                made.units.setdefault(name, found[1].lower())
    return made


def link_of(place: str, text: str) -> TntpLink:
    """The link of a row."""
    fields = text.split(";")[0].split()
    if len(fields) < len(LINK_FIELDS):
        raise Fault(f"{place}: {len(fields)} fields; expected at least {', '.join(LINK_FIELDS)}")
    capacity, length, time = (
        amount(fields[column], LINK_FIELDS[column], place) for column in range(2, len(LINK_FIELDS))
    )
    toll = exact_or_none(fields[TOLL]) if len(fields) > TOLL else None
    return TntpLink(place, fields[0], fields[1], capacity, length, time, bool(toll))


def amount(text: str, name: str, place: str) -> Fraction:
    """A number that is 0 or more."""
    number = exact_or_none(text)
    if number is None or number < 0:
        why = number_rule(text) if number is None else "it is 0 or more"
        raise Fault(f"{place}: {name} is {shown(text)}: {why}")
    return number


def read_trips(path: Path) -> tuple[Amounts, Fraction | None]:
    """The trips of a file by zones, and their sum as its metadata says it."""
    parts = file_parts(path)
    made = Amounts(Volumes(), Fraction(0), ())
    add = made.volumes.add
    for origin, destination, count, per in cells_of(parts):
        if origin == destination:
            made.inner += Fraction(count, per)
        elif count:
            add(origin, destination, count, per)
    return made, exact_or_none(parts.metadata.get("TOTAL OD FLOW", ""))


def cells_of(parts: Parts) -> Iterator[tuple[str, str, int, int]]:
    """The entries of a trip file, with vehicles as a numerator and a denominator: lines as `Origin 1`, each followed by
    entries as `2 : 100.0;`."""
    origin = ""
    for number, text in parts.lines:
        if text[0] in "oO" and (words := text.split())[0].lower() == "origin":
            if len(words) < 2:
                raise Fault(f"{parts.path} line {number}: {shown(text)}: expected an origin, as Origin 1")
            origin, text = words[1], " ".join(words[2:])
        for entry in text.split(";"):
            destination, colon, volume = entry.partition(":")
            destination, volume = destination.strip(), volume.strip()
            if not origin or not destination or not colon:
                if not entry.strip():
                    continue
                raise Fault(
                    f"{parts.path} line {number}: {shown(entry.strip())}: expected a line Origin 1, then 2 : 100.0;"
                )
            whole, _, part = volume.partition(".")
            digits = whole + part
            if len(volume) <= PLAIN and digits.isdigit() and digits.isascii():
                yield origin, destination, int(digits), POWERS[len(part)]
            else:
                what = f"trips from {origin} to {destination}"
                yield origin, destination, *amount(volume, what, f"{parts.path} line {number}").as_integer_ratio()


def read_places(path: Path) -> dict[str, tuple[float, float]]:
    """The places of nodes: rows of a node, x and y, behind a header or none."""
    places: dict[str, tuple[float, float]] = {}
    for number, line in enumerate(read_text(path).splitlines(), 1):
        fields = line.partition("~")[0].split(";")[0].replace(",", " ").split()
        if not fields or fields[0].lower() in ("node", "id", "node_id") or fields[0].startswith("<"):
            continue
        numbers = [exact_or_none(text) for text in fields[1:3]]
        if len(numbers) < 2 or numbers[0] is None or numbers[1] is None:
            raise Fault(f"{path} line {number}: {shown(line.strip())}: expected a node, x and y")
        places[fields[0]] = float(numbers[0]), float(numbers[1])
    if not places:
        raise Fault(f"{path}: no nodes; expected rows of a node, x and y")
    return places
