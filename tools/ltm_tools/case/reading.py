"""The files of a case, read as strictly and in the same order as the program reads them.

The first fault is raised as NoFile, TooLong or BadCase, which the program would tell by its status or its line.
"""
import difflib
import os
from collections.abc import Callable, Iterable, Sequence
from functools import partial

from ..files import records
from ..formats import (
    HEADERS,
    MOST_CELLS_ASKED,
    MOST_FILE_BYTES,
    MOST_IN,
    MOST_JAM_PER_KM,
    MOST_KMH,
    MOST_LENGTH_M,
    MOST_OUT,
    MOST_SLOTS,
    MOST_SLOT_UNITS,
    MOST_STEP_MS,
    weights_or_none,
)
from . import bad_case
from .bad_case import BadCase, NoFile
from .fields import check_width, fetch, name_in, read_header, units_in, whole_in
from .matrix import Slice, is_matrix, parts, read_profile
from .routes import check_split_rows, give_routes
from .rows import Demand, Limit, Link, Rows, Setup, Split
from .valid import check_cells, check_routes, check_splits

MOST_DIAGRAM = (MOST_LENGTH_M, MOST_KMH, MOST_KMH, MOST_JAM_PER_KM)
FLAG = (0, 1)


def ranges(setup: Setup) -> dict[str, tuple[int, int]]:
    """Of each field of `setup.csv` the least and the most, which depend on whether a history is kept."""
    return {
        "step_ms": (1, MOST_STEP_MS),
        "slots": (1, MOST_SLOTS),
        "origin_capacity": (1, MOST_SLOT_UNITS),
        "signals": FLAG,
        "limits": FLAG,
        "cells": (1, MOST_CELLS_ASKED),
        "rows": (1, setup.rows_asked),
        "links": (1, setup.links_asked),
        "destinations": (1, setup.destinations_asked),
        "moves": FLAG,
        "carry": FLAG,
        "history": FLAG,
        "routes": FLAG,
    }


def read_case(folder: str | os.PathLike[str], *, splits: bool | None = None, routes: bool = True) -> Rows:
    """The valid case of a folder, or the first fault. With `splits` True a `splits.csv` is wanted, as by `load`; with
    False it is not looked at, and routes are asked for, as by `routes`; with None it may be missing. With `routes`
    False its splits are the records of `splits.csv` alone, also where its nodes take their free-flow routes: of a city
    these are millions of rows."""
    texts = {file: fetch(folder, file) for file in ("setup", "links")}
    most = longest_beside(texts["setup"])
    texts["demand"] = fetch(folder, "demand", most)
    if is_matrix(texts["demand"]):
        texts["profile"] = fetch(folder, "profile")
    if splits is not False:
        try:
            texts["splits"] = fetch(folder, "splits", most)
        except NoFile as fault:
            if splits or not fault.missing:
                raise
    reader = Reader(read_setup(texts["setup"]))
    for file in ("signals", "limits"):
        if splits is not False and getattr(reader.case.setup, file):
            texts[file] = fetch(folder, file)
    for file, add in reader.tables.items():
        if file == "demand" and "profile" in texts:
            slices = read_profile(texts["profile"], reader.case.setup.slots)
            add_rows(file, texts[file], partial(reader.add_pair, slices))
        elif file in texts:
            add_rows(file, texts[file], add)
            if file == "splits" and reader.case.setup.routes:
                check_split_rows(reader.case)
    case = reader.case
    case.splits = case.splits if "splits" in texts else None
    if splits is False:
        check_routes(case)
    elif case.splits is not None:
        check_splits(case)
    check_cells(case)
    if routes and case.setup.routes and case.splits is not None:
        give_routes(case)
    return case


def longest_beside(setup: bytes) -> int:
    """How many bytes the files of demand and of splits may have beside the bytes of a `setup.csv`, also of a faulty
    one."""
    try:
        return read_setup(setup).most_file_bytes
    except BadCase:
        return MOST_FILE_BYTES


def read_network(folder: str | os.PathLike[str]) -> Rows:
    """The setup and the links of a folder, whatever its other files say."""
    reader = Reader(read_setup(fetch(folder, "setup")))
    add_rows("links", fetch(folder, "links"), reader.add_link)
    return reader.case


def add_rows(file: str, data: bytes, add: Callable[[int, list[str]], None]) -> None:
    """Reads the header of a file, and adds each record behind it."""
    found = list(records(data))
    width = read_header(file, found)
    for row, record in enumerate(found[1:], 2):
        check_width(file, row, record.fields, width)
        add(row, record.fields)


def read_setup(data: bytes) -> Setup:
    """The setup that the bytes of a `setup.csv` say."""
    found = list(records(data))
    width = read_header("setup", found)
    if len(found) < 2:
        raise bad_case.no_setup_record()
    fields = found[1].fields
    check_width("setup", 2, fields, width)
    step_ms, slots = whole_in("setup", 2, fields, 1), whole_in("setup", 2, fields, 2)
    values = [step_ms, slots, units_in("setup", 2, fields, 3)]
    values += [whole_in("setup", 2, fields, place) for place in range(4, width + 1)]
    named = dict(zip(found[0].fields, values))
    setup = Setup(
        step_ms,
        slots,
        values[2],
        named.get("signals") == 1,
        named.get("limits") == 1,
        named.get("cells"),
        named.get("rows"),
        named.get("links"),
        named.get("destinations"),
        named.get("moves") == 1,
        named.get("carry") == 1,
        named.get("history") != 0,
        named.get("routes") == 1,
    )
    allowed = ranges(setup)
    for place, (name, value) in enumerate(named.items(), 1):
        least, most = allowed[name]
        if not least <= value <= most:
            raise bad_case.setup_range(place, name, fields[place - 1])
    if len(found) > 2:
        raise bad_case.second_setup_record()
    return setup


class Reader:
    """A case that grows record by record, with what the checks of a record look up."""

    def __init__(self, setup: Setup) -> None:
        self.case = Rows(setup, splits=[])
        self.rows: dict[str, int] = {}  # the row of each link
        self.links: dict[str, Link] = {}
        self.out: dict[str, list[str]] = {}  # the links out of each node
        self.into: dict[str, list[str]] = {}
        self.destinations: set[str] = set()
        self.demand: set[tuple[str, str, int, int]] = set()
        self.splits: set[tuple[str, str, int]] = set()
        self.tables: dict[str, Callable[[int, list[str]], None]] = {
            "links": self.add_link,
            "demand": self.add_demand,
            "splits": self.add_split,
            "signals": lambda row, fields: self.add_limit("signals", row, fields),
            "limits": lambda row, fields: self.add_limit("limits", row, fields),
        }

    def add_link(self, row: int, fields: list[str]) -> None:
        """Adds a record of links."""
        name, tail, head = (name_in("links", row, fields, place) for place in (1, 2, 3))
        link = Link(name, tail, head, *(whole_in("links", row, fields, place) for place in (4, 5, 6, 7)))
        self.check_place(row, link)
        self.check_limits(row, link)
        self.case.links.append(link)
        self.links[name], self.rows[name] = link, row
        for node in (tail, head):
            self.out.setdefault(node, [])
            self.into.setdefault(node, [])
        self.out[tail].append(name)
        self.into[head].append(name)

    def check_place(self, row: int, link: Link) -> None:
        """Whether the network takes a link of this name between these nodes."""
        if link.name in self.links:
            raise bad_case.twice_named(row, link.name, self.rows[link.name])
        if link.tail == link.head:
            raise bad_case.self_loop(row, link.tail)
        if len(self.links) >= self.case.setup.most_links:
            raise bad_case.too_many_links(row, self.case.setup)
        if len(self.out.get(link.tail, ())) >= MOST_OUT:
            raise bad_case.too_many_out(row, link.tail, self.out[link.tail])
        if len(self.into.get(link.head, ())) >= MOST_IN:
            raise bad_case.too_many_in(row, link.head, self.into[link.head])

    def check_limits(self, row: int, link: Link) -> None:
        """Whether the link's diagram sets limits at the step of the setup."""
        check_diagram(row, link, self.case.setup.step_ms, self.case.setup.carry)

    def check_node(self, file: str, row: int, place: int, name: str) -> None:
        """Whether the case has a node that a record names."""
        if name not in self.out:
            raise bad_case.unknown(file, row, place, "node", name, nearest_name(name, self.out))

    def add_destination(self, file: str, row: int, node: str) -> None:
        """Adds the destination that a record names, where it is new and there is room."""
        setup = self.case.setup
        if node not in self.destinations and len(self.destinations) >= setup.most_destinations:
            raise bad_case.too_many_destinations(file, row, node, setup)
        self.destinations.add(node)

    def add_demand(self, row: int, fields: list[str]) -> None:
        """Adds a record of demand."""
        origin, destination = name_in("demand", row, fields, 1), name_in("demand", row, fields, 2)
        first, end = whole_in("demand", row, fields, 3), whole_in("demand", row, fields, 4)
        units = units_in("demand", row, fields, 5)
        self.check_ends(row, origin, destination)
        self.check_slots("demand", row, first, end)
        self.add_destination("demand", row, destination)
        self.set_demand(row, (origin, destination, first, end), units)

    def add_pair(self, slices: Sequence[Slice], row: int, fields: list[str]) -> None:
        """Adds a record of a matrix: a row of demand for each slice."""
        origin, destination = name_in("demand", row, fields, 1), name_in("demand", row, fields, 2)
        units = units_in("demand", row, fields, 3)
        self.check_ends(row, origin, destination)
        self.add_destination("demand", row, destination)
        for part, of in zip(slices, parts(units, slices)):
            self.set_demand(row, (origin, destination, part.from_slot, part.to_slot), of)

    def check_ends(self, row: int, origin: str, destination: str) -> None:
        """Whether vehicles may start at one node for another."""
        self.check_node("demand", row, 1, origin)
        self.check_node("demand", row, 2, destination)
        if not self.out[origin]:
            raise bad_case.no_origin(row, origin)
        if origin == destination:
            raise bad_case.same_ends("demand", row, origin)

    def set_demand(self, row: int, key: tuple[str, str, int, int], units: int) -> None:
        """Sets a row of demand, where there is room."""
        most = self.case.setup.most_demand_rows
        if units and key not in self.demand and len(self.demand) >= most:
            raise bad_case.too_many_rows("demand", row, most, self.case.setup)
        (self.demand.add if units else self.demand.discard)(key)
        self.case.demand.append(Demand(*key, units))

    def check_slots(self, file: str, row: int, first: int, end: int) -> None:
        """Whether slots from one to before another are slots of the case."""
        if not first < end <= self.case.setup.slots:
            raise bad_case.bad_slots(file, row, first, end, self.case.setup.slots)

    def add_split(self, row: int, fields: list[str]) -> None:
        """Adds a record of splits."""
        node, destination = name_in("splits", row, fields, 1), name_in("splits", row, fields, 2)
        first, weights = whole_in("splits", row, fields, 3), weights_or_none(fields[3])
        if weights is None:
            raise bad_case.field("splits", row, 4, "weights", fields[3])
        self.check_node("splits", row, 1, node)
        self.check_node("splits", row, 2, destination)
        if node == destination:
            raise bad_case.same_ends("splits", row, node)
        if first >= self.case.setup.slots:
            raise bad_case.bad_slots("splits", row, first, None, self.case.setup.slots)
        for name in weights:
            if name not in self.out[node]:
                tail = self.links[name].tail if name in self.links else None
                raise bad_case.no_out_link(row, node, self.out[node], name, tail)
        if not any(weights.values()):
            raise bad_case.zero_weight(row)
        self.add_destination("splits", row, destination)
        key = (node, destination, first)
        most = self.case.setup.most_split_rows
        if key not in self.splits and len(self.splits) >= most:
            raise bad_case.too_many_rows("splits", row, most, self.case.setup)
        self.splits.add(key)
        assert self.case.splits is not None
        self.case.splits.append(Split(*key, weights))

    def add_limit(self, file: str, row: int, fields: list[str]) -> None:
        """Adds a record of signals or of limits."""
        name = name_in(file, row, fields, 1)
        first, end = whole_in(file, row, fields, 2), whole_in(file, row, fields, 3)
        units = units_in(file, row, fields, 4)
        if name not in self.links:
            raise bad_case.unknown(file, row, 1, "link", name, nearest_name(name, self.links))
        self.check_slots(file, row, first, end)
        (self.case.signals if file == "signals" else self.case.limits).append(Limit(name, first, end, units))


def nearest_name(name: str, names: Iterable[str]) -> str:
    """Which of the names that there are is spelled nearly so."""
    found = difflib.get_close_matches(name, list(names), 1, 0.7)
    return f"there is {found[0]}" if found else ""


def check_diagram(row: int, link: Link, step_ms: int, carry: bool = False) -> None:
    """Whether the link's diagram sets limits at this step, with what is left over of its capacity carried or not."""
    sizes = (link.length_m, link.free_kmh, link.wave_kmh, link.jam_per_km)
    for place, (name, size, most) in enumerate(zip(HEADERS["links"][3:], sizes, MOST_DIAGRAM), 4):
        if size == 0:
            raise bad_case.zero(row, place, name)
        if size > most:
            raise bad_case.over(row, place, name, most)
    if step_ms > min(link.free_ms, link.wave_ms):
        speeds = (link.free_kmh, link.wave_kmh)
        raise bad_case.step_too_long(
            row, (link.free_ms, link.wave_ms), step_ms, (step_ms - 1) * max(speeds) // 3600 + 1, speeds
        )
    if link.capacity(step_ms) == 0:
        raise bad_case.no_capacity(row, step_ms, link.least_step_ms)
    most = link.most_capacity(step_ms, carry)
    if most > MOST_SLOT_UNITS:
        raise bad_case.capacity_over(row, most, step_ms, link.passing_step(carry))
