"""What is wrong with a case: where, in the program's word for it, and in words with numbers and advice.

There is one function for each cause in docs/FORMATS.md, with the numbers that it needs. It makes a BadCase; who finds
the fault raises it.
"""
from collections.abc import Iterable, Iterator

from ..errors import Fault, one_line
from ..files import shown
from ..formats import (
    HEADERS,
    MATRIX,
    MOST_CELLS,
    MOST_CELLS_ASKED,
    MOST_DEMAND_ROWS,
    MOST_DESTINATIONS,
    MOST_DESTINATIONS_ASKED,
    MOST_DESTINATIONS_NO_HISTORY,
    MOST_IN,
    MOST_LINKS,
    MOST_LINKS_ASKED,
    MOST_LINKS_NO_HISTORY,
    MOST_OUT,
    MOST_ROUTED_ROWS,
    MOST_ROWS_ASKED,
    MOST_ROWS_NO_HISTORY,
    MOST_SHARE,
    MOST_SLOTS,
    MOST_SLOT_UNITS,
    MOST_SPLIT_ROWS,
    MOST_STEP_MS,
    NAME_RULE,
    PROFILE,
    SETUP,
    SETUP_MORE,
    VEHICLES_RULE,
    WEIGHTS_RULE,
    WHOLE_RULE,
    WITHOUT_HISTORY,
    count_text,
    headers_of,
    vehicles_text,
)
from .cells import asked_for, memory_text
from .rows import Setup

KINDS = {
    "name": f"a name is {NAME_RULE}",
    "whole": f"a whole number is {WHOLE_RULE}",
    "vehicles": f"vehicles are {VEHICLES_RULE}",
    "weights": f"weights are {WEIGHTS_RULE}",
}
SLOT_VEHICLES = MOST_SLOT_UNITS // 1000


class BadCase(Fault):
    """The first fault of a case. `file` is setup, links, demand, profile, splits, signals, limits or whole; `row`
    counts records, the header being 1, and is 0 for the whole case; `cause` is the program's words; `field` is counted
    from 1, or None where no one field is at fault; `rule` says what is wrong, and `advice` what to do."""

    def __init__(self, file: str, row: int, cause: str, rule: str, advice: str = "", field: int | None = None) -> None:
        self.file, self.row, self.cause, self.field = file, row, cause, field
        self.rule, self.advice = one_line(rule), advice
        place = f"{file}.csv row {row}" if row else "the case"
        super().__init__(f"{place}: {self.rule}" + (f" ({advice})" if advice else ""))

    def line(self) -> str:
        """The line that the program writes."""
        return f"bad case {self.file} row {self.row} {self.cause}"


class NoFile(Fault):
    """A file of a case could not be read. `file` is setup, links and so on, and `missing` says whether it is not
    there."""

    def __init__(self, file: str, missing: bool, text: str) -> None:
        self.file, self.missing = file, missing
        super().__init__(text)


class TooLong(Fault):
    """A file of a case has more bytes than are read."""

    def __init__(self, file: str, size: int, most: int) -> None:
        self.file, self.size, self.most = file, size, most
        super().__init__(f"{file}.csv has {count_text(size)} bytes, and at most {count_text(most)} are read")

    def line(self) -> str:
        """The line that the program writes."""
        return f"too long {self.file}"


def header(file: str, found: list[str] | None) -> BadCase:
    wanted = ",".join(HEADERS[file]) + (
        f", and behind it each of {', '.join(SETUP_MORE)} or not, in this order"
        if file == "setup"
        else f", or of a matrix {','.join(MATRIX)}"
        if file == "demand"
        else ""
    )
    if found is None:
        return BadCase(
            file,
            1,
            "Header",
            f"the file has no record, and its first is to be {wanted}",
            "write that header as the first line",
        )
    for is_so, told, advice in odd_headers(found):
        if is_so:
            return BadCase(file, 1, "Header", f"{told}, and the header is to be {wanted}", advice)
    if tuple(field.strip().lower() for field in found) in headers_of(file):
        return BadCase(
            file, 1, "Header", f"the header is to be exactly {wanted}", "take out blanks, and write small letters"
        )
    return BadCase(
        file,
        1,
        "Header",
        f"the header is to be exactly {wanted}, and it is {shown(','.join(found))}",
        "these fields, in this order",
    )


def odd_headers(found: list[str]) -> Iterator[tuple[bool, str, str]]:
    """Of each way in which spreadsheets write another header: whether it is so, what is told of it, and what to do."""
    yield "\0" in found[0], "the file is in UTF-16", "save it in UTF-8: in a spreadsheet as CSV UTF-8"
    yield found[0].startswith("sep="), "the first line tells a separator", "take it out"
    for sign, name in ((";", "semicolons"), ("\t", "tabs")):
        yield len(found) == 1 and sign in found[0], f"the fields stand between {name}", "save the file with commas"


def no_setup_record() -> BadCase:
    return BadCase("setup", 2, "Rows", "there is no record after the header", f"write one with {', '.join(SETUP)}")


def second_setup_record() -> BadCase:
    return BadCase("setup", 3, "Rows", "there is a second record after the header, and there may be one", "take it out")


def width(file: str, row: int, found: int, wanted: int) -> BadCase:
    return BadCase(
        file,
        row,
        "Width",
        f"the record has {found} field{'s' * (found != 1)}, and its header has {wanted}",
        "a field is missing" if found < wanted else "a comma, or a field, is one too many",
    )


def field(file: str, row: int, place: int, kind: str, text: str) -> BadCase:
    return BadCase(file, row, f"Field {place}", KINDS[kind], field_advice(kind, text), place)


def field_advice(kind: str, text: str) -> str:
    """What to do about a text that is not of its kind, as far as the text shows it."""
    if any(0xDC80 <= ord(sign) <= 0xDCFF or ord(sign) > 127 for sign in text):
        return "take letters without accents" if kind == "name" else "take plain ASCII"
    if text == "":
        return "nothing stands there: fill it in"
    if text != text.strip():
        return "take out the blanks"
    if kind == "name":
        return (
            f"it has {len(text)} letters: take a shorter one"
            if len(text) > 32
            else "put _ or - for what a name may not have"
        )
    if kind == "weights":
        return "as in a=1 b=3"
    if (
        kind == "vehicles"
        and text.count(".") == 1
        and text.replace(".", "").isdigit()
        and len(text.partition(".")[2]) > 3
    ):
        return "take three digits behind the point at most"
    if kind == "whole" and text.replace(".", "", 1).isdigit() and "." in text:
        return "take a number without a point"
    if text.startswith("-"):
        return "it cannot be below 0"
    return "as in 12" if kind == "whole" else "as in 7 or 7.25"


def setup_range(place: int, name: str, text: str) -> BadCase:
    rules = {
        "step_ms": f"a step is 1 to {MOST_STEP_MS} milliseconds",
        "slots": f"there are 1 to {MOST_SLOTS} slots",
        "origin_capacity": f"an origin capacity is 0.001 to {SLOT_VEHICLES} vehicles in a slot",
        "signals": "it is 1 where there is a signals.csv, and else 0",
        "limits": "it is 1 where there is a limits.csv, and else 0",
        "cells": f"it is 1 to {count_text(MOST_CELLS_ASKED)}",
        "rows": up_to(MOST_ROWS_ASKED, MOST_ROWS_NO_HISTORY),
        "links": up_to(MOST_LINKS_ASKED, MOST_LINKS_NO_HISTORY),
        "destinations": up_to(MOST_DESTINATIONS_ASKED, MOST_DESTINATIONS_NO_HISTORY),
        "moves": "it is 1 where what moves is floored for each turn, and 0 where it is for each destination",
        "carry": "it is 1 where what is left over of a capacity is carried to the next slot, and else 0",
        "history": "it is 0 where a loading keeps no history, and else 1",
        "routes": "it is 1 where nodes without a split row take their free-flow routes, and else 0",
    }
    advice = (
        {
            "slots": "take a longer step, and so fewer slots",
            "step_ms": "a second is 1000",
            "cells": f"without this column it is {count_text(MOST_CELLS)}",
            "links": f"without this column it is {count_text(MOST_LINKS)}",
            "rows": f"without this column it is {count_text(MOST_DEMAND_ROWS)} for demand and"
            f" {count_text(MOST_SPLIT_ROWS)} for splits",
            "destinations": f"without this column it is {MOST_DESTINATIONS}",
        }.get(name, "")
        if text.strip("0")
        else ""
    )
    return BadCase("setup", 2, f"Range {place}", rules[name], advice, place)


def twice_named(row: int, name: str, first: int) -> BadCase:
    return BadCase(
        "links",
        row,
        "TwiceNamed",
        f"the link {name} stands already, in row {first}",
        "give one of them another name",
        1,
    )


def self_loop(row: int, node: str) -> BadCase:
    return BadCase(
        "links", row, "SelfLoop", f"the link begins and ends at the node {node}", "a link joins two nodes", 3
    )


def up_to(kept: int, without: int) -> str:
    """How much a column may ask for."""
    return f"it is 1 to {count_text(kept)}, and with 0 in the column history up to {count_text(without)}"


def asking(column: str, size: int, setup: Setup, number: int | None = None) -> str:
    """How the setup asks for so many, where it may, with a history or else without: by writing the most that may be
    asked for, or this number."""
    asked: int = getattr(setup, f"{column}_asked")
    without = {
        "links": MOST_LINKS_NO_HISTORY,
        "destinations": MOST_DESTINATIONS_NO_HISTORY,
        "rows": MOST_ROWS_NO_HISTORY,
    }[column]
    if size <= asked:
        return f"write {number or f'up to {asked}'} in the column {column} of setup.csv; or "
    if size <= without:
        many = number or f"up to {without}"
        return f"write {many} in the column {column} of setup.csv and 0 in history, {WITHOUT_HISTORY}; or "
    return ""


def too_many_links(row: int, setup: Setup) -> BadCase:
    most = setup.most_links
    return BadCase(
        "links",
        row,
        "TooManyLinks",
        f"there are {count_text(most)} links already, which is the most",
        f"{asking('links', most + 1, setup)}take a part of the network, or merge links that follow" f" one another",
    )


def too_many_out(row: int, node: str, links: Iterable[str]) -> BadCase:
    return BadCase(
        "links",
        row,
        "TooManyOut",
        f"{MOST_OUT} links leave the node {node} already: {', '.join(links)}",
        "make two nodes of it, with a short link between them",
        2,
    )


def too_many_in(row: int, node: str, links: Iterable[str]) -> BadCase:
    return BadCase(
        "links",
        row,
        "TooManyIn",
        f"{MOST_IN} links enter the node {node} already: {', '.join(links)}",
        "make two nodes of it, with a short link between them",
        3,
    )


def zero(row: int, place: int, name: str) -> BadCase:
    return BadCase("links", row, f"Zero {name}", "it is 0", "it is at least 1", place)


def over(row: int, place: int, name: str, most: int) -> BadCase:
    return BadCase("links", row, f"Over {name}", f"it is at most {count_text(most)}", "", place)


def step_too_long(
    row: int, times: tuple[int, int], step_ms: int, least_length_m: int, speeds: tuple[int, int]
) -> BadCase:
    free_ms, wave_ms = times
    named = ((free_ms, "free-flow"), (wave_ms, "wave"))
    short = [f"the {name} time of {ms} ms" for ms, name in named if ms < step_ms]
    verb = "is" if len(short) == 1 else "are"
    return BadCase(
        "links",
        row,
        f"StepTooLong {free_ms} {wave_ms}",
        f"{' and '.join(short)} {verb} below the step of {step_ms} ms",
        f"take a step of at most {min(free_ms, wave_ms)} ms, or a length of at least"
        f" {count_text(least_length_m)} m "
        f"at {speeds[0]} and {speeds[1]} km/h",
        4,
    )


def no_capacity(row: int, step_ms: int, least_step_ms: int) -> BadCase:
    least = f"a step of at least {least_step_ms} ms, or " if least_step_ms <= MOST_STEP_MS else ""
    return BadCase(
        "links",
        row,
        "NoCapacity",
        f"less than a thousandth of a vehicle passes the link in a step of {step_ms} ms",
        f"take {least}a greater speed or jam density",
    )


def capacity_over(row: int, units: int, step_ms: int, most_step_ms: int) -> BadCase:
    most = f"a step of at most {most_step_ms} ms, or " if most_step_ms >= 1 else ""
    return BadCase(
        "links",
        row,
        "CapacityOver",
        f"{vehicles_text(units)} vehicles pass the link in a step of {step_ms} ms, and at most {SLOT_VEHICLES} may",
        f"take {most}a lower jam density or speed",
    )


def unknown(file: str, row: int, place: int, what: str, name: str, near: str = "") -> BadCase:
    return BadCase(file, row, f"Unknown {place}", f"links.csv has no {what} {name}", near, place)


def no_out_link(row: int, node: str, links: list[str], wrong: str, elsewhere: str | None) -> BadCase:
    where = f"leaves {elsewhere}" if elsewhere is not None else "is no link at all"
    rest = f"the links out of {node} are {', '.join(links)}" if links else f"no link leaves {node}"
    return BadCase("splits", row, "Unknown 4", f"{wrong} is no link out of the node {node}: it {where}", rest, 4)


def no_origin(row: int, node: str) -> BadCase:
    return BadCase(
        "demand",
        row,
        "NoOrigin",
        f"no link leaves the origin {node}",
        "add a link out of it, or take another origin",
        1,
    )


def same_ends(file: str, row: int, node: str) -> BadCase:
    what = "the origin and the destination are both" if file == "demand" else "the node and the destination are both"
    advice = "take the row out" if file == "demand" else "what is for a node ends there: take the row out"
    return BadCase(file, row, "SameEnds", f"{what} {node}", advice, 2)


def bad_slots(file: str, row: int, first: int, end: int | None, slots: int) -> BadCase:
    place = 1 if file == "profile" else 2 if file in ("signals", "limits") else 3
    last = f"the horizon has {slots} slot{'s' * (slots != 1)}, numbered 0 to {slots - 1}"
    if end is None:
        return BadCase(
            file,
            row,
            "BadSlots",
            f"slot {first} is not below the horizon: {last}",
            "take an earlier slot, or raise slots in setup.csv",
            place,
        )
    if first >= end:
        return BadCase(
            file,
            row,
            "BadSlots",
            f"from slot {first} up to, and without, slot {end} there is none",
            "to_slot is above from_slot",
            place,
        )
    return BadCase(
        file,
        row,
        "BadSlots",
        f"slots up to, and without, {end} go past the horizon: {last}",
        f"take a to_slot of at most {slots}, or raise slots in setup.csv",
        place + 1,
    )


def no_slices() -> BadCase:
    return BadCase(
        "profile",
        2,
        "Rows",
        "there is no record after the header",
        f"write one for each slice of the horizon, with {', '.join(PROFILE)}",
    )


def slice_too_early(row: int, first: int, end: int) -> BadCase:
    return BadCase(
        "profile",
        row,
        "BadSlots",
        f"the slice begins at slot {first}, and the one above it ends before slot {end}",
        f"let it begin at slot {end} or later: slices stand in order and apart",
        1,
    )


def share_range(row: int) -> BadCase:
    return BadCase(
        "profile",
        row,
        "Range 3",
        f"a share is 1 to {count_text(MOST_SHARE)}",
        "take the record out where its slice is to get nothing",
        3,
    )


def zero_weight(row: int) -> BadCase:
    return BadCase("splits", row, "ZeroWeight", "all weights are 0", "give at least one link a weight above 0", 4)


def too_many_destinations(file: str, row: int, node: str, setup: Setup) -> BadCase:
    most = setup.most_destinations
    return BadCase(
        file,
        row,
        "TooManyDestinations",
        f"{node} would be destination {most + 1}, and at most {most} may be",
        f"{asking('destinations', most + 1, setup)}gather nearby destinations in one node",
        2,
    )


def too_many_rows(file: str, row: int, most: int, setup: Setup) -> BadCase:
    return BadCase(
        file,
        row,
        "TooManyRows",
        f"there are {count_text(most)} rows already, which is the most",
        f"{asking('rows', most + 1, setup)}gather rows: longer spans, or fewer pairs",
    )


def too_many_routes(rows: int, setup: Setup) -> BadCase:
    return BadCase(
        "whole",
        0,
        "TooManyRows",
        f"the routes make {count_text(rows)} rows, and at most {count_text(setup.most_split_rows)} may be",
        f"{asking_for_routes(rows, setup)}take fewer destinations, or a smaller network",
    )


def asking_for_routes(rows: int, setup: Setup) -> str:
    """How the setup asks for so many rows of routes, where it may."""
    if not setup.routes:
        return asking("rows", rows, setup, rows)
    if setup.history and rows <= MOST_ROUTED_ROWS:
        return f"write 0 in the column history of setup.csv, {WITHOUT_HISTORY}; or "
    return ""


def no_split(node: str, destination: str, reason: str, advice: str) -> BadCase:
    return BadCase("whole", 0, f"NoSplit {node} {destination}", reason, advice)


def cells_over(cells: int, most: int, fits: int, slots: int, produced: int) -> BadCase:
    rule = f"the case has {count_text(cells)} cells, and at most {count_text(most)} may be"
    asked = (
        f"write {asked_for(cells)} in the column cells of setup.csv, which takes {memory_text(cells, produced)};"
        f" or "
        if cells <= MOST_CELLS_ASKED
        else f"write 0 in the column history of setup.csv, {WITHOUT_HISTORY}; or "
    )
    fitting = (
        "not one slot fits: take "
        if fits < 1
        else f"{count_text(fits)} of its {count_text(slots)} slots would fit: take fewer slots or a longer step, "
    )
    return BadCase("whole", 0, f"CellsOver {cells}", rule, f"{asked}{fitting}a smaller network, or fewer destinations")
