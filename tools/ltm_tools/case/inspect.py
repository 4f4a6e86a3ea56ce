"""What a case has, and what is to be known before it is run."""
from collections.abc import Mapping, Sequence
from dataclasses import replace
from functools import partial

from ..errors import Fault
from ..files import records
from ..formats import (
    ANSWERING,
    MATRIX,
    MOST_CELLS_ASKED,
    MOST_FILE_BYTES,
    MOST_ROWS_ASKED,
    MOST_SLOTS,
    clock_text,
    count_text,
    counted,
    short_vehicles,
    vehicles_text,
)
from .bad_case import BadCase
from .case import Case
from .cells import asked_for, cells_in, memory_text, produced_bytes
from .circles import find_circles
from .closed import closed_lines
from .fields import fetch, read_header
from .flooring import flooring_lines, pulse_lines
from .history import to_have_one
from .inspect_origins import MOST_TOLD, more_line, origin_lines, pushing_lines
from .matrix import is_matrix, read_profile
from .reading import Reader, read_setup
from .rounding import red_lines, rounding_lines
from .routes import give_routes, missing_rows
from .rows import Link
from .streets import read_streets, street_and_id

MOST_LINKS = 12  # of a circle
TABLE = "{:32} {:>9} {:>9} {:>9} {:>9} {:>10}"


class LooseReader(Reader):
    """Takes links whatever the step of the setup, so that the longest step of each can be told."""

    def check_limits(self, row: int, link: Link) -> None:
        try:
            super().check_limits(row, link)
        except BadCase as fault:
            if fault.cause.split()[0] not in ("StepTooLong", "NoCapacity", "CapacityOver"):
                raise


def read_loosely(folder: str) -> Case:
    """What can be read of a case: records that are wrong are left out, and files that are missing."""
    reader = LooseReader(read_setup(fetch(folder, "setup")))
    for file, add in reader.tables.items():
        if getattr(reader.case.setup, file, True) is False:
            continue
        try:
            large = file in ("demand", "splits")
            most = reader.case.setup.most_file_bytes if large else MOST_FILE_BYTES
            found = list(records(fetch(folder, file, most)))
            width = read_header(file, found)
            if file == "demand" and tuple(found[0].fields) == MATRIX:
                add = partial(reader.add_pair, read_profile(fetch(folder, "profile"), reader.case.setup.slots))
        except Fault:
            if file == "splits":
                reader.case.splits = None
            continue
        for row, record in enumerate(found[1:], 2):
            try:
                if len(record.fields) == width:
                    add(row, record.fields)
            except BadCase:
                pass
    return Case.of(reader.case)


def read_by_load(folder: str) -> tuple[Case | None, Fault | None]:
    """The case as `load` takes it, or what it would refuse first."""
    try:
        return Case.read(folder, splits=True, routes=False), None
    except Fault as fault:
        return None, fault


def inspect(folder: str) -> list[str]:
    """The lines that tell of a case."""
    taken, refusal = read_by_load(folder)
    told: list[str] = []
    try:
        case, streets = taken or read_loosely(folder), read_streets(folder)
    except Fault:
        pass
    else:
        told = [*size_lines(case, matrix_lines(folder, case)), *step_lines(case, streets), *way_lines(case, streets)]
        told += [*rounding_lines(case, streets), *red_lines(case, streets)]
    return told + refusal_lines(folder, refusal)


def way_lines(case: Case, streets: Mapping[str, str]) -> list[str]:
    """What is to be known of where traffic is sent; of a case that asks for more routes than one with a history may
    have, what is seen without these."""
    if missing_rows(case) > MOST_ROWS_ASKED:
        return [
            f"ways        not looked at, as routes are more than {count_text(MOST_ROWS_ASKED)}: loops, links that are"
            " closed or narrow",
            *origin_lines(replace(case, splits=None)),
            *pushing_lines(case),
            *pulse_lines(case),
        ]
    if case.setup.routes and case.splits is not None:
        give_routes(case)
    told = [*circle_lines(case, streets), *origin_lines(case), *pushing_lines(case), *closed_lines(case, streets)]
    return told + (flooring_lines(case, streets) or pulse_lines(case))


def refusal_lines(folder: str, refusal: Fault | None) -> list[str]:
    """What the program would refuse first."""
    if refusal is None:
        return ["load        takes the case"]
    line = f"{refusal.line()}: " if isinstance(refusal, BadCase) else ""
    return [f"load        would refuse it first for: {line}{refusal}"]


def matrix_lines(folder: str, case: Case) -> list[str]:
    """That the demand of a case stands as a matrix, and what that means; nothing where it has rows, or a faulty
    profile."""
    try:
        if not is_matrix(fetch(folder, "demand", case.setup.most_file_bytes)):
            return []
        slices = read_profile(fetch(folder, "profile"), case.setup.slots)
    except Fault:
        return []
    return [
        "matrix      demand.csv has one record for each pair of origin and destination, and profile.csv says when the"
        f" vehicles of all of them set out, in {counted(len(slices), 'slice')} of slots"
    ]


def size_lines(case: Case, matrix: Sequence[str] = ()) -> list[str]:
    """What the case has, with these lines on its matrix, and its cells."""
    setup, demand = case.setup, case.standing_demand()
    span = ""
    if demand:
        first, last = min(row.from_slot for row in demand), max(row.to_slot for row in demand)
        span = f", setting out from {clock_text(first * setup.step_ms)} to {clock_text(last * setup.step_ms)}"
    return [
        f"network     {counted(len(case.links), 'link')}, {counted(len(case.nodes), 'node')},"
        f" {counted(len(case.destinations), 'destination')}",
        f"demand      {vehicles_text(sum(row.units for row in demand))} vehicles in {counted(len(demand), 'row')}"
        + span,
        *matrix,
        f"splits      {splits_told(case)}",
        f"horizon     {clock_text(setup.horizon_ms)}, {counted(setup.slots, 'slot')} of {setup.step_ms} ms",
        *(cell_lines(case) if setup.history else no_history_lines(case)),
    ]


def splits_told(case: Case) -> str:
    """How many split rows a case has, and how many more are its routes."""
    if case.splits is None:
        return "none: ltm routes writes them"
    own = counted(len(case.standing_splits()), "row")
    return f"{own}, and {count_text(missing_rows(case))} of free-flow routes" if case.setup.routes else own


def cell_lines(case: Case) -> list[str]:
    """The cells of a case, and the memory that they take."""
    setup, cells, fits = case.setup, case.cells(), case.slots_that_fit()
    produced = produced_bytes(case)
    in_memory = min(fits, case.slots_that_fit(cells_in(free_memory(), produced)))
    asking = (
        f"; the column cells of setup.csv may ask for {asked_for(cells)}"
        if setup.most_cells < cells <= MOST_CELLS_ASKED
        else ""
    )
    return [
        f"cells       {count_text(cells)} of at most {count_text(setup.most_cells)}; up to {count_text(fits)} slots fit"
        + (", the most there may be" if fits == MOST_SLOTS else "")
        + asking,
        f"memory      {memory_text(cells, produced)}; up to {count_text(in_memory)} slots fit in what is free",
    ]


def no_history_lines(case: Case) -> list[str]:
    """What a case is that keeps no history, and what would let it keep one."""
    return [
        f"cells       {count_text(case.cells())}, which are not kept",
        f"history     none: {ANSWERING} answer. {to_have_one(case)}",
    ]


def free_memory() -> int:
    """The bytes of memory that are free on this machine; all that there might be where it does not tell."""
    try:
        with open("/proc/meminfo", encoding="ascii") as file:
            for line in file:
                if line.startswith("MemAvailable:"):
                    return int(line.split()[1]) * 1024
    except (OSError, ValueError, IndexError):
        pass
    return 1 << 62


def step_lines(case: Case, streets: Mapping[str, str]) -> list[str]:
    """The longest step that all links allow, and the links that allow no longer one."""
    if not case.links:
        return ["step        there is no link"]
    links = sorted(case.links, key=lambda link: link.longest_step_ms)
    least = links[0].longest_step_ms
    told = [f"step        {case.setup.step_ms} ms; the links allow {least} ms at most"]
    told += [
        f"            {street_and_id(link.name, streets)} allows {link.longest_step_ms} ms: {why(link)}"
        for link in links[:3]
    ]
    over = sum(link.longest_step_ms < case.setup.step_ms for link in links)
    return told + (
        [f"            {counted(over, 'link')} may not have the step of {case.setup.step_ms} ms"] if over else []
    )


def why(link: Link) -> str:
    """What bounds the step of a link."""
    bounds = {
        link.passing_step_ms: "32 vehicles pass it in that time",
        link.wave_ms: f"its wave time, {link.length_m} m at {link.wave_kmh} km/h",
        link.free_ms: f"its free-flow time, {link.length_m} m at {link.free_kmh} km/h",
    }
    return bounds.get(link.longest_step_ms, "a step is at most a minute")


def circle_lines(case: Case, streets: Mapping[str, str]) -> list[str]:
    """Which destinations have circles in their splits."""
    if case.splits is None:
        return []
    circles = find_circles(case)
    if not circles:
        return ["loops       none in the splits"]
    told = [
        f"loops       in the splits of {len(circles)} of {counted(len(case.destinations), 'destination')}: traffic"
        f" that drives round"
    ]
    for circle in circles[:MOST_TOLD]:
        since = f" from {clock_text(circle.from_slot * case.setup.step_ms)} on" if circle.from_slot else ""
        more = f" and {counted(len(circle.links) - MOST_LINKS, 'more link')}" if len(circle.links) > MOST_LINKS else ""
        names = " ".join(street_and_id(name, streets) for name in circle.links[:MOST_LINKS])
        told.append(f"            for {circle.destination}{since}: {names}{more}")
    return told + more_line(len(circles))


def link_lines(folder: str) -> list[str]:
    """A table of all links."""
    case = read_loosely(folder)
    told = [TABLE.format("link", "length_m", "free_ms", "wave_ms", "most_step", "storage")]
    for link in case.links:
        told.append(
            TABLE.format(
                link.name,
                link.length_m,
                link.free_ms,
                link.wave_ms,
                link.longest_step_ms,
                short_vehicles(link.storage_units),
            )
        )
    return told
