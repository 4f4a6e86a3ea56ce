"""Cells of a case that are more than one may have without asking: the number for the column `cells` of `setup.csv`, and
the memory that they and the table of what origins have produced take."""
from fractions import Fraction

from ..errors import TooLarge
from ..formats import MINUTE_MS, MOST_CELLS, MOST_CELLS_ASKED, MOST_DESTINATIONS_ASKED, MOST_STEP_MS, count_text
from .rows import Rows

ROUNDED_TO = 1_000_000
LOAD_BYTES = (Fraction(11, 10), Fraction(2))  # of memory for a cell, as measured and at most
SESSION_BYTES = (Fraction(2), Fraction(3))
SESSION_TABLES = 2  # tables of what origins have produced, of which a load has one
PRODUCED_BYTES = 8  # of a number of such a table


def asked_for(cells: int) -> int:
    """The number that a setup asks for so that it may have these cells: rounded up to millions, at most what may be
    asked for."""
    return min(MOST_CELLS_ASKED, -(-cells // ROUNDED_TO) * ROUNDED_TO)


def produced_bytes(case: Rows) -> int:
    """The memory of the table of what origins have produced: of each origin, up to the last slot with demand from
    there, a number for each destination up to the last that it has in order of numbers, and one for all together."""
    number = {node: place for place, node in enumerate(case.destinations)}
    last: dict[str, tuple[int, int]] = {}
    for row in case.standing_demand():
        destination, slot = last.get(row.origin, (0, 0))
        last[row.origin] = max(destination, number[row.destination]), max(slot, row.to_slot)
    return PRODUCED_BYTES * sum((destination + 2) * slot for destination, slot in last.values())


def megabytes(amount: Fraction) -> str:
    """Bytes in MB, rounded up."""
    return count_text(-(-amount // 1_000_000))


def memory_text(cells: int, produced: int = 0) -> str:
    """What a load and a session of so many cells take, with a table of what origins have produced of so many bytes:
    `about 60 MB for a load and 108 MB for a session, at most 108 and 162`."""
    load, most_load = (megabytes(cells * each + produced) for each in LOAD_BYTES)
    session, most_session = (megabytes(cells * each + SESSION_TABLES * produced) for each in SESSION_BYTES)
    return f"about {load} MB for a load and {session} MB for a session, at most {most_load} and {most_session}"


def cells_in(memory: int, produced: int) -> int:
    """The cells for which a session surely finds so many bytes of memory, beside its tables of what origins have
    produced."""
    return max(0, int((memory - SESSION_TABLES * produced) // SESSION_BYTES[1]))


def ask_for_cells(case: Rows, history: bool | None = True) -> str:
    """The cells of a case in a line; its setup asks for them where they are more than it may have without. Where they
    are more than may be asked for, the case keeps no history; or TooLarge with what would fit, where it is to keep
    one."""
    cells = case.cells()
    if cells > MOST_CELLS_ASKED:
        if history:
            raise TooLarge(
                f"{count_text(cells)} cells, and at most {count_text(MOST_CELLS_ASKED)} may be: {cells_advice(case)}"
            )
        case.setup.history = False
    if not case.setup.history:
        return f"{count_text(cells)} cells, of which no history is kept"
    if cells <= MOST_CELLS:
        return f"{count_text(cells)} cells of at most {count_text(MOST_CELLS)}"
    case.setup.cells = asked_for(cells)
    return (
        f"{count_text(cells)} cells, so the column cells of setup.csv asks for {count_text(case.setup.cells)}, as"
        f" without it {count_text(MOST_CELLS)} may be:"
        f" {memory_text(cells, produced_bytes(case))}"
    )


def cells_advice(case: Rows) -> str:
    """The horizon, the step or the destinations with which the cells would fit in what may be asked for."""
    step, slots = case.setup.step_ms, case.setup.slots
    fitting = case.slots_that_fit(MOST_CELLS_ASKED)
    told = []
    if fitting * step >= MINUTE_MS:
        told.append(f"--horizon {fitting * step // MINUTE_MS} at this step")
    longer = next(
        (
            number
            for number in range(step + 1, MOST_STEP_MS + 1)
            if MINUTE_MS % number == 0 and -(-slots * step // number) <= fitting
        ),
        None,
    )
    if longer:
        told.append(f"--fit {longer} at this horizon")
    ends = min(MOST_DESTINATIONS_ASKED, len(case.destinations) * fitting // slots)
    if ends:
        told.append(f"--destinations {ends} at both")
    return " or ".join(told) or "cut out a smaller area"
