"""What is wrong with a curve file beside its case, by the first record that is wrong."""
import re
from collections.abc import Iterator
from dataclasses import dataclass

from ..files import Record, records, shown
from ..formats import CURVES, MOST_COUNT
from .case import Case

COUNT = re.compile(r"[0-9]{1,15}", re.ASCII)
FIELDS = ("kind", "name", "destination", "counts")


@dataclass(slots=True)
class CurveFault:
    """The first record that is wrong, the header being 1; the program's word for it, and why in words."""

    row: int
    cause: str
    reason: str
    field: int | None = None
    text: str = ""

    def line(self) -> str:
        """The line that the program writes."""
        return f"bad curves row {self.row} {self.cause}"


def due(case: Case) -> Iterator[tuple[str, str, str]]:
    """The kind, name and destination of each record behind the header, in order."""
    for link in case.links:
        for kind in ("up", "down"):
            yield from ((kind, link.name, end) for end in case.destinations)
    for node in case.nodes:
        yield from (("dep", node, end) for end in case.destinations)
    yield from (("arr", end, end) for end in case.destinations)


def find_fault(case: Case, data: bytes) -> CurveFault | None:
    """The first record of a curve file that is wrong, or None."""
    found = records(data)
    first = next(found, None)
    if first is None or tuple(first.fields) != CURVES:
        return CurveFault(1, "Header", f"the first record is to be {','.join(CURVES)}")
    row = 1
    for row, words in enumerate(due(case), 2):
        record = next(found, None)
        if record is None:
            return CurveFault(row, "Rows", f"the file ends, and the record of {' '.join(words)} is due")
        fault = wrong_record(row, record, words, case.setup.slots + 1)
        if fault is not None:
            return fault
    if next(found, None) is not None:
        return CurveFault(row + 1, "Rows", "there is a record more than the case has curves")
    return None


def wrong_record(row: int, record: Record, words: tuple[str, str, str], boundaries: int) -> CurveFault | None:
    """What is wrong with a record; None where nothing is."""
    fields = record.fields
    if len(fields) != len(CURVES):
        return CurveFault(row, "Width", f"the record has {len(fields)} fields, and {len(CURVES)} are due")
    for place, (text, word) in enumerate(zip(fields, words), 1):
        if text != word:
            order = "records stand in the order of the case's links, nodes and destinations"
            return CurveFault(row, f"Field {place}", f"{word} is due here: {order}", place, text)
    reason = wrong_counts(fields[3], boundaries)
    return CurveFault(row, "Field 4", reason, 4, fields[3]) if reason else None


def wrong_counts(text: str, boundaries: int) -> str:
    """Why a text is no list of counts, one for each boundary; nothing where it is one."""
    counts = text.split(" ")
    for place, count in enumerate(counts):
        if COUNT.fullmatch(count) is None or int(count) > MOST_COUNT:
            return (
                f"the count at boundary {place} is {shown(count)}, and 1 to 15 digits of at most {MOST_COUNT} are"
                f" wanted, with one "
                "space between two counts"
            )
    if len(counts) != boundaries:
        return f"there are {len(counts)} counts, and the case has {boundaries} boundaries, one more than slots"
    return ""
