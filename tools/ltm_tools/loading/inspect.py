"""What `inspect` tells of the loading of a case."""
from __future__ import annotations

from collections.abc import Mapping
from fractions import Fraction

from ..case import Case, Link, Setup
from ..case.clock import start_of
from ..case.rounding import lossy_links, to_do, worst_text
from ..case.streets import read_streets
from ..formats import MINUTE_MS, counted
from .counts import Counts, greatest, less
from .loaded import LoadedCase, loaded
from .standstill import is_full, standstill, standstill_lines

COLUMN = 12  # of what is told
FULL = Fraction(9, 10)
"""The part of its capacity above which a link is full."""
QUARTER_MS = 15 * MINUTE_MS


def loading_lines(folder: str, curves: str | None, program: str | None) -> list[str]:
    """The lines that tell of the loading of a case: of this curve file, else made by the program."""
    loading = loaded(folder, curves, program)
    still = still_lines(loading, folder) or ["nothing stands still at the end of the horizon"]
    return [*titled("standing", still), *titled("rounding", full_lines(loading, read_streets(folder)))]


def full_lines(loading: LoadedCase, streets: Mapping[str, str]) -> list[str]:
    """What rounding takes of roads that are used for most of their capacity; nothing where it takes little of them."""
    case, curves = loading
    lossy, links = lossy_links(case), {link.name: link for link in case.links}
    full = {name: lossy[name] for name in lossy if busiest(curves.down(name), links[name], case.setup) > FULL}
    if not full:
        return []
    return [
        f"{counted(len(full), 'link')} of these pass more than {float(FULL):g} of their capacity in some quarter of an"
        f" hour; the worst is {worst_text(full, streets)}",
        to_do(case, full),
    ]


def busiest(passed: Counts, link: Link, setup: Setup) -> Fraction:
    """The part of its capacity that a link lets pass in the quarter of an hour in which that is most."""
    slots = min(setup.slots, max(1, QUARTER_MS // setup.step_ms))
    most = greatest(less(passed[slots:], passed[:-slots]))
    return Fraction(most) / (slots * link.passing(setup.step_ms, True))


def still_lines(loading: LoadedCase, folder: str) -> list[str]:
    """What stands still at the end of a loading, in words; nothing where nothing does."""
    found = standstill(loading.curves, loading.case)
    if found is None:
        return []
    return standstill_lines(found, loading.case, start_of(None, folder), read_streets(folder))


def explain_report(folder: str, report: str) -> list[str]:
    """What stands still in the loading of a case that has this report, in words. The program makes the loading once
    more for it, where the report has a full link: else nothing is locked."""
    return still_lines(loaded(folder, None, None), folder) if is_full(report, Case.read_network(folder).links) else []


def titled(title: str, lines: list[str]) -> list[str]:
    """Lines under a title in the first column."""
    return [f"{title if number == 0 else '':{COLUMN}}{line}" for number, line in enumerate(lines)]
