"""What a comparison wants to know of a loading."""
from __future__ import annotations

import os
from collections.abc import Mapping, Sequence
from typing import NamedTuple

from ..case import Case
from .answers import Gap
from .counts import Counts, as_list
from .delay import Report, report
from .loaded import LoadedCase, loaded, told_delay
from .times import at
from .told import Program, ToldCurves, told_gap


class Side(NamedTuple):
    """A case, the delay in its loading, the totals at the end of the horizon as `ltm load` tells them, with who is not
    there then, on a link or waiting, what has arrived at all destinations by each boundary, and the gap where it was
    asked for."""

    case: Case
    report: Report
    ends: Mapping[str, int]
    arrived: Sequence[int]
    gap: Gap | None = None

    def arrived_by(self, moment: int) -> int | None:
        """What has arrived by a moment in ms; None where that is beyond the horizon."""
        setup = self.case.setup
        return at(self.arrived, setup.step_ms, moment) if moment <= setup.horizon_ms else None


def side(folder: str, curves: str | None, program: Program, gap: bool = False) -> Side:
    """The side of the case of a folder: from this curve file, else as the program tells it, else from the folder's own
    curve file where the program is nowhere found. The gap only the program tells."""
    named = None if program is None else os.fspath(program)
    loading = loaded(folder, curves, named)
    found = of_curves(loading, told_delay(loading, folder, curves, named))
    return found._replace(gap=told_gap(folder, named)) if gap else found


def of_curves(loading: LoadedCase, told: Report | None = None) -> Side:
    """The side of a loading, with the delay worked out where it is not told."""
    case, curves = loading
    arrived = as_list(curves.all_arrived())
    return Side(case, told or report(curves, case), totals_at_end(loading, arrived[-1]), arrived)


def totals_at_end(loading: LoadedCase, arrived: int) -> dict[str, int]:
    """The totals at the end of the horizon by name."""
    case, curves = loading
    if isinstance(curves, ToldCurves):
        _, generated, _, on_links, waiting = curves.totals
    else:
        generated = sum(row.units for row in case.standing_demand())
        on_links = sum(last(curves.up(link.name)) - last(curves.down(link.name)) for link in case.links)
        waiting = generated - sum(last(curves.departed(node)) for node in case.nodes)
    return {
        "generated": generated,
        "arrived": arrived,
        "on_links": on_links,
        "waiting": waiting,
        "not_there": generated - arrived,
    }


def last(counts: Counts) -> int:
    """The count at the end of the horizon."""
    return int(counts[-1])
