"""A case with the curves of its loading, for the commands that look at one."""
from __future__ import annotations

import os
import tempfile
from typing import NamedTuple

from .. import program
from ..case import Case
from ..case.history import check_history, keeping_one
from ..case.writing import write_rows
from ..errors import Fault
from ..formats import clock_text
from . import delay
from .curves import Curves
from .told import CURVE_OF_EACH, ToldCurves, loading_of_totals, loading_told


class LoadedCase(NamedTuple):
    """A case, and its loading."""

    case: Case
    curves: Curves

    def boundary_at(self, moment: int, start: int) -> int:
        """The last boundary that is not after a clock time, slot 0 beginning at `start`; a Fault where that is not
        within the horizon."""
        boundary = (moment - start) // self.curves.step_ms
        if not 0 <= boundary < self.curves.boundaries:
            end = start + (self.curves.boundaries - 1) * self.curves.step_ms
            raise Fault(
                f"{clock_text(moment)} is not within the horizon, from {clock_text(start)} to {clock_text(end)}"
            )
        return boundary


def loaded(folder: str, curves: str | None, named: str | None, routes: bool = False) -> LoadedCase:
    """The case of a folder, and its curves: of this file, else made by the program, else of `curves.csv` in the folder
    where the program is nowhere found. Rows of free-flow routes that the case asks for are made with `routes` alone."""
    case = Case.read(folder, routes=routes)
    step, boundaries = case.setup.step_ms, case.setup.slots + 1
    if curves is not None:
        found = Curves.read(curves, step, boundaries)
    else:
        try:
            program.find_program(named)
        except Fault:
            kept = os.path.join(folder, "curves.csv")
            if named is not None or not os.path.isfile(kept):
                raise
            found = Curves.read(kept, step, boundaries)
        else:
            return made_by_program(case, folder, named)
    return LoadedCase(case, of_case(case, found))


def loaded_by_destination(folder: str, curves: str | None, named: str | None) -> LoadedCase:
    """The same for who asks for the curves of each destination, and so needs no sums beside them. Of a case that keeps
    no history they are those of a copy that does; NoHistory where it is too large for one. Rows of free-flow routes are
    made."""
    if curves is not None:
        return loaded(folder, curves, named, routes=True)
    case = Case.read(folder)
    made_of = made_of_a_copy if not case.setup.history else made_of_itself
    return LoadedCase(case, of_case(case, made_of(case, folder, named)))


def made_of_itself(case: Case, folder: str, named: str | None) -> Curves:
    """The curves of a case in its folder."""
    return made(folder, named, case.setup.step_ms, case.setup.slots + 1)


def made_of_a_copy(case: Case, folder: str, named: str | None) -> Curves:
    """The curves of a copy of a case that keeps a history, as the case does not; NoHistory where it is too large."""
    kept = keeping_one(case)
    if kept is None:
        check_history(case, folder, CURVE_OF_EACH)
        raise AssertionError("it keeps a history")
    with tempfile.TemporaryDirectory(prefix="ltm_kept_") as copy:
        write_rows(kept, copy)
        try:
            return made(copy, named, case.setup.step_ms, case.setup.slots + 1)
        except Fault as fault:
            raise Fault(f"{str(fault).replace(copy, folder)}, in a copy that keeps its history") from None


def made_by_program(case: Case, folder: str, named: str | None) -> LoadedCase:
    """The case with the curves of its loading: as a session tells them, or `ltm totals` where no history is kept, else
    as `ltm curves` writes them."""
    if not case.setup.history:
        return LoadedCase(case, loading_of_totals(case, folder, named))

    def make() -> Curves:
        return of_case(case, made_of_itself(case, folder, named))

    return LoadedCase(case, loading_told(case, folder, named, make) or make())


def made(folder: str, named: str | None, step: int, boundaries: int) -> Curves:
    """The curves that `ltm curves` writes."""
    process = program.start(folder, ["curves"], named)
    assert process.stdout is not None
    with process:
        lines = process.stdout.readlines()
        status = process.wait()
    if status:
        raise Fault(program.refusal(folder, ["curves"], status, b"".join(lines)))
    return Curves.of_lines(lines, f"{folder}: ltm curves", step, boundaries)


def told_delay(loading: LoadedCase, folder: str, curves: str | None, named: str | None) -> delay.Report:
    """The delay of what `loaded` gave for a folder: as the program tells it where it made the loading and has a command
    for it, and else worked out from the curves."""
    if isinstance(loading.curves, ToldCurves):
        return loading.curves.report
    if curves is None and program.has_command("delay", named):
        return program_delay(folder, named)
    return delay.report(loading.curves, loading.case)


def program_delay(folder: str, named: str | None) -> delay.Report:
    """The delay of the loading of a case, as `ltm delay` tells it."""
    return delay.read_report(program.output(folder, "delay", program=named).decode("utf-8", "backslashreplace"))


def of_case(case: Case, curves: Curves) -> Curves:
    """The curves, where they have exactly the links, nodes and destinations of the case."""
    if case.destinations:
        for kind, wanted, found in (
            ("link", [link.name for link in case.links], curves.links),
            ("node", case.nodes, curves.nodes),
            ("destination", case.destinations, curves.destinations),
        ):
            if wanted != found:
                odd = next((name for name in (*wanted, *found) if (name in wanted) != (name in found)), None)
                told = f"{kind}s in another order" if odd is None else f"the {kind} {odd} in one and not in the other"
                raise Fault(f"the curve file is not of this case: there are {told}")
    return curves
