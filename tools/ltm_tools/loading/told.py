"""The curves of a loading as a session tells them, or `ltm totals` where no history is kept: a line for each link and
origin, sums over destinations, where `ltm curves` writes each curve for each destination."""
from __future__ import annotations

import functools
import json
import os
from collections.abc import Callable, Mapping, Sequence
from typing import TYPE_CHECKING

from ..case import Case
from ..case.history import check_history
from ..errors import Fault
from ..program import output
from .answers import Gap, Names, Totals, all_delays_of, gap_of, totals_of, both_texts
from .counts import Counts, less, zeros
from .curves import KINDS, Curves
from .delay import Report, demand_by_origin, report
from .totals import written_totals

if TYPE_CHECKING:
    import pandas

CURVE_OF_EACH = "a curve for each destination, which ltm totals does not tell,"  # which needs a history
Program = str | os.PathLike[str] | None
Texts = Mapping[tuple[str, str], bytes]


class SumCurves(Curves):
    """Sums over destinations. Who asks for a destination has `whole` make the curves of all, once."""

    def __init__(self, case: Case, sums: Texts, make: Callable[[], Curves]) -> None:
        super().__init__(case.setup.step_ms, case.setup.slots + 1, {})
        self.case, self.sums, self.make = case, sums, make

    @functools.cached_property
    def whole(self) -> Curves:
        """The curves for each destination."""
        return self.make()

    @property
    def links(self) -> list[str]:
        return [link.name for link in self.case.links]

    @property
    def nodes(self) -> list[str]:
        return self.case.nodes

    @property
    def destinations(self) -> list[str]:
        return self.case.destinations

    def counts(self, kind: str, name: str, destination: str | None = None) -> Counts:
        if destination is None and (text := self.sums.get((kind, name))) is not None:
            return self._numbers(text, kind, name)
        if destination is None and kind == "dep" and name in self.nodes:  # no origin
            return zeros(self.boundaries)
        return self.whole.counts(kind, name, destination)

    def to_pandas(self, kinds: Sequence[str] = KINDS, by_destination: bool = False) -> "pandas.DataFrame":
        return self.whole.to_pandas(kinds, by_destination)


class ToldCurves(SumCurves):
    """Sums over destinations, with the totals and the delay beside them."""

    def __init__(self, case: Case, totals: Totals, report: Report, sums: Texts, make: Callable[[], Curves]) -> None:
        super().__init__(case, sums, make)
        self.totals, self.report = totals, report

    def all_arrived(self) -> Counts:
        """What has left the origins and is on no link."""
        arrived = zeros(self.boundaries)
        for name in self.report.origins:
            arrived = less(arrived, less(zeros(self.boundaries), self.departed(name)))
        for name in self.links:
            arrived = less(arrived, self.on_link(name))
        return arrived


def loading_told(case: Case, folder: str, program: Program, make: Callable[[], Curves]) -> ToldCurves | None:
    """What a session tells of the loading of a case; None where the sessions of the program do not tell all of it."""
    links, origins = [link.name for link in case.links], list(demand_by_origin(case))
    questions = [
        {"do": "totals"},
        {"do": "delays"},
        *({"do": "curve", "link": name} for name in links),
        *({"do": "departures", "node": name} for name in origins),
    ]
    script = b"".join(json.dumps(question).encode() + b"\n" for question in questions)
    lines = output(folder, "session", "0", program=program, script=script).splitlines()
    if len(lines) != len(questions) or any(line.startswith(b"refused ") for line in lines):
        return None
    totals, delays = (line.decode().split() for line in lines[:2])
    all_delays = all_delays_of(delays, Names(links, case.nodes))
    report = Report(dict(all_delays.links), {name: all_delays.nodes[name] for name in origins})
    sums: dict[tuple[str, str], bytes] = {}
    for name, line in zip(links, lines[2:]):
        sums["up", name], sums["down", name] = both_texts(line, b"out")
    for name, line in zip(origins, lines[2 + len(links) :]):
        _, sums["dep", name] = both_texts(line, b"left")
    return ToldCurves(case, totals_of(totals), report, sums, make)


def loading_of_totals(case: Case, folder: str, program: Program) -> ToldCurves:
    """The loading of a case that keeps no history, by `ltm totals 1`; totals and delay are worked out. Who asks for a
    destination is told that there is no history."""

    def make() -> Curves:
        check_history(case, folder, CURVE_OF_EACH)
        raise AssertionError("it keeps no history")

    sums: dict[tuple[str, str], bytes] = {}
    for kind, name, texts in written_totals(
        output(folder, "totals", "1", program=program).splitlines(), case.setup.slots
    ):
        for of, text in zip(("up", "down") if kind == "link" else ("dep",), texts):
            sums[of, name] = b"0 " + text
    curves = SumCurves(case, sums, make)
    found = report(curves, case)
    generated = sum(row.units for row in case.standing_demand())
    waiting = generated - sum(int(curves.departed(name)[-1]) for name in found.origins)
    on_links = sum(int(curves.on_link(link.name)[-1]) for link in case.links)
    totals = Totals(0, generated, generated - waiting - on_links, on_links, waiting)
    return ToldCurves(case, totals, found, sums, make)


def told_gap(folder: str, program: Program) -> Gap:
    """The total travel time of a case beside the estimate of it on the fastest routes, as `ltm gap` writes them."""
    return gap_of(output(folder, "gap", program=program).decode().split())


def check_gap(gap: bool, *curves: str | None) -> None:
    """A Fault where the gap is asked for beside a curve file, of which the program makes no loading."""
    if gap and curves != (None,) * len(curves):
        raise Fault("--gap needs a loading that the program makes: leave out --curves and --other-curves")
