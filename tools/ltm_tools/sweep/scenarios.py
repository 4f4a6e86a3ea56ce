"""Scenarios: lines of a file, each with batches of edits, and a runner that has a session answer them one after
another.

A line is a JSON object with `batches`, an array of arrays of edits as a script has them, or `edits`, one batch; it may
have a `name`.
"""
from __future__ import annotations

import json
import os
from collections.abc import Mapping, Sequence
from itertools import chain
from typing import NamedTuple

from ..errors import Fault
from ..files import read_text, shown
from ..formats import MOST_EDITS, MOST_LINES, count_text, told_units, vehicles_text
from ..loading.delay import seconds_text
from ..loading.remaining import Remaining
from ..scenario.edits import Horizon, Told, edit_of
from ..scenario.open import OpenCase, SessionLost
from ..scenario.session import Refused, Session, command_line

TOTALS = ("generated", "arrived", "on_links", "waiting", "not_there")
TIMES = ("spent", "queued", "waited")
FAILED = "failed: "  # begins the status of a scenario whose session ended, or takes no more lines
FEW = 10  # links, or one in so many, are few
Row = list[str]


class SweepScenario(NamedTuple):
    """A line of a file of scenarios: its number, counted from 1, its name, and its batches."""

    number: int
    name: str
    batches: list[list[Told]]


AS_IT_IS = SweepScenario(0, "", [])  # the case itself, which hours are compared with


def read_scenarios(path: str | os.PathLike[str]) -> list[SweepScenario]:
    """The scenarios of a file; a Fault that names the first line that is none. Lines of blanks are passed over."""
    found = []
    for number, line in enumerate(read_text(path).split("\n"), 1):
        if line.strip():
            found.append(scenario_of(line, number, f"{path} line {number}"))
    return found


def scenario_of(line: str, number: int, place: str) -> SweepScenario:
    """The scenario that a line tells."""
    try:
        told = json.loads(line)
    except (ValueError, RecursionError):
        raise Fault(f"{place}: {shown(line)} is no JSON") from None
    if not isinstance(told, dict) or ("batches" in told) == ("edits" in told):
        raise Fault(f"{place}: a scenario is an object with `batches`, or with `edits`, and a `name` or none")
    batches = told["batches"] if "batches" in told else [told["edits"]]
    fits = isinstance(batches, list) and all(
        isinstance(batch, list) and all(isinstance(edit, dict) for edit in batch) for batch in batches
    )
    if not fits or not all(1 <= len(batch) <= MOST_EDITS for batch in batches):
        raise Fault(f"{place}: `batches` is an array of batches, and a batch an array of 1 to {MOST_EDITS} edits")
    name = str(told.get("name", ""))
    if name != name.encode("utf-8", "replace").decode():
        raise Fault(f"{place}: the name {shown(name)} is no text")
    for batch in batches:
        try:
            command_line({"do": "edit", "edits": batch})
        except Fault as fault:
            raise Fault(f"{place}: {fault}") from None
    return SweepScenario(number, name, batches)


def result_header(links: Sequence[str], delay: bool = False) -> Row:
    """The fields of a row of results, with vehicle times or not."""
    return [
        "line",
        "name",
        "status",
        *TOTALS,
        *(TIMES if delay else ()),
        *(f"{word}:{link}" for link in links for word in ("in", "out")),
    ]


def remaining(row: Row) -> Remaining | None:
    """Who is not there by the end, as a row of results tells it; None where it has no numbers."""
    told: Mapping[str, str] = dict(zip(result_header([]), row))
    return Remaining(told_units(told["generated"]), told_units(told["not_there"])) if told["status"] == "ok" else None


class Runner:
    """A session of a case that answers scenarios one after another, each from the case as its files have it. `links`
    are names of the case."""

    MOST_LINES = MOST_LINES  # that a session takes

    def __init__(
        self,
        folder: str | os.PathLike[str],
        program: str | os.PathLike[str] | None,
        links: Sequence[str] = (),
        delay: bool = False,
    ) -> None:
        self.links, self.delay = list(links), delay
        self.open = OpenCase(folder, program, most_lines=self.MOST_LINES)
        self.asks_all = are_many(len(links), len(self.open.case.links))

    def run(self, scenario: SweepScenario) -> Row:
        """The row of results of a scenario. Where that takes more lines than a session, or its session ends, the row
        says so."""
        lines = 1 + len(scenario.batches) + 2 + self.delay + (1 if self.asks_all else len(self.links))
        most = self.open.last_line
        if lines > most:
            return self.without(
                scenario, f"{FAILED}it takes {count_text(lines)} lines of a session, which takes {count_text(most)}"
            )
        try:
            return self.open.tried(lambda: self.told(scenario), lambda: self.begin(lines))
        except SessionLost as lost:
            return self.without(scenario, f"{FAILED}{lost}")

    def begin(self, lines: int) -> None:
        """Has the session show the case as it is in its files, with room for so many lines. A fresh session is asked
        whether the program takes the case: if not, no scenario can be run."""
        opened = self.open.opened
        self.open.have([], lines)
        if self.open.opened > opened:
            self.open.session.totals()

    def told(self, scenario: SweepScenario) -> Row:
        """The row of results of a scenario by a session that shows the case."""
        for number, batch in enumerate(scenario.batches, 1):
            try:
                self.open.add(batch)
            except Refused as refused:
                return self.without(scenario, f"batch {number} {refused}")
        self.open.settle()
        session = self.open.session
        totals = session.totals()
        told = [vehicles_text(units) for units in (*totals[1:], totals.on_links + totals.waiting)]
        if self.delay:
            told += [seconds_text(time) for time in vehicle_times(session)]
        told += [vehicles_text(units) for units in self.passed(session)]
        return [str(scenario.number), scenario.name, "ok", *told]

    def passed(self, session: Session) -> list[int]:
        """What has entered and left each of the links by the end of the horizon that is shown."""
        if not self.asks_all:
            return [units for link in self.links for units in session.link(link)[1:]]
        slots = [edit.slots for edit in map(edit_of, chain(*self.open.made)) if isinstance(edit, Horizon)]
        state = session.state(slots[-1] if slots else self.open.case.setup.slots)
        return [units for link in self.links for units in (state.entered[link], state.left[link])]

    def without(self, scenario: SweepScenario, status: str) -> Row:
        """A row without numbers."""
        return [str(scenario.number), scenario.name, status] + [""] * (len(result_header(self.links, self.delay)) - 3)

    def close(self) -> None:
        """Ends the session."""
        self.open.close()

    def stop(self) -> None:
        """Ends the session at once, whatever it does, and opens none again; another thread may be asking it."""
        self.open.stop()


def are_many(count: int, every: int) -> bool:
    """Whether a line that tells of all links takes less time than one for each of so many."""
    return count > FEW and count * FEW > every


def vehicle_times(session: Session) -> tuple[int, int, int]:
    """The vehicle times of the loading that a session shows."""
    try:
        _, spent, queued, waited = session.delay()
    except Refused as refused:
        raise Fault(f"the sessions of this program do not report delay: {refused}") from None
    return spent, queued, waited
