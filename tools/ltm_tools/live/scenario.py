"""A case, the list of changes made to it, and the session of the program that shows what they leave.

Nothing here waits for two things at once: one thread alone calls a scenario. What the program shows is always that of
the list, once it is settled; where the program ends, `recover` opens it anew and makes the list again.
"""
from __future__ import annotations

import os
from collections.abc import Sequence
from dataclasses import replace
from itertools import count

from ..case import Link
from ..case.history import check_history_of
from ..case.source import approach_heads, approaches_of
from ..case.streets import read_streets
from ..errors import Fault
from ..formats import MOST_LINES
from ..loading.answers import AllDelays, Settled, Totals
from ..scenario.batches import Batch
from ..scenario.edits import Diagram, Edit, Horizon, Told, edit_of
from ..scenario.open import OpenCase
from ..scenario.session import Refused, Session
from .asks import Known, Members, ask_of
from .entries import Effect, Entry, batches_of
from .frames import BaseLoading, Boundary, Kept, boundary_of, frame

ROOM = 5_000  # lines that a session has left when it is opened anew, or a quarter of all where that is less
PIECE = 50  # boundaries of the base that are asked for at a time
Before = tuple[tuple[int, bool], ...]
OLD = "the program's sessions do not answer `state`, `curve` and `delays`: a newer ltm is needed"


class Scenario:
    """A scenario of a case, and the loading that it has. It is a context manager that ends its session."""

    def __init__(
        self,
        folder: str | os.PathLike[str],
        program: str | os.PathLike[str] | None = None,
        start: int = 0,
        most_lines: int = MOST_LINES,
    ) -> None:
        self.folder, self.program, self.start = os.fspath(folder), program, start
        check_history_of(folder, "the live map")  # before the routes of a city are made
        self.open = OpenCase(folder, program, most_lines=most_lines, spare=min(ROOM, most_lines // 4))
        self.case = self.open.case
        self.slots, self.step = self.case.setup.slots, self.case.setup.step_ms
        self.links = {link.name: place for place, link in enumerate(self.case.links)}
        self.nodes = {node: place for place, node in enumerate(self.case.nodes)}
        self.approaches = approaches_of(self.folder, self.case.links)
        self.known = Known(self.approaches, self.crossings(), read_streets(self.folder))
        self.origins = list(dict.fromkeys(row.origin for row in self.case.standing_demand()))
        self.entries: list[Entry] = []
        self.numbers = count(1)
        self.revision = 0
        self.base, self.kept = BaseLoading(), Kept()
        try:
            self.base_delays, self.base_totals = self.delays(), self.totals()
        except Refused:
            self.close()
            raise Fault(OLD) from None

    def __enter__(self) -> "Scenario":
        return self

    def __exit__(self, *_: object) -> None:
        self.close()

    def close(self) -> None:
        """Ends the session."""
        self.open.kill()

    @property
    def session(self) -> Session:
        """The session that shows the list."""
        return self.open.session

    # ---- what is shown

    def fill_base(self) -> None:
        """Asks for the base at the next boundaries, some at a time, before there is any entry."""
        for boundary in range(len(self.base.at), min(len(self.base.at) + PIECE, self.slots + 1)):
            self.base.at.append(self.boundary(boundary))
        if self.ready:
            self.base.departures = {node: self.departures(node) for node in self.origins}

    @property
    def ready(self) -> bool:
        """Whether the base is there at all boundaries."""
        return len(self.base.at) > self.slots

    def boundary(self, boundary: int) -> Boundary:
        """All links and nodes at a boundary."""
        return boundary_of(self.session.ask(do="state", slot=boundary))

    def frame(self, boundary: int, since: int | None = None) -> bytes:
        """The frame of a boundary, with what has left links since an earlier one if told: see the module `frames`."""
        kept = self.kept.get(self.revision, boundary, since)
        if kept is None:
            now, before = self.boundary(boundary), None
            if since is not None:
                was = self.boundary(since)
                before = (was, self.base.at[since] if self.ready else was)
            kept = frame(self.revision, boundary, now, self.base.at[boundary] if self.ready else now, before)
            self.kept.put(self.revision, boundary, kept, since)
        return kept

    def curve(self, name: str) -> tuple[Sequence[int], Sequence[int]]:
        """What has entered and left a link by each boundary."""
        told = self.session.curve(name)
        return told.entered, told.left

    def departures(self, node: str) -> tuple[Sequence[int], Sequence[int]]:
        """What has been produced at a node by each boundary, and what has left it."""
        told = self.session.departures(node)
        return told.produced, told.left

    def delays(self) -> AllDelays:
        """The vehicle time of all, of each link and of each node."""
        return self.session.delays()

    def totals(self) -> Totals:
        """The totals at the end of the horizon."""
        return self.session.totals()

    def settle(self) -> Settled:
        """Shows what the list leaves."""
        settled = self.open.settle()
        self.revision += 1
        return settled

    # ---- what changes it

    def batches(self) -> list[Batch]:
        """The batches of all entries that are on, in order."""
        return [batch for entry in self.entries for batch in entry.batches]

    def add(
        self,
        by: str,
        told: Members,
        heard: Sequence[Edit] = (),
        before: Before | None = None,
        effect: Effect | None = None,
    ) -> Entry:
        """Adds an entry of what a browser asks for, with the shares of those who hear of it; behind the entries for
        which these were found, where that is told. A Fault where it is refused, and nothing is changed."""
        ask = ask_of(told, self.case, self.known)
        if before is not None and self.standing()[: len(before)] != before:
            raise Fault("An earlier change was removed or switched meanwhile. Ask for this one again.")
        return self._put(
            Entry(0, by, ask.text(self.start, self.step), ask=ask, heard=list(heard), effect=effect),
            None if before is None else len(before),
        )

    def standing(self) -> Before:
        """The numbers of the entries, and whether each is on."""
        return tuple((entry.number, entry.on) for entry in self.entries)

    def add_line(self, by: str, text: str, line: list[Told], source: bytes | None = None) -> Entry:
        """Adds an entry of the edits of a line of a script; a Fault where it is refused, and nothing is changed."""
        if any(isinstance(edit_of(edit), Horizon) for edit in line):
            raise Fault("a live scenario has the slots of its case: give them in setup.csv")
        return self._put(Entry(0, by, text, line=line, source=source))

    def _put(self, entry: Entry, at: int | None = None) -> Entry:
        entry.number = next(self.numbers)
        place = len(self.entries) if at is None else at
        self.change([*self.entries[:place], entry, *self.entries[place:]])
        return self.entries[place]

    def undo(self, number: int) -> None:
        """Takes an entry out of the list; a Fault where later ones do not stand without it."""
        self._entry(number)
        self.change([entry for entry in self.entries if entry.number != number])

    def amend(self, number: int, told: Members) -> None:
        """Makes an entry another change, in its place; a Fault where it cannot be, as with routes that were found for
        what it was."""
        entry = self._entry(number)
        ask = ask_of(told, self.case, self.known)
        if entry.heard or ask.informed:
            raise Fault("Routes were found for this closure as it is. Remove it, and ask for another.")
        self.put(replace(entry, ask=ask, text=ask.text(self.start, self.step), line=None, source=None))

    def put(self, entry: Entry) -> None:
        """Puts an entry in the place of the one that has its number."""
        self._entry(entry.number)
        self.change([entry if one.number == entry.number else one for one in self.entries])

    def restore(self, entry: Entry, place: int) -> None:
        """Puts an entry back that was in the list before; a Fault where it is there, or does not stand any more."""
        if any(one.number == entry.number for one in self.entries):
            raise Fault("This change is in the list already.")
        self.change([*self.entries[:place], entry, *self.entries[place:]])

    def switch(self, number: int, on: bool) -> None:
        """Switches an entry on or off, and leaves it in its place."""
        self._entry(number)
        self.change([replace(entry, on=on) if entry.number == number else entry for entry in self.entries])

    def _entry(self, number: int) -> Entry:
        """The entry of a number; a Fault where it is gone."""
        for entry in self.entries:
            if entry.number == number:
                return entry
        raise Fault("This change was removed already.")

    def change(self, entries: list[Entry]) -> None:
        """Makes another list the scenario's; where a batch is refused, a Fault, and the list stays as it was."""
        found = batches_of(self.case, self.open.own, entries)
        made = [replace(entry, batches=batches) for entry, batches in zip(entries, found)]
        last = made[-1] if len(made) > len(self.entries) else None
        if last is not None and not last.batches and last.on:
            raise Fault(f"{last.text}: this changes nothing.")
        try:
            self.open.have([batch for entry in made for batch in entry.batches])
        except Refused as refused:
            self.open.have(self.batches())
            raise Fault(str(refused)) from None
        self.entries = made

    def unchanged(self) -> None:
        """A Fault where the files of the case have changed since they were read."""
        self.open.unchanged()

    def recover(self) -> None:
        """Opens the session anew, as after it has ended, and makes the list again, to be settled."""
        self.open.kill()
        self.open.have(self.batches())

    def renew(self) -> None:
        """Opens the session anew where its lines are nearly used, before it would end."""
        if not self.open.has_room(1):
            self.open.renew()

    # ---- what links and crossings are

    def crossings(self) -> dict[str, tuple[str, ...]]:
        """The crossings of the source by name, each with the turns that lead over it."""
        found: dict[str, tuple[str, ...]] = {}
        for road, node in approach_heads(self.folder, self.case.links).items():
            found[node] = (*found.get(node, ()), *self.approaches[road][1:])
        return found

    def link(self, name: str) -> Link:
        """A link as the list leaves it."""
        link = self.case.links[self.links[name]]
        for entry in self.entries:
            for edit in (edit for batch in entry.batches for edit in batch):
                if isinstance(edit, Diagram) and edit.link == name:
                    link = replace(link, **edit.of_link)
        return link
