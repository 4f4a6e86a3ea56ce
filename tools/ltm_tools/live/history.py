"""What each browser has changed, so that it undoes and redoes its own changes and not those of another."""
from __future__ import annotations

from collections.abc import Sequence
from dataclasses import dataclass, replace

from ..errors import Fault
from .entries import Entry
from .scenario import Scenario

MOST_STEPS = 200  # of a browser
NOTHING = {False: "There is nothing to undo in this window.", True: "There is nothing to redo in this window."}


@dataclass(frozen=True, slots=True)
class Step:
    """One change of the list: an entry that was `added`, `removed`, `switched` or `amended`, as it was then, its place,
    and what it was before it was amended; or of a scenario that was `recalled` the lists before and after."""

    kind: str
    entry: Entry
    place: int
    before: Entry | None = None
    lists: tuple[Sequence[Entry], Sequence[Entry]] | None = None

    def back(self, scenario: Scenario) -> None:
        """Undoes it; a Fault where the list has moved on so that it cannot be undone."""
        if self.lists is not None:
            scenario.change(list(self.lists[0]))
        elif self.kind == "added":
            scenario.undo(self.entry.number)
        elif self.kind == "removed":
            scenario.restore(self.entry, self.place)
        elif self.before is not None:
            scenario.put(self.before)
        else:
            scenario.switch(self.entry.number, not self.entry.on)

    def again(self, scenario: Scenario) -> None:
        """Does it once more."""
        if self.lists is not None:
            scenario.change(list(self.lists[1]))
        elif self.kind == "added":
            scenario.restore(self.entry, self.place)
        elif self.kind == "removed":
            scenario.undo(self.entry.number)
        elif self.before is not None:
            scenario.put(self.entry)
        else:
            scenario.switch(self.entry.number, self.entry.on)


def step_between(before: Sequence[Entry], after: Sequence[Entry]) -> Step | None:
    """The step that leads from a list to the next; None where they are the same."""
    old, new = ({entry.number: (entry, place) for place, entry in enumerate(one)} for one in (before, after))
    for number, (entry, place) in new.items():
        if number not in old:
            return Step("added", entry, place)
        if old[number][0].ask != entry.ask:
            return Step("amended", entry, place, old[number][0])
        if old[number][0].on != entry.on:
            return Step("switched", entry, place)
    return next((Step("removed", *old[number]) for number in old if number not in new), None)


class History:
    """The steps of each browser, by its name, and those that it has undone."""

    def __init__(self) -> None:
        self.done: dict[str, list[Step]] = {}
        self.undone: dict[str, list[Step]] = {}

    def note(self, who: str, before: Sequence[Entry], after: Sequence[Entry], whole: bool = False) -> None:
        """Keeps what a browser has changed, or with `whole` that it has put another list there; what it had undone
        before cannot be redone any more."""
        step = step_between(before, after)
        if step is not None and whole:
            step = replace(step, kind="recalled", lists=(before, after))
        if step is not None:
            self.done[who] = [*self.done.get(who, [])[1 - MOST_STEPS :], step]
            self.undone[who] = []

    def move(self, who: str, scenario: Scenario, again: bool) -> None:
        """Undoes what a browser did last, or redoes what it undid last; a Fault where there is nothing, or where
        others have changed what it was about, which is then forgotten."""
        from_steps, to_steps = (self.undone, self.done) if again else (self.done, self.undone)
        if not from_steps.get(who):
            raise Fault(NOTHING[again])
        step = from_steps[who].pop()
        (step.again if again else step.back)(scenario)
        to_steps.setdefault(who, []).append(step)

    def can(self, who: str) -> tuple[bool, bool]:
        """Whether a browser may undo, and redo."""
        return bool(self.done.get(who)), bool(self.undone.get(who))
