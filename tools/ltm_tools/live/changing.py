"""What the changes that browsers ask for do to the list, to what each may undo, and to the scenarios that are kept."""
from __future__ import annotations

from .history import History
from .kept import Script
from .messages import Make, Told
from .scenario import Scenario
from .scenes import Scenes
from .strip import Strip


class Changing:
    """The list of a scenario as browsers change it, on disk where there is a script."""

    def __init__(self, scenario: Scenario, script: Script | None) -> None:
        self.scenario, self.script = scenario, script
        self.history, self.scenes = History(), Scenes()

    def change(self, by: str, make: Make) -> None:
        """Makes one change of the list, and has it on disk where there is a script."""
        scenario, before = self.scenario, self.scenario.entries
        if make.what in ("back", "again"):
            self.history.move(by, scenario, make.what == "again")
        elif make.found is not None:
            scenario.add(by, make.edit, make.found.edits, make.found.before, make.found.effect)
        elif make.what == "edit":
            scenario.add(by, make.edit)
        elif make.what == "recall":
            scenario.change(list(self.scenes.named(make.edit["name"]).entries))
        elif make.what == "amend":
            scenario.amend(make.number, make.edit)
        elif make.what == "undo":
            scenario.undo(make.number)
        else:
            scenario.switch(make.number, make.on)
        self.write()
        if make.what not in ("back", "again"):
            self.history.note(by, before, scenario.entries, whole=make.what == "recall")

    def keep(self, make: Make, costs: Told, strip: Strip) -> bool:
        """Keeps the list with its costs and its loading under a name, or removes what was kept under it: whether that
        was asked for."""
        if make.what == "keep":
            self.scenes.keep(make.edit["name"], self.scenario.entries, costs, strip.places, strip.moments)
        elif make.what == "drop":
            self.scenes.drop(make.edit["name"])
        return make.what in ("keep", "drop")

    def write(self) -> None:
        """Has the list on disk where there is a script."""
        if self.script is not None:
            self.script.write(self.scenario.entries)
