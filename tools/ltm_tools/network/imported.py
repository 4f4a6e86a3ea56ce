"""What an import gives: a case, what the links and nodes of its source have become, and what was changed."""
from __future__ import annotations

import os
from collections.abc import Mapping
from dataclasses import dataclass, field
from pathlib import Path

from ..case import Case
from ..case.background import Background, write_background
from ..case.beside import TURNS_FILE
from ..case.clock import FILE as CLOCK_FILE, write_clock
from ..case.places import FILES, Places
from ..case.source import Source, quoted_lines
from ..case.streets import write_streets
from ..files import write_text
from ..replacing import take_away, together
from .crossings.turns_file import Turns
from .fitting import FitChange

CHANGES_FILE = "changes.csv"


@dataclass(frozen=True)
class Imported:
    """A case that was made of a network; `places` is None where its nodes have none, `changes` where it was not fitted,
    `clock` (ms since midnight) where nothing says when slot 0 begins, and `told` has what was read, set, left out and
    changed, a line each."""

    case: Case
    places: Places | None
    source: Source
    changes: tuple[FitChange, ...] | None
    told: tuple[str, ...]
    clock: int | None = None
    turns: Turns | None = None
    """The turns of its crossings, where these are links."""
    streets: Mapping[str, str] = field(default_factory=dict)
    """The names of streets by link."""
    background: Background = Background()
    """What a map draws behind the links."""

    def write(self, folder: str | os.PathLike[str]) -> list[str]:
        """Writes the case into a folder, and beside it `source_links.csv`, `source_nodes.csv`, `nodes.csv` and
        `shapes.csv` where places are known, `clock.txt` where the clock is, of a fitted network `changes.csv`,
        `turns.csv` where turns are links, `street_names.csv` where streets have names, and `background.json`
        where the source has more to draw.
        Gives what is to be told of older files there, a line each."""
        with together():
            self.case.write(folder)
            self.source.write(folder)
            if self.places is not None:
                self.places.write(folder)
            if self.clock is not None:
                write_clock(folder, self.clock)
            if self.turns is not None:
                self.turns.write(folder)
            else:
                take_away(Path(folder) / TURNS_FILE)
            write_streets(folder, self.streets)
            write_background(folder, self.background)
            path = Path(folder) / CHANGES_FILE
            if self.changes is not None:
                rows = [
                    (change.kind, change.name, f"{float(change.metres):.3f}", f"{float(change.time):.0f}", change.note)
                    for change in self.changes
                ]
                write_text(path, quoted_lines([("change", "name", "metres", "ms", "note"), *rows]))
            else:
                take_away(path)
        return self.older(os.fspath(folder))

    def older(self, folder: str) -> list[str]:
        """What is to be told of files in the folder that are not of this case."""
        told = []
        if self.case.splits is None and os.path.exists(os.path.join(folder, "splits.csv")):
            told.append(f"an older splits.csv stands in {folder}: ltm routes, or ltm-tools splits, makes it anew")
        if self.places is None:
            told += [
                f"an older {name} stands in {folder}, and the network says no places: take it away"
                for name in FILES
                if os.path.exists(os.path.join(folder, name))
            ]
        if self.clock is None and os.path.exists(os.path.join(folder, CLOCK_FILE)):
            told.append(
                f"an older {CLOCK_FILE} stands in {folder}, and nothing says when this case begins: take it"
                f" away, or give a start"
            )
        return told
