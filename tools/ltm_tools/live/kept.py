"""A scenario that is kept: as a script, as the files of a case, and as a page that needs no server.

A line of the script may have a member `change` beside those that a session looks at: what was asked for, so that the
list comes back as it was. An entry that is off stands as the question `totals`, which changes nothing. An entry of
several lines says on the first how many.
"""
from __future__ import annotations

import io
import json
import os
import tempfile
import zipfile
from collections.abc import Iterable, Sequence
from dataclasses import dataclass
from datetime import date
from itertools import islice
from pathlib import Path

from ..case.script import read_line
from ..errors import Fault
from ..files import readable, write_bytes
from ..formats import UNITS
from ..loading.curves import Summed
from ..loading.loaded import LoadedCase, loaded
from ..scenario.batches import Batch, in_batches
from ..scenario.edits import Splits, edit_of, told_of
from ..scenario.scripts import line_edits, read_script
from ..scenario.versions import write_version
from ..show.page import find_d3, page
from .entries import ROOM, Effect, Entry
from .asks import Members
from .messages import Told, told_list
from .scenario import Scenario


TEXTS = ("title", "author", "note")
MOST_TEXT = 4_000  # signs of each
MOST_TIME = 2**53  # which a browser has exactly


def lines_of(entry: Entry) -> list[bytes]:
    """The lines of a script for an entry: the one that it was read from, where it was."""
    if entry.source is not None and entry.on:
        return [entry.source]
    told: Told = {"by": entry.by, **(entry.ask.members() if entry.ask else {"text": entry.text})}
    if entry.effect is not None:
        told["effect"] = entry.effect
    if not entry.on:
        parts = [objects(batch) for batch in in_batches(entry.heard, ROOM)]
        more: Told = {} if entry.line is None else {"edits": entry.line}
        told.update(more, on=False, **({"batches": 1 + len(parts)} if parts else {}))
        return [line_bytes({"do": "totals", "change": one}) for one in (told, *({"heard": part} for part in parts))]
    batches = [objects(batch) for batch in entry.batches] if entry.line is None else [entry.line]
    lines: list[Told] = [{"do": "edit", "edits": batch} for batch in batches]
    if lines:
        told["batches"] = len(lines)
        lines[0]["change"] = told
    return [line_bytes(line) for line in lines]


def objects(batch: Batch) -> list[Told]:
    """The edits of a batch, as a script has them."""
    return [told_of(edit) for edit in batch]


def line_bytes(told: object) -> bytes:
    return json.dumps(told).encode("ascii")


def file_bytes(lines: Iterable[bytes]) -> bytes:
    """Lines as a file."""
    return b"".join(line + b"\n" for line in lines)


def script_of(entries: Sequence[Entry]) -> bytes:
    """The list as a script."""
    return file_bytes(line for entry in entries for line in lines_of(entry))


def script_bytes(scenario: Scenario) -> bytes:
    """The list of a scenario as a script."""
    return script_of(scenario.entries)


class Script:
    """A file that has the list of a scenario, written whole at each change of it. Lines that it had and that are no
    edits stay where they are, and those that are edits as long as the list has them."""

    def __init__(self, path: str | os.PathLike[str]) -> None:
        self.path = path
        self.lines: list[bytes | int] = []  # those that were there, or the numbers of their entries

    def read(self, scenario: Scenario) -> None:
        """Puts what the file has into the list; a Fault that names the first line that is refused."""
        lines = enumerate(read_script(self.path) if os.path.exists(self.path) else (), 1)
        for number, line in lines:
            more = [one for _, one in islice(lines, lines_in(line) - 1)]
            try:
                entry = entry_of(scenario, line, more, f"line {number} of {os.path.basename(self.path)}")
            except Fault as fault:
                raise Fault(f"{self.path}, line {number}: {fault}") from None
            self.lines.append(line if entry is None else entry.number)

    def write(self, entries: Sequence[Entry]) -> None:
        """Writes the file; a Fault where that cannot be done."""
        standing = {entry.number: entry for entry in entries}
        there = {number for number in self.lines if isinstance(number, int)}
        lines = [
            line
            for item in self.lines
            for line in ([item] if isinstance(item, bytes) else lines_of(standing[item]) if item in standing else [])
        ]
        write_bytes(
            self.path,
            file_bytes(lines + [line for entry in entries if entry.number not in there for line in lines_of(entry)]),
        )


def entry_of(scenario: Scenario, line: bytes, more: Sequence[bytes], place: str) -> Entry | None:
    """The entry that a line of a script adds to the list, with more lines that are of it; None where it is no edit."""
    told, change = line_edits(line), change_of(line)
    if change is not None and (told is not None or change.get("on") is False):
        return add_change(scenario, change, told, heard_in([line, *more]) if change.get("informed") else [])
    if told is None:
        return None
    check_edits(told)
    return scenario.add_line(place, words_of(told), told, line)


def check_edits(edits: object) -> None:
    """A Fault where the program would not read these as the edits of a line."""
    said = read_line(line_bytes({"do": "edit", "edits": edits}))
    if said.cause is not None:
        raise Fault(f"{said.cause}: {said.reason}")


def change_of(line: bytes) -> dict[str, object] | None:
    """The member `change` of a line, if it has one."""
    try:
        told = json.loads(line)
    except (ValueError, RecursionError):
        return None
    change = told.get("change") if isinstance(told, dict) else None
    return change if isinstance(change, dict) else None


def lines_in(line: bytes) -> int:
    """How many lines the entry has that begins with this one."""
    change = change_of(line) or {}
    count = change.get("batches", 1)
    is_entry = line_edits(line) is not None or change.get("on") is False
    return count if is_entry and type(count) is int and count > 0 else 1


def heard_in(lines: Iterable[bytes]) -> Batch:
    """The shares of those who hear of a closure, in the lines of its entry."""
    found: Batch = []
    for line in lines:
        told = line_edits(line) or (change_of(line) or {}).get("heard")
        if told is not None:
            check_edits(told)
            assert isinstance(told, list)
            found += [edit for edit in map(edit_of, told) if isinstance(edit, Splits)]
    return found


def effect_in(change: dict[str, object]) -> Effect | None:
    """The effect of informed drivers that a line tells, if it does."""
    told = change.get("effect")
    if isinstance(told, list) and len(told) == 3 and all(type(one) is int and 0 <= one < MOST_TIME for one in told):
        return Effect(*told)
    return None


def add_change(scenario: Scenario, change: dict[str, object], told: list[Told] | None, heard: Batch) -> Entry:
    """Adds an entry as a line of a script tells it."""
    by = change.get("by")
    who = by if isinstance(by, str) else "script"
    if "kind" in change:
        entry = scenario.add(who, change, heard, effect=effect_in(change))
    else:
        edits = told if told is not None else change.get("edits")
        check_edits(edits)
        assert isinstance(edits, list)
        entry = scenario.add_line(who, str(change.get("text", words_of(edits))), edits)
    if change.get("on") is False:
        scenario.switch(entry.number, False)
    return entry


def words_of(batch: Sequence[Told]) -> str:
    """The edits of a line in a few words."""
    first = batch[0]
    name = first.get("link") or first.get("origin") or first.get("node") or ""
    more = f" and {len(batch) - 1} more" if len(batch) > 1 else ""
    return readable(f"{first.get('kind')} {name}{more}")


def case_zip(scenario: Scenario) -> bytes:
    """The files of the case of a scenario, as a zip archive."""
    data = io.BytesIO()
    with tempfile.TemporaryDirectory() as folder, zipfile.ZipFile(data, "w", zipfile.ZIP_DEFLATED) as archive:
        scenario.unchanged()
        write_version(scenario.folder, scenario.batches(), folder)
        for path in sorted(Path(folder).iterdir()):
            archive.writestr(path.name, path.read_bytes())
    return data.getvalue()


@dataclass(frozen=True, slots=True)
class Kept:
    """What a page needs of a scenario as it stands: its case, its batches, and the story that it tells."""

    folder: str
    program: str | None
    start: int
    batches: list[Batch]
    title: str
    story: Told


def kept_of(scenario: Scenario, costs: Told, told: Members) -> Kept:
    """What a page needs of a scenario, with its costs as browsers are told them, and what a browser tells to stand on
    it: `title`, `author` and `note`."""
    scenario.unchanged()
    texts = {name: text_in(told, name) for name in TEXTS}
    story: Told = {
        **texts,
        "date": date.today().isoformat(),
        "changes": told_list(scenario.entries, scenario.slots),
        "costs": costs,
    }
    name = readable(os.path.basename(os.path.abspath(scenario.folder)))
    program = os.fspath(scenario.program) if scenario.program else None
    return Kept(scenario.folder, program, scenario.start, scenario.batches(), texts["title"] or name, story)


def text_in(told: Members, name: str) -> str:
    """A text that a browser tells; none where it tells none."""
    text = told.get(name, "")
    return text[:MOST_TEXT] if isinstance(text, str) else ""


def page_of(kept: Kept) -> bytes:
    """The base and the scenario as one page that needs no server."""
    with tempfile.TemporaryDirectory() as folder:
        write_version(kept.folder, kept.batches, folder)
        both = [loaded(where, None, kept.program) for where in (kept.folder, folder)]
        text = page(
            [LoadedCase(one.case, Summed(one.curves)) for one in both],
            [kept.folder, folder],
            ["base", "now"],
            kept.start,
            UNITS,
            kept.title,
            find_d3(),
            story=kept.story,
        )
    return text.encode("utf-8")
