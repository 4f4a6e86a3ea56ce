"""Scripts of a session: their lines, and the batches of edits among them."""
from __future__ import annotations

import json
import os
from collections.abc import Sequence
from typing import NamedTuple

from ..case import Case
from ..case.history import check_history_of
from ..case.refusals import why_refused
from ..case.script import read_line
from ..errors import Fault
from ..files import is_utf16, read_bytes, utf16_advice
from ..program import output
from .edits import Told


class ScriptBatch(NamedTuple):
    """A line of a script that is an `edit` command: its number, counted from 1, its text, its edits as objects, and the
    session's answer."""

    number: int
    line: bytes
    edits: list[Told]
    answer: str

    @property
    def accepted(self) -> bool:
        """Whether the session has made its edits."""
        return self.answer.startswith("accepted ")

    def cause(self, case: Case) -> str:
        """Why it is refused, in words; the session's answer where these are not known."""
        said = read_line(self.line)
        place = (said.cause or self.answer).removeprefix("refused edit ").removeprefix("NotCommand ").partition(" ")[0]
        where = f"edit {place}: " if place.isdigit() and place != "0" else ""
        why = said.reason or why_refused(case, {"do": "edit", "edits": self.edits}, self.answer) or self.answer
        return f"{where}{why}"


def script_batches(
    folder: str | os.PathLike[str], script: str | os.PathLike[str], program: str | os.PathLike[str] | None
) -> list[ScriptBatch]:
    """The batches of a script; which of them are accepted the program says."""
    found = [
        (number, line, edits)
        for number, line in enumerate(read_script(script), 1)
        if (edits := line_edits(line)) is not None
    ]
    return [
        ScriptBatch(*batch, answer)
        for batch, answer in zip(found, answers(folder, [line for _, line, _ in found], program))
    ]


def line_edits(line: bytes) -> list[Told] | None:
    """The edits of a line that is an `edit` command, as objects, or None."""
    try:
        told = json.loads(line)
    except (ValueError, RecursionError):
        return None
    if not isinstance(told, dict) or told.get("do") != "edit" or not isinstance(told.get("edits"), list):
        return None
    return list(told["edits"])


def answers(
    folder: str | os.PathLike[str], lines: Sequence[bytes], program: str | os.PathLike[str] | None
) -> list[str]:
    """What a session answers to these lines of edits, one after the other."""
    check_history_of(folder, "a session")
    found = (
        output(folder, "session", "0", program=program, script=b"".join(line + b"\n" for line in lines))
        .decode("utf-8", "backslashreplace")
        .splitlines()
    )
    if len(found) != len(lines):
        raise Fault(f"{folder}: the session answered {len(found)} of {len(lines)} lines")
    return found


def read_script(path: str | os.PathLike[str]) -> list[bytes]:
    """The lines of a script; a Fault where no line of it can be read."""
    data = read_bytes(path)
    if is_utf16(data):
        raise Fault(f"{path}: {utf16_advice(path)}")
    return data.removesuffix(b"\n").split(b"\n") if data else []
