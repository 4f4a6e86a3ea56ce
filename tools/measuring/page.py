"""The page of what was measured: sections, each with when, where and by which program it was measured."""
from __future__ import annotations

import hashlib
import os
import re
import subprocess
import sys
import time
from collections.abc import Callable, Mapping
from dataclasses import dataclass
from pathlib import Path

from ltm_tools.errors import Fault
from ltm_tools.program import BUILT, CLONE

from .room import TOOLS, Room
from .runs import cost_of
from .tables import Table

HEAD = """\
# What was measured

How long loads, edits, imports and the tools take, and how much memory. `tools/measure` measures it and writes this
page; other pages link to it and repeat none of its numbers, but for a table that it copies into
[README](../README.md#how-large).

Times are **processor time** (user and system, with all that a command starts), as a machine that does other work as
well changes it least; where a clock was read, the table says so. Where several runs were made, the least stands
here. Each section says when, on which machine, at which commit and by which program it was measured. A program that
is called unproved was built from the same text without its proofs, by other means, and may be several times slower
than the proved one, which `./ltm --prove` builds: hold it against the plain engine, which was run beside it.

    tools/measure                                 # all of it, in some ten minutes, and the city and the shapes
    tools/measure --plain PROGRAM speed sizes     # two sections, one of them beside a plain engine
    tools/measure shapes --keep FOLDER            # an hour or more; the same again goes on where it was cut off

What the proofs and the tests cost stands in [CONTRIBUTING](../CONTRIBUTING.md#how-long-the-gate-takes), how near
loadings are to SUMO's in [TURNS](TURNS.md#how-near-it-is), how near they are to theory in
[VALIDATION](VALIDATION.md).
"""
BEGIN, END = "<!-- measured: {} -->", "<!-- end of {} -->"


@dataclass(frozen=True)
class Section:
    """A section of the page: its name among the words of the command, its title, what stands above its table, and the
    function that measures."""

    name: str
    title: str
    text: str
    measure: Callable[[Room], Table]
    needs_sumo: bool = False


def kept_of(page: str, sections: tuple[Section, ...]) -> dict[str, str]:
    """What a page has of each section, where it has been measured."""
    found = {}
    for section in sections:
        begin, end = BEGIN.format(section.name), END.format(section.name)
        match = re.search(f"{re.escape(begin)}\n(.*?)\n{re.escape(end)}", page, re.DOTALL)
        if match:
            found[section.name] = match[1].strip()
    return found


def text_of(kept: Mapping[str, str], sections: tuple[Section, ...]) -> str:
    """The page with what was measured; a section that never was says so."""
    parts = [HEAD]
    for section in sections:
        measured = kept.get(section.name, "Not measured yet.")
        marked = f"{BEGIN.format(section.name)}\n\n{measured}\n\n{END.format(section.name)}"
        parts.append(f"## {section.title}\n\n{section.text}\n\n{marked}\n")
    return "\n".join(parts)


def excerpt(measured: str) -> str:
    """When and where a section was measured, and its first table: what another document shows of it."""
    paragraphs = measured.split("\n\n")
    return "\n\n".join([paragraphs[0], next(one for one in paragraphs if one.startswith("|"))])


def copied(document: str, kept: Mapping[str, str]) -> str:
    """A document that shows excerpts of sections between the same marks, with those of what was measured."""
    for name, measured in kept.items():
        begin, end = BEGIN.format(name), END.format(name)
        before, marked, rest = document.partition(begin)
        if marked:
            document = f"{before}{begin}\n\n{excerpt(measured)}\n\n{end}{rest.partition(end)[2]}"
    return document


def stamp(room: Room) -> str:
    """When, where, at which commit and by which program a section is measured, while it is."""
    load = f"load average {os.getloadavg()[0]:.1f}"
    day = time.strftime("%d %B %Y", time.gmtime()).lstrip("0")
    return f"*{day}, {machine()}, {load}; commit {commit()}, {described(room.program)}.*"


def machine() -> str:
    """The machine: its processors and memory."""
    model = re.search(r"^model name\s*: (.*)$", Path("/proc/cpuinfo").read_text(), re.MULTILINE)
    memory = int(re.findall(r"^MemTotal:\s*(\d+)", Path("/proc/meminfo").read_text())[0]) / 2**20
    name = re.sub(r"\((?:R|TM)\)|\s+", " ", model[1]) if model else "processors"
    return f"{os.cpu_count()} x {re.sub(' +', ' ', name)}, {memory:.0f} GB"


def commit() -> str:
    """The commit of the clone."""
    words = ["git", "-C", str(CLONE), "rev-parse", "--short=12", "HEAD"]
    told = subprocess.run(words, capture_output=True, text=True, check=False).stdout.strip()
    return told or "unknown"


def described(program: Path) -> str:
    """The program that is measured: whether it is the proved one, and its sum."""
    sum_ = hashlib.sha256(program.read_bytes()).hexdigest()
    kind = "the proved program" if is_proved(sum_) else "an unproved program"
    return f"{kind} ({sum_[:12]})"


def is_proved(sum_: str) -> bool:
    """Whether this is the sum of the program of this clone, and that one is proved."""
    if not BUILT.is_file() or hashlib.sha256(BUILT.read_bytes()).hexdigest() != sum_:
        return False
    try:
        cost_of([sys.executable, TOOLS, "prove", "--check"])
    except Fault:
        return False
    return True
