"""What a search leaves: the case with its signals, the plans as a table, and programs for SUMO."""
from __future__ import annotations

import os
from collections.abc import Iterable, Sequence
from xml.sax.saxutils import quoteattr

from ..case import Case
from ..case.beside import BESIDE, TURNS_FILE
from ..files import read_bytes, write_bytes, write_records, write_text
from ..formats import short_vehicles
from ..network.crossings.recount import by_volumes
from ..network.crossings.turn import Turn
from ..network.crossings.volumes import Volumes
from ..sumo.net import Program
from ..sumo.signals import cycle_of
from .stages import Junction, Timing
from .trying import Plan

CYCLES_FILE, PROGRAMS_FILE = "cycles.csv", "programs.add.xml"
CYCLES = ("link", "cycle", "green_from", "green_to", "offset")
PROGRAM = "ltm"  # the name of a program that SUMO is given


def write_result(
    folder: str | os.PathLike[str],
    to: str | os.PathLike[str],
    turns: Sequence[Turn],
    volumes: Volumes,
) -> None:
    """Writes the case of a folder into another with the greens of these turns, and what lies beside it."""
    beside = {
        name: read_bytes(path)
        for name in BESIDE
        if name != TURNS_FILE and os.path.exists(path := os.path.join(folder, name))
    }
    made = by_volumes(Case.read(folder), turns, volumes)
    made.case.setup.signals = True
    made.case.write(to)
    for name, data in beside.items():
        write_bytes(os.path.join(to, name), data)
    made.turns.write(to)
    write_records(os.path.join(to, CYCLES_FILE), CYCLES, cycles(turns))


def timed(turns: Iterable[Turn], junctions: Iterable[Junction], plan: Plan) -> list[Turn]:
    """All turns, those of junctions as a plan has them."""
    by_link = {turn.link: turn for one in junctions for turn in one.turns_by(plan[one.name])}
    return [by_link.get(turn.link, turn) for turn in turns]


def cycles(turns: Iterable[Turn]) -> list[tuple[str, ...]]:
    """A row for each green of a turn, in seconds, also those in which it yields."""
    return [
        (turn.link, *(short_vehicles(ms) for ms in (green.cycle_ms, green.from_ms, green.to_ms, green.offset_ms)))
        for turn in turns
        for green in turn.protected + turn.permitted
        if green.share
    ]


def programs_text(
    found: Iterable[tuple[Junction, Timing, Program]],
    begin_ms: int,
) -> str:
    """An additional file of SUMO with the program of each junction by its timing; slot 0 begins at a time of SUMO."""
    lines = ["<additional>"]
    for one, timing, program in found:
        offset, lengths = phases(one, timing, program, begin_ms)
        lines.append(
            f'    <tlLogic id={quoteattr(program.signal)} type="static" programID="{PROGRAM}"'
            f' offset="{short_vehicles(offset)}">'
        )
        for length, (_, state) in zip(lengths, program.phases):
            lines.append(f'        <phase duration="{short_vehicles(length)}" state={quoteattr(state)}/>')
        lines.append("    </tlLogic>")
    return "\n".join([*lines, "</additional>", ""])


def phases(one: Junction, timing: Timing, program: Program, begin_ms: int) -> tuple[int, list[int]]:
    """The offset of a program by a timing of its junction, and the length of each phase, in ms."""
    cycle, moments, time = cycle_of(program), [], 0
    for length, _ in program.phases:
        moments.append(one.warped((time - one.shift_ms) % cycle, timing))
        time += length
    lengths = [
        (after - before) % timing.cycle_ms or (timing.cycle_ms if len(moments) == 1 else 0)
        for before, after in zip(moments, [*moments[1:], moments[0]])
    ]
    return (timing.offset_ms + moments[0] + begin_ms) % timing.cycle_ms, lengths


def write_programs(to: str | os.PathLike[str], text: str) -> None:
    """Writes the file for SUMO beside the case."""
    write_text(os.path.join(to, PROGRAMS_FILE), text)
