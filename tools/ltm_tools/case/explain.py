"""What the program has written, in words, with what to do about it.

It reads the files itself, and tells a fault only where it finds the very one that the program has told. Where it finds
nothing it writes nothing.
"""
import os
import re
from collections.abc import Sequence
from pathlib import Path

from ..errors import Fault
from ..files import is_utf16, read_bytes, records, shown
from ..formats import (
    ANSWERING,
    HEADERS,
    MOST_CURVES_BYTES,
    MOST_EDITOR_LINES,
    MOST_FILE_BYTES,
    MOST_LINES,
    MOST_LINE_BYTES,
    clock_text,
    count_text,
)
from ..program import routes_write
from ..replacing import after_a_cut
from .bad_case import BadCase, NoFile
from .case import Case
from .cells import memory_text, produced_bytes
from .curve_faults import find_fault
from .history import NO_HISTORY, NO_HISTORY_LINE, to_have_one
from .reading import longest_beside
from .refusals import why_refused
from .script import Line, line_text, parsed, read_line, script_lines
from .usage import usage_fault

MOST_TOLD = 5  # lines of a script
Told = list[str]


def explain(
    folder: str,
    status: int,
    line: str,
    words: Sequence[str] = (),
    script: str | None = None,
    command: str | None = None,
) -> Told:
    """The lines that explain a run in a folder which ended with this status; none where there is nothing to say."""
    words = list(words) or ["load"]
    told = by_status(folder, status, line, words) if command is None else refused(folder, line, command)
    return told + (of_script(script) if script is not None else [])


def by_status(folder: str, status: int, line: str, words: list[str]) -> Told:
    """What a run is to be told of that ended with a status and a line."""
    if status == 2:
        return [fault] if (fault := usage_fault(words)) else []
    if status == 3:
        return missing_file(folder, words)
    if status == 4:
        return ["the standard input failed while it was read; the lines before were answered"]
    if status == 5:
        return ["the output failed: a pipe whose reader has ended, or a full disk; what was written is the front of it"]
    if status == 6:
        return bad_case(folder, line, words)
    if status in (7, 8):
        return too_much(folder, status, line, words)
    if status == 9:
        return no_memory(folder, words)
    if status == 11:
        return bad_curves(folder, line)
    if status == 12:
        return not_loading(folder, line)
    if status == NO_HISTORY:
        return no_history(folder, line, words)
    return bad_script(folder, line) if status == 13 else []


def refused(folder: str, line: str, command: str) -> Told:
    """Why a session refused a command."""
    said = read_line(command.encode("utf-8", "surrogateescape"))
    if said.cause is not None:
        return [f"{said.reason}{edit_place(said)}"] if line.strip() == f"refused command {said.cause}" else []
    try:
        asked = parsed(command.encode())
        why = why_refused(read_as_program(folder, ["session"]), asked, line) if isinstance(asked, dict) else ""
    except Fault:
        return []
    return [why] if why else []


def read_as_program(folder: str, words: list[str]) -> Case:
    """The case as the program reads it with these words: its first fault is raised."""
    return Case.read(folder, splits=words[0] != "routes", routes=words[0] == "session")


def first_fault(folder: str, words: list[str]) -> Fault | None:
    """The first fault of the case, if it has one."""
    try:
        read_as_program(folder, words)
    except Fault as fault:
        return fault
    return None


def missing_file(folder: str, words: list[str]) -> Told:
    """Which file is not there, or cannot be read."""
    fault = first_fault(folder, words)
    if isinstance(fault, NoFile):
        return file_advice(folder, fault)
    if fault is not None:
        return []
    for name in files_beside(words):
        path = os.path.join(folder, name)
        if not os.path.exists(path):
            advice = "ltm curves writes it" if name == "curves.csv" else "each editor has a file of edits"
            return [f"{name} is not there", f"    {advice}"]
        if not os.access(path, os.R_OK) or not os.path.isfile(path):
            return [f"{name} cannot be read"]
    return []


def files_beside(words: list[str]) -> list[str]:
    """The files that are fetched after those of the case."""
    if words[0] == "check":
        return ["curves.csv"]
    if words[0] == "editors" and not usage_fault(words):
        return [f"edits{editor}.jsonl" for editor in range(1, int(words[1]) + 1)]
    return []


def file_advice(folder: str, fault: NoFile) -> Told:
    """What to do about a file that is missing, or cannot be read."""
    name = f"{fault.file}.csv"
    if not fault.missing:
        return [f"{name} cannot be read: {fault}"]
    told = [f"{name} is not there"]
    cut = after_a_cut(folder)
    if cut:
        return [*told, f"    {cut}"]
    near = [found for found in _names_in(folder) if found.lower() == name and found != name]
    if near:
        return [*told, f"    there is {near[0]}: file names are in small letters"]
    if fault.file == "splits":
        return [*told, f"    {routes_write(folder)}"]
    if fault.file == "profile":
        return [*told, "    demand.csv is a matrix, which is split over the slices of this file: write it"]
    if fault.file in ("signals", "limits"):
        return [*told, f"    setup.csv asks for it: write it, or put 0 in the field {fault.file}"]
    return [
        *told,
        f"    a case has setup.csv, links.csv, demand.csv and splits.csv; its first line is"
        f" {','.join(HEADERS[fault.file])}",
    ]


def _names_in(folder: str) -> list[str]:
    try:
        return os.listdir(folder)
    except OSError:
        return []


def bad_case(folder: str, line: str, words: list[str]) -> Told:
    """The fault of the case, where it is the one that the program has told."""
    fault = first_fault(folder, words)
    if not isinstance(fault, BadCase) or fault.line() != line.strip():
        return []
    told = [f"{place_of(folder, fault)}{fault.rule}"]
    return told + ([f"    {fault.advice}"] if fault.advice else [])


def place_of(folder: str, fault: BadCase) -> str:
    """Where a fault stands: file, line, record, and the field by its name with its text."""
    if fault.row == 0:
        return ""
    path = Path(folder) / f"{fault.file}.csv"
    found = list(records(read_bytes(path)))
    if fault.row > len(found):
        return f"{path.name}: "
    record = found[fault.row - 1]
    place = f"{path.name}, line {record.line}" + (f" (record {fault.row})" if record.line != fault.row else "")
    if fault.field is not None and fault.field <= len(record.fields):
        place += f", {found[0].fields[fault.field - 1]} {shown(record.fields[fault.field - 1])}"
    elif fault.row > 1:
        place += f", {shown(','.join(record.fields))}"
    return f"{place}: "


def too_much(folder: str, status: int, line: str, words: list[str]) -> Told:
    """Which file, line or script is too long."""
    if status == 8:
        if words[0] == "editors":
            return [f"a file of edits has more than {count_text(MOST_EDITOR_LINES)} lines, and that is the most"]
        lines = count_text(MOST_LINES)
        return [f"the script has more than {lines} lines, and that is the most: the first {lines} are answered"]
    number = re.fullmatch(r"too long line ([0-9]+)", line.strip())
    if number:
        return [
            f"line {number[1]} of the script has more than {count_text(MOST_LINE_BYTES)} bytes, and that is the"
            f" most",
            "    cut the batch into several: a batch has at most 32 edits",
        ]
    if not line.strip() and words[0] in ("session", "view"):
        return [f"a line of the script has more than {count_text(MOST_LINE_BYTES)} bytes, and that is the most"]
    name = line.strip().removeprefix("too long ")
    if name == line.strip():
        return []
    most = MOST_CURVES_BYTES if name == "curves" else MOST_FILE_BYTES
    if name in ("demand", "splits"):
        most = longest_beside(read_bytes(os.path.join(folder, "setup.csv")))
    path = os.path.join(folder, name + (".jsonl" if name.startswith("edits") else ".csv"))
    if not os.path.isfile(path) or os.path.getsize(path) <= most:
        return []
    return [
        f"{os.path.basename(path)} has {count_text(os.path.getsize(path))} bytes, and at most {count_text(most)}"
        f" are read"
    ]


def no_memory(folder: str, words: list[str]) -> Told:
    """How large the case is, where memory was not found."""
    try:
        case = read_as_program(folder, words)
    except Fault:
        return ["memory was not found"]
    if not case.setup.history:
        return [
            "memory was not found, though the case keeps no history of its loading",
            "    take fewer destinations or fewer slots, or end other programs",
        ]
    cells = case.cells()
    return [
        f"memory was not found; the case has {count_text(cells)} cells, {memory_text(cells, produced_bytes(case))}",
        "    take fewer slots, or end other programs",
    ]


def no_history(folder: str, line: str, words: list[str]) -> Told:
    """Why a word does not answer of a case without history, and what would let it."""
    try:
        case = read_as_program(folder, words)
    except Fault:
        return []
    if case.setup.history or line.strip() != NO_HISTORY_LINE:
        return []
    return [
        f"setup.csv, history 0: {words[0]} needs the history of a loading, and this case keeps none;"
        f" {ANSWERING} answer",
        f"    {to_have_one(case)}",
    ]


def bad_curves(folder: str, line: str) -> Told:
    """What is wrong with the first record of the curve file that is."""
    try:
        fault = find_fault(read_as_program(folder, ["check"]), read_bytes(os.path.join(folder, "curves.csv")))
    except Fault:
        return []
    if fault is None or fault.line() != line.strip():
        return []
    name = f", {('kind', 'name', 'destination', 'counts')[fault.field - 1]} {shown(fault.text)}" if fault.field else ""
    return [f"curves.csv, record {fault.row}{name}: {fault.reason}", "    ltm curves writes the file of this case"]


def not_loading(folder: str, line: str) -> Told:
    """At which node and moment the counts of the curve file are no loading."""
    try:
        case = read_as_program(folder, ["check"])
    except Fault:
        return []
    if line.strip() == "loading no start":
        return ["a count at boundary 0 is not 0, or something leaves the origin of a node without links out of it"]
    found = re.fullmatch(r"loading no node ([A-Za-z0-9_-]+) slot ([0-9]{1,10})", line.strip())
    if found is None or found[1] not in case.nodes or int(found[2]) >= case.setup.slots:
        return []
    node, slot = found[1], int(found[2])
    begin, end = slot * case.setup.step_ms, (slot + 1) * case.setup.step_ms
    into, out = ([link.name for link in links] for links in (case.in_links(node), case.out_links(node)))
    when = f"slot {slot}, which is {clock_text(begin)} to {clock_text(end)} of the horizon"
    return [
        f"the counts at the end of {when}, are not what the node {node} makes of those before",
        f"    links into it: {', '.join(into) or 'none'}; out of it: {', '.join(out) or 'none'}; docs/MODEL.md has"
        f" the rules of a node step",
    ]


def bad_script(folder: str, line: str) -> Told:
    """Why a line of a file of edits is no edit."""
    found = re.fullmatch(
        r"bad script edits([1-8]) line ([0-9]{1,10}) (NotEdit|NotJson|NotCommand [0-9]+)", line.strip()
    )
    if found is None:
        return []
    name, number = f"edits{found[1]}.jsonl", int(found[2])
    try:
        lines = script_lines(read_bytes(os.path.join(folder, name)))
    except Fault:
        return []
    if number > len(lines):
        return []
    said = read_line(lines[number - 1])
    cause = said.cause or ("NotEdit" if said.command != "edit" else "")
    if cause != found[3]:
        return []
    reason = said.reason or f"the command {said.command} stands there, and a file of edits has edits alone"
    return [f"{name}, line {number}{edit_place(said)}: {reason}", f"    {line_text(lines[number - 1])}"]


def edit_place(said: Line) -> str:
    """Which edit of the line is at fault, if one is."""
    place = (said.cause or "").removeprefix("NotCommand ")
    return f", edit {place}" if place.isdigit() and place != "0" else ""


def of_script(path: str) -> Told:
    """The lines of a script that are no commands, and the members that are passed over."""
    told: Told = []
    more, script = 0, read_bytes(path)
    if is_utf16(script):
        return ["the script is UTF-16 and not UTF-8", "    iconv -f utf-16 -t utf-8 SCRIPT >NEW turns it into UTF-8"]
    for number, data in enumerate(script_lines(script)[:MOST_LINES], 1):
        if len(data) > MOST_LINE_BYTES:
            break
        said = read_line(data)
        if said.cause is not None:
            text = f"line {number} of the script{edit_place(said)}: {said.reason}"
        elif said.passed_over:
            text = f"line {number} of the script: passed over: {', '.join(said.passed_over)}"
        else:
            continue
        if len(told) < MOST_TOLD:
            told.append(text)
        else:
            more += 1
    return told + ([f"and {more} more lines of the script"] if more else [])
