"""Why a session refuses a command, in words: what its answer says, by the command and by the case that the session
began with.

The links, nodes and destinations of a session never change, and its step neither; its slots and rows may, so of these
the rule alone is told.
"""
from collections.abc import Mapping

from ..formats import MOST_SLOTS, count_text, told_or_none, whole_of
from .bad_case import BadCase
from .case import Case
from .reading import check_diagram
from .rows import Link

Members = Mapping[str, object]
QUESTIONS = ("totals", "link", "time", "queue", "origin", "state", "curve", "departures")


def why_refused(case: Case, command: Members, answer: str) -> str:
    """One line for an answer `refused ..` to a command of a script; nothing where the command does not show why."""
    words = answer.split()
    if words[:1] == ["refused"] and len(words) == 3 and words[1] in QUESTIONS:
        return of_question(case, command, words[2])
    place = whole_of(words[2]) if words[:2] == ["refused", "edit"] and len(words) > 3 else None
    edits = command.get("edits")
    if (
        place is None
        or not isinstance(edits, (list, tuple))
        or not 1 <= place <= len(edits)
        or not isinstance(edits[place - 1], Mapping)
    ):
        return ""
    return of_edit(case, edits[place - 1], words[3:])


def of_question(case: Case, command: Members, cause: str) -> str:
    """Why a question about the loading is refused."""
    if cause == "UnknownName":
        return unknown(case, command)
    if command.get("do") == "totals":
        return "`every` is the number of slots between two boundaries that are told, and at least 1"
    where = "not below" if command.get("do") == "time" else "past"
    return (
        f"slot {command.get('slot')} is {where} the horizon of the loading that is shown" if cause == "BadSlots" else ""
    )


def of_edit(case: Case, edit: Members, cause: list[str]) -> str:
    """Why this edit is refused, by the words of the cause."""
    kind = edit.get("kind")
    ends = (edit.get("origin" if kind == "demand" else "node"), edit.get("destination"))
    if cause[0] == "UnknownName":
        return unknown(case, edit)
    if cause[0] == "UnknownDestination" and "destination" in edit and ends[1] not in case.destinations:
        return f"{ends[1]} is no destination of the case; they are {', '.join(case.destinations) or 'none'}"
    if cause[0] == "NoOrigin" and "origin" in edit and not case.out_links(str(ends[0])):
        return f"no link leaves the origin {ends[0]}"
    if cause[0] == "SameEnds" and "destination" in edit and ends[0] == ends[1]:
        return f"both ends are {ends[0]}"
    if cause[0] == "BadSlots":
        return bad_slots(edit)
    if cause[0] == "ZeroWeight":
        zero = next(
            (
                f" of row {number}"
                for number, (_, weights) in enumerate(splits_rows(edit), 1)
                if not any(weights.values())
            ),
            "",
        )
        return f"all weights{zero} are 0"
    if cause[0] == "OpenSplit":
        return open_split(edit)
    if cause[0] == "TooManyRows":
        most = case.setup.most_demand_rows if kind == "demand" else case.setup.most_split_rows
        there = f"would be more than {count_text(most)}" if kind == "splits" else f"are {count_text(most)}"
        return f"there {there} rows{'' if kind == 'splits' else ' already'}, which is the most"
    if cause[0] == "CellsOver" and len(cause) == 2 and (cells := told_or_none(cause[1])) is not None:
        return f"the case would have {count_text(cells)} cells, and at most {count_text(case.setup.most_cells)} may be"
    return why_no_limits(case, edit, " ".join(cause)) if kind == "diagram" else ""


def unknown(case: Case, members: Members) -> str:
    """Which name is none."""
    nodes, links = set(case.nodes), {link.name for link in case.links}
    for place in ("link", "origin", "node", "destination"):
        if place in members and members[place] not in (links if place == "link" else nodes):
            return f"links.csv has no {'link' if place == 'link' else 'node'} {members[place]}"
    out = [link.name for link in case.out_links(str(members.get("node")))]
    for weights in (members.get("weights"), *(row[1] for row in splits_rows(members))):
        wrong = [str(name) for name in weights if name not in out] if isinstance(weights, Mapping) else []
        if wrong:
            return f"{wrong[0]} is no link out of {members.get('node')}: these are {', '.join(out) or 'none'}"
    return ""


def splits_rows(edit: Members) -> list[tuple[int, Members]]:
    """The rows of an edit `splits`, each a slot and weights; none of another."""
    rows = edit.get("rows")
    pairs = rows if isinstance(rows, (list, tuple)) and edit.get("kind") == "splits" else ()
    return [
        (row[0], row[1])
        for row in pairs
        if isinstance(row, (list, tuple)) and len(row) == 2 and isinstance(row[0], int)
    ]


def bad_rows(edit: Members) -> str:
    """Which row of an edit `splits` begins at a slot that it may not."""
    before = -1
    for number, (slot, _) in enumerate(splits_rows(edit), 1):
        if number == 1 and slot:
            return f"the first row begins at slot {slot}, and is to begin at slot 0"
        if slot <= before:
            return f"row {number} begins at slot {slot}, which is not behind slot {before} of the row before"
        before = slot
    return f"slots from {before} on go past the horizon"


def bad_slots(edit: Members) -> str:
    if edit.get("kind") == "splits":
        return bad_rows(edit)
    first, end = edit.get("from"), edit.get("to")
    if edit.get("kind") == "horizon":
        return (
            f"a horizon of {edit.get('slots')} slots is no longer than the one before, or above"
            f" {count_text(MOST_SLOTS)}"
        )
    if isinstance(first, int) and isinstance(end, int) and first >= end:
        return f"from slot {first} up to, and without, slot {end} there is none"
    return (
        f"slots from {first} on go past the horizon"
        if end is None
        else f"slots up to, and without, {end} go past the horizon"
    )


def open_split(edit: Members) -> str:
    if edit.get("kind") == "demand":
        return f"no split row says how traffic for {edit.get('destination')} goes on from {edit.get('origin')}"
    if edit.get("kind") == "splits":
        return "a weight leads to a node where no split row says how it goes on"
    return (
        f"the row would be the first of {edit.get('node')} for {edit.get('destination')} and begin after slot 0, or"
        f" a weight leads to "
        "a node where no split row says how it goes on"
    )


def why_no_limits(case: Case, edit: Members, cause: str) -> str:
    """Why the diagram sets no limits at the step of the case."""
    sizes = [edit.get(name) for name in ("length_m", "free_kmh", "wave_kmh", "jam_per_km")]
    whole = [size for size in sizes if isinstance(size, int)]
    if len(whole) < len(sizes):
        return ""
    try:
        check_diagram(0, Link(str(edit.get("link")), "", "", *whole), case.setup.step_ms, case.setup.carry)
    except BadCase as fault:
        if fault.cause == cause:
            field = f"{cause.split()[1]}: " if cause.split()[0] in ("Zero", "Over") else ""
            return f"{field}{fault.rule}" + (f"; {fault.advice}" if fault.advice else "")
    return ""
