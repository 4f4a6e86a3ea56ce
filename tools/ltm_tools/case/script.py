"""Lines of a script, read as the program reads them: whether each is a command, and if not, why."""
import json
import re
from collections.abc import Callable
from dataclasses import dataclass, field
from typing import NoReturn

from ..files import bytes_text, shown
from ..formats import MOST_EDITS, MOST_WEIGHTS, NAME_RULE, VEHICLES_RULE, WHOLE_BELOW, is_name, units_or_none

DEEPEST = 127  # arrays and objects within one another
STRING = re.compile(r'"(?:[^"\\]|\\.)*"')


@dataclass(slots=True)
class Line:
    """What a line of a script is. `cause` is None for a command, and else `NotJson` or `NotCommand P`; `reason` says
    why, and `passed_over` names members that the program does not look at."""

    command: str | None = None
    cause: str | None = None
    reason: str = ""
    passed_over: list[str] = field(default_factory=list)


class NotThat(Exception):
    """A member is missing or of another kind; the text says which."""


def read_line(data: bytes) -> Line:
    """What a line, without its newline, asks for."""
    try:
        value = parsed(data)
    except (ValueError, RecursionError) as error:
        return Line(cause="NotJson", reason=f"it is no JSON: {error}")
    place = 0
    try:
        command, passed_over = command_of(value)
        if command == "edit":
            edits = batch_edits(value)
            for place, edit in enumerate(edits, 1):
                passed_over += [f"{name} of edit {place}" for name in unread_members(edit)]
        return Line(command, passed_over=passed_over)
    except NotThat as error:
        return Line(cause=f"NotCommand {place}", reason=str(error))


def parsed(data: bytes) -> object:
    """The JSON value of a line; ValueError where there is none."""
    try:
        text = data.decode()
    except UnicodeDecodeError as error:
        raise ValueError(f"byte {error.start + 1} is 0x{data[error.start]:02x}, which is no UTF-8") from None
    if not text.strip(" \t\r\n"):
        raise ValueError("the line is empty")
    if text.startswith("\ufeff"):
        raise ValueError("it begins with a mark of its encoding: save the file as UTF-8 without one (BOM)")
    try:
        value: object = json.loads(
            text, parse_constant=_no_constant, parse_int=_whole, parse_float=_finite, object_pairs_hook=_object
        )
    except json.JSONDecodeError as error:
        what, place = error.msg[0].lower() + error.msg[1:], error.pos
        raise ValueError(f"{what}, at character {place + 1}: {shown(text[place:place + 20])}") from None
    _check_texts(value)
    if _depth(text) > DEEPEST:
        raise ValueError("arrays and objects stand too deep in one another")
    return value


def _no_constant(text: str) -> NoReturn:
    raise ValueError(f"{text} is no number of JSON")


def _whole(text: str) -> int | float:
    """A number without a point; -0 is none of the whole numbers, as the program takes it."""
    return -0.0 if text == "-0" else int(text)


def _finite(text: str) -> float:
    number = float(text)
    if number in (float("inf"), float("-inf")):
        raise ValueError(f"{shown(text)} is too large a number")
    return number


def _object(members: list[tuple[str, object]]) -> dict[str, object]:
    """An object, in which a member that stands twice counts as it stands last; each of its texts has to be one."""
    for name, value in members:
        _check_texts(name)
        _check_texts(value)
    return dict(members)


def _check_texts(value: object) -> None:
    """Whether each text in a value is one; objects have seen to their own."""
    if isinstance(value, str) and any(0xD800 <= ord(sign) <= 0xDFFF for sign in value):
        raise ValueError("a text has half of a pair of \\u")
    if isinstance(value, list):
        for one in value:
            _check_texts(one)


def _depth(text: str) -> int:
    """How deep arrays and objects stand in one another in a text that is JSON."""
    depth = deepest = 0
    for sign in STRING.sub("", text):
        depth += (sign in "[{") - (sign in "]}")
        deepest = max(deepest, depth)
    return deepest


def wanted(value: object, name: str, kind: str, is_kind: Callable[[object], bool]) -> object:
    """The member of an object, of its kind."""
    if not isinstance(value, dict):
        raise NotThat(f"the member {name} was looked for, and {value_text(value)} is no object")
    if name not in value:
        near = f"; there {'is' if len(value) == 1 else 'are'} {', '.join(value)}" if value else ""
        raise NotThat(f"the member {name} was looked for, and is not there{near}")
    if not is_kind(value[name]):
        raise NotThat(f"the member {name} is {value_text(value[name])}; expected {kind}{hint(value[name], is_kind)}")
    found: object = value[name]
    return found


def value_text(value: object) -> str:
    """A value as JSON, cut where it is long."""
    text = json.dumps(value, ensure_ascii=False)
    return text if len(text) <= 60 else text[:57] + ".."


def hint(value: object, is_kind: Callable[[object], bool]) -> str:
    """The text for a number, or the number for a text, where that is of the kind."""
    if isinstance(value, (int, float)) and not isinstance(value, bool) and is_kind(json.dumps(value)):
        return f': {value_text(value)} as the text "{value_text(value)}"'
    if isinstance(value, str) and value.isascii() and value.isdigit() and len(value) < 20 and is_kind(int(value)):
        return f": {value_text(value)} as the number {int(value)}"
    return ""


def is_text(value: object) -> bool:
    """Whether a member of a command is a text; so for the kinds below."""
    return isinstance(value, str)


def is_name_text(value: object) -> bool:
    return isinstance(value, str) and is_name(value)


def is_whole(value: object) -> bool:
    return isinstance(value, int) and not isinstance(value, bool) and 0 <= value < WHOLE_BELOW


def is_amount(value: object) -> bool:
    return isinstance(value, str) and units_or_none(value) is not None


def is_array(value: object) -> bool:
    return isinstance(value, list)


def is_object(value: object) -> bool:
    return isinstance(value, dict)


NAME = (f"a name ({NAME_RULE})", is_name_text)
WHOLE = ("a whole number from 0 to 4294967295", is_whole)
AMOUNT = (f"a text with vehicles ({VEHICLES_RULE})", is_amount)
TEXT = ("a text", is_text)

Members = dict[str, tuple[str, Callable[[object], bool]]]
COMMANDS: dict[str, Members] = {
    "edit": {},
    "totals": {},
    "link": {"link": NAME},
    "time": {"link": NAME, "slot": WHOLE},
    "delay": {},
    "queue": {"link": NAME, "slot": WHOLE},
    "origin": {"node": NAME, "slot": WHOLE},
    "state": {"slot": WHOLE},
    "curve": {"link": NAME},
    "departures": {"node": NAME},
    "delays": {},
    "gap": {},
    "settle": {},
}
# members that a command may go without
MAY: dict[str, Members] = {"totals": {"every": WHOLE}}
LIMIT: Members = {"link": NAME, "from": WHOLE, "to": WHOLE, "vehicles": AMOUNT}
EDITS: dict[str, Members] = {
    "demand": {"origin": NAME, "destination": NAME, "from": WHOLE, "to": WHOLE, "vehicles": AMOUNT},
    "limit": LIMIT,
    "exit": LIMIT,
    "split": {"node": NAME, "destination": NAME, "from": WHOLE},
    "splits": {"node": NAME, "destination": NAME},
    "diagram": {"link": NAME, "length_m": WHOLE, "free_kmh": WHOLE, "wave_kmh": WHOLE, "jam_per_km": WHOLE},
    "horizon": {"slots": WHOLE},
}
# members that are looked at elsewhere: `change` by `ltm-tools live`, which writes it
MORE = {"edit": {"edits", "change"}, "totals": {"change"}, "split": {"weights"}, "splits": {"rows"}}


def looked_up(value: object, chooser: str, tables: dict[str, Members]) -> tuple[str, list[str]]:
    """The word of the member that chooses, and the members that nothing looks at, once all that the word asks for are
    there, and those that it may go without are of their kind."""
    word = wanted(value, chooser, *TEXT)
    assert isinstance(word, str) and isinstance(value, dict)
    if word not in tables:
        raise NotThat(f"the member {chooser} is {value_text(word)}, and it is one of {', '.join(tables)}")
    for name, kind in tables[word].items():
        wanted(value, name, *kind)
    may = MAY.get(word, {}) if tables is COMMANDS else {}
    for name, kind in may.items():
        if name in value:
            wanted(value, name, *kind)
    looked = {chooser, *tables[word], *may} | MORE.get(word, set())
    return word, [name for name in value if name not in looked]


def command_of(value: object) -> tuple[str, list[str]]:
    """The command of a line and the members of it that are passed over."""
    return looked_up(value, "do", COMMANDS)


def batch_edits(value: object) -> list[object]:
    """The edits of a batch."""
    edits = wanted(value, "edits", "an array of edits", is_array)
    assert isinstance(edits, list)
    if not 1 <= len(edits) <= MOST_EDITS:
        raise NotThat(f"the member edits has {len(edits)} edits; expected 1 to {MOST_EDITS}")
    return edits


def unread_members(value: object) -> list[str]:
    """The members of an edit that nothing looks at, once it has all that its kind asks for."""
    kind, passed_over = looked_up(value, "kind", EDITS)
    if kind == "split":
        check_weights(value)
    if kind == "splits":
        check_rows(value)
    return passed_over


def check_weights(value: object) -> None:
    """Whether the member `weights` of an object has weights."""
    weights = wanted(value, "weights", 'an object, as {"a": 1}', is_object)
    assert isinstance(weights, dict)
    if not 1 <= len(weights) <= MOST_WEIGHTS:
        raise NotThat(f"the member weights has {len(weights)} members; expected 1 to {MOST_WEIGHTS}")
    for name in weights:
        if not is_name(name):
            raise NotThat(f"the member weights has {value_text(name)}, which is no name ({NAME_RULE})")
        wanted(weights, name, *WHOLE)


def check_rows(value: object) -> None:
    """Whether the member `rows` of an object has rows, each a slot and weights."""
    rows = wanted(value, "rows", 'an array of rows, as [[0, {"a": 1}]]', is_array)
    assert isinstance(rows, list)
    if not rows:
        raise NotThat('the member rows is empty, and has a row or more, as [[0, {"a": 1}]]')
    for number, row in enumerate(rows, 1):
        if not isinstance(row, list) or len(row) != 2:
            raise NotThat(
                f"row {number} of the member rows is {value_text(row)}; expected a slot and weights, as [0,"
                f' {{"a": 1}}]'
            )
        try:
            pair = {"slot": row[0], "weights": row[1]}
            wanted(pair, "slot", *WHOLE)
            check_weights(pair)
        except NotThat as error:
            raise NotThat(f"row {number} of the member rows: {error}") from None


def script_lines(data: bytes) -> list[bytes]:
    """The lines of a script, without their newlines; the last needs none."""
    lines = data.split(b"\n")
    return lines[:-1] if lines[-1] == b"" else lines


def line_text(data: bytes) -> str:
    """A line as it can be shown."""
    return shown(bytes_text(data))
