"""Reading and writing the files of cases and of other tools, with a Fault that names file, row and field.

`records` cuts bytes into records as the program does (the `csv` crate of Rust): bytes are kept as they are.
`read_table` reads the tables of other tools: UTF-8, fields by the names of a header, in any order.
"""
import codecs
import contextlib
import csv
import io
import os
import re
import sys
from collections.abc import Iterable, Iterator, Sequence
from dataclasses import dataclass
from fractions import Fraction
from itertools import chain, islice
from pathlib import Path
from typing import NamedTuple

from .errors import Fault
from .formats import exact_or_none, number_rule
from .replacing import make_folders, missing_folders, replace, try_to_write


NEW_LINE = b"\n"
LINES_OF_A_BLOCK = 4096
TRIED = "tried"  # a file that is written into a folder to see whether one can be
NO_TEXT = re.compile("[\ud800-\udfff]")  # halves of pairs, by which a byte that is no text is kept


class Record(NamedTuple):
    """A record of a file: the line where it begins, counted from 1, and its fields."""

    line: int
    fields: list[str]


def read_bytes(path: str | os.PathLike[str]) -> bytes:
    """The bytes of a file, or of the standard input where the path is `-`."""
    try:
        if os.fspath(path) == "-":
            return sys.stdin.buffer.read()
        with open(path, "rb") as file:
            return file.read()
    except OSError as error:
        raise Fault(f"{path}: {error.strerror or error}") from None


def is_utf16(data: bytes) -> bool:
    """Whether bytes begin with the mark of UTF-16."""
    return data.startswith((codecs.BOM_UTF16_LE, codecs.BOM_UTF16_BE))


def utf16_advice(path: str | os.PathLike[str]) -> str:
    """What to do with a file in UTF-16."""
    return f"this is UTF-16 and not UTF-8: iconv -f utf-16 -t utf-8 {path} >NEW turns it into UTF-8"


def decoded(data: bytes, path: str | os.PathLike[str]) -> str:
    """The text of bytes in UTF-8, with or without its mark; a Fault with advice for any other encoding."""
    if is_utf16(data):
        raise Fault(f"{path}: {utf16_advice(path)}")
    zero = data.find(b"\0")
    if zero >= 0:
        raise Fault(f"{path}: line {data.count(NEW_LINE, 0, zero) + 1} has a byte 0, so that this is no text")
    try:
        return data.decode("utf-8-sig")
    except UnicodeDecodeError as error:
        line = data.count(NEW_LINE, 0, error.start) + 1
        raise Fault(
            f"{path}: line {line} has the byte 0x{data[error.start]:02x}, which is not UTF-8 and may be Latin-1: "
            f"iconv -f latin1 -t utf-8 {path} >NEW turns it into UTF-8"
        ) from None


def read_text(path: str | os.PathLike[str]) -> str:
    """The text of a file in UTF-8, or of the standard input where the path is `-`."""
    return decoded(read_bytes(path), path)


def existing(path: str | os.PathLike[str]) -> Path:
    """The path of a file; a Fault where no file is there."""
    if not Path(path).is_file():
        raise Fault(f"{path}: no such file")
    return Path(path)


def bytes_text(data: bytes) -> str:
    """Bytes as text that keeps each of them: UTF-8 where they are, and else a mark for a byte that is none."""
    return data.decode("utf-8", "surrogateescape")


def readable(text: str) -> str:
    """A text that can be written: bytes that are no text as \\xfc, as a name of a folder may have them."""
    return NO_TEXT.sub(
        lambda found: f"\\x{ord(found[0]) - 0xDC00:02x}" if ord(found[0]) >= 0xDC80 else f"\\u{ord(found[0]):04x}", text
    )


def shown(text: str) -> str:
    """A text in double quotes as a person can read it in one line: bytes that are no text as \\xfc, and long ones
    cut."""
    parts = []
    for sign in text[:61]:
        code = ord(sign)
        if 0xDC80 <= code <= 0xDCFF:
            parts.append(f"\\x{code - 0xDC00:02x}")
        elif sign in '"\\':
            parts.append("\\" + sign)
        else:
            parts.append(sign if sign.isprintable() else sign.encode("unicode_escape").decode("ascii"))
    return '"' + "".join(parts[:60]) + ('"..' if len(parts) > 60 else '"')


def records(data: bytes) -> Iterator[Record]:
    """The records of a file as the program reads them.

    A mark of UTF-8 at the start is taken off; `\\r`, `\\n` and any row of them end a record; quotes stand round a field
    from its first byte on, a quote in it is written twice, and what comes after the closing quote is kept as it is.
    """
    text = bytes_text(data.removeprefix(codecs.BOM_UTF8))
    if '"' not in text:
        yield from _plain_records(text)
    else:
        yield from _quoted_records(text)


def _plain_records(text: str) -> Iterator[Record]:
    for line, row in enumerate(text.replace("\r\n", "\n").replace("\r", "\n").split("\n"), 1):
        if row:
            yield Record(line, row.split(","))


def _quoted_records(text: str) -> Iterator[Record]:
    """The same, sign by sign. A field is at its start, plain, in quotes, or behind its closing quote."""
    fields: list[str] = []
    field: list[str] = []
    state, began, line, last = "start", 1, 1, ""
    for sign in text:
        ends_line = sign == "\r" or (sign == "\n" and last != "\r")
        last = sign
        if state == "quoted":
            if sign == '"':
                state = "closed"
            else:
                field.append(sign)
        elif sign in "\r\n":
            if fields or state != "start":
                yield Record(began, [*fields, "".join(field)])
            fields, field, state = [], [], "start"
            began = line + 1 if ends_line else line
        elif sign == ",":
            fields.append("".join(field))
            field, state = [], "start"
        elif sign == '"' and state in ("start", "closed"):
            if state == "closed":
                field.append(sign)
            state = "quoted"
        else:
            field.append(sign)
            state = "plain"
        line += ends_line
    if fields or state != "start":
        yield Record(began, [*fields, "".join(field)])


@dataclass(frozen=True, slots=True)
class Row:
    """A row of a table, with its fields by name; `place` is as `net/link.csv row 7`, the header being row 1."""

    place: str
    fields: dict[str, str]

    def fault(self, field: str, rule: str) -> Fault:
        """A Fault that names the row, the field, and the text that stands there."""
        return Fault(f"{self.place}: {field} is {shown(self.fields.get(field, ''))}: {rule}")

    def text(self, field: str, default: str | None = None) -> str:
        """The field without blanks around it, or the default where it is empty or not there."""
        text = self.fields.get(field, "").strip()
        if text:
            return text
        if default is None:
            raise self.fault(field, "expected a value")
        return default

    def number(self, field: str, default: int | Fraction | None = None) -> Fraction:
        """The exact number of a field, as `12`, `0.5` or `1.2e3`."""
        text = self.fields.get(field, "").strip()
        if text == "" and default is not None:
            return Fraction(default)
        number = exact_or_none(text)
        if number is None:
            raise self.fault(field, number_rule(text))
        return number

    def whole(self, field: str, default: int | None = None) -> int:
        """The whole number of a field."""
        number = self.number(field, default)
        if number.denominator != 1:
            raise self.fault(field, "expected a whole number")
        return number.numerator


def check_fields(record: Sequence[str], header: Sequence[str], place: str, advice: str = "") -> None:
    """A Fault where a row has a text that no field of the header is for, or no text for one of its fields."""
    count, wanted = len(record), len(header)
    if any(text.strip() for text in record[wanted:]):
        raise Fault(
            f"{place}: {count} fields, and the header has {wanted}: {shown(record[wanted])} is surplus, and a"
            f" field with a separator in it"
            f" stands in quotes{advice}"
        )
    if any(name.strip() for name in header[count:]):
        raise Fault(
            f"{place}: {count} fields, and the header has {wanted}: {' and '.join(header[count:])} is"
            f" missing{advice}"
        )


def read_table(path: str | os.PathLike[str], wanted: Sequence[str] = ()) -> list[Row]:
    """The rows of a table with a header, in UTF-8; a Fault where a wanted field is missing from the header."""
    csv.field_size_limit(1 << 30)
    reader = csv.reader(io.StringIO(read_text(path), newline=""), skipinitialspace=True)
    try:
        rows = [(reader.line_num, row) for row in reader if row]
    except csv.Error as error:
        raise Fault(f"{path}: line {reader.line_num}: {error}") from None
    if not rows:
        raise Fault(f"{path}: the file is empty; expected a header with {', '.join(wanted) or 'fields'}")
    names = [name.strip() for name in rows[0][1]]
    missing = [name for name in wanted if name not in names]
    if missing:
        cut = len(names) > 1 or not set(names[0]) & set(";\t|")
        advice = "" if cut else ": save the file with commas between fields"
        raise Fault(f"{path}: no field {', '.join(missing)} in the header; it has {', '.join(names)}{advice}")
    for line, row in rows[1:]:
        check_fields(row, names, f"{path} line {line}")
    return [Row(f"{path} row {number}", dict(zip(names, row))) for number, (_, row) in enumerate(rows[1:], 2)]


def write_text(path: str | os.PathLike[str], text: str) -> None:
    """Writes a file in UTF-8, whole or not at all, or to the standard output where the path is `-`."""
    text = readable(text)
    if os.fspath(path) == "-":
        sys.stdout.write(text)
    else:
        write_bytes(path, text.encode())


def write_bytes(path: str | os.PathLike[str], data: bytes | Iterable[bytes]) -> None:
    """Writes a file of these bytes, or of what is told of them block by block, whole or not at all."""
    try:
        replace(path, data)
    except OSError as error:
        raise Fault(f"{path}: {error.strerror or error}") from None


def write_records(path: str | os.PathLike[str], header: Sequence[str], rows: Iterable[Sequence[object]]) -> None:
    """Writes a file of records as a case has them: fields of plain text with commas between, a line each."""
    write_lines(path, header, (",".join(map(str, row)) for row in rows))


def write_lines(path: str | os.PathLike[str], header: Sequence[str], lines: Iterable[str]) -> None:
    """The same of records that are lines already, without their end; they are taken as they are written."""
    blocks = blocks_of(chain((",".join(header),), lines))
    if os.fspath(path) == "-":
        sys.stdout.writelines(blocks)
    else:
        write_bytes(path, map(str.encode, blocks))


def blocks_of(lines: Iterable[str]) -> Iterator[str]:
    """Lines with their ends, many together, as they can be written."""
    left = iter(lines)
    while block := list(islice(left, LINES_OF_A_BLOCK)):
        yield readable("\n".join((*block, "")))


def check_output(path: str | os.PathLike[str]) -> None:
    """A Fault where a file cannot be written; it is asked before the work that takes long."""
    if os.fspath(path) == "-":
        return
    try:
        try_to_write(path)
    except OSError as error:
        raise Fault(f"{path}: {error.strerror or error}") from None


@contextlib.contextmanager
def output_folder(path: str | os.PathLike[str]) -> Iterator[None]:
    """Makes the folder of a result before the work that takes long, or raises a Fault where nothing can be written in
    it; where the work fails, a folder that was made for it goes again."""
    missing = missing_folders(path)
    try:
        make_folder(path)
        check_output(os.path.join(path, TRIED))
        yield
    except BaseException:
        for folder in reversed(missing):
            with contextlib.suppress(OSError):
                os.rmdir(folder)
        raise


def make_folder(path: str | os.PathLike[str]) -> None:
    """Makes the folder, and those above it, where it is not there."""
    try:
        make_folders(path)
    except (FileExistsError, NotADirectoryError):
        raise Fault(f"{path}: a file stands there; expected a folder") from None
    except OSError as error:
        raise Fault(f"{path}: {error.strerror or error}") from None
