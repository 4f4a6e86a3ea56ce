"""Reads the tables that other tools write: any usual encoding, separator, and order and writing of field names.

Fields are known by lower-case names; a table of other names for them says which are meant. A file is read line by line:
`Stream` gives its rows one after the other, so that a large table takes no more memory than what is made of it, and
`read` gives all.
"""
from __future__ import annotations

import codecs
import csv
import io
import os
import re
import sys
from collections.abc import Iterable, Iterator, Mapping, Sequence
from dataclasses import dataclass
from itertools import chain
from typing import IO

from .errors import Fault
from .files import Row, check_fields, shown

SEPARATORS = ",;\t|"
TELLS_SEPARATOR = re.compile("sep=.", re.IGNORECASE)
END_MARKS = "\0\x1a"  # with which some systems end or fill a file
DECIMAL_COMMA = re.compile(r"[+-]?[0-9]+,[0-9]+", re.ASCII)
HEAD_BYTES = 200  # by which an encoding without a mark is known
MARKS = {"utf-32": (codecs.BOM_UTF32_LE, codecs.BOM_UTF32_BE), "utf-16": (codecs.BOM_UTF16_LE, codecs.BOM_UTF16_BE)}
CHUNK_BYTES = 1 << 20
MOST_FIELD = 1 << 30


LENIENT = "; --lenient reads the table all the same, without what is surplus, and with what is missing empty"


@dataclass(frozen=True, slots=True)
class Reading:
    """How tables are read: in which encoding, by what a file holds where none is said; and whether rows may have more
    fields than the header, or fewer, and the header one field twice."""

    encoding: str | None = None
    is_lenient: bool = False


@dataclass(frozen=True, slots=True)
class TableRow(Row):
    """A row whose fields are known by other names than the file has for them; what is wrong is told by the file's
    names."""

    written: Mapping[str, str]

    def fault(self, field: str, rule: str) -> Fault:
        """A Fault that names the row, the field as the file has it, and the text that stands there."""
        return Fault(f"{self.place}: {self.written.get(field, field)} is {shown(self.fields.get(field, ''))}: {rule}")


@dataclass(frozen=True, slots=True)
class Table:
    """The rows of a file, the fields that it has, and what was done to read it."""

    rows: list[TableRow]
    fields: tuple[str, ...]
    notes: tuple[str, ...]


def open_source(path: str | os.PathLike[str]) -> IO[bytes]:
    """The bytes of a file, or of the standard input where the path is `-`, which can be read more than once."""
    if os.fspath(path) == "-":
        return io.BytesIO(sys.stdin.buffer.read())
    file = open(path, "rb")
    return file if file.seekable() else io.BytesIO(file.read())


def encoding_of(source: IO[bytes], encoding: str | None, path: str | os.PathLike[str]) -> tuple[str, str | None]:
    """The encoding of bytes, and what it is called where it is neither UTF-8 nor the one that is asked for: that of a
    mark, UTF-16 by its zeros, else Windows-1252."""
    head = source.read(HEAD_BYTES)
    source.seek(0)
    if encoding is not None:
        plain = encoding.lower().replace("_", "-")
        name = f"{encoding}-le" if plain in MARKS and not head.startswith(MARKS[plain]) else encoding
        wrong = first_wrong(source, name)
        if wrong is not None:
            raise Fault(f"{path}: byte {wrong} is no {encoding}; give another --encoding, or none")
        return name, None
    for name, marks in MARKS.items():
        if head.startswith(marks):
            return name, name.upper()
    for zeros, name in ((head[1::2], "utf-16-le"), (head[::2], "utf-16-be")):
        if zeros and not any(zeros):
            return name, name.upper()
    return ("utf-8-sig", None) if first_wrong(source, "utf-8") is None else ("cp1252", "Windows-1252 (Latin-1)")


def first_wrong(source: IO[bytes], encoding: str) -> int | None:
    """The first byte that is no text in an encoding, None where all are; the bytes can then be read from their
    beginning."""
    done, before = 0, b""
    try:
        "a".encode(encoding)  # which is refused where an encoding is none of text
        decoder = codecs.getincrementaldecoder(encoding)("strict")
        while True:
            before, _ = decoder.getstate()
            data = source.read(CHUNK_BYTES)
            decoder.decode(data, not data)
            done += len(data)
            if not data:
                return None
    except UnicodeDecodeError as error:
        return done - len(before) + error.start
    except (LookupError, ValueError, AttributeError, TypeError):
        raise Fault(f"--encoding {encoding}: no such encoding; as utf-8, latin-1, cp1250 or utf-16") from None
    finally:
        source.seek(0)


def separator_of(line: str) -> str:
    """The separator that a line has most of, outside of quotes."""
    line = re.sub(r'"[^"]*"', "", line)
    return max(SEPARATORS, key=line.count) if any(sign in line for sign in SEPARATORS) else ","


class Stream:
    """A table while it is read: the fields of its header, what was done to read it, and its rows, which come once."""

    def __init__(
        self,
        path: str | os.PathLike[str],
        wanted: Sequence[str] = (),
        names: Mapping[str, Sequence[str]] | None = None,
        reading: Reading = Reading(),
    ) -> None:
        self.path, self.reading = path, reading
        csv.field_size_limit(MOST_FIELD)
        try:
            self.source = open_source(path)
            name, told = encoding_of(self.source, reading.encoding, path)
            lines = self.lines_of(self.source, name)
            self.before, first = first_line(lines)
        except OSError as error:
            raise Fault(f"{path}: {error.strerror or error}") from None
        self.separator = separator_of(first)
        self.records = self.records_of(chain([first] if first else [], lines))
        line, header = next(self.records, (0, []))
        if not header:
            raise Fault(f"{path}: the file is empty; expected a header with {', '.join(wanted) or 'fields'}")
        self.header = [field.strip() for field in header]
        self.fields = tuple(known_fields([field.lower() for field in self.header], names or {}))
        self.written = dict(zip(self.fields, self.header))
        for name in wanted:
            if name not in self.fields:
                others = " or ".join((name, *(names or {}).get(name, ())))
                raise Fault(f"{path}: no field {others} in the header; it has {', '.join(self.fields)}")
        if not reading.is_lenient:
            check_header(self.header, f"{path} line {line}")
        self.notes = ((f"{path} is read as {told}",) if told else ()) + (
            (f"{path} is read with {self.separator!r} between fields",) if self.separator != "," else ()
        )

    def close(self) -> None:
        """Closes the file, where its header was all that was wanted."""
        self.source.close()

    def lines_of(self, source: IO[bytes], encoding: str) -> Iterator[str]:
        """The lines of bytes with their ends, without a mark before them and without what some systems put behind the
        last one."""
        try:
            for number, line in enumerate(io.TextIOWrapper(source, encoding, "replace", newline="")):
                line = line.rstrip(END_MARKS) if line.endswith(tuple(END_MARKS)) else line
                line = line.removeprefix("\ufeff") if number == 0 else line
                if line:
                    yield line
        except OSError as error:
            raise Fault(f"{self.path}: {error.strerror or error}") from None
        except (UnicodeError, LookupError):
            raise Fault(f"{self.path}: it cannot be read as {encoding}; give another --encoding, or none") from None

    def records_of(self, lines: Iterable[str]) -> Iterator[tuple[int, list[str]]]:
        """The records that are not empty, each with the line where it ends."""
        reader = csv.reader(lines, delimiter=self.separator, skipinitialspace=True)
        try:
            for record in reader:
                if any(field.strip() for field in record):
                    yield self.before + reader.line_num, record
        except csv.Error as error:
            raise Fault(f"{self.path}: line {self.before + reader.line_num}: {error}") from None

    def __iter__(self) -> Iterator[TableRow]:
        for line, record in self.records:
            if not self.reading.is_lenient:
                check_fields(record, self.header, f"{self.path} line {line}", LENIENT)
            fields = record if self.separator == "," else map(point, record)
            yield TableRow(f"{self.path} line {line}", dict(zip(self.fields, fields)), self.written)


def first_line(lines: Iterator[str]) -> tuple[int, str]:
    """How many lines stand before the first that is neither blank nor a remark, nor tells a spreadsheet the separator,
    and that line; an empty text where there is none."""
    for before, line in enumerate(lines):
        if line.strip() and not line.lstrip().startswith("# ") and not TELLS_SEPARATOR.fullmatch(line.strip()):
            return before, line
    return 0, ""


def read(
    path: str | os.PathLike[str],
    wanted: Sequence[str] = (),
    names: Mapping[str, Sequence[str]] | None = None,
    reading: Reading = Reading(),
) -> Table:
    """The rows of a table with a header. `names` gives other names of a field, the first that is there counts; a wanted
    field that is missing is a Fault with the names that it may have."""
    found = Stream(path, wanted, names, reading)
    return Table(list(found), found.fields, found.notes)


def check_header(header: Sequence[str], place: str) -> None:
    """A Fault where a header has a field twice."""
    twice = next((name for number, name in enumerate(header) if name and name in header[:number]), None)
    if twice is not None:
        raise Fault(f"{place}: the field {twice} stands twice in the header{LENIENT}")


def whole_ids(rows: Sequence[Row], fields: tuple[str, ...]) -> None:
    """Takes the `.0` off ids that were written as decimals."""
    for name in fields:
        texts = [row.fields.get(name, "").strip() for row in rows]
        whole = whole_names(texts)
        for row, text in zip(rows, texts):
            if text in whole:
                row.fields[name] = whole[text]


def whole_names(texts: Iterable[str]) -> dict[str, str]:
    """The ids that were written as decimals, where all of them were whole numbers, each without its `.0`."""
    listed = [text for text in texts if text]
    if any(text.endswith(".0") for text in listed) and all(text.removesuffix(".0").isdigit() for text in listed):
        return {text: text.removesuffix(".0") for text in listed}
    return {}


def point(text: str) -> str:
    """A number with a decimal comma as one with a point; any other text as it is."""
    return text.replace(",", ".") if DECIMAL_COMMA.fullmatch(text.strip()) else text


def known_fields(fields: list[str], names: Mapping[str, Sequence[str]]) -> list[str]:
    """The fields by the names under which they are asked for."""
    made = list(fields)
    for name, others in names.items():
        if name not in made:
            place = next((made.index(other) for other in others if other in made), None)
            if place is not None:
                made[place] = name
    return made
