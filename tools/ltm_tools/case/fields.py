"""Files of a case, fetched, and the fields of their records, each of its kind or the fault that names it."""
import os

from ..files import Record
from ..formats import MOST_FILE_BYTES, headers_of, is_name, units_or_none, whole_of
from ..replacing import after_a_cut
from . import bad_case
from .bad_case import NoFile, TooLong


def fetch(folder: str | os.PathLike[str], file: str, most: int = MOST_FILE_BYTES) -> bytes:
    """The bytes of a file of a case, at most so many."""
    path = os.path.join(folder, f"{file}.csv")
    try:
        if os.path.getsize(path) > most:
            raise TooLong(file, os.path.getsize(path), most)
        with open(path, "rb") as opened:
            return opened.read()
    except FileNotFoundError:
        cut = after_a_cut(folder)
        raise NoFile(file, True, f"{path} is not there{cut and '; '}{cut}") from None
    except OSError as error:
        raise NoFile(file, False, f"{path}: {error.strerror or error}") from None


def read_header(file: str, found: list[Record]) -> int:
    """How many fields the header of a file has; a fault where it is none that the file may have."""
    if not found:
        raise bad_case.header(file, None)
    if tuple(found[0].fields) not in headers_of(file):
        raise bad_case.header(file, found[0].fields)
    return len(found[0].fields)


def check_width(file: str, row: int, fields: list[str], width: int) -> None:
    """A BadCase where a record has not as many fields as its header."""
    if len(fields) != width:
        raise bad_case.width(file, row, len(fields), width)


def name_in(file: str, row: int, fields: list[str], place: int) -> str:
    """The name that a field tells, counted from 1; a BadCase where it tells none."""
    text = fields[place - 1]
    if not is_name(text):
        raise bad_case.field(file, row, place, "name", text)
    return text


def whole_in(file: str, row: int, fields: list[str], place: int) -> int:
    """The whole number that a field tells."""
    number = whole_of(fields[place - 1])
    if number is None:
        raise bad_case.field(file, row, place, "whole", fields[place - 1])
    return number


def units_in(file: str, row: int, fields: list[str], place: int) -> int:
    """The amount that a field tells, in thousandths of a vehicle."""
    units = units_or_none(fields[place - 1])
    if units is None:
        raise bad_case.field(file, row, place, "vehicles", fields[place - 1])
    return units
