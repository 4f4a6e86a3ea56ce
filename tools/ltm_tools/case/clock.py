"""The clock time at which slot 0 of a case begins: the file `clock.txt` beside its files, which the program does not
read. It has one line, as `7:00`."""
import os

from ..errors import Fault
from ..files import read_text, write_text
from ..formats import HOUR_MS, clock_ms, clock_text
from ..replacing import take_away

FILE = "clock.txt"
CLOCKS = range(1000 * HOUR_MS)  # clock times in ms that a text can tell
MOST_BYTES = 1000  # of the file


def read_clock(folder: str | os.PathLike[str]) -> int | None:
    """The clock time of slot 0 in ms since midnight, as a folder says it; None where it has no such file."""
    path = os.path.join(folder, FILE)
    if not os.path.exists(path):
        return None
    if os.path.getsize(path) > MOST_BYTES:
        raise Fault(f"{path}: expected one line, with a clock time, as 7:00")
    try:
        return clock_ms(read_text(path))
    except Fault as fault:
        raise Fault(f"{path}: {str(fault).removeprefix(f'{path}: ')}") from None


def write_clock(folder: str | os.PathLike[str], moment: int) -> None:
    """Writes when slot 0 begins, in ms since midnight; a time that no clock tells leaves no file."""
    path = os.path.join(folder, FILE)
    if moment in CLOCKS:
        write_text(path, f"{clock_text(moment)}\n")
    else:
        take_away(path)


def start_of(asked: int | None, *folders: str | os.PathLike[str]) -> int:
    """When slot 0 begins: as it is asked for, or else as the folders say that have the file, which are to agree; 0:00
    where none has."""
    if asked is not None:
        return asked
    told = {clock: folder for folder in folders if (clock := read_clock(folder)) is not None}
    if len(told) > 1:
        said = " and ".join(f"{folder} begins at {clock_text(clock)}" for clock, folder in told.items())
        raise Fault(f"{said}, by their files {FILE}: say --start")
    return next(iter(told), 0)
