"""Files that are written whole, or not at all: each beside its place, under a name of its own, and then renamed.

Several that belong together are put in place together, by one process at a time in a folder. While that is done a case
among them has no `setup.csv`, so that what is cut there is refused, and never read as another case. A file that is put
in place is called `.NAME.WRITE.new` before, and what it replaces `.NAME.WRITE.old` as long as not all are in place; an
empty `.NAME.WRITE.gone` stands for one to be taken away. `after_a_cut` says how a write that was cut is finished.
"""
from __future__ import annotations

import contextlib
import errno
import fcntl
import os
import re
import secrets
import shlex
import signal
import stat
from collections.abc import Iterable, Iterator
from contextvars import ContextVar

from .errors import Fault

SETUP_FILE = "setup.csv"  # without which no case is read
IN_PLACE = ("/dev/fd/", "/dev/std", "/proc/")  # where files are no files of a folder
# a file of a write: its name, the write, and what it stands for
BESIDE = re.compile(r"\.(.+)\.([0-9a-f]{12})\.(new|old|gone)")


class Changes:
    """Files that are written, and not in their places yet, files to be taken away, and folders that were made for
    them."""

    def __init__(self) -> None:
        self.new: dict[str, str | None] = {}
        self.marks: dict[str, str] = {}
        self.folders: list[str] = []
        self.name = secrets.token_hex(6)

    def write(self, path: str, data: bytes | Iterable[bytes]) -> None:
        """Writes a file beside its place."""
        was, made = self.new.get(path), name_beside(path, self.name)
        self.new[path] = made  # known before it is there, so that it goes wherever this is interrupted
        if was is not None:
            os.unlink(was)
        self.drop_marks(path)
        write_beside(path, made, data)

    def take_away(self, path: str) -> None:
        """Has a file taken away."""
        was = self.new.get(path)
        self.new[path], self.marks[path] = None, name_beside(path, self.name, "gone")
        if was is not None:
            os.unlink(was)
        with open(self.marks[path], "wb"):
            pass

    def put(self) -> None:
        """Puts all in place, which no signal interrupts; what was there comes back where one cannot be."""
        with alone_in(map(os.path.dirname, self.new)), uninterrupted():
            self.put_all()
            self.drop_marks(*self.marks)

    def put_all(self) -> None:
        """Puts all in place; what was there comes back where one cannot be."""
        if len(self.new) == 1:
            for path, made in self.new.items():
                if made is None:
                    os.unlink(path)
                else:
                    os.replace(made, path)
            return
        folders = dict.fromkeys(os.path.dirname(path) for path in self.new)
        setups = [
            path
            for folder in folders
            if os.path.isfile(path := os.path.join(folder, SETUP_FILE)) and path not in self.new
        ]
        order = sorted([*setups, *self.new], key=lambda path: os.path.basename(path) != SETUP_FILE)
        aside = {path: name_beside(path, self.name, "old") for path in order if os.path.lexists(path)}
        try:
            for path, name in aside.items():
                os.rename(path, name)
            for path in reversed(order):
                made = self.new[path] if path in self.new else aside[path]
                if made is not None:
                    os.rename(made, path)
        except BaseException:
            self.put_back(order, aside)
            raise
        for path in self.new:
            if path in aside:
                with contextlib.suppress(OSError):  # all is in place, and an old file that stays harms nobody
                    os.unlink(aside[path])

    def put_back(self, order: list[str], aside: dict[str, str]) -> None:
        """What was there, as it was."""
        for path in reversed(order):
            made, name = self.new.get(path), aside.get(path)
            if name is not None and os.path.lexists(name):
                os.replace(name, path)
            elif made is not None and not os.path.lexists(made):
                os.unlink(path)

    def drop_marks(self, *paths: str) -> None:
        """Takes away the marks of files that were to be taken away."""
        for path in paths:
            with contextlib.suppress(OSError, KeyError):
                os.unlink(self.marks.pop(path))

    def drop(self) -> None:
        """Takes away what is not in its place, and the folders that were made."""
        self.drop_marks(*self.marks)
        for made in self.new.values():
            if made is not None:
                with contextlib.suppress(OSError):
                    os.unlink(made)
        for folder in reversed(self.folders):
            with contextlib.suppress(OSError):
                os.rmdir(folder)


open_changes: ContextVar[Changes | None] = ContextVar("open_changes", default=None)


@contextlib.contextmanager
def together() -> Iterator[None]:
    """What is written within is put in place at its end, all of it, or nothing where something fails. One within
    another is part of it."""
    if open_changes.get() is not None:
        yield
        return
    changes = Changes()
    token = open_changes.set(changes)
    try:
        yield
        try:
            changes.put()
        except OSError as error:
            raise Fault(f"{error.filename2 or error.filename}: {error.strerror or error}") from None
    except BaseException:
        changes.drop()
        raise
    finally:
        open_changes.reset(token)


def replace(path: str | os.PathLike[str], data: bytes | Iterable[bytes]) -> None:
    """Writes a file, in the place of one that is there; within `together` with the others."""
    name = os.fspath(path)
    if is_no_file(name):
        with open(name, "wb") as file:
            file.writelines(blocks_of(data))
        return
    changes, place = open_changes.get(), os.path.realpath(name)
    if changes is not None:
        changes.write(place, data)
        return
    made = name_beside(place, secrets.token_hex(6))
    try:
        write_beside(place, made, data)
        with alone_in([os.path.dirname(place)]):
            os.replace(made, place)
    except BaseException:
        with contextlib.suppress(OSError):
            os.unlink(made)
        raise


def take_away(path: str | os.PathLike[str]) -> None:
    """Takes a file away where it is there; within `together` with the others."""
    if not os.path.lexists(path):
        return
    check_rights(os.fspath(path))
    changes = open_changes.get()
    if changes is not None:
        changes.take_away(os.path.abspath(path))
    else:
        os.unlink(path)


def make_folders(path: str | os.PathLike[str]) -> None:
    """Makes a folder, and those above it, where they are not there; within `together` they go again where something
    fails."""
    missing = missing_folders(path)
    changes = open_changes.get()
    if changes is not None:
        changes.folders += missing
    os.makedirs(path, exist_ok=True)


def missing_folders(path: str | os.PathLike[str]) -> list[str]:
    """A folder and those above it, as far as they are not there, from the highest."""
    missing, folder = [], os.path.abspath(path)
    while not os.path.exists(folder):
        missing.append(folder)
        folder = os.path.dirname(folder)
    return missing[::-1]


def is_no_file(name: str) -> bool:
    """Whether a name is that of a device, a pipe or the like, which are written where they are."""
    try:
        return os.path.abspath(name).startswith(IN_PLACE) or not stat.S_ISREG(os.stat(name).st_mode)
    except OSError:
        return False


def name_beside(path: str, write: str, which: str = "new") -> str:
    """The name in the same folder that a file has before it is put in place by a write, or once it is replaced."""
    folder, name = os.path.split(path)
    return os.path.join(folder, f".{name[:40]}.{write}.{which}")


def check_rights(path: str) -> None:
    """An error where a file is there that may not be written, which a renaming would pass over."""
    if os.path.exists(path) and not os.access(path, os.W_OK):
        raise PermissionError(errno.EACCES, "it is write-protected", path)


def try_to_write(path: str | os.PathLike[str]) -> None:
    """An error where a file cannot be written, as it would come when it is."""
    name = os.fspath(path)
    if is_no_file(name):
        if os.path.isdir(name):
            raise IsADirectoryError(errno.EISDIR, os.strerror(errno.EISDIR), name)
        return
    place = os.path.realpath(name)
    made = name_beside(place, secrets.token_hex(6))
    try:
        write_beside(place, made, b"")
    finally:
        with contextlib.suppress(OSError):
            os.unlink(made)


def after_a_cut(folder: str | os.PathLike[str]) -> str:
    """How a write into a folder is finished that was cut while its files were put in place; nothing where there is
    none. Its new files are whole; a `setup.csv` that it moved aside and has no new one for goes back."""
    try:
        names = sorted(os.listdir(folder))
    except OSError:
        return ""
    found = [(name, *part.groups()) for name in names if (part := BESIDE.fullmatch(name))]
    writes = {write for _, _, write, which in found if which == "old"}
    of = {(place, which): name for name, place, write, which in found if write in writes}
    back = (SETUP_FILE, "old") in of and (SETUP_FILE, "new") not in of and SETUP_FILE not in names
    steps = [["mv", name, place] for (place, which), name in of.items() if which == "new" and place != SETUP_FILE]
    steps += [["rm", "-f", name, place] for (place, which), name in of.items() if which == "gone"]
    if back or (SETUP_FILE, "new") in of:  # the setup comes last, without which no case is read
        steps.append(["mv", of[SETUP_FILE, "old" if back else "new"], SETUP_FILE])
    if not any(words[0] == "mv" for words in steps):
        return ""
    commands = " && ".join(map(shlex.join, steps))
    return (
        f"a write was cut here: (cd {shlex.quote(os.fspath(folder))} && {commands}) finishes it; what it has replaced"
        f" so far ends with .old"
    )


@contextlib.contextmanager
def alone_in(folders: Iterable[str]) -> Iterator[None]:
    """Has other processes wait that put files into these folders."""
    with contextlib.ExitStack() as opened:
        for folder in sorted(set(folders)):
            with contextlib.suppress(OSError):  # where folders cannot be locked there is none to wait for
                number = os.open(folder or os.curdir, os.O_RDONLY | os.O_DIRECTORY)
                opened.callback(os.close, number)
                fcntl.flock(number, fcntl.LOCK_EX)
        yield


def blocks_of(data: bytes | Iterable[bytes]) -> Iterable[bytes]:
    """What is to be written, block by block."""
    return (data,) if isinstance(data, bytes) else data


def write_beside(path: str, made: str, data: bytes | Iterable[bytes]) -> None:
    """Writes a new file beside the place of another, with its rights and its owner where it is there."""
    check_rights(path)
    with open(made, "xb") as file:
        with contextlib.suppress(OSError):
            was = os.stat(path)
            os.fchmod(file.fileno(), stat.S_IMODE(was.st_mode))
            os.fchown(file.fileno(), was.st_uid, was.st_gid)
        file.writelines(blocks_of(data))


@contextlib.contextmanager
def uninterrupted() -> Iterator[None]:
    """Signals that come within are heeded at its end."""
    were = signal.pthread_sigmask(signal.SIG_BLOCK, signal.valid_signals())
    try:
        yield
    finally:
        signal.pthread_sigmask(signal.SIG_SETMASK, were)
