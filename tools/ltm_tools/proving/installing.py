"""The proved program and these tools, copied into a folder.

Nothing is destroyed. What stands there under one of the three names is replaced only where it is what was installed, by
the sums that were written with it; the new is written beside it, under a name of its own, and then renamed.
"""
import os
import shutil
import tempfile
from collections.abc import Iterator
from pathlib import Path

from ..errors import Fault
from ..replacing import alone_in
from .sums import program_path, read_sums, sum_of, sums_text

PROGRAM, COMMAND, PACKAGE = "ltm", "ltm-tools", "ltm_tools"
# in the package's folder: what was installed, and what was there before it, which a cut installation leaves
MARK = "installed.sums"
CACHE = "__pycache__"


def files_of(path: Path) -> Iterator[Path]:
    """A file, or the files below a folder but those that Python keeps for itself; a link is one too."""
    if path.is_symlink() or not path.is_dir():
        yield path
        return
    for folder, folders, names in os.walk(path):
        folders[:] = [name for name in folders if name != CACHE]
        yield from (
            Path(folder, name) for name in [*names, *(name for name in folders if Path(folder, name).is_symlink())]
        )


def check_place(top: Path, into: Path) -> None:
    """A Fault where a folder is the clone's, or no folder."""
    real = into.resolve()
    if real == top or top in real.parents:
        raise Fault(f"{into} lies in the clone itself, which stays as it is: name a folder outside of it")
    if into.exists() and not into.is_dir():
        raise Fault(f"{into} is no folder")


def installed_in(into: Path) -> list[tuple[str, str]]:
    """What was installed in a folder, with the sums; a Fault where something else has one of the names."""
    mark = into / PACKAGE / MARK
    marked = set(read_sums(mark))
    found = []
    for name in (PROGRAM, COMMAND, PACKAGE):
        if not os.path.lexists(into / name):
            continue
        if (into / name).is_dir() and (name != PACKAGE or not mark.is_file()):
            raise Fault(
                f"{into / name} is no copy that was installed here, so nothing is: move it away, or name"
                f" another folder"
            )
        for path in files_of(into / name):
            entry = (path.relative_to(into).as_posix(), "" if path.is_symlink() or not path.is_file() else sum_of(path))
            if path != mark and entry not in marked:
                raise Fault(
                    f"{path} is not as it was installed here, so nothing is: move it away, or name another folder"
                )
            found.append(entry)
    return found


def make_copy(top: Path, made: Path, before: list[tuple[str, str]]) -> None:
    """Copies all into a new folder, with the mark; whatever the clone's modes are, the copy can be written."""
    sources = [(program_path(top), PROGRAM), (top / "tools" / COMMAND, COMMAND)]
    package = top / "tools" / PACKAGE
    sources += [(path, f"{PACKAGE}/{path.relative_to(package).as_posix()}") for path in files_of(package)]
    for source, name in sources:
        target = made / name
        target.parent.mkdir(parents=True, exist_ok=True)
        shutil.copyfile(source, target)
        if os.access(source, os.X_OK):
            mode = target.stat().st_mode
            target.chmod(mode | (mode & 0o444) >> 2)
    sums = {(name, sum_of(made / name)) for _, name in sources}
    (made / PACKAGE / MARK).write_text(
        sums_text(sums | {entry for entry in before if entry[0] in (PROGRAM, COMMAND)}), encoding="utf-8"
    )


def put(new: Path, old: Path) -> None:
    """Renames a new file or folder to its name; an old folder of that name goes where the new one was made."""
    if not old.is_dir():
        new.rename(old)
        return
    aside = new.with_name(f"{new.name}.before")
    old.rename(aside)
    try:
        new.rename(old)
    except BaseException:
        aside.rename(old)
        raise


def install(top: Path, into: Path) -> None:
    """Installs the program and the tools of a clone."""
    check_place(top, into)
    into.mkdir(parents=True, exist_ok=True)
    with alone_in([str(into)]):  # a second installation into the folder waits
        before = installed_in(into)
        made = Path(tempfile.mkdtemp(prefix=".ltm-new-", dir=into))
        try:
            make_copy(top, made, before)
            for name in (PACKAGE, COMMAND, PROGRAM):
                put(made / name, into / name)
        finally:
            shutil.rmtree(made, ignore_errors=True)
