"""What was proved, told by sums: beside the program stands `ltm.sums`, with the sum of the program and of each text
that its proof rests on, as `sha256sum` writes them, below a line with the kit that proved it.

A program that `rt` itself has built has no such file. It is taken as proved where `rt` left what it leaves of a proved
build, and no text was touched since, by the times at which files were last changed, which nobody can set. Its sums are
then written, and they count.
"""
import hashlib
import os
import re
import subprocess
from collections.abc import Iterable, Iterator
from pathlib import Path

from ..errors import Fault
from ..files import read_text
from .plan import PROGRAM, read_crates, stands_on

LISTS = ("crates.txt", "HANDLES")
PARTS = ("src", "specs", "proofs")
NOT_BUILT = "the program is not proved yet"
Sums = dict[str, str]  # of each file, by its name from the top of the clone


def program_path(top: Path) -> Path:
    """Where the program of a clone lies."""
    return top / "crates" / PROGRAM / "out" / PROGRAM


def sum_of(path: Path) -> str:
    """The SHA-256 of a file, in hexadecimal digits; a Fault where it cannot be read."""
    try:
        return hashlib.sha256(path.read_bytes()).hexdigest()
    except OSError as error:
        raise Fault(f"{path}: {error.strerror or error}") from None


def texts(top: Path, crates: Iterable[str]) -> Iterator[Path]:
    """The files that a proof of these crates rests on."""
    yield from (top / name for name in LISTS if (top / name).is_file())
    for crate in crates:
        for part in PARTS:
            for folder, _, names in os.walk(top / "crates" / crate / part):
                yield from (Path(folder, name) for name in names)


def sums_of(top: Path, crates: Iterable[str]) -> Sums:
    """The sums of all that a proof of these crates rests on."""
    return {path.relative_to(top).as_posix(): sum_of(path) for path in texts(top, crates)}


def sums_text(sums: Iterable[tuple[str, str]]) -> str:
    """Names with their sums as `sha256sum` writes them."""
    return "".join(f"{sum_}  {name}\n" for name, sum_ in sorted(sums))


def read_sums(path: Path) -> list[tuple[str, str]]:
    """Names with their sums, from such a file; none where there is none."""
    try:
        text = path.read_text(encoding="utf-8")
    except (OSError, ValueError):
        return []
    return [(name, sum_) for sum_, name in re.findall(r"(?m)^([0-9a-f]{64})  (.+)$", text)]


def kit() -> str:
    """The identity of the kit on the path, which proves; an empty text where there is none."""
    try:
        told = subprocess.run(["rt", "version"], stdin=subprocess.DEVNULL, capture_output=True, text=True, check=True)
    except (OSError, subprocess.CalledProcessError):
        return ""
    return told.stdout.strip()


def write_sums(top: Path, sums: Sums) -> None:
    """Writes beside the program of a clone what it was made of, and by which kit it was proved."""
    program = program_path(top)
    named = {**sums, program.relative_to(top).as_posix(): sum_of(program)}
    made = program.with_name(f"{PROGRAM}.sums.{os.getpid()}")
    proved_by = kit()
    first = f"# proved by {proved_by}\n" if proved_by else ""  # a comment, which `sha256sum --check` passes over
    made.write_text(first + sums_text(named.items()), encoding="utf-8")
    made.replace(program.with_name(f"{PROGRAM}.sums"))


def why_not(top: Path) -> str:
    """Why the program of a clone is not proved as the sources stand; an empty text where it is."""
    program = program_path(top)
    if not (program.is_file() and os.access(program, os.X_OK)):
        return NOT_BUILT
    crates = stands_on(read_crates(read_text(top / "crates.txt")))
    sums = sums_of(top, crates)
    now = {**sums, program.relative_to(top).as_posix(): sum_of(program)}
    was = dict(read_sums(program.with_name(f"{PROGRAM}.sums")))
    if now == was:
        return ""
    if is_left_by_rt(top, crates, now[program.relative_to(top).as_posix()]):
        write_sums(top, sums)
        return ""
    return difference(was, now, program.relative_to(top).as_posix())


def difference(was: Sums, now: Sums, program: str) -> str:
    """What differs first between what was proved and what is there."""
    if not was:
        return "the program that is there is not known to be proved"
    if was.get(program) != now[program]:
        return "the program that is there is not the one that was proved"
    name = min(name for name in {*was, *now} if was.get(name) != now.get(name))
    what = "is gone" if name not in now else "is new" if name not in was else "has changed"
    return f"a source {what} since the program was proved: {name}"


def is_left_by_rt(top: Path, crates: Iterable[str], sum_: str) -> bool:
    """Whether `rt` has built the program, proved, and no text was touched since its proof began."""
    crates = list(crates)
    try:
        limit = when_run(top, sum_) or when_passed(top, crates)
        folders: list[str | Path] = [
            folder for crate in crates for part in PARTS for folder, _, _ in os.walk(top / "crates" / crate / part)
        ]
        if any(os.stat(path).st_ctime_ns >= limit for path in [*folders, *texts(top, crates)]):
            return False
        return all(is_untouched(top / "crates" / crate, limit) for crate in crates)
    except OSError:
        return False


def is_untouched(crate: Path, limit: int) -> bool:
    """Whether none of a crate's folders can have been taken out: it was touched last when `rt` made its `out`
    folder."""
    out = crate / "out"
    return crate.stat().st_ctime_ns < max(limit, out.stat().st_mtime_ns + 1 if out.is_dir() else 0)


def when_run(top: Path, sum_: str) -> int:
    """When `rt run` had built a program with this sum, by the stamp that it leaves where no text changed meanwhile;
    else 0."""
    stamp = program_path(top).with_name(f"{PROGRAM}.stamp")
    if not stamp.is_file() or not stamp.read_bytes().endswith(sum_.encode()):
        return 0
    return stamp.stat().st_mtime_ns


def when_passed(top: Path, crates: Iterable[str]) -> int:
    """When `rt ci` began, or soon after, if it has built the program and has run it since; else 0. It takes all `out`
    folders away first, makes each anew with the crate's proof, and at last writes there what the program has
    written."""
    program, wrote = program_path(top), program_path(top).with_name("stdout")
    if not wrote.is_file() or wrote.stat().st_mtime_ns < program.stat().st_ctime_ns:
        return 0
    if wrote.read_bytes() != (top / "crates" / PROGRAM / "stdout").read_bytes():
        return 0
    return min(program.stat().st_ctime_ns, *((top / "crates" / crate / "out").stat().st_mtime_ns for crate in crates))
