"""The proved program `ltm`: where it is, and running it in the folder of a case."""
import functools
import os
import re
import shutil
import subprocess
import sys
import sysconfig
from collections.abc import Sequence
from pathlib import Path
from types import TracebackType
from typing import IO

from .errors import Fault

CLONE = Path(__file__).resolve().parents[2]
BUILT = CLONE / "crates" / "ltm" / "out" / "ltm"
# where ./ltm --install puts it, beside the folder of this package
INSTALLED = Path(__file__).resolve().parents[1] / "ltm"
# where pip puts it, out of the wheel
BY_PIP = Path(sysconfig.get_path("scripts"), "ltm")
# for large tables, where the system gives them to whoever asks: less time
LARGE_PAGES = {"GLIBC_TUNABLES": "glibc.malloc.hugetlb=1"}
NO_FILE = 3  # the status of a run to which a file of the folder is missing
HOW = "./ltm --prove in a clone of the repository makes it, and --program FILE or the variable LTM names one"


def find_program(program: str | os.PathLike[str] | None = None) -> Path:
    """The absolute path of the program: the one named, else that of the variable LTM, else the one built in the clone,
    else one beside this package or this command, or where pip puts commands, else `ltm` on the path; a Fault that says
    how to have it where there is none."""
    named = program or os.environ.get("LTM")
    if named:
        path = Path(named).absolute()
        if not path.is_file() or not os.access(path, os.X_OK):
            raise Fault(f"{named} is no program that can be run: {HOW}")
        return path
    beside = [Path(sys.argv[0]).resolve().with_name("ltm")] if os.path.isfile(sys.argv[0]) else []
    for path in (BUILT, INSTALLED, *beside, BY_PIP):
        if path.is_file() and os.access(path, os.X_OK):
            return path
    found = shutil.which("ltm")
    if found is None:
        raise Fault(f"the program ltm is not built: {HOW}")
    return Path(found).absolute()


def check_folder(folder: str | os.PathLike[str]) -> None:
    """A Fault where the folder of a case is none, or may not be entered."""
    if not os.path.isdir(folder):
        raise Fault(f"{folder} is no folder")
    if not os.access(folder, os.X_OK):
        raise Fault(f"{folder} may not be entered")


class Running(subprocess.Popen[bytes]):
    """The program while it runs. Where a block that waits for it is left by an exception it is ended."""

    def __exit__(
        self, kind: type[BaseException] | None, error: BaseException | None, trace: TracebackType | None
    ) -> None:
        if kind is not None:
            self.kill()
        super().__exit__(kind, error, trace)


def start(
    folder: str | os.PathLike[str],
    words: Sequence[str],
    program: str | os.PathLike[str] | None = None,
    stdin: int | IO[bytes] = subprocess.DEVNULL,
) -> Running:
    """The program with these words, started in a folder, its output a pipe."""
    path = find_program(program)
    check_folder(folder)
    try:
        return Running(
            [str(path), *words], cwd=folder, stdin=stdin, stdout=subprocess.PIPE, env={**LARGE_PAGES, **os.environ}
        )
    except OSError as error:
        raise Fault(f"{path}: {error.strerror or error}") from None


def output(
    folder: str | os.PathLike[str],
    *words: str,
    program: str | os.PathLike[str] | None = None,
    script: bytes | None = None,
) -> bytes:
    """What the program writes with these words in a folder, `script` on its standard input; a Fault where its status is
    not 0."""
    with start(folder, words, program, subprocess.DEVNULL if script is None else subprocess.PIPE) as process:
        written, _ = process.communicate(script)
    if process.returncode:
        raise Fault(refusal(folder, words, process.returncode, written))
    return written


def has_command(word: str, program: str | os.PathLike[str] | None = None) -> bool:
    """Whether there is a program and it has a command."""
    try:
        path = find_program(program)
        return word in _commands(path, path.stat().st_mtime_ns)
    except (Fault, OSError):
        return False


@functools.lru_cache(maxsize=None)
def _commands(path: Path, changed_ns: int) -> frozenset[str]:
    """The commands of a program, by the usage line that it writes where no word says what to do; asked once of each
    that has not changed."""
    asked = subprocess.run([str(path)], stdin=subprocess.DEVNULL, stdout=subprocess.PIPE, stderr=subprocess.DEVNULL)
    told = asked.stdout.decode("ascii", "replace")
    return frozenset(re.findall(r"ltm ([a-z]+)", told)) if told.startswith("usage: ") else frozenset()


def refusal(folder: str | os.PathLike[str], words: Sequence[str], status: int, written: bytes) -> str:
    """One line for a run that ended with another status than 0."""
    lines = written.decode("utf-8", "backslashreplace").splitlines()
    told = lines[-1] if lines else nothing_told(folder, status)
    return f"{folder}: ltm {' '.join(words)} ended with status {status}: {told}"


def nothing_told(folder: str | os.PathLike[str], status: int) -> str:
    """What is to be said of a run that ended with a status and no word."""
    if status == NO_FILE and not os.path.exists(os.path.join(folder, "splits.csv")):
        return f"splits.csv is not there: {routes_write(folder)}"
    return "no answer"


def routes_write(folder: str | os.PathLike[str]) -> str:
    """How a case without `splits.csv` gets one."""
    return f"./ltm {folder} routes >{folder}/splits.csv writes one, of the fastest routes on empty roads"
