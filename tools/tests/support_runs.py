"""Runs of commands over cases that are changed before, with all that they say and leave: for tests of cases that say
the same in other files."""
import contextlib
import os
import shlex
from collections.abc import Callable, Iterator
from pathlib import Path

import commands
from stage import CURVES, RUNS, Run, set_up
from support import FolderTest
from ltm_tools.libraries import missing

CASES = ("case", "other", "turning")


def without_history(folder: Path) -> None:
    """Lets a case keep no history."""
    path = folder / "setup.csv"
    header, row = path.read_text().split()
    path.write_text(f"{header},history\n{row},0\n")


@contextlib.contextmanager
def in_folder(folder: Path) -> Iterator[None]:
    """Works in a folder."""
    was = os.getcwd()
    os.chdir(folder)
    try:
        yield
    finally:
        os.chdir(was)


def begins(run: Run, *words: str) -> bool:
    """Whether a run begins with one of these."""
    return run.words.startswith(words)


def runs(*words: str) -> list[Run]:
    """The runs that begin so, for which all is installed."""
    return [
        run for run in RUNS if begins(run, *words) and not missing([need for need in run.needs if need != "program"])
    ]


def files(folder: Path) -> dict[str, bytes]:
    """The files of a folder and of those in it."""
    return {str(path.relative_to(folder)): path.read_bytes() for path in folder.rglob("*") if path.is_file()}


class RunsTest(FolderTest):
    ran: Path
    """The folder in which the last command ran."""

    def told(self, run: Run, change: Callable[[Path], None]) -> tuple[int, str, str, dict[str, bytes]]:
        """The status of a command over cases that the program loads and that were changed before, what it writes, and
        the files that are new or not as they were."""
        words = run.words.replace(CURVES, "").replace("--other-curves other/curves.csv", "")
        folder = self.folder / f"{len(list(self.folder.iterdir()))}"
        folder.mkdir()
        set_up(folder)
        for case in CASES:
            (folder / case / "curves.csv").unlink(missing_ok=True)
            change(folder / case)
        before, self.ran = files(folder), folder
        with in_folder(folder):
            told = commands.run(*shlex.split(words))
        return (*told, {name: data for name, data in files(folder).items() if before.get(name) != data})
