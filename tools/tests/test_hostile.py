"""Files that are missing, cut, spoiled or of another kind, full disks and interrupts, over every command: each ends
with one line and a status above 0, or with the right answer; no traceback, and no file that was not asked for."""
import contextlib
import gzip
import os
import re
import shlex
import shutil
import signal
import subprocess
import sys
import time
import unittest
from collections.abc import Callable, Iterator
from pathlib import Path
from types import FrameType
from unittest import mock

import commands
from stage import MAY_MISS, OF_A_CLONE, RUNS, Run, set_up
from support import BUILT, FolderTest, TOOLS
from ltm_tools import cli, libraries

FAILS, EITHER, AS_BEFORE = "fails", "either", "as before"
TELLS = ("inspect", "explain")  # say what is wrong with a case, and end well
VARIES = ("assign", "calibrate", "live")  # print seconds, or an address
KEPT = "the best so far is kept"  # what a search says that has found something when it is interrupted
MORE_LINES = ("cannot be carried: ", "line ")  # begin what is told of several things, a line each
NOISE = bytes((number * number >> 3) % 251 + 1 for number in range(4000))


def packed(spoil: Callable[[bytes], bytes]) -> Callable[[str, bytes], bytes]:
    """The same within what is packed."""
    return lambda name, data: (
        gzip.compress(spoil(gzip.decompress(data)), mtime=0) if name.endswith(".gz") else spoil(data)
    )


def latin_1(data: bytes) -> bytes:
    """With a letter that is not of ASCII, in Latin-1, in place of the last one."""
    return re.sub(rb"[A-Za-z]([^A-Za-z]*)\Z", lambda found: b"\xe9" + found[1], data)


def twice(data: bytes) -> bytes:
    """The last line once more."""
    line = data.splitlines(keepends=True)[-1]
    return data + line


SPOILED: dict[str, tuple[Callable[[str, bytes], bytes], str]] = {
    "empty": (lambda name, data: b"", FAILS),
    "cut": (lambda name, data: data[: len(data) * 2 // 3], EITHER),
    "noise": (lambda name, data: NOISE, FAILS),
    "a mark": (packed(lambda data: b"\xef\xbb\xbf" + data), AS_BEFORE),
    "UTF-16": (lambda name, data: data.decode("latin-1").encode("utf-16"), EITHER),
    "Latin-1": (packed(latin_1), EITHER),
    "1e400": (packed(lambda data: re.sub(rb"([0-9.]+)([^0-9]*)\Z", rb"1e400\2", data)), EITHER),
    "a name that stands twice": (packed(twice), EITHER),
    "</script>": (packed(lambda data: re.sub(rb"\ba\b", b"</script><b>", data)), EITHER),
    "zeros": (lambda name, data: data + bytes(100), EITHER),
}


@contextlib.contextmanager
def within(folder: Path) -> Iterator[None]:
    """In this folder, as relative paths are meant."""
    was = os.getcwd()
    os.chdir(folder)
    try:
        yield
    finally:
        os.chdir(was)


def everything(folder: Path) -> dict[str, bytes]:
    """What stands below a folder."""
    return {
        str(path.relative_to(folder)): path.read_bytes() if path.is_file() else b"a folder"
        for path in sorted(folder.rglob("*"))
    }


def missing(run: Run) -> list[str]:
    """What a command needs and is not there."""
    return [
        *libraries.missing([name for name in run.needs if name != "program"]),
        *(["the program ltm"] if "program" in run.needs and not os.access(BUILT, os.X_OK) else []),
    ]


class Hostile(FolderTest):
    """Runs commands in a folder that is as it was before each."""

    def setUp(self) -> None:
        super().setUp()
        set_up(self.folder)
        self.kept = everything(self.folder)
        self.runs = [run for run in RUNS if not missing(run)]
        ended = mock.patch("ltm_tools.live.opening.open_browser", lambda *_: signal.raise_signal(signal.SIGINT))
        ended.start()
        self.addCleanup(ended.stop)

    def restore(self) -> None:
        """The folder as it was."""
        now = everything(self.folder)
        for name in sorted({*now, *self.kept}, reverse=True):
            path, data = self.folder / name, self.kept.get(name)
            if now.get(name) != data:
                if path.is_dir():
                    shutil.rmtree(path)
                elif data is None:
                    path.unlink()
                if data is not None:
                    path.write_bytes(data)

    def written(self, run: Run) -> dict[str, bytes]:
        """What a command has written."""
        return {
            name: data
            for name, data in everything(self.folder).items()
            if name in run.writes or name.split("/")[0] in run.writes
        }

    def changed(self) -> set[str]:
        """The names of what is not as it was."""
        now = everything(self.folder)
        return {name for name in {*self.kept, *now} if self.kept.get(name) != now.get(name)}

    def end_of(self, run: Run, what: str, *more: str) -> int:
        """The status of a command, which has to end as it should, with its output in `self.out`."""
        before = everything(self.folder)
        program = ["--program", str(BUILT)] if "program" in run.needs else []
        with within(self.folder):
            status, self.out, err = commands.run(*shlex.split(run.words), *program, *more)
        self.err = err
        after, told = everything(self.folder), f"{run.words}: {what}: {status} {err[:2000]}"
        self.assertNotIn("Traceback", err, told)
        if status == 0:
            changed = {name for name in {*before, *after} if before.get(name) != after.get(name)}
            self.assertLessEqual(changed, {*self.written(run)}, told)
        else:
            self.assertEqual(before, after, told)
            lines = err.splitlines()
            self.assertTrue(len(lines) == 1 or lines and lines[0].startswith(MORE_LINES), told)
            self.assertLess(max(map(len, lines)), 1000, told)
        return status


class Table(unittest.TestCase):
    def test_each_command_has_a_row(self) -> None:
        typed = {name.replace("_", "-") for name in cli.COMMANDS}
        self.assertEqual({run.words.split()[0] for run in RUNS} | {*OF_A_CLONE}, typed)


class Files(Hostile):
    def setUp(self) -> None:
        super().setUp()
        self.good: dict[str, tuple[str, dict[str, bytes]]] = {}
        for run in self.runs:
            self.assertEqual(self.end_of(run, "as it is"), 0, run.words)
            self.good[run.words] = self.printed(run), self.written(run)
            self.restore()

    def printed(self, run: Run) -> str:
        """What a command has printed, as far as that is the same on every run."""
        return "" if run.words.startswith(VARIES) else self.out

    def spoil(self, run: Run, name: str, what: str, change: Callable[[Path], object], ends: str) -> None:
        """Runs a command with a file that is spoiled, and sees how it ends."""
        change(self.folder / name)
        status = self.end_of(run, f"{name}, {what}")
        if ends != EITHER and not run.words.startswith(TELLS):
            self.assertEqual(status == 0, ends != FAILS, f"{run.words}: {name}, {what}: {status}")
        if ends == AS_BEFORE:
            made = self.printed(run), self.written(run)
            self.assertEqual(made, self.good[run.words], f"{run.words}: {name}, {what}")
        self.restore()

    def test_files_that_are_not_there_or_folders(self) -> None:
        for run in self.runs:
            for name in run.reads:
                self.spoil(run, name, "not there", Path.unlink, EITHER if name in MAY_MISS else FAILS)
                self.spoil(run, name, "a folder", lambda path: (path.unlink(), path.mkdir()), FAILS)

    def test_files_that_are_spoiled(self) -> None:
        for run in self.runs:
            for name in run.reads:
                for what, (change, ends) in SPOILED.items():
                    self.spoil(
                        run,
                        name,
                        what,
                        lambda path: path.write_bytes(change(name, path.read_bytes())),
                        EITHER if name.endswith(".jsonl") and ends == FAILS else ends,
                    )


class Large(Hostile):
    """A hundred megabytes, where a small file is meant."""

    SPARSE = (
        "case/links.csv",
        "case/curves.csv",
        "case/nodes.csv",
        "case/source_links.csv",
        "case/clock.txt",
        "net/link.csv",
        "town.net.xml",
        "cars.rou.xml",
        "table.csv",
        "greens.csv",
        "d3.min.js",
    )

    def test_zeros(self) -> None:
        for name in self.SPARSE:
            run = next(
                run for run in self.runs if name in run.reads and not run.needs and not run.words.startswith(TELLS)
            )
            for size in (0, 100_000_000):
                os.truncate(self.folder / name, size)
            began = time.process_time()
            with within(self.folder):
                status, _, err = commands.run(*shlex.split(run.words))
            self.assertEqual((status, err.count("\n")), (1, 1), (run.words, name, err[:2000]))
            self.assertLess(len(err), 500)
            self.assertLess(time.process_time() - began, 10, (run.words, name))
            (self.folder / name).unlink()
            self.restore()


class FullDisk(Hostile):
    """All stands on a disk without room, or with room for a page or two."""

    PAGE = 4096

    def setUp(self) -> None:
        super().setUp()
        self.disk = self.folder / "disk"
        self.disk.mkdir()
        mount = ["mount", "-t", "tmpfs", "-o", "size=2m", "tmpfs", self.disk]
        if subprocess.run(mount, capture_output=True).returncode:
            self.skipTest("there is no right to mount a small disk")
        self.addCleanup(subprocess.run, ["umount", self.disk], check=True)
        self.folder = self.disk
        set_up(self.disk)
        with contextlib.suppress(OSError), open(self.disk / "filler", "wb", buffering=0) as filler:
            while True:
                filler.write(bytes(self.PAGE))
        self.size = (self.disk / "filler").stat().st_size
        self.kept = everything(self.disk)

    def test_commands_that_write(self) -> None:
        failed = 0
        for run in self.runs:
            for pages in (0, 1, 2, 5) if run.writes and "matplotlib" not in run.needs else ():
                os.truncate(self.disk / "filler", self.size - pages * self.PAGE)
                self.kept["filler"] = bytes(self.size - pages * self.PAGE)
                if self.end_of(run, f"{pages} pages") != 0:
                    self.assertIn("No space left on device", self.err)
                    failed += 1
                self.restore()
            with open(self.disk / "filler", "ab", buffering=0) as filler:
                filler.write(bytes(self.size - filler.tell()))
        self.assertGreater(failed, 30)


class Interrupts(Hostile):
    """An interrupt at some calls of functions of each command, or at the next moment that heeds one."""

    PARTS = 8

    def test_each_command(self) -> None:
        for run in self.runs:
            if {"matplotlib", "tornado"} & {*run.needs}:  # `test_live` has interrupts of a server
                continue
            calls = self.interrupted(run, sys.maxsize)
            for part in range(self.PARTS):
                self.interrupted(run, calls * part // self.PARTS)
            writing = self.interrupted(run, sys.maxsize, "write_beside")
            for number in range(1, 1 + writing, 1 + writing // 4):
                self.interrupted(run, number, "write_beside")

    def interrupted(self, run: Run, number: int, inside: str = "") -> int:
        """Runs a command up to the call with a number, of Python's own functions within one of this name where that is
        told: how many calls there were."""
        count, frames = 0, ("__del__", "uninterrupted")

        def profile(frame: FrameType, event: str, _: object) -> None:
            nonlocal count
            count += event == "c_call" and frame.f_code.co_name == inside if inside else event == "call"
            if count >= number and frame.f_code.co_name not in frames and not signal.pthread_sigmask(0, ()):
                sys.setprofile(None)
                raise KeyboardInterrupt

        program, status, told = ["--program", str(BUILT)] if "program" in run.needs else [], 130, ""
        lost: list[object] = []  # an interrupt where Python itself takes a generator apart, which goes no further
        hook, self.out = sys.unraisablehook, ""
        with within(self.folder):
            try:
                sys.unraisablehook = lost.append
                sys.setprofile(profile)
                status, self.out, told = commands.run(*shlex.split(run.words), *program)
            except KeyboardInterrupt:  # before or after the command itself
                pass
            finally:
                sys.setprofile(None)
                sys.unraisablehook = hook
        self.assertNotIn("Traceback", told, run.words)
        ends_well = number > count or lost or KEPT in self.out
        self.assertEqual(status, 0 if ends_well else 130, f"{run.words} {number}")
        self.assertLessEqual(self.changed(), {*self.written(run)}, f"{run.words} {number}")
        self.restore()
        return count


class TwoAtOnce(Hostile):
    """Two of a command at once: each ends well, or with one line; and what stands there is what one of them makes."""

    def test_commands_that_write(self) -> None:
        for run in self.runs:
            if not run.writes or {"matplotlib"} & {*run.needs}:
                continue
            program = ["--program", str(BUILT)] if "program" in run.needs else []
            self.assertEqual(self.end_of(run, "alone"), 0)
            alone = self.written(run)
            self.restore()
            both = [
                subprocess.Popen(
                    [sys.executable, TOOLS / "ltm-tools", *shlex.split(run.words), *program],
                    cwd=self.folder,
                    stdout=subprocess.DEVNULL,
                    stderr=subprocess.PIPE,
                    text=True,
                )
                for _ in range(2)
            ]
            ends = [(one.communicate()[1], one.returncode) for one in both]
            for err, status in ends:
                self.assertTrue(status == 0 or status == 1 and err.count("\n") == 1 and "Traceback" not in err, ends)
            self.assertIn(0, [status for _, status in ends], run.words)
            self.assertEqual(self.written(run), alone, run.words)
            self.assertLessEqual(self.changed(), {*self.written(run)}, run.words)
            self.restore()


if __name__ == "__main__":
    unittest.main()
