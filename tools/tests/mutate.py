"""Runs commands over files that are changed at random, in this process: each is to end within ten seconds with status
0, or with one line and status 1, and to leave no file that was not asked for.

    PYTHONPATH=tools python3 tools/tests/mutate.py --seed 7 --count 30000

Each run is made of the seed and its number, so that `--first N --count 1` makes run N again; `--show` tells what it
changes.
"""
from __future__ import annotations

import argparse
import gzip
import os
import random
import re
import shlex
import signal
import sys
import tempfile
import time
import traceback
from collections import Counter
from collections.abc import Iterator
from pathlib import Path
from typing import NamedTuple

import commands
from stage import RUNS, Run, set_up

MOST_SECONDS = 10
TOLD_EVERY = 1000
TOKEN = re.compile(rb"[^,;\"<>=\s/:{}\[\]()]+")
NUMBER = re.compile(rb"-?[0-9]+(?:\.[0-9]+)?")
NUMBERS = (
    b"0",
    b"-1",
    b"1",
    b"0.0005",
    b"1e15",
    b"1000000000000001",
    b"4294967295",
    b"4294967296",
    b"1e400",
    b"1e-400",
    b"1e99999999",
    b"-0",
    b"9" * 400,
    b"1000000",
    b"1000001",
    b"60000",
    b"nan",
    b"inf",
    b"0x10",
    b"1_000",
    b"7:00",
    b"99:59",
    b"1/0",
    b"1/3",
    b".5",
    b"5.",
    b"1e308",
    b"-1e308",
    b"32000",
    b"16000",
    b"257",
)
TEXTS = (
    b"",
    b"a",
    b"b",
    b"n1",
    b"n3",
    b"</script>",
    b'"',
    b"a b",
    b"\xe9",
    "Straße".encode(),
    "\u2028".encode(),
    "\u0663".encode(),
    b"\0",
    b"\r",
    b"\n",
    b",",
    b";",
    b"a" * 40,
    b"-a",
    b"_a",
    b"$a$",
    b"../x",
    b"&amp;",
    b"]]>",
)


class TooLong(BaseException):
    """A run takes too long."""


class Bad(NamedTuple):
    """A run that did not end as it should: its number, its words, the file that was changed, and what is wrong."""

    number: int
    words: str
    file: str
    why: str


def changed(data: bytes, pick: random.Random) -> bytes:
    """The bytes of a file with one change: of bytes, lines, words or numbers."""
    kind = pick.randrange(7)
    if kind == 0:  # a byte
        place = pick.randrange(len(data) + 1)
        return data[:place] + bytes([pick.randrange(256)]) + data[place + pick.randrange(2) :]
    if kind == 1:  # a part is gone, or stands twice
        begin, end = sorted(pick.randrange(len(data) + 1) for _ in range(2))
        return data[:begin] + data[end:] if pick.randrange(2) else data[:end] + data[begin:]
    if kind == 2:  # lines are gone, twice, or elsewhere
        lines = data.splitlines(keepends=True) or [b""]
        line = lines.pop(pick.randrange(len(lines)))
        for _ in range(pick.randrange(3)):
            lines.insert(pick.randrange(len(lines) + 1), line)
        return b"".join(lines)
    found = list((NUMBER if kind in (3, 4) else TOKEN).finditer(data))
    if not found:
        return data + b"\n"
    place, other = pick.choice(found), pick.choice(found)[0]
    new = other if pick.randrange(3) == 0 else pick.choice(NUMBERS if kind in (3, 4) else (*TEXTS, *NUMBERS))
    return data[: place.start()] + new + data[place.end() :]


def mutated(name: str, data: bytes, pick: random.Random) -> bytes:
    """The bytes of a file with one to four changes; of a packed one mostly of what is packed."""
    if name.endswith(".gz") and pick.randrange(4):
        return gzip.compress(mutated("", gzip.decompress(data), pick), mtime=0)
    for _ in range(pick.choice((1, 1, 2, 4))):
        data = changed(data, pick)
    return data


def state(folder: Path) -> dict[str, tuple[int, int]]:
    """The files below a folder, each with its size and the moment when it was written."""
    found = {}
    for place, folders, files in os.walk(folder):
        for name in (*folders, *files):
            told = os.lstat(os.path.join(place, name))
            found[os.path.relpath(os.path.join(place, name), folder)] = (
                (-1, 0) if name in folders else (told.st_size, told.st_mtime_ns)
            )
    return found


class Mutations:
    """Runs commands in a folder of their own."""

    def __init__(self, folder: Path, seed: int) -> None:
        self.folder, self.seed = folder, seed
        self.runs = [run for run in RUNS if not run.needs]
        self.statuses: Counter[int] = Counter()
        folder.mkdir(exist_ok=True)
        set_up(folder)
        self.kept = {path: path.read_bytes() for path in folder.rglob("*") if path.is_file()}

    def plan(self, number: int) -> tuple[Run, str, bytes]:
        """The command of a run, the file that is changed, and its bytes."""
        pick = random.Random(f"{self.seed}/{number}")
        run = pick.choice(self.runs)
        name = pick.choice(run.reads)
        return run, name, mutated(name, self.kept[self.folder / name], pick)

    def run(self, number: int) -> Bad | None:
        """Makes a run; what is wrong with it, or None."""
        run, name, data = self.plan(number)
        (self.folder / name).write_bytes(data)
        before, why = state(self.folder), ""
        try:
            status, err = self.ended(run)
            why = self.wrong(run, status, err, before)
            self.statuses[status] += 1
        except TooLong:
            why = f"it takes more than {MOST_SECONDS} seconds"
        except Exception:
            why = " / ".join(traceback.format_exc().splitlines()[-5:])
        self.restore(name, before)
        return Bad(number, run.words, name, why) if why else None

    def ended(self, run: Run) -> tuple[int, str]:
        """The status of a command, and what it tells on the standard error."""
        was = os.getcwd()
        os.chdir(self.folder)
        signal.setitimer(signal.ITIMER_VIRTUAL, MOST_SECONDS)
        try:
            status, _, err = commands.run(*shlex.split(run.words))
        finally:
            signal.setitimer(signal.ITIMER_VIRTUAL, 0)
            os.chdir(was)
        return status, err

    def wrong(self, run: Run, status: int, err: str, before: dict[str, tuple[int, int]]) -> str:
        """What is wrong with how a command ended."""
        after = state(self.folder)
        odd = sorted(
            name
            for name in {*before, *after}
            if before.get(name) != after.get(name)
            and not (status == 0 and (name in run.writes or name.split(os.sep)[0] in run.writes))
        )
        if odd:
            return f"status {status}, and it leaves {' '.join(odd)}"
        lines = err.splitlines()
        if status not in (0, 1) or status == 1 and not lines or max(map(len, lines), default=0) > 2000:
            return f"status {status}, and {len(lines)} lines on the standard error: {err[:500]}"
        if (
            status and len(lines) > 1 and not lines[0].startswith("cannot be carried: ")
        ):  # what goes well may have notes
            return f"{len(lines)} lines: {err[:500]}"
        return ""

    def restore(self, name: str, before: dict[str, tuple[int, int]]) -> None:
        """All files as they were: the one that was changed, and what a command has written."""
        after = state(self.folder)
        for other in sorted({*after, *before}, reverse=True):
            path = self.folder / other
            if after.get(other) != before.get(other) or other == name:
                if path in self.kept:
                    path.write_bytes(self.kept[path])
                elif path.is_dir():
                    path.rmdir()
                else:
                    path.unlink()


def mutations(folder: Path, seed: int, first: int, count: int) -> Iterator[Bad]:
    """The runs of these numbers that did not end as they should."""

    def end(*_: object) -> None:
        raise TooLong

    was = signal.signal(signal.SIGVTALRM, end)
    made = Mutations(folder, seed)
    try:
        for number in range(first, first + count):
            bad = made.run(number)
            if bad is not None:
                yield bad
            if (number + 1 - first) % TOLD_EVERY == 0:
                print(
                    f"{number + 1 - first} runs, of which by status {dict(made.statuses)}", file=sys.stderr, flush=True
                )
    finally:
        signal.signal(signal.SIGVTALRM, was)


def main() -> int:
    parser = argparse.ArgumentParser(description=__doc__, formatter_class=argparse.RawDescriptionHelpFormatter)
    parser.add_argument("--seed", type=int, default=int(time.time()))
    parser.add_argument("--first", type=int, default=0)
    parser.add_argument("--count", type=int, default=1000)
    parser.add_argument("--show", action="store_true", help="tell what each run changes")
    args = parser.parse_args()
    bad = 0
    print(f"seed {args.seed}, runs {args.first} to {args.first + args.count - 1}", flush=True)
    with tempfile.TemporaryDirectory() as folder:
        if args.show:
            made = Mutations(Path(folder), args.seed)
            for number in range(args.first, args.first + args.count):
                run, name, data = made.plan(number)
                print(f"run {number}: {run.words}\n{name}:\n{data!r}")
            return 0
        for one in mutations(Path(folder), args.seed, args.first, args.count):
            bad += 1
            print(f"run {one.number}: {one.words}: {one.file}: {one.why}", flush=True)
    print(f"{args.count} runs, {bad} of them bad")
    return 1 if bad else 0


if __name__ == "__main__":
    sys.exit(main())
