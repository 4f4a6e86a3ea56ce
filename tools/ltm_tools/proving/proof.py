"""Proves the crates that the program stands on, and builds it.

It works in a copy of those crates, outside the clone, that `rt` keeps its work in: so what is changed meanwhile is not
read half, an interrupted run goes on where it was, and no crate is proved that the program does not need. First all
crates side by side, by `rt all check`; then the last ones, which stand on one another, one by one on all processors.
"""
import contextlib
import fcntl
import hashlib
import json
import math
import os
import re
import shutil
import signal
import subprocess
import tempfile
import time
from collections.abc import Callable, Iterable, Iterator, Sequence
from pathlib import Path
from typing import Protocol

from ..errors import Fault
from ..files import read_text
from ..program import BUILT, CLONE
from .plan import PROGRAM, Needs, ProofPlan, costs_of
from .sums import Sums, kit, write_sums

MEMORY_A_CRATE = 4 << 30  # bytes that the proof of a crate may take
PARTS = ("src", "specs", "proofs", "args", "stdin", "stdout", "data")
NO_RT = (
    "the command rt of the Rattle kit is not on the path. The kit has the compiler and the prover: without it"
    " nothing can be "
    "built here, proved or not, and ltm has to come from a machine that has it (./ltm --install DIR)"
)


def lanes() -> int:
    """How many crates can be proved side by side: one a processor, where each finds its memory."""
    processors, memory = len(os.sched_getaffinity(0)), 0
    with contextlib.suppress(OSError), open("/proc/meminfo", encoding="ascii") as file:
        memory = sum(int(line.split()[1]) * 1024 for line in file if line.startswith("MemAvailable:"))
    return max(1, min(processors, memory // MEMORY_A_CRATE if memory else processors))


def workplace(top: Path) -> Path:
    """The folder, outside the clone, of the copy that is proved."""
    cache = os.environ.get("XDG_CACHE_HOME") or (
        os.path.join(os.environ["HOME"], ".cache") if os.environ.get("HOME") else tempfile.gettempdir()
    )
    return Path(cache) / "ltm-prove" / hashlib.sha256(os.fsencode(top)).hexdigest()[:12]


def copy_crates(top: Path, place: Path, needs: Needs) -> None:
    """Brings the copy to what the clone has: texts that differ are written, and what is gone is removed. What `rt`
    keeps stays."""
    for name in needs:
        for part in PARTS:
            _copy(top / "crates" / name / part, place / "tree" / "crates" / name / part)
    _copy(top / "HANDLES", place / "tree" / "HANDLES")
    for folder in (place / "tree" / "crates").iterdir():
        if folder.name not in needs:
            shutil.rmtree(folder)


def put_aside(place: Path, names: Iterable[str]) -> None:
    """Takes crates out of the tree, since `rt all` wants each that is there to be listed."""
    (place / "aside").mkdir(exist_ok=True)
    for name in names:
        (place / "tree" / "crates" / name).rename(place / "aside" / name)


def put_back(place: Path) -> None:
    """Puts back what was taken out, by this run or by one that was interrupted."""
    for folder in (place / "aside").glob("*"):
        folder.rename(place / "tree" / "crates" / folder.name)


def _copy(source: Path, target: Path) -> None:
    if source.is_dir():
        target.mkdir(parents=True, exist_ok=True)
        names = {path.name for path in source.iterdir()}
        for path in target.iterdir():
            if path.name not in names:
                shutil.rmtree(path) if path.is_dir() else path.unlink()
        for name in names:
            _copy(source / name, target / name)
    elif source.is_file():
        target.parent.mkdir(parents=True, exist_ok=True)
        if not target.is_file() or target.read_bytes() != source.read_bytes():
            shutil.copyfile(source, target)
    elif target.is_dir():
        shutil.rmtree(target)
    elif target.exists():
        target.unlink()


def is_proved(words: str) -> bool:
    """Whether what rt says of a crate is its verdict, or nothing, as of a crate that stands proved already."""
    return not words.strip() or re.search(r"(?m)^logic=proved\b", words) is not None


def stamps_of(place: Path, needs: Needs) -> dict[str, str]:
    """A sum of all that the proof of each crate rests on: the kit, its own texts, and those of the crates below it."""
    stamps: dict[str, str] = {}
    identity = kit()
    for name, lower in needs.items():
        sum_ = hashlib.sha256((identity + "".join(stamps[need] for need in lower)).encode())
        for part in ("src", "specs", "proofs"):
            for path in sorted((place / "tree" / "crates" / name / part).rglob("*.*t")):
                sum_.update(f"{path.relative_to(place)} {path.stat().st_size}\n".encode() + path.read_bytes())
        stamps[name] = sum_.hexdigest()
    return stamps


def kept_in(place: Path, stamps: dict[str, str]) -> set[str]:
    """The crates that an earlier run proved as they stand."""
    try:
        proved = json.loads((place / "proved.json").read_text(encoding="ascii"))
        return {name for name, stamp in stamps.items() if proved.get(name) == stamp}
    except (OSError, ValueError, AttributeError):
        return set()


class ProofProgress(Protocol):
    """Who is told how far a run is."""

    def now(self, text: str, is_last: bool) -> None:
        """How far it is now; the last time that is told in any case."""

    def lines(self, lines: Sequence[str]) -> None:
        """What stands in the log of a run that failed."""


class Proof:
    """A run: what is done, and where its log is."""

    def __init__(self, top: Path, place: Path, needs: Needs, jobs: int, told: ProofProgress) -> None:
        self.place, self.needs, self.jobs, self.told = place, needs, jobs, told
        self.plan = ProofPlan(needs, costs_of(top, needs), jobs)
        self.stamps = stamps_of(place, needs)
        self.kept = kept_in(place, self.stamps)
        self.done = set(self.kept)
        self.began = time.monotonic()
        self.log = place / "log"

    def run(self) -> None:
        """Proves and builds; a Fault where something is not proved."""
        self.log.write_bytes(b"")
        self.tell()
        if not self.kept.issuperset(self.plan.side_by_side):
            self.list_crates(self.plan.side_by_side)
            put_aside(self.place, self.plan.tail)
            self.rt(["all", "check", "--jobs", str(self.jobs)], self.place / "tree", self.read_log)
            self.keep(self.plan.side_by_side)
            put_back(self.place)
        self.list_crates(self.needs)
        for name in self.plan.tail:
            words = (
                ["run", "--jobs", str(self.jobs), "--", "try", "1", "4"]
                if name == PROGRAM
                else ["lib", "--jobs", str(self.jobs)]
            )
            self.rt(words, self.place / "tree" / "crates" / name)
            self.keep([name])
        self.tell(is_last=True)

    def keep(self, names: Iterable[str]) -> None:
        """Notes that these crates are proved as they stand, for this run and the next."""
        self.done.update(names)
        proved = {name: self.stamps[name] for name in self.done}
        (self.place / "proved.json").write_text(json.dumps(proved, indent=0), encoding="ascii")

    def list_crates(self, names: Sequence[str] | Needs) -> None:
        """Writes the crates.txt of the copy, with the kit's libraries as the clone has them."""
        lines = crates_lines(read_text(self.place / "all_crates.txt"), names)
        (self.place / "tree" / "crates.txt").write_text("".join(f"{line}\n" for line in lines), encoding="ascii")

    def rt(self, words: list[str], folder: Path, look: Callable[[], None] | None = None) -> None:
        """Runs rt in a folder, and tells meanwhile how far it is."""
        try:
            with open(self.log, "ab") as log:
                process = subprocess.Popen(
                    ["rt", *words], cwd=folder, stdin=subprocess.DEVNULL, stdout=log, stderr=log, start_new_session=True
                )
        except OSError:
            raise Fault(NO_RT) from None
        try:
            while True:
                with contextlib.suppress(subprocess.TimeoutExpired):
                    status = process.wait(timeout=2)
                    break
                if look is not None:
                    look()
                self.tell()
        except BaseException:
            with contextlib.suppress(ProcessLookupError):
                os.killpg(process.pid, signal.SIGTERM)
            process.wait()
            raise
        if status:
            self.fail(words, status)

    def read_log(self) -> None:
        """The crates that rt has told of so far: a line `== NAME` stands before what it says of each."""
        said = self.log.read_text(encoding="utf-8", errors="replace")
        told = re.split(r"(?m)^== (\w+)$", said)
        self.keep(
            name
            for name, words in zip(told[1::2], told[2::2])
            if name in self.needs and name not in self.done and is_proved(words)
        )

    def fail(self, words: list[str], status: int) -> None:
        self.told.lines(self.log.read_text(encoding="utf-8", errors="replace").splitlines()[-20:])
        why = (
            f"was killed by signal {-status}, perhaps for want of memory"
            if status < 0
            else f"ended with status {status}"
        )
        raise Fault(f"rt {' '.join(words)} {why}; all that it said is in {self.log}, and a new start goes on from here")

    def tell(self, is_last: bool = False) -> None:
        """How many crates are done and left, and how many minutes that takes."""
        passed, left = time.monotonic() - self.began, len(self.needs) - len(self.done)
        text = f"{len(self.done)} of {len(self.needs)} crates proved, {left} left, {int(passed // 60)} minutes gone"
        if left:
            seconds = self.plan.seconds_left(self.kept, self.done, passed)
            text += f", about {max(1, math.ceil(seconds / 60))} more"
        self.told.now(text, is_last)


def crates_lines(text: str, names: Sequence[str] | Needs) -> list[str]:
    """The lines of a crates.txt that list these crates."""
    lines = [line for line in text.splitlines() if line.partition("#")[0].partition(":")[1]]
    return [line for line in lines if line.split(":")[0].split()[0] in names]


@contextlib.contextmanager
def only_one(place: Path) -> Iterator[None]:
    """Keeps a second run out of the copy."""
    with open(place / "lock", "w", encoding="ascii") as file:
        try:
            fcntl.flock(file, fcntl.LOCK_EX | fcntl.LOCK_NB)
        except BlockingIOError:
            raise Fault("another proof of this clone is at work") from None
        yield


def put_into_clone(built: Path, sums: Sums) -> None:
    """Puts the program into the clone, with the sums of what it was made of."""
    BUILT.parent.mkdir(parents=True, exist_ok=True)
    made = BUILT.with_name("ltm.new")
    shutil.copy2(built, made)
    os.replace(made, BUILT)
    write_sums(CLONE, sums)
