"""`ltm-tools prove`: proves the crates that the program stands on, and builds it, as `./ltm --prove` does."""
import argparse
import shutil
import sys
import time
from collections.abc import Sequence

from ..errors import Fault
from ..files import read_text
from ..program import BUILT, CLONE
from ..proving.plan import PROGRAM, read_crates, stands_on
from ..proving.proof import NO_RT, Proof, copy_crates, lanes, only_one, put_back, put_into_clone, workplace
from ..proving.sums import sum_of, sums_of, why_not
from .arguments import whole

NAME = "prove"
SUMMARY = "prove the program and build it"
EXAMPLES = """examples:
  ltm-tools prove
  ltm-tools prove --check                       # says why the program does not count as proved, or nothing
  ltm-tools prove --crate ltm_node --jobs 1     # a lower crate alone, and those below it

If you interrupt it, it goes on from there when you start it again."""


class Screen:
    """Tells on the standard error how far a run is: on a terminal in one line, and else once a minute."""

    def __init__(self) -> None:
        self.is_terminal = sys.stderr.isatty()
        self.last = 0.0

    def now(self, text: str, is_last: bool) -> None:
        """Tells it, unless it was told less than a minute ago."""
        now = time.monotonic()
        if not self.is_terminal and not is_last and self.last and now - self.last < 60:
            return
        self.last = now
        begin, end = ("\r\033[K", "\n" if is_last else "") if self.is_terminal else ("", "\n")
        print(f"{begin}ltm: {text}", end=end, file=sys.stderr, flush=True)

    def lines(self, lines: Sequence[str]) -> None:
        """Tells the lines, below what was told before."""
        if self.is_terminal:
            print(file=sys.stderr)
        for line in lines:
            print(f"    {line}", file=sys.stderr)


def add_arguments(parser: argparse.ArgumentParser) -> None:
    parser.add_argument(
        "--jobs",
        type=whole,
        default=None,
        help="how many crates to prove at once (default: one for each processor with 4 GB of free memory)",
    )
    parser.add_argument("--crate", default=PROGRAM, help="prove this crate instead of the program")
    parser.add_argument(
        "--check",
        action="store_true",
        help="prove nothing; say why the program does not count as proved, or nothing if it does",
    )


def run(args: argparse.Namespace) -> int:
    return check_proved() if args.check else prove(args.crate, args.jobs if args.jobs is not None else lanes())


def check_proved() -> int:
    """Says why the program is not proved; the status is 0 where it is."""
    why = why_not(CLONE)
    if why:
        print(why)
    return 1 if why else 0


def prove(crate: str, jobs: int) -> int:
    """Proves a crate and those below it, and puts the program into the clone if it is that one."""
    if shutil.which("rt") is None:
        raise Fault(NO_RT)
    if jobs < 1:
        raise Fault("--jobs is 1 or more")
    if not (CLONE / "crates.txt").is_file():
        raise Fault(f"this proves a clone of the repository, and {CLONE} is none")
    listed, text = sum_of(CLONE / "crates.txt"), read_text(CLONE / "crates.txt")
    needs = stands_on(read_crates(text), crate)
    place = workplace(CLONE)
    (place / "tree" / "crates").mkdir(parents=True, exist_ok=True)
    with only_one(place):
        put_back(place)
        copy_crates(CLONE, place, needs)
        (place / "all_crates.txt").write_text(text, encoding="utf-8")
        sums = {**sums_of(place / "tree", needs), "crates.txt": listed}
        print(f"ltm: proving {len(needs)} crates, {jobs} at a time, in {place}", file=sys.stderr)
        Proof(CLONE, place, needs, jobs, Screen()).run()
        if crate == PROGRAM:
            put_into_clone(place / "tree" / "crates" / PROGRAM / "out" / PROGRAM, sums)
            print(f"ltm: proved and built: {BUILT}", file=sys.stderr)
    return 0
