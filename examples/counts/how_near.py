#!/usr/bin/env python3
"""Measures `calibrate` where the truth is known, on networks of different kinds: `how_near.py FOLDER [CASE ..]`.

    town      a grid of 49 crossings with signals, made by SUMO's own generator: half an hour of vehicles
    spilled   the same with links as a whole and twice the vehicles, so that queues fill links and block others
    bologna   the real net of a quarter of Bologna with an hour of vehicles, of Debian's package sumo-tools

Each truth is loaded and counted, and `calibrate` starts from a wrong prior: see `truths.py`. A row of the table is a
trial. FOLDER keeps all files: a trial whose row is there is not made again. It needs Debian's packages sumo, sumo-tools
and python3-numpy; LTM names the program.
"""
from __future__ import annotations

import argparse
import subprocess
import sys
from collections.abc import Sequence
from pathlib import Path

sys.dont_write_bytecode = True
HERE = Path(__file__).resolve().parent
sys.path[:0] = [str(HERE), str(HERE.parent / "from_sumo")]

from measure import BY_GAPS, NETWORKS, carried, net_of  # noqa: E402
from truths import TOOLS, Outcome, Trial, tried  # noqa: E402

from ltm_tools.case import Case, Demand  # noqa: E402

WHOLE = ("--turns", "none", "--no-yellow", "--saturation", "road", "--entries", "none", "--carry", "0")
CASES: dict[str, tuple[str, float, tuple[str, ...]]] = {  # a network, times its vehicles, words of its import
    "town": ("town", 1, ()),
    "spilled": ("town", 2, WHOLE),
    "bologna": ("bologna", 1, BY_GAPS),
}
TRIALS = {
    "a fifth of the links": Trial(),
    "second seed": Trial(seed=2),
    "a tenth of the links": Trial(share=0.1),
    "10 % noise": Trial(noise=0.1),
    "prior 15 % high": Trial(total=1.15),
}
HEAD = (
    "case, queued h | trial | prior: held GEH < 5 | RMSN | queued h | found: held GEH < 5 | RMSN | queued h | loadings"
    " | processor s"
)


def imported(name: str, folder: Path, more: Sequence[str] = ()) -> Path:
    """The case of a network, as it is imported with a step, a horizon and these words."""
    case = folder / "case"
    if case.exists():
        return case
    folder.mkdir(parents=True, exist_ok=True)
    raw = NETWORKS[name](folder)
    files = [raw.net, *raw.files, carried(raw, folder, net_of(raw)), case]
    words = [sys.executable, TOOLS / "ltm-tools", "from-sumo", *files, *raw.words, "--ends", "node", *more]
    subprocess.run([*map(str, words)], check=True, stdout=subprocess.DEVNULL)
    return case


def truth(name: str, folder: Path) -> Path:
    """The case that is taken for the truth."""
    network, factor, words = CASES[name]
    case = imported(network, folder / f"{name}_network", words)
    if factor == 1:
        return case
    made = Case.of(Case.read(str(case)))
    made.demand = [
        Demand(row.origin, row.destination, row.from_slot, row.to_slot, round(factor * row.units))
        for row in made.standing_demand()
    ]
    made.write(folder / f"{name}_truth")
    return folder / f"{name}_truth"


def row_of(name: str, trial: str, one: Outcome) -> str:
    """A row of the table."""
    return (
        f"| {name}, {one.truth.queued} | {trial} | {one.prior.text()} | {one.found.text()} | {one.loadings} |"
        f" {one.seconds:.0f} |"
    )


def main() -> None:
    parser = argparse.ArgumentParser(description=__doc__, formatter_class=argparse.RawDescriptionHelpFormatter)
    parser.add_argument("folder", type=Path)
    parser.add_argument("cases", nargs="*", metavar="CASE", help=f"of {', '.join(CASES)} (all)")
    parser.add_argument(
        "--trials", type=int, default=len(TRIALS), metavar="N", help="the first so many of a case (all)"
    )
    args = parser.parse_args()
    print(f"| {HEAD} |", "|---" * (HEAD.count("|") + 1) + "|", sep="\n", flush=True)
    for name in args.cases or CASES:
        case = truth(name, args.folder)
        for number, (word, trial) in enumerate([*TRIALS.items()][: args.trials]):
            folder = args.folder / name / str(number)
            kept = folder / "row.md"
            if not kept.exists():
                row = row_of(name, word, tried(case, folder, trial, ["--samples", "0"]))
                kept.write_text(row + "\n")
            print(kept.read_text(), end="", flush=True)


if __name__ == "__main__":
    main()
