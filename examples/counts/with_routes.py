#!/usr/bin/env python3
"""Fits demand and routes where both are known: `with_routes.py CASE FOLDER`.

The truth is the demand of CASE on the routes that `assign` finds for it. Counts and the prior are drawn as by
`truths.py`. Two ways lead from the prior: `calibrate` on fixed routes and `assign` in turn, and `calibrate --rounds`.
A line for each demand, on the routes that are assigned to it: GEH below 5 and RMSN at the counts that were held out,
hours in queues, and by how much its pairs are off the truth, as the RMSN of the vehicles of each. FOLDER keeps all
files. It needs numpy; LTM names the program.
"""
from __future__ import annotations

import argparse
import csv
import random
import shutil
import sys
from dataclasses import replace
from fractions import Fraction
from pathlib import Path

sys.dont_write_bytecode = True
sys.path.append(str(Path(__file__).resolve().parent))

from truths import Trial, draw_counts, near, prior_of, tool  # noqa: E402

from ltm_tools.case import Case  # noqa: E402
from ltm_tools.formats import MINUTE_MS  # noqa: E402


def shortened(folder: Path, to: Path, minutes: int, times: Fraction) -> Path:
    """A case with the demand of the first minutes alone, times a factor, and twenty minutes more for its vehicles."""
    case = Case.read(str(folder))
    made, end, later = Case.of(case), *(MINUTE_MS * one // case.setup.step_ms for one in (minutes, 20))
    made.setup = replace(case.setup, slots=end + later)
    made.demand = []
    for row in case.standing_demand():
        units = row.units * (min(end, row.to_slot) - row.from_slot) // (row.to_slot - row.from_slot)
        if (more := units * times.numerator // times.denominator) > 0:
            made.demand.append(replace(row, to_slot=min(end, row.to_slot), units=more))
    made.write(to)
    return to


def pairs(folder: Path) -> dict[tuple[str, str], int]:
    """The units of demand of each pair."""
    found: dict[tuple[str, str], int] = {}
    for row in Case.read(str(folder)).standing_demand():
        found[row.origin, row.destination] = found.get((row.origin, row.destination), 0) + row.units
    return found


def off(folder: Path, truth: Path) -> float:
    """By how much the pairs of a demand are off another, in per cent."""
    one, other = pairs(folder), pairs(truth)
    squares = sum((one.get(pair, 0) - units) ** 2 for pair, units in other.items())
    return 100 * float((squares / len(other)) ** 0.5 / (sum(other.values()) / len(other)))


def line(word: str, folder: Path, counts: Path, truth: Path) -> None:
    """Prints how near a demand is on its routes."""
    print(f"| {word} | {near(folder, counts).text()} | {off(folder, truth):.1f} % |", flush=True)


def main() -> None:
    parser = argparse.ArgumentParser(description=(__doc__ or "").splitlines()[0])
    parser.add_argument("case", type=Path)
    parser.add_argument("folder", type=Path)
    parser.add_argument("--rounds", type=int, default=3, help="of both ways (3)")
    parser.add_argument("--share", type=float, default=0.2, help="of the links with counters to fit (0.2)")
    parser.add_argument("--total", type=float, default=Trial.total, help="the prior in all (0.85)")
    parser.add_argument("--minutes", type=int, metavar="N", help="the first N minutes of the demand alone")
    parser.add_argument("--times", type=Fraction, default=Fraction(1), help="so many times these vehicles (1)")
    args = parser.parse_args()
    folder, trial = args.folder, Trial(share=args.share, total=args.total)
    folder.mkdir(parents=True, exist_ok=True)
    assign = ("--iterations", "10", "--until", "0.2")
    truth, prior, draw = folder / "truth", folder / "prior", random.Random(trial.seed)
    if args.minutes is not None:
        args.case = shortened(args.case, folder / "short", args.minutes, args.times)
    tool("assign", args.case, "-o", truth, *assign)
    case = Case.read(str(truth))
    prior_of(case, trial, draw).write(folder / "drawn")
    counts = draw_counts(truth, len(case.links), folder, trial, draw)
    print("| demand | held GEH < 5 | RMSN | queued h | pairs off |", "|---" * 5 + "|", sep="\n")
    line("truth", truth, counts, truth)
    tool("assign", folder / "drawn", "-o", prior, *assign)
    line("prior", prior, counts, truth)
    now = prior
    for number in range(1, args.rounds + 1):
        fitted, routed = folder / f"fitted{number}", folder / f"routed{number}"
        tool("calibrate", now, "--counts", counts, "-o", fitted, "--directions", "0", "--samples", "0")
        line(f"fit {number}, on the routes before", fitted, counts, truth)
        tool("assign", fitted, "-o", routed, *assign)
        line(f"fit {number}, on its own routes", routed, counts, truth)
        shutil.copyfile(prior / "demand.csv", routed / "demand.csv")  # the prior stays the first one
        now = routed
    rounds = folder / "rounds"
    words = ("--rounds", args.rounds, "--samples", "0")
    sys.stdout.write(tool("calibrate", prior, "--counts", counts, "-o", rounds, *words))
    line(f"--rounds {args.rounds}", rounds, counts, truth)
    with open(rounds / "iterations.csv", newline="") as file:
        print(f"{[*csv.DictReader(file)][-1]['loadings']} loadings")


if __name__ == "__main__":
    main()
