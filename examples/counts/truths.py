#!/usr/bin/env python3
"""Tries `calibrate` where the truth is known: `truths.py CASE FOLDER`.

The demand of CASE is taken for the truth. Counts are drawn of its loading, by links that 20 vehicles pass, a share of
all links to fit and as many to hold out; the prior is the truth times a factor of each pair, one of each slice, and one
of all. The results stand in FOLDER, and the last lines say how near the prior, the demand that was found, and the truth
are to the counts that were held out, with hours in queues and processor seconds.

Further words go to `calibrate`, as --samples 8. It needs numpy; LTM names the program.
"""
from __future__ import annotations

import argparse
import csv
import random
import resource
import shutil
import subprocess
import sys
from dataclasses import dataclass
from decimal import Decimal
from pathlib import Path

sys.dont_write_bytecode = True
TOOLS = Path(__file__).resolve().parents[2] / "tools"
sys.path.append(str(TOOLS))

from ltm_tools.case import Case, Demand  # noqa: E402
from ltm_tools.case.beside import BESIDE  # noqa: E402
from ltm_tools.case.clock import start_of  # noqa: E402
from ltm_tools.counting.counts import HOLD, Placing  # noqa: E402
from ltm_tools.counting.loaded import all_counted  # noqa: E402
from ltm_tools.counting.measures import percent  # noqa: E402
from ltm_tools.counting.reading import CountsReading, read_counts  # noqa: E402
from ltm_tools.counting.validating import Met, Validation  # noqa: E402
from ltm_tools.formats import MINUTE_MS  # noqa: E402
from ltm_tools.listing import HOURS  # noqa: E402
from ltm_tools.loading.loaded import loaded, told_delay  # noqa: E402

LEAST = 20  # vehicles that pass a link with a counter


@dataclass(frozen=True)
class Trial:
    """What is known of a truth, and how wrong the prior is: the share of links with counters, the noise of counts, the
    prior in all, the minutes of a count and of a slice, and the seed of the draws."""

    share: float = 0.2
    noise: float = 0
    total: float = 0.85
    every: int = 15
    seed: int = 1


@dataclass(frozen=True)
class Near:
    """How near a case is to counts that were held out: GEH below 5 and RMSN in per cent; and its hours in queues."""

    below_5: Decimal
    rmsn: Decimal
    queued: Decimal

    def text(self) -> str:
        """Its columns."""
        return f"{self.below_5} % | {self.rmsn} % | {self.queued}"


@dataclass(frozen=True)
class Outcome:
    """What a trial came to: how near the prior, the demand that was found and the truth are; loadings and processor
    seconds of the search; and what `calibrate` wrote."""

    prior: Near
    found: Near
    truth: Near
    loadings: int
    seconds: float
    told: str


def tool(*words: object) -> str:
    """What a command of the tools writes."""
    made = subprocess.run([sys.executable, TOOLS / "ltm-tools", *map(str, words)], stdout=subprocess.PIPE, text=True)
    if made.returncode:
        sys.exit(f"{words[0]} ends with status {made.returncode}")
    return made.stdout


def prior_of(case: Case, trial: Trial, draw: random.Random) -> Case:
    """The case with the demand of a prior."""
    slots = round(trial.every * MINUTE_MS / case.setup.step_ms)
    rows = case.standing_demand()
    pairs = {pair: draw.uniform(0.7, 1.3) for pair in sorted({(row.origin, row.destination) for row in rows})}
    slices = {one: draw.uniform(0.8, 1.2) for one in sorted({row.from_slot // slots for row in rows})}
    made = Case.of(case)
    made.demand = []
    for row in rows:
        factor = trial.total * pairs[row.origin, row.destination] * slices[row.from_slot // slots]
        units = max(1, round(row.units * factor))
        made.demand.append(Demand(row.origin, row.destination, row.from_slot, row.to_slot, units))
    return made


def draw_counts(case: Path, links: int, folder: Path, trial: Trial, draw: random.Random) -> Path:
    """Writes the counts to fit, and those held out, of a case with so many links."""
    tool("flows", case, "--every", trial.every, "--each-link", "-o", folder / "flows.csv")
    with open(folder / "flows.csv", newline="") as file:
        rows = list(csv.DictReader(file))
    passed: dict[str, float] = {}
    for row in rows:
        passed[row["link"]] = passed.get(row["link"], 0) + float(row["entered"])
    busy = sorted(name for name, vehicles in passed.items() if vehicles >= LEAST)
    draw.shuffle(busy)
    number = min(round(trial.share * links), len(busy) // 2)
    use = {name: "fit" for name in busy[:number]} | {name: "hold" for name in busy[number : 2 * number]}
    with open(folder / "counts.csv", "w", newline="") as file:
        out = csv.writer(file)
        out.writerow(("link", "from", "to", "vehicles", "use"))
        for row in rows:
            vehicles = float(row["entered"])
            if trial.noise and use.get(row["link"]) == "fit":
                vehicles = max(0, round(vehicles + draw.gauss(0, 1) * (trial.noise * vehicles + 0.5)))
            if row["link"] in use:
                out.writerow((row["link"], row["from"], row["to"], f"{vehicles:.3f}", use[row["link"]]))
    return folder / "counts.csv"


def near(folder: Path, counts: Path) -> Near:
    """How near the loading of a case is to the counts of a table that were held out."""
    one = loaded(str(folder), None, None)
    placing = Placing.read(str(folder), one.case)
    rows, _ = read_counts([str(counts)], CountsReading(start_of(None, str(folder)), placing.source), placing)
    met = (Met(count, units) for count, units in zip(rows, all_counted(rows, one.curves, one.case)))
    fit = Validation(tuple(met)).by_span(HOLD)
    if fit is None or fit.rmsn is None:
        sys.exit(f"{counts}: no count is held out")
    report = told_delay(one, str(folder), None, None)
    return Near(percent(fit.below_5), fit.rmsn, HOURS.show(report.queued + report.waited))


def loadings_of(folder: Path) -> int:
    """The loadings of a search, by its table of iterations."""
    with open(folder / "iterations.csv", newline="") as file:
        return int([*csv.DictReader(file)][-1]["loadings"])


def tried(case_folder: Path, folder: Path, trial: Trial, words: list[str]) -> Outcome:
    """A trial on a case; `words` are more words for `calibrate`."""
    draw, case = random.Random(trial.seed), Case.read(str(case_folder))
    folder.mkdir(parents=True, exist_ok=True)
    prior, found = folder / "prior", folder / "found"
    prior_of(case, trial, draw).write(prior)
    for name in BESIDE:
        if (case_folder / name).exists():
            shutil.copyfile(case_folder / name, prior / name)
    counts = draw_counts(case_folder, len(case.links), folder, trial, draw)
    before = resource.getrusage(resource.RUSAGE_CHILDREN)
    told = tool("calibrate", prior, "--counts", counts, "-o", found, "--slice", trial.every, *words)
    after = resource.getrusage(resource.RUSAGE_CHILDREN)
    seconds = after.ru_utime + after.ru_stime - before.ru_utime - before.ru_stime
    before_it, after_it, of_truth = (near(one, counts) for one in (prior, found, case_folder))
    return Outcome(before_it, after_it, of_truth, loadings_of(found), seconds, told)


def main() -> None:
    plain = Trial()
    parser = argparse.ArgumentParser(description=(__doc__ or "").splitlines()[0], allow_abbrev=False)
    parser.add_argument("case", type=Path)
    parser.add_argument("folder", type=Path)
    parser.add_argument("--share", type=float, default=plain.share, help="of the links with counters to fit (0.2)")
    parser.add_argument("--noise", type=float, default=plain.noise, help="of counts (0)")
    parser.add_argument("--total", type=float, default=plain.total, help="the prior in all (0.85)")
    parser.add_argument("--every", type=int, default=plain.every, help="minutes of a count, and of a slice (15)")
    parser.add_argument("--seed", type=int, default=plain.seed)
    args, words = parser.parse_known_args()
    trial = Trial(args.share, args.noise, args.total, args.every, args.seed)
    outcome = tried(args.case, args.folder, trial, words)
    sys.stdout.write(outcome.told)
    for name in ("prior", "found", "truth"):
        print(f"{name} | held GEH < 5, RMSN, hours in queues | {getattr(outcome, name).text()}")
    print(f"{outcome.loadings} loadings, {outcome.seconds:.1f} processor seconds")


if __name__ == "__main__":
    main()
