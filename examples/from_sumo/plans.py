#!/usr/bin/env python3
"""Sets better signal plans beside SUMO's tools: `plans.py FOLDER [NETWORK ..]`, of town and bologna, or of others of
`measure.py`.

Each network is imported with a step, a horizon and `--yielding gaps`, and `ltm-tools signals --optimise` finds better
plans, with each of the options that --words has. It tells the seconds by the clock that this takes, and the vehicle
hours of the loading before and after. With --sumo, SUMO then drives the same vehicles mesoscopically, with its drop of
capacity in queues and without it, with each of --seeds, by the plans as they are, by the better ones, and by those of
its own tlsCoordinator.py and tlsCycleAdaptation.py; microscopically as well where --kinds says so. Other plans are
driven too with --also NAME=FILE. FOLDER keeps the inputs, the plans of SUMO's tools and what SUMO said of each plan, so
that a second run asks SUMO nothing that it has said. It needs SUMO (Debian's packages sumo and sumo-tools), and the
program as other commands of ltm-tools do.
"""
from __future__ import annotations

import argparse
import hashlib
import json
import resource
import subprocess
import sys
import tempfile
import time
import xml.etree.ElementTree as ElementTree
from collections.abc import Iterator, Sequence
from dataclasses import dataclass
from pathlib import Path

sys.dont_write_bytecode = True
HERE = Path(__file__).resolve().parent
sys.path[:0] = [str(HERE.parents[1] / "tools"), str(HERE)]

import compare  # noqa: E402
import measure  # noqa: E402
from ltm_tools.commands.arguments import add_program_argument  # noqa: E402
from ltm_tools.errors import Fault  # noqa: E402
from ltm_tools.sumo.net import SumoNet  # noqa: E402

NETWORKS = "town", "bologna"
SEEDS = 23423, 7, 8  # the first is what SUMO takes by itself
KINDS = {"drop": "mesoscopic", "no drop": "no drop", "microscopic": "microscopic"}
MESOSCOPIC = "drop", "no drop"
LTM_TOOLS = str(HERE.parents[1] / "tools/ltm-tools")
COORDINATOR, ADAPTATION = "tlsCoordinator.py", "tlsCycleAdaptation.py"


@dataclass(frozen=True)
class Site:
    """A network in its folder: what it is given as, its net, and its vehicles."""

    folder: Path
    raw: measure.Raw
    net: SumoNet
    vehicles: Path

    @classmethod
    def of(cls, name: str, folder: Path) -> Site:
        """A network of `measure.py`."""
        if name not in measure.NETWORKS:
            raise Fault(f"no network is called {name}: there are {', '.join(measure.NETWORKS)}")
        folder.mkdir(parents=True, exist_ok=True)
        raw = measure.NETWORKS[name](folder)
        net = measure.net_of(raw)
        return cls(folder, raw, net, measure.carried(raw, folder, net))

    @property
    def case(self) -> Path:
        """The folder of its case."""
        return self.folder / "case"


def run(words: Sequence[str]) -> str:
    """What a command prints; a Fault where it fails."""
    done = subprocess.run(words, capture_output=True, text=True)
    if done.returncode:
        raise Fault(f"{Path(words[0]).name}: {(done.stderr.strip() or str(done.returncode)).splitlines()[-1]}")
    return done.stdout


def imported(site: Site) -> None:
    """Imports a network, unless its folder has the case."""
    if not (site.case / "turns.csv").exists():
        files = [*map(str, site.raw.files), str(site.vehicles), str(site.case)]
        run([sys.executable, LTM_TOOLS, "from-sumo", str(site.raw.net), *files, *site.raw.words, *measure.BY_GAPS])


def better(site: Site, number: int, words: Sequence[str], program: str | None) -> tuple[Path, list[str]]:
    """The programs of better plans, and what the search printed, with the seconds that it took by the clock and of
    processors."""
    to = site.folder / f"better{number}"
    plans = [str(path) for path in site.raw.files if compare.has_programs(str(path))]
    given = ["--program", program] if program else []
    begun, used = time.monotonic(), processor_seconds()
    told = run(
        [sys.executable, LTM_TOOLS, "signals", str(site.case), "--optimise", "-o", str(to)]
        + ["--sumo", str(site.raw.net), *plans, *words, *given]
    )
    seconds = f"{time.monotonic() - begun:.0f} s by the clock, {processor_seconds() - used:.0f} s of processors"
    return to / "programs.add.xml", [*told.splitlines(), seconds]


def processor_seconds() -> float:
    """The processor time of all programs that have been run and have ended."""
    used = resource.getrusage(resource.RUSAGE_CHILDREN)
    return used.ru_utime + used.ru_stime


def of_sumo(site: Site) -> Iterator[tuple[str, Path]]:
    """The plans that SUMO's tools make: offsets for the programs as they are, cycles and greens, and both."""
    plans = [str(path) for path in site.raw.files if compare.has_programs(str(path))]
    given = ["-n", str(site.raw.net), "-r", str(site.vehicles)]
    offsets, cycles, both = (site.folder / f"{name}.add.xml" for name in ("offsets", "cycles", "both"))
    if not offsets.exists():
        made(COORDINATOR, [*given, *(["-a", ",".join(plans)] if plans else []), "-o", str(offsets)])
    yield COORDINATOR, offsets
    if not cycles.exists():
        made(ADAPTATION, [*given, "-o", str(cycles)])
    yield ADAPTATION, cycles
    if not both.exists():
        later = site.folder / "later.add.xml"  # offsets alone, which change programs that stand before them
        made(COORDINATOR, [*given, "-a", str(cycles), "-o", str(later)])
        programs = ElementTree.parse(cycles)
        programs.getroot().extend(ElementTree.parse(later).getroot())
        programs.write(both)
    yield f"{ADAPTATION}, then {COORDINATOR}", both


def made(tool: str, words: Sequence[str]) -> None:
    """Runs a tool of SUMO."""
    run([sys.executable, str(measure.SUMO_TOOLS / tool), *words])


def driven(site: Site, plan: Path | None, kind: str, seed: int) -> tuple[float, int]:
    """The vehicle hours of SUMO by a plan, that of the files where there is none, and how many vehicles it moved past a
    jam: what SUMO is asked once it has said."""
    text = plan.read_text() if plan else ""
    known = site.folder / "said.json"
    said = json.loads(known.read_text()) if known.exists() else {}
    key = f"{hashlib.sha256(text.encode()).hexdigest()[:16]} {kind} {seed}"
    if key not in said:
        files = [str(site.vehicles), *map(str, site.raw.files), *([str(plan.resolve())] if plan else [])]
        with tempfile.TemporaryDirectory() as place:
            words = [*measure.RUNS[kind], "--seed", str(seed)]
            compare.run_sumo(str(site.raw.net), files, words, Path(place), kind=())
            found = compare.read_run(Path(place), site.net)
        said = json.loads(known.read_text()) if known.exists() else {}
        said[key] = compare.hours(found.spent), found.moved
        known.write_text(json.dumps(said, indent=1))
    hours, moved = said[key]
    return hours, moved


def row(site: Site, name: str, plan: Path | None, kinds: Sequence[str], seeds: Sequence[int]) -> str:
    """A row of the table: the hours by each seed, and their mean."""
    cells = []
    for kind in kinds:
        found = [driven(site, plan, KINDS[kind], seed) for seed in seeds]
        cells += [f"{hours:,.2f}" + (f" ({moved} moved)" if moved else "") for hours, moved in found]
        cells.append(f"{sum(hours for hours, _ in found) / len(found):,.2f}")
    return f"| {name} | {' | '.join(cells)} |"


def table(site: Site, plans: Sequence[tuple[str, Path | None]], kinds: Sequence[str], seeds: Sequence[int]) -> None:
    """Prints what SUMO says of plans."""
    heads = [f"{kind}, {seed}" for kind in kinds for seed in [*map(str, seeds), "mean"]]
    print(f"| plans | {' | '.join(heads)} |", "|---" * (len(heads) + 1) + "|", sep="\n", flush=True)
    for name, plan in plans:
        print(row(site, name, plan, kinds, seeds), flush=True)


def tell(name: str, args: argparse.Namespace) -> None:
    """All that is asked of a network."""
    site = Site.of(name, args.folder / name)
    plans: list[tuple[str, Path | None]] = [("as they are", None)]
    if not args.sumo_only:
        imported(site)
        for number, words in enumerate(args.words, 1):
            plan, told = better(site, number, words.split(), args.program)
            print(f"{name} {words}".strip(), *told, sep="\n    ", flush=True)
            plans.append((f"better {words}".strip(), plan))
    if args.sumo or args.sumo_only:
        plans += [(given, Path(path)) for given, _, path in (one.partition("=") for one in args.also)]
        table(site, [*plans, *of_sumo(site)] if not args.no_tools else plans, args.kinds, args.seeds)


def main() -> int:
    parser = argparse.ArgumentParser(description=__doc__, formatter_class=argparse.RawDescriptionHelpFormatter)
    parser.add_argument("folder", type=Path)
    parser.add_argument(
        "networks", nargs="*", metavar="NETWORK", help=f"of {', '.join(measure.NETWORKS)} ({' '.join(NETWORKS)})"
    )
    parser.add_argument(
        "--words", nargs="+", default=[""], help="options of --optimise, each in quotes, as ' ' ' --rounds 2'"
    )
    parser.add_argument("--sumo", action="store_true", help="let SUMO drive all plans")
    parser.add_argument("--sumo-only", action="store_true", help="let SUMO drive plans, and search none")
    parser.add_argument("--no-tools", action="store_true", help="no plans of SUMO's tools")
    parser.add_argument("--also", nargs="+", default=[], metavar="NAME=FILE", help="further plans to drive")
    parser.add_argument("--seeds", nargs="+", type=int, default=list(SEEDS), help="random numbers of SUMO (23423 7 8)")
    parser.add_argument(
        "--kinds", nargs="+", default=list(MESOSCOPIC), choices=KINDS, help="runs of SUMO (with the drop, and without)"
    )
    add_program_argument(parser)
    args = parser.parse_args()
    for name in args.networks or NETWORKS:
        try:
            tell(name, args)
        except Fault as fault:
            print(f"plans.py: {name}: {fault}", file=sys.stderr)
            return 1
    return 0


if __name__ == "__main__":
    sys.exit(main())
