#!/usr/bin/env python3
"""Sets imports of real and made networks beside SUMO, one row each: `measure.py FOLDER [NETWORK ..]`.

Each network is imported by `ltm-tools from-sumo` with a step, a horizon and --words, and loaded. SUMO drives the same
vehicles three times: mesoscopic as it comes, mesoscopic without its capacity drop, and microscopic. A row has the
vehicle hours of all four, the most vehicles by which arrivals of `ltm` are ahead or behind, and the correlation of
delay by edge. FOLDER keeps the inputs and what SUMO said, so that a second run asks SUMO nothing. It needs SUMO
(Debian's packages sumo and sumo-tools), and the program as other commands of ltm-tools do.
"""
from __future__ import annotations

import argparse
import json
import subprocess
import sys
import tempfile
from dataclasses import dataclass
from fractions import Fraction
from pathlib import Path

sys.dont_write_bytecode = True
HERE = Path(__file__).resolve().parent
sys.path[:0] = [str(HERE.parents[1] / "tools"), str(HERE)]

import compare  # noqa: E402
from ltm_tools.commands.arguments import add_program_argument  # noqa: E402
from ltm_tools.errors import Fault  # noqa: E402
from ltm_tools.formats import UNITS  # noqa: E402
from ltm_tools.loading.delay import MILLIONTHS  # noqa: E402
from ltm_tools.loading.loaded import loaded, told_delay  # noqa: E402
from ltm_tools.demand.values import quarter_before  # noqa: E402
from ltm_tools.case.roads import Roads  # noqa: E402
from ltm_tools.case.source import Source  # noqa: E402
from ltm_tools.sumo.net import SumoNet, elements, read_net  # noqa: E402
from ltm_tools.sumo.ways import Ways  # noqa: E402

SUMO_TOOLS = Path("/usr/share/sumo/tools")
REAL = SUMO_TOOLS / "sumolib/scenario/scenarios/RealWorld"
CONTROL = "--meso-junction-control"
RUNS = {
    "mesoscopic": ["--mesosim", CONTROL],
    "no drop": ["--mesosim", CONTROL, *compare.NO_DROP],
    "microscopic": [],
}
BY_GAPS = ("--yielding", "gaps")
"""How Bologna was imported for what other scripts measure, before turns had ranks."""
MINUTE_MS = 60_000


@dataclass(frozen=True)
class Raw:
    """A network as it is given: its net, its vehicles, and the files of types and signal programs; the words with
    which it is imported, and those with which SUMO runs besides."""

    net: Path
    vehicles: tuple[Path, ...]
    files: tuple[Path, ...] = ()
    words: tuple[str, ...] = ("--fit", "2s", "--horizon", "150")
    sumo: tuple[str, ...] = ()


def bologna(name: str, *plans: str) -> Raw:
    """One of the networks of Bologna; with the programs of its net, or those of files."""
    start = f"{REAL / name / name}"
    files = (Path(f"{start}_{kind}.add.xml") for kind in ("vtypes", *plans))
    return Raw(Path(f"{start}_buslanes.net.xml"), (Path(f"{start}.rou.xml"),), tuple(files))


def crossing(number: int) -> Raw:
    """One of the crossings with signals of a German manual, which sumo-tools has."""
    folder = REAL / f"RiLSA_example{number}"
    plans = folder / ("tls.add.xml" if number == 1 else f"rilsa{number}_tls.add.xml")
    return Raw(
        folder / f"rilsa{number}.net.xml",
        (folder / "genroutes.rou.xml",),
        (folder / "vtypes.add.xml", plans),
    )


def made(name: str, folder: Path) -> Raw:
    """A network of make.py."""
    net, routes = (folder / f"{name}.{kind}.xml" for kind in ("net", "rou"))
    if not routes.exists():
        subprocess.run([sys.executable, str(HERE / "make.py"), name, str(folder)], check=True)
    plans = (folder / "town.add.xml",) if name == "town" else ()
    return Raw(net, (routes,), plans, ("--fit", "5s", "--horizon", "75"))


def motorway() -> Raw:
    """A motorway crossing near Berlin. Its signals are switched off: they are those of a game, in which each shows one
    phase until a player chooses another, so that a third of the vehicles would never have green."""
    folder = SUMO_TOOLS / "game/A10KW"
    vehicles = (folder / "osm.passenger.rou.xml", folder / "osm.truck.rou.xml")
    words = (*Raw.words, "--no-signals")
    return Raw(folder / "osm.net.xml", vehicles, words=words, sumo=("--tls.all-off", "true"))


NETWORKS = {
    "town": lambda folder: made("town", folder),
    "region": lambda folder: made("region", folder),
    "web": lambda folder: made("web", folder),
    "acosta": lambda folder: bologna("acosta", "tls"),
    "pasubio": lambda folder: bologna("pasubio"),
    "bologna": lambda folder: bologna("joined", "tls"),
    "crossing1": lambda folder: crossing(1),
    "crossing2": lambda folder: crossing(2),
    "crossing3": lambda folder: crossing(3),
    "crossing4": lambda folder: crossing(4),
    "motorway": lambda folder: motorway(),
}


def net_of(raw: Raw) -> SumoNet:
    """The net of a network."""
    return read_net(raw.net, vehicle_class="passenger", headway=Fraction(113, 100), spacing=Fraction(15, 2))


def carried(raw: Raw, folder: Path, net: SumoNet) -> Path:
    """A file of the vehicles that a case has: those with routes over edges for cars that do not end where they
    begin."""
    path = folder / "vehicles.rou.xml"
    if path.exists():
        return path
    import xml.etree.ElementTree as ElementTree

    ways, kept, types = Ways(net), [], []
    for file in raw.vehicles:
        for one in elements(file):
            if one.tag in ("vType", "vTypeDistribution"):
                types.append(one)
            route = one.find("route")
            if one.tag != "vehicle" or route is None:
                continue
            edges = tuple(route.get("edges", "").split())
            if ways.is_route(edges) and net.network.roads[edges[0]].tail != net.network.roads[edges[-1]].head:
                kept.append((float(one.get("depart", "0")), ElementTree.tostring(one, "unicode")))
    lines = [ElementTree.tostring(one, "unicode") for one in types] + [text for _, text in sorted(kept)]
    path.write_text("<routes>\n" + "\n".join(line.strip() for line in lines) + "\n</routes>\n")
    return path


def kept_file(folder: Path, kind: str) -> Path:
    """Where a run of SUMO is kept."""
    return folder / f"{kind.replace(' ', '_')}.json"


def sumo_run(raw: Raw, vehicles: Path, kind: str, folder: Path, net: SumoNet) -> compare.Run:
    """A run of SUMO, or what was kept of it."""
    kept = kept_file(folder, kind)
    if not kept.exists():
        with tempfile.TemporaryDirectory() as place:
            words = [*RUNS[kind], *raw.sumo]
            compare.run_sumo(str(raw.net), [str(vehicles), *map(str, raw.files)], words, Path(place), kind=())
            run = compare.read_run(Path(place), net)
        kept.write_text(
            json.dumps(
                {
                    "first_ms": run.first_ms,
                    "arrivals": run.arrivals,
                    "spent": str(run.spent),
                    "waited": str(run.waited),
                    "queued": {name: str(seconds) for name, seconds in run.queued.items()},
                    "moved": run.moved,
                }
            )
        )
    found = json.loads(kept.read_text())
    queued = {name: Fraction(seconds) for name, seconds in found["queued"].items()}
    return compare.Run(
        found["first_ms"],
        found["arrivals"],
        Fraction(found["spent"]),
        Fraction(found["waited"]),
        queued,
        found["moved"],
    )


@dataclass(frozen=True)
class Beside:
    """A loading beside a run of SUMO: hours of SUMO, by how many per cent those of `ltm` differ, the most vehicles by
    which arrivals are ahead and behind in per cent of all, the correlation of delay by edge, and how many vehicles SUMO
    moved past a jam."""

    hours: float
    more: float
    ahead: float
    behind: float
    likeness: float
    moved: int

    def text(self) -> str:
        """Its columns."""
        moved = f" ({self.moved} moved)" if self.moved else ""
        return (
            f"{self.hours:,.2f}{moved}, {self.more:+.1f} % | +{self.ahead:.1f} / -{self.behind:.1f} % |"
            f" {compare.likeness_text(self.likeness)}"
        )


def arrivals_apart(arrived: list[int], step_ms: int, run: compare.Run) -> tuple[float, float]:
    """By how many vehicles arrivals are ahead and behind at most, in per cent of all, looked at each minute."""
    begin, whole = quarter_before(run.first_ms), arrived[-1] / UNITS
    times = sorted(run.arrivals)
    last = max(times[-1] - begin, (len(arrived) - 1) * step_ms) // MINUTE_MS + 1
    ahead = behind = 0.0
    place = 0
    for minute in range(last):
        while place < len(times) and times[place] - begin <= minute * MINUTE_MS:
            place += 1
        ours = arrived[min(minute * MINUTE_MS // step_ms, len(arrived) - 1)] / UNITS
        ahead, behind = max(ahead, ours - place), max(behind, place - ours)
    return ahead / whole * 100, behind / whole * 100


def measure(
    name: str, folder: Path, words: list[str], program: str | None, kept: bool
) -> tuple[str, dict[str, Beside], float]:
    """The hours of a network as it is imported, and its loading beside each run of SUMO."""
    folder.mkdir(parents=True, exist_ok=True)
    raw = NETWORKS[name](folder)
    net = net_of(raw)
    vehicles = carried(raw, folder, net)
    case = folder / "case"
    done = subprocess.run(
        [sys.executable, str(HERE.parents[1] / "tools/ltm-tools"), "from-sumo", str(raw.net)]
        + [*map(str, raw.files), str(vehicles), str(case), *raw.words, *words],
        capture_output=True,
        text=True,
    )
    if done.returncode:
        raise Fault(f"{name}: {done.stderr.strip().splitlines()[-1]}")
    (folder / "import.txt").write_text(done.stdout)
    loading = loaded(str(case), None, program)
    report = told_delay(loading, str(case), None, program)
    arrived = [int(sum(counts)) for counts in zip(*(loading.curves.arrived(end) for end in loading.case.destinations))]
    source = Source.read(str(case), Roads.of(loading.case.links))
    rows = {}
    for kind in RUNS:
        if kept and not kept_file(folder, kind).exists():
            continue
        run = sumo_run(raw, vehicles, kind, folder, net)
        ours, theirs = compare.by_label(report, run, source, net)
        ahead, behind = arrivals_apart(arrived, loading.case.setup.step_ms, run)
        rows[kind] = Beside(
            compare.hours(run.spent),
            float(Fraction(report.spent, MILLIONTHS) / run.spent - 1) * 100,
            ahead,
            behind,
            compare.likeness(ours, theirs),
            run.moved,
        )
    count = sum(row.units for row in loading.case.demand) // UNITS
    return f"{name} | {count:,}", rows, compare.hours(Fraction(report.spent, MILLIONTHS))


def main() -> int:
    parser = argparse.ArgumentParser(description=__doc__, formatter_class=argparse.RawDescriptionHelpFormatter)
    parser.add_argument("folder", type=Path)
    parser.add_argument("networks", nargs="*", metavar="NETWORK", help=f"of {', '.join(NETWORKS)} (all)")
    parser.add_argument("--words", default="", help="more words for the import, as '--saturation road'")
    parser.add_argument("--sumo-only", action="store_true", help="run SUMO alone, and keep what it says")
    parser.add_argument("--kept", action="store_true", help="set it beside those runs of SUMO alone that are kept")
    add_program_argument(parser)
    args = parser.parse_args()
    heads = " | ".join(f"SUMO {kind}, ltm by | arrivals | correlation" for kind in RUNS)
    print(f"| network | vehicles | ltm | {heads} |", "|---" * (3 + 3 * len(RUNS)) + "|", sep="\n", flush=True)
    for name in args.networks or NETWORKS:
        try:
            if args.sumo_only:
                folder = args.folder / name
                folder.mkdir(parents=True, exist_ok=True)
                raw = NETWORKS[name](folder)
                net = net_of(raw)
                for kind in RUNS:
                    run = sumo_run(raw, carried(raw, folder, net), kind, folder, net)
                    print(f"{name} {kind}: {compare.hours(run.spent):.2f} h, {run.moved} moved", flush=True)
                continue
            head, rows, hours = measure(name, args.folder / name, args.words.split(), args.program, args.kept)
            cells = [rows[kind].text() if kind in rows else "- | - | -" for kind in RUNS]
            print(f"| {head} | {hours:,.2f} | {' | '.join(cells)} |", flush=True)
        except Fault as fault:
            print(f"measure.py: {name}: {fault}", file=sys.stderr)
            return 1
    return 0


if __name__ == "__main__":
    sys.exit(main())
