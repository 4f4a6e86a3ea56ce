"""What a proof of the program has to do: its crates, what each costs, and how long the rest takes.

Crates and what they stand on are read from `crates.txt`, their costs from the table in CONTRIBUTING.md. No crate but
the program's own is named here.
"""
import re
from collections.abc import Iterable, Mapping
from graphlib import CycleError, TopologicalSorter
from pathlib import Path

from ..errors import Fault
from ..files import read_text

PROGRAM = "ltm"
PREFIX = "ltm_"  # which the table leaves out
TRUSTED_SECONDS = 240  # for so long what a run shows weighs less than the table
MOST_PACE = 2.5  # processor seconds of the table in a second, on however many processors: crates wait for one another
Needs = dict[str, list[str]]  # of each crate, the crates of the repository that it stands on


def read_crates(text: str) -> Needs:
    """What each crate stands on, of those that are listed, by the text of a `crates.txt`."""
    listed: Needs = {}
    for line in text.splitlines():
        names, colon, needs = line.partition("#")[0].partition(":")
        if colon and names.split():
            listed[names.split()[0]] = needs.split()
    return {name: [need for need in needs if need in listed] for name, needs in listed.items()}


def stands_on(needs: Needs, program: str = PROGRAM) -> Needs:
    """The program and all crates below it, each after those that it stands on."""
    if program not in needs:
        raise Fault(f"crates.txt has no crate {program}")
    found: Needs = {}
    wanted = [program]
    while wanted:
        name = wanted.pop()
        if name not in found:
            found[name] = needs[name]
            wanted += needs[name]
    try:
        return {name: found[name] for name in TopologicalSorter(found).static_order()}
    except CycleError as error:
        raise Fault(f"crates.txt: {error.args[1][0]} stands on itself") from None


def read_costs(text: str) -> dict[str, int]:
    """The processor seconds of each crate's proof, by the tables of a CONTRIBUTING.md: cells in groups of four, of
    which the first names a crate and the second is its proof."""
    costs: dict[str, int] = {}
    for line in text.splitlines():
        if not line.startswith("|"):
            continue
        cells = [cell.strip() for cell in line.strip().strip("|").split("|")]
        for name, proof in zip(cells[::4], cells[1::4]):
            if re.fullmatch(r"\w+", name) and proof.isdigit():
                costs[name] = int(proof)
    return costs


def crate_bytes(folder: Path) -> int:
    """How large the texts of a crate are that a proof reads."""
    parts = (("src", "*.rt"), ("specs", "*.antt"), ("proofs", "*.antt"))
    return sum(path.stat().st_size for part, kind in parts for path in (folder / part).rglob(kind))


def costs_of(top: Path, crates: Iterable[str]) -> dict[str, float]:
    """The seconds of each crate's proof: by the table, or by its size where the table does not have it."""
    contributing = top / "CONTRIBUTING.md"
    table = read_costs(read_text(contributing)) if contributing.is_file() else {}
    sizes = {name: crate_bytes(top / "crates" / name) for name in crates}
    known = {name: table.get(name.removeprefix(PREFIX), table.get(name)) for name in sizes}
    told = [name for name, cost in known.items() if cost is not None]
    pace = sum(known[name] or 0 for name in told) / max(1, sum(sizes[name] for name in told)) if told else 1 / 500
    return {name: float(cost) if (cost := known[name]) is not None else 1 + pace * sizes[name] for name in sizes}


def tail_of(needs: Needs) -> list[str]:
    """The last crates, each of which waits for all others before it, so that it can have all processors."""
    order, tail = TopologicalSorter(needs), list[str]()
    order.prepare()
    while order.is_active():
        ready = order.get_ready()
        tail = [*tail, *ready] if len(ready) == 1 else []
        order.done(*ready)
    return tail


class ProofPlan:
    """What is to be proved, in which order, and how long it takes."""

    def __init__(self, needs: Needs, costs: Mapping[str, float], lanes: int) -> None:
        self.needs, self.costs, self.pace = needs, costs, min(lanes, MOST_PACE)
        self.tail = tail_of(needs)
        self.side_by_side = {name: lower for name, lower in needs.items() if name not in self.tail}

    def seconds_left(self, kept: Iterable[str], done: Iterable[str], passed: float) -> float:
        """How many seconds the rest takes at the pace of this run, which began with the crates `kept`: of what it has
        proved in the seconds that have passed, and at first of what the table says."""
        work = sum(self.costs[name] for name in set(done).difference(kept))
        left = sum(self.costs[name] for name in set(self.needs).difference(done))
        return left * (TRUSTED_SECONDS + passed) / (TRUSTED_SECONDS * self.pace + work)
