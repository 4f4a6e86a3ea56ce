#!/usr/bin/env python3
"""Closes each road of a case by itself and tells where that seems to save time: `gains.py CASE --from 0:10 --to 0:25`.

Where informed drivers choose anew they may find better routes than the case has, with the road closed or open. So a
closure saves time by itself only where it takes less than the same shares with the road open. Roads that no vehicle
enters while they are closed are left out, unless --links names them. It prints how many answers were looked at, and
those that save time by themselves, the most first. With --kept each road is written to a file as soon as it is done,
and a later run with the same file goes on behind it. It needs numpy, and the program as other commands of ltm-tools do.
"""
from __future__ import annotations

import argparse
import csv
import sys
from collections.abc import Iterable, Iterator, Sequence
from pathlib import Path
from typing import NamedTuple

sys.dont_write_bytecode = True
sys.path.insert(0, str(Path(__file__).resolve().parents[2] / "tools"))

from ltm_tools import libraries  # noqa: E402
from ltm_tools.errors import Fault  # noqa: E402
from ltm_tools.formats import counted  # noqa: E402

try:
    libraries.need(("numpy",), script=__file__)
except Fault as fault:
    sys.exit(f"gains.py: {fault}")

from ltm_tools.assign.closing import RESPONDING  # noqa: E402
from ltm_tools.assign.closure import WORDS, Closure, Cost  # noqa: E402
from ltm_tools.assign.rerouting import Base  # noqa: E402
from ltm_tools.assign.spread import costs  # noqa: E402
from ltm_tools.case import Case  # noqa: E402
from ltm_tools.commands.arguments import add_program_argument, clock  # noqa: E402
from ltm_tools.listing import time_unit  # noqa: E402


KEPT = ("road", "first", "end", "informed", "spent", "not_there", "alone")
"""What a file with answers has of each: the road, the slots in which it is closed, and of `Cost` what counts."""


class Gain(NamedTuple):
    """An answer by which a closed road saves time: its name, who responds, and the time, in thousandths of a vehicle
    times ms."""

    road: str
    response: str
    saved: int


def kept_answers(path: Path | None, closed: tuple[int, int]) -> dict[str, list[Cost]]:
    """The answers of the roads that stand in a file, closed in these slots; a Fault where it has other slots."""
    found: dict[str, list[Cost]] = {}
    if path is None or not path.exists():
        return found
    with open(path, encoding="utf-8", newline="") as file:
        for road, first, end, *numbers in list(csv.reader(file))[1:]:
            if (int(first), int(end)) != closed:
                raise Fault(f"{path}: its roads are closed in other slots; give another file with --kept")
            informed, spent, not_there, alone = map(int, numbers)
            found.setdefault(road, []).append(Cost(informed, spent, not_there, 0.0, 0, alone))
    return found


def keep(path: Path, closure: Closure, answers: Iterable[Cost]) -> None:
    """Writes the answers of a road behind those of a file."""
    is_new = not path.exists()
    with open(path, "a", encoding="utf-8", newline="") as file:
        rows = csv.writer(file, lineterminator="\n")
        if is_new:
            rows.writerow(KEPT)
        rows.writerows([*closure, one.informed, one.spent, one.not_there, one.alone] for one in answers)


def in_use(args: argparse.Namespace, slots: tuple[int, int]) -> list[str]:
    """The roads that vehicles enter in these slots, the busiest first."""
    _, passed = Base(Case.read(args.case), RESPONDING).look(*slots, args.program)
    return [one.link for one in passed if one.units]


def answered(args: argparse.Namespace, roads: list[str], slots: tuple[int, int]) -> Iterator[tuple[str, list[Cost]]]:
    """The answers of each road, those that are kept first."""
    known = kept_answers(args.kept, slots)
    yield from ((road, known[road]) for road in roads if road in known)
    closures = [Closure(road, *slots) for road in roads if road not in known]
    found = costs(args.case, args.program, RESPONDING, list(WORDS.values()), closures, args.processes)
    for closure, answers in zip(closures, found):
        if args.kept is not None:
            keep(args.kept, closure, answers)
        yield closure.link, answers


def gains(roads: Iterable[str], found: Iterable[list[Cost]]) -> Iterator[Gain]:
    """The answers of each road that take less time than the same shares with the road open, all vehicles counted who
    have not arrived."""
    words = {share: word for word, share in WORDS.items()}
    for road, answers in zip(roads, found):
        yield from (Gain(road, words[one.informed], one.alone - one.spent) for one in answers if one.spent < one.alone)


def told(roads: int, saving: Sequence[Gain]) -> Iterator[str]:
    """How many answers there are, and those that save time: in vehicle seconds, if that is little."""
    yield f"{roads * len(WORDS)} answers of {counted(roads, 'road')}, of which {len(saving)} save time by themselves"
    unit = time_unit(*(gain.saved for gain in saving))
    yield from (f"{gain.road}, {gain.response}: {unit.show(gain.saved)} {unit.name}" for gain in saving)


def main() -> int:
    parser = argparse.ArgumentParser(description=__doc__, formatter_class=argparse.RawDescriptionHelpFormatter)
    parser.add_argument("case")
    parser.add_argument("--from", dest="begin", type=clock, required=True, metavar="CLOCK", help="closed from")
    parser.add_argument("--to", dest="end", type=clock, required=True, metavar="CLOCK", help="and up to")
    parser.add_argument("--links", nargs="+", metavar="LINK", help="these links (all in use)")
    parser.add_argument("--processes", type=int, default=1, help="several closures at once (1)")
    parser.add_argument("--kept", type=Path, metavar="FILE", help="keep what is done in a file, and go on behind it")
    add_program_argument(parser)
    args = parser.parse_args()
    try:
        step = Case.read(args.case).setup.step_ms
        slots = (args.begin // step, args.end // step)
        roads = args.links or in_use(args, slots)
        found = dict(answered(args, roads, slots))
        saving = sorted(gains(found, found.values()), key=lambda gain: -gain.saved)
    except Fault as fault:
        print(f"gains.py: {fault}", file=sys.stderr)
        return 1
    print(*told(len(roads), saving), sep="\n")
    return 0


if __name__ == "__main__":
    sys.exit(main())
