"""Rows of `bottlenecks` held against two loadings of files, one of the case and one of what `apply` makes of it."""
import csv
import json
import subprocess
import unittest
from decimal import Decimal
from fractions import Fraction
from pathlib import Path

import commands
from support import BUILT, FolderTest, needs_program
from support_assign import LINKS, SIGNALS
from ltm_tools.case import Case

PARTS = [Fraction(10, 100), Fraction(20, 100), Fraction(40, 100)]
ROADS, SLOTS = 6, 240
# Two streets, p and q. In each roads r1 to r6, one behind the other, and at the end of each of the first five a side
# road s1 to s5, from an origin of its own. Greens of 10 s alternate at each end, and differ between the streets; r6
# lets a little less through than both greens before it.
STREETS = {"p": ("0.43", 12), "q": ("0.47", 17)}  # what a green lets through in a slot, and vehicles into r1
NAMES = [(street, side, k) for street in STREETS for side in "rs" for k in range(1, ROADS)]
AT_ONCE = "".join(
    f"{street}n0,{street}n6,0,40,{count}\n"
    + "".join(f"{street}o{k},{street}n6,0,40,{3 + k}\n" for k in range(1, ROADS))
    for street, (_, count) in STREETS.items()
)
CITY = {
    "setup": f"step_ms,slots,origin_capacity,signals\n1000,{SLOTS},32,1\n",
    "links": LINKS
    + "".join(
        f"{street}{side}{k},{street}{f'n{k - 1}' if side == 'r' else f'o{k}'},{street}n{k},200,36,18,150\n"
        for street, side, k in NAMES
    )
    + "".join(f"{street}r6,{street}n5,{street}n6,200,36,18,128\n" for street in STREETS),
    "demand": "origin,destination,from_slot,to_slot,vehicles\n" + AT_ONCE,
    "splits": "node,destination,from_slot,weights\n"
    + "".join(
        "".join(f"{street}n{k},{street}n6,0,{street}r{k + 1}=1\n" for k in range(ROADS))
        + "".join(f"{street}o{k},{street}n6,0,{street}s{k}=1\n" for k in range(1, ROADS))
        for street in STREETS
    ),
    "signals": SIGNALS
    + "".join(
        f"{street}{side}{k},{slot},{slot + 10},{STREETS[street][0] if (slot // 10 + k) % 2 == (side == 's') else '0'}\n"
        for street, side, k in NAMES
        for slot in range(0, SLOTS, 10)
    ),
}


def totals(folder: Path) -> "tuple[Decimal, Decimal, Decimal]":
    """The total travel time, the delay in queues and at origins, and the arrivals of a loading of files."""

    def words(*command: str) -> "list[str]":
        done = subprocess.run([str(BUILT), *command], cwd=folder, capture_output=True, text=True, check=True)
        return done.stdout.splitlines()[0].split()

    delay, load = words("delay"), words("load")
    return Decimal(delay[3]), Decimal(delay[5]) + Decimal(delay[7]), Decimal(load[5])


def edits(case: Case, link: str, factor: Fraction) -> "list[dict[str, object]]":
    """The edits that the documents name: of limits each slot, with what is left over carried on; or the jam density."""
    own = next(one for one in case.links if one.name == link)
    if not (rows := [row for row in case.signals if row.link == link]):
        jam = own.jam_per_km * factor
        found: dict[str, object] = {"kind": "diagram", "link": link, "jam_per_km": int(jam + Fraction(1, 2))}
        return [found | {"length_m": own.length_m, "free_kmh": own.free_kmh, "wave_kmh": own.wave_kmh}]
    made, whole, given = [], Fraction(0), 0
    for slot in range(SLOTS):
        units = next(row.units for row in rows if row.from_slot <= slot < row.to_slot)
        whole += units * factor
        vehicles = str(Decimal(int(whole) - given) / 1000)
        made.append({"kind": "exit", "link": link, "from": slot, "to": slot + 1, "vehicles": vehicles})
        given = int(whole)
    return made


@needs_program
class AgainstFiles(FolderTest):
    def test_the_rows(self) -> None:
        folder = self.case(**CITY)
        words = ("--program", str(BUILT), "--by", "10%", "--format", "csv", "--sessions", "2")
        status, out, err = commands.run("bottlenecks", str(folder), *words)
        self.assertEqual((status, err), (0, ""))
        rows = list(csv.DictReader(out.splitlines()))
        self.assertGreaterEqual(len(rows), 10)
        self.assertEqual({row["held_by"] for row in rows}, {"stop line", "road"})
        case, base = Case.read(folder), totals(folder)
        for place, row in enumerate(rows):
            step = Fraction(row["more_per_h"]) / Fraction(row["capacity_per_h"])
            part = min(PARTS, key=lambda part: abs(part - step))
            for word, sign in (("more", 1), ("less", -1)):
                script, made = self.folder / "script.jsonl", self.folder / f"{place}_{word}"
                lines = edits(case, row["link"], 1 + sign * part)
                batches = [lines[first : first + 30] for first in range(0, len(lines), 30)]
                script.write_text("".join(json.dumps({"do": "edit", "edits": batch}) + "\n" for batch in batches))
                status, _, err = commands.run("apply", str(folder), str(script), str(made), "--program", str(BUILT))
                self.assertEqual((status, err), (0, ""))
                changes = [after - before for after, before in zip(totals(made), base)]
                told = [Decimal(row[f"{word}_{name}"]) for name in ("travel_time_s", "delay_s", "arrived")]
                self.assertEqual(told, changes, (row["link"], word))


if __name__ == "__main__":
    unittest.main()
