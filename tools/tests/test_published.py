"""The model held against theory and against what others published: a bottleneck with spillback by Newell's method, the
worked node of Tampère, Corthout, Cattrysse and Immers (2011), Daganzo's merge and diverge, and the uniform delay of a
signal. Expected values come from there, worked out below or printed in the publication, never from this program."""
import subprocess
import tempfile
import unittest
from collections.abc import Sequence
from fractions import Fraction
from pathlib import Path

from support import BUILT, CLONE, needs_program

# where the answers are shown beside the expected values
PAGE = (CLONE / "docs" / "VALIDATION.md").read_text(encoding="utf-8")
SETUP = "step_ms,slots,origin_capacity"
HEADS = {
    "links": "link,from,to,length_m,free_kmh,wave_kmh,jam_per_km",
    "demand": "origin,destination,from_slot,to_slot,vehicles",
    "splits": "node,destination,from_slot,weights",
    "signals": "link,from_slot,to_slot,vehicles",
}


class Made:
    """A case that is made for a test, and what the program says of it."""

    def __init__(self, setup: str, **rows: list[str]) -> None:
        self.files = {"setup": f"{setup}\n"} | {
            name: "".join(f"{line}\n" for line in [HEADS[name], *lines]) for name, lines in rows.items()
        }

    def says(self, word: str) -> list[list[str]]:
        """The words of each line that the program writes."""
        with tempfile.TemporaryDirectory() as folder:
            for name, text in self.files.items():
                Path(folder, f"{name}.csv").write_text(text)
            done = subprocess.run([BUILT, word], cwd=folder, capture_output=True, text=True, timeout=60)
        assert done.returncode == 0, done.stdout
        return [line.split() for line in done.stdout.splitlines()]

    def totals(self) -> dict[str, Fraction]:
        """Vehicle seconds of the whole case: `spent`, `queued`, `waited`."""
        first = self.says("delay")[0]
        return {name: Fraction(value) for name, value in zip(first[2::2], first[3::2])}

    def curves(self) -> dict[tuple[str, str, str], list[int]]:
        """Cumulative counts in thousandths of a vehicle by side, link and destination."""
        found = {}
        for line in self.says("curves")[1:]:
            head, *counts = " ".join(line).split()
            side, link, destination, _ = (head.split(",") + [""])[:4]
            found[side, link, destination] = [int(head.rsplit(",", 1)[1]), *map(int, counts)]
        return found


def bottleneck(step: int) -> Made:
    """Vehicles enter at 0.5 a second for 1,200 s on a road of 1,860 m that holds 150 a km, before one that lets 0.3 a
    second through; in slots of so many seconds."""
    last = 4000 // step
    return Made(
        f"{SETUP}\n{step * 1000},{last},32",
        links=["a,o,m,1860,72,18,150", "b,m,d,1860,72,18,75"],
        demand=[f"o,d,0,{1200 // step},600"],
        splits=["o,d,0,a=1", "m,d,0,b=1"],
    )


# The road before the bottleneck takes 93 s freely and 372 s for a wave, and 279 vehicles fit on it. The queue has
# reached its entry at the moment t where 0.5 t = 279 + 0.3 (t - 93 - 372), which is 697.5 s; from then on 0.3 a second
# can enter. At 1,200 s 0.2 * 502.5 = 100.5 vehicles wait outside, and the last of them enters 335 s later.
FULL = (279 - Fraction(3, 10) * (93 + 372)) / Fraction(2, 10)
OUTSIDE = Fraction(2, 10) * (1200 - FULL)
WAITED = OUTSIDE * (1200 - FULL) / 2 + OUTSIDE * OUTSIDE / Fraction(3, 10) / 2
# All 600 vehicles leave the bottleneck as if they had queued in a point: 0.2 * 1,200 = 240 wait there at most, and the
# last leaves 800 s after that. What is not waited outside is queued on the road.
DELAYED = Fraction(240) * 1200 / 2 + Fraction(240) * 800 / 2


@needs_program
class Bottleneck(unittest.TestCase):
    """Newell's solution of a bottleneck whose queue spills back (Newell 1993)."""

    def errors(self, step: int) -> tuple[Fraction, Fraction]:
        """By how much of the exact value the delay of all, and that outside the road, differ in slots of a length."""
        totals = bottleneck(step).totals()
        return abs(totals["queued"] + totals["waited"] - DELAYED) / DELAYED, abs(totals["waited"] - WAITED) / WAITED

    def test_the_error_falls_with_the_step(self) -> None:
        self.assertEqual((FULL, OUTSIDE, DELAYED), (Fraction(1395, 2), Fraction(201, 2), 240000))
        found = [self.errors(step) for step in (10, 5, 2, 1)]
        for step, errors in zip((10, 5, 2, 1), found):
            self.assertIn(f"| {step} s | {float(100 * errors[0]):.3f} % | {float(100 * errors[1]):.3f} % |", PAGE)
        for errors in zip(*found):
            self.assertEqual(list(errors), sorted(errors, reverse=True))
        self.assertLess(max(found[0]), Fraction(1, 50))  # in slots of 10 s
        self.assertLess(max(found[-1]), Fraction(1, 10000))  # in slots of 1 s


# Links of 500 m at 50 km/h take a slot of 36 s freely and for a wave. With 40 vehicles a km at a standstill they let 10
# through in a slot, which is 1,000 an hour.
def road(name: str, tail: str, head: str, per_hour: int) -> str:
    """A row of such a link with a capacity in vehicles an hour."""
    return f"{name},{tail},{head},500,50,50,{per_hour // 25}"


def crossing(ins: list[int], outs: list[int], demands: list[list[int]]) -> list[list[float]]:
    """What moves through one node in a slot, in vehicles an hour by in-link and out-link: in-links and out-links have
    these capacities, and so many vehicles an hour want each turn."""
    case = Made(
        f"{SETUP}\n36000,2,32",
        links=[road(f"i{i}", f"o{i}", "x", most) for i, most in enumerate(ins)]
        + [road(f"j{j}", "x", f"d{j}", most) for j, most in enumerate(outs)],
        demand=[
            f"o{i},d{j},0,1,{wanted // 100}.{wanted % 100:02}"
            for i, row in enumerate(demands)
            for j, wanted in enumerate(row)
        ],
        splits=[f"o{i},d{j},0,i{i}=1" for i in range(len(ins)) for j in range(len(outs))]
        + [f"x,d{j},0,j{j}=1" for j in range(len(outs))],
    )
    counts = case.curves()
    return [[counts["down", f"i{i}", f"d{j}"][2] / 10 for j in range(len(outs))] for i in range(len(ins))]


@needs_program
class Nodes(unittest.TestCase):
    def near(self, found: list[list[float]], wanted: list[list[float]]) -> None:
        """Each flow is within half a vehicle an hour of the one that was published."""
        for i, row in enumerate(wanted):
            for j, flow in enumerate(row):
                self.assertLessEqual(abs(found[i][j] - flow), 0.5, f"from in-link {i} to out-link {j}: {found[i][j]}")

    def test_the_worked_node(self) -> None:
        """The example with four in-links and four out-links of Tampère, Corthout, Cattrysse and Immers (2011)."""
        demands = [[0, 50, 150, 300], [100, 0, 300, 1600], [100, 100, 0, 600], [100, 800, 800, 0]]
        published = [[0, 50, 150, 300], [68, 0, 205, 1096], [100, 100, 0, 600], [81, 645, 645, 0]]
        capacities = [1000, 2000, 1000, 2000]
        # The first in-link leaves 850 an hour of the third out-link to the second and the fourth one. These are held
        # back to one part of their capacities in the directions that they want; the others pass whole.
        part = 850 / (300 + 2000 * Fraction(800, 1700))
        exact = [[Fraction(it) for it in row] for row in demands]
        exact[1] = [part * it for it in exact[1]]
        exact[3] = [part * Fraction(2000, 1700) * it for it in exact[3]]
        self.assertEqual([[round(it) for it in row] for row in exact], published)
        found = crossing(capacities, capacities, demands)
        self.near(found, [[float(it) for it in row] for row in exact])
        for number, (row, flows) in enumerate(zip(published, found), 1):
            cells = " | ".join(f"{flow} ({own:.1f})" for flow, own in zip(row, flows))
            self.assertIn(f"| {number} | {cells} |", PAGE)

    def test_a_merge(self) -> None:
        """Daganzo (1995): both wait and share by capacity, or one has less than its part and the other the rest."""
        for wanted, flows in (
            ((1000, 2000), (666.7, 1333.3)),
            ((400, 2000), (400, 1600)),
            ((1000, 500), (1000, 500)),
            ((1000, 1200), (800, 1200)),
        ):
            with self.subTest(wanted=wanted):
                found = crossing([1000, 2000], [2000], [[it] for it in wanted])
                self.near(found, [[it] for it in flows])
                self.shown(wanted, flows, [row[0] for row in found])

    def test_a_diverge(self) -> None:
        """Daganzo (1995): whoever waits for one branch holds up those behind, who would take the other."""
        for wanted, flows in ((1000, 1000), (500, 500)), ((1500, 500), (1000, 333.3)):
            found = crossing([2000], [1000, 500], [list(wanted)])
            self.near(found, [list(flows)])
            self.shown(wanted, flows, found[0])

    def shown(self, wanted: Sequence[int], flows: Sequence[float], found: Sequence[float]) -> None:
        """The page has a row of two flows."""
        cells = ["{:.1f} and {:.1f}".format(*pair) for pair in (flows, found)]
        self.assertIn(f"| {wanted[0]} and {wanted[1]} | {cells[0]} | {cells[1]} |", PAGE)


@needs_program
class Signal(unittest.TestCase):
    def test_uniform_delay(self) -> None:
        """The first term of Webster's formula (1958): of a cycle c with the part g green, a vehicle waits
        c (1 - g)^2 / (2 (1 - flow / saturation)). With 90 s, half of it green, 720 an hour and a saturation of 1,800
        an hour it is 18.75 s."""
        uniform = Fraction(90) * Fraction(1, 4) / (2 * (1 - Fraction(720, 1800)))
        self.assertEqual(uniform, Fraction(75, 4))
        for step in (15, 5, 1):
            cycle, vehicles = 90 // step, 180
            case = Made(
                f"{SETUP},signals\n{step * 1000},{13 * cycle},32,1",
                links=["a,o,d,1250,50,50,72"],
                demand=[f"o,d,0,{10 * cycle},{vehicles}"],
                splits=["o,d,0,a=1"],
                signals=[f"a,{k * cycle},{k * cycle + cycle // 2},0" for k in range(13)],
            )
            self.assertEqual(case.totals()["queued"], uniform * vehicles, step)


if __name__ == "__main__":
    unittest.main()
