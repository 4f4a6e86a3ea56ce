"""Capacities of stop lines beside demand, on a road where both are known by hand."""
import unittest
from fractions import Fraction

import commands
from support import BUILT, FolderTest, lack_of, needs_program
from ltm_tools.case import Case

if lack_of("python3-numpy"):
    raise unittest.SkipTest(lack_of("python3-numpy"))

import numpy

from ltm_tools.calibrate.capacities import Capacities
from ltm_tools.calibrate.search import CalibrateOptions, Search
from ltm_tools.calibrate.unknowns import Prior
from ltm_tools.counting.counts import Count, Point, Timed
from ltm_tools.loading.flows import Span

SETUP = "step_ms,slots,origin_capacity,signals\n1000,600,32,1\n"
LINKS = (
    "link,from,to,length_m,free_kmh,wave_kmh,jam_per_km\n"
    "road,o,m,2000,36,18,300\nbehind,m,d,400,36,18,300\nside,p,m,400,72,18,300\n"
)
SPLITS = "node,destination,from_slot,weights\no,d,0,road=1\nm,d,0,behind=1\np,d,0,side=1\n"
# In truth 120 vehicles set out in 200 s, 0.6 a second, and 0.4 a second pass the stop line of `road`, behind 200 s of
# free flow. Who sets out at t seconds waits t (0.6 / 0.4 - 1) = t / 2 seconds. The case has 0.5 a second at the stop
# line, which is 1.25 times too much, and 110 vehicles.
SIGNALS = "link,from_slot,to_slot,vehicles\nroad,0,600,0.5\nside,0,300,0.7\nside,10,20,0\n"
DEMAND = "origin,destination,from_slot,to_slot,vehicles\no,d,0,200,110\n"
COUNTS = "link,from,to,vehicles,error\nbehind,220,270,20,0.2\nbehind,270,320,20,0.2\n"
TIMES = "route,departs,seconds,error\nroad,60,230,1\nroad,100,250,1\n"


@needs_program
class StopLineAndDemand(FolderTest):
    def calibrated(self, *words: str, times: bool = True) -> str:
        """What `calibrate` prints; the case it finds is `made`."""
        case = self.folder / "case"
        case.mkdir(exist_ok=True)
        files = {"setup": SETUP, "links": LINKS, "splits": SPLITS, "signals": SIGNALS, "demand": DEMAND}
        for name, text in {**files, "counts": COUNTS, "times": TIMES}.items():
            ((self.folder if name in ("counts", "times") else case) / f"{name}.csv").write_text(text)
        more = ["--times", str(self.folder / "times.csv")] if times else []
        files_named = ["--counts", str(self.folder / "counts.csv"), "-o", str(self.folder / "made")]
        status, told, err = commands.run(
            "calibrate", str(case), *files_named, *more, *words, "--slice", "10", "--program", str(BUILT)
        )
        self.assertEqual(status, 0, err)
        return told

    def found(self) -> dict[str, tuple[float, float]]:
        """The factor of each group, and how well it is known."""
        rows = [line.rsplit(",", 3) for line in (self.folder / "made/capacities_fit.csv").read_text().splitlines()[1:]]
        return {row[0].strip('"'): (float(row[2]), float(row[3])) for row in rows}

    def test_both_are_found(self) -> None:
        told = self.calibrated("--capacities", "class", "--samples", "2")
        found = self.found()
        factor, known = found["36 km/h, 300 vehicles/km"]
        self.assertLess(abs(factor - 0.8), 0.01)
        self.assertGreater(known, 0.9)
        self.assertEqual(found["72 km/h, 300 vehicles/km"], (1.0, 0.0))
        made = Case.read(self.folder / "made")
        self.assertLess(abs(sum(row.units for row in made.demand) - 120_000), 2000)
        limits = {row.link: row.units for row in made.signals if row.link == "road"}
        self.assertLess(abs(limits["road"] - 400), 5)
        self.assertEqual([row.units for row in made.signals if row.link == "side"], [700, 0])
        self.assertIn("of the capacity of 1 stop line, known to", told)

    def test_slopes_of_capacities(self) -> None:
        """At the case's own demand and capacity, by a capacity of half an error less and of half an error more, which
        are 0.475 and 0.525 a second: 50 s of it pass, counted to 0.2 vehicles, and who sets out at 60 s or 100 s waits
        60 (0.55 / 0.475 - 1) and so on."""
        self.calibrated("--samples", "0", "--iterations", "0")
        case = Case.read(self.folder / "case")
        spans = [Span(220_000, 270_000), Span(270_000, 320_000)]
        counts = [Count("", (Point("behind"),), span, Fraction(20), Fraction(1, 5), "fit", "") for span in spans]
        times = [Timed("", ("road",), 1000 * at, Fraction(230), Fraction(1), "fit", "") for at in (60, 100)]
        options = CalibrateOptions(capacities="class")
        with Search(Prior(case, 600), counts, times, [["road"], ["road"]], options, BUILT) as search:
            slopes = search.slopes(search.begin())[:, search.effects.of_demand]
        wanted = [50 * 0.05 / 0.2] * 2 + [at * 0.55 * (1 / 0.525 - 1 / 0.475) for at in (60, 100)]
        numpy.testing.assert_allclose(slopes, wanted, atol=0.3)

    def test_without_capacities_the_times_are_not_met(self) -> None:
        """Demand alone meets either the count or the times: 0.4 a second make no queue at the case's stop line."""
        self.calibrated("--samples", "0")
        misfit = float((self.folder / "made/iterations.csv").read_text().splitlines()[-1].split(",")[3])
        self.assertGreater(misfit, 100)

    def test_what_counts_cannot_tell(self) -> None:
        """Twenty vehicles behind the stop line, and no times: so few for want of demand, or of capacity."""
        self.calibrated("--capacities", "junction", "--samples", "2", times=False)
        self.assertLess(self.found()["m"][1], 0.9)

    def test_factors_of_limits(self) -> None:
        self.calibrated("--samples", "0", "--iterations", "0")
        made = Capacities(Case.read(self.folder / "case"), "class")
        self.assertEqual(
            [group.name for group in made.groups], ["36 km/h, 300 vehicles/km", "72 km/h, 300 vehicles/km"]
        )
        self.assertEqual(
            [(row.link, row.from_slot, row.units) for row in made.rows([1000, 500])],
            [("road", 0, 500), ("side", 0, 350), ("side", 10, 0), ("side", 20, 350)],
        )
        self.assertEqual(
            [edit.told() for edit in made.edits([1000, 1000], [800, 1000])],
            [{"kind": "exit", "link": "road", "from": 0, "to": 600, "vehicles": "0.4"}],
        )


if __name__ == "__main__":
    unittest.main()
