"""The comparison of a loading with SUMO's mesoscopic run, on what SUMO and the program write, made by hand."""
import importlib.util
import subprocess
import sys
import unittest
from fractions import Fraction
from pathlib import Path
from typing import Any

from support import BUILT, EXAMPLES, FolderTest, needs, needs_program
from support_sumo import release

from ltm_tools.case import Case, Demand, Link, Setup
from ltm_tools.case.source import Source, SourceLink
from ltm_tools.loading.delay import MILLIONTHS, Delay, Report, Wait
from ltm_tools.sumo.net import read_net


FROM_SUMO = EXAMPLES / "from_sumo"
IMPORT = EXAMPLES.parent / "tools" / "ltm-tools"
BEFORE = ("--saturation", "road", "--entries", "none", "--carry", "0", "--yielding", "none")
"""Stop lines let through what their roads carry, nobody has an entry, what is rounded off is lost, and nobody yields
without a light: as in the town's report of another engine."""
TOWN = ("town.net.xml", "town.rou.xml", "town.add.xml")
BOLOGNA = "/usr/share/sumo/tools/sumolib/scenario/scenarios/RealWorld/joined/joined"


def example_script() -> Any:
    """The script of the example as a module."""
    spec = importlib.util.spec_from_file_location("compare_example", FROM_SUMO / "compare.py")
    assert spec is not None and spec.loader is not None
    module = importlib.util.module_from_spec(spec)
    sys.modules["compare_example"] = module
    spec.loader.exec_module(module)
    return module


compare = example_script()

# two edges of 200 m at 10 m/s, 20 s each
NET = "".join(
    f'<edge id="{name}" from="{tail}" to="{head}"><lane id="{name}_0" index="0" speed="10" length="200"/></edge>'
    for name, tail, head in (("in", "A", "B"), ("on", "B", "C"))
)
TRIPS = (
    '<tripinfos><tripinfo id="1" depart="900.00" departDelay="0.00" duration="50.00" arrival="950.00"/>'
    '<tripinfo id="2" depart="910.00" departDelay="4.00" duration="60.00" arrival="970.00"/></tripinfos>'
)
DATA = (
    '<meandata><interval begin="0" end="970" id="whole"><edge id="in" sampledSeconds="70.00" left="2" arrived="0"/>'
    '<edge id="on" sampledSeconds="40.00" left="0" arrived="2"/><edge id=":B_0" sampledSeconds="9" left="2"'
    ' arrived="0"/></interval></meandata>'
)
WHOLE = '<statistics><vehicles loaded="2"/><teleports total="3" jam="3"/></statistics>'


class Read(FolderTest):
    def setUp(self) -> None:
        super().setUp()
        for name, text in (
            ("n.net.xml", f"<net>{NET}</net>"),
            ("trips.xml", TRIPS),
            ("edges.xml", DATA),
            ("whole.xml", WHOLE),
        ):
            (self.folder / name).write_text(text)
        self.net = read_net(
            self.folder / "n.net.xml", vehicle_class="passenger", headway=Fraction(113, 100), spacing=Fraction(15, 2)
        )
        self.run_of = compare.read_run(self.folder, self.net)

    def test_what_sumo_wrote(self) -> None:
        # 50 and 60 s on the way and 4 s at the start; on `in` two vehicles need 40 s of the 70, on `on` all 40
        run = self.run_of
        self.assertEqual((run.spent, run.waited, run.queued, run.delay), (114, 4, {"in": 30, "on": 0}, 34))
        self.assertEqual((run.arrivals, run.first_ms, run.moved), ([950_000, 970_000], 900_000, 3))

    def test_links_by_the_edges_that_they_are_made_of(self) -> None:
        source = Source(
            {"in": SourceLink("A", "B", "x"), "on": SourceLink("B", "C", "y"), "on_exit": SourceLink("B", "C", "z")}, {}
        )
        report = Report(
            {
                name: Delay(0, seconds * MILLIONTHS, 0, 0)
                for name, seconds in (("x", 5), ("y", 6), ("z", 7), ("made", 8))
            },
            {},
        )
        ours, theirs = compare.by_label(report, self.run_of, source, self.net)
        self.assertEqual((ours, theirs), ({"in": 5, "on": 13, "made": 8}, {"in": 30, "on": 0}))
        self.assertEqual(compare.likeness({"a": 1, "b": 2, "c": 3}, {"a": 2, "b": 4, "c": 6}), 1)
        # a link with turns: those of `in` count for it
        source = Source({"in": SourceLink("A", "B", "x", ("z",)), "on": SourceLink("B", "C", "y")}, {})
        self.assertEqual(compare.by_label(report, self.run_of, source, self.net)[0], {"in": 12, "on": 6, "made": 8})
        # that turn has become one with `on`: both edges have all of it
        source = Source({"in": SourceLink("A", "B", "x", ("y",)), "on": SourceLink("B", "C", "y")}, {})
        self.assertEqual(
            compare.by_label(report, self.run_of, source, self.net), ({"in on": 11, "z": 7, "made": 8}, {"in on": 30})
        )
        source = Source({"in": SourceLink("A", "B", "x"), "on": SourceLink("B", "C", "x")}, {})
        self.assertEqual(compare.by_label(report, self.run_of, source, self.net)[1], {"in on": 30})

    def test_the_hours_of_both(self) -> None:
        report = Report({"in": Delay(90 * MILLIONTHS, 18 * MILLIONTHS, 0, 0)}, {"A": Wait(0, 0, 0)})
        lines = compare.totals_table(report, self.run_of)
        # of 114 s SUMO has 30 beyond the limit on links and 4 at the start
        self.assertEqual([line.split()[-4:] for line in lines[1:2]], [["0.03", "0.03", "-21.1", "%"]])
        self.assertEqual([line.split()[-2:] for line in lines[2:]], [["-10.0", "%"], ["-40.0", "%"], ["-100.0", "%"]])

    def test_a_word_for_sumo_that_begins_with_a_sign(self) -> None:
        words = ["case", "net", "--sumo", "--meso-junction-control", "cars"]
        self.assertEqual(compare.one_word(words), ["case", "net", "--sumo=--meso-junction-control", "cars"])
        self.assertEqual(compare.one_word(["case", "--sumo"]), ["case", "--sumo"])

    def test_types_of_vehicles_are_no_programs(self) -> None:
        """By which SUMO's mesoscopic run minds signals."""
        (self.folder / "types.xml").write_text('<additional><vType id="car"/></additional>')
        (self.folder / "plans.xml").write_text('<additional><tlLogic id="t"/></additional>')
        self.assertEqual(
            [compare.has_programs(str(self.folder / name)) for name in ("types.xml", "plans.xml")], [False, True]
        )

    def test_arrivals_at_whole_minutes(self) -> None:
        case = Case(Setup(30_000, 4, 1), [Link("in", "A", "B", 200, 36, 18, 150)], [Demand("A", "B", 0, 1, 2000)])
        lines = compare.arrivals_table(case, [0, 0, 500, 2000, 2000], self.run_of, 900_000)
        self.assertEqual([line.split() for line in lines[1:]], [["0:16", "0", "1", "-0"], ["0:17", "2", "2", "+0"]])

    def test_the_links_with_most_delay_and_their_place_on_the_other_side(self) -> None:
        lines = compare.links_table({"a": Fraction(3600), "b": Fraction(7200)}, {"a": Fraction(1800), "c": Fraction(0)})
        self.assertEqual(lines[2].split(), ["1", "b", "2.00", "0.00", "(-)", "a", "1.00", "0.50", "(2)"])
        self.assertEqual(lines[-1], "1 of them stand on both sides")


@needs_program
@unittest.skipUnless(release().endswith(" 1.15.0"), "not installed: sumo 1.15.0, which made the town of town.out")
class Beside(FolderTest):
    def run_all(self, *lines: list[str | Path]) -> str:
        """What the last of some commands writes, all of which run in the folder of the test and end well."""
        for line in lines:
            done = subprocess.run([str(word) for word in line], cwd=self.folder, capture_output=True, text=True)
            self.assertEqual((done.returncode, done.stderr), (0, ""))
        return done.stdout

    def make(self, *words: str) -> None:
        """The town, and the case that is made of it with these words."""
        self.run_all(
            [FROM_SUMO / "make.py", "town", "."],
            [IMPORT, "from-sumo", *TOWN, "case", "--fit", "5s", "--horizon", "75", *BEFORE, *words],
        )

    def compared(self, *words: str | Path) -> tuple[float, float, float]:
        """The vehicle hours of the case and of SUMO, and the correlation of delay by edge, as compare.py tells them."""
        told = self.run_all([FROM_SUMO / "compare.py", "case", *words, "--program", BUILT])
        hours = next(line.split() for line in told.splitlines() if line.startswith("all "))
        return float(hours[1]), float(hours[2]), float(told.split()[-1])

    def test_the_towns_report_without_signals_is_that_of_another_engine(self) -> None:
        self.make("--moves", "0", "--turns", "none")
        setup = self.folder / "case" / "setup.csv"
        header, row = setup.read_text().split()
        self.assertEqual(header.split(",")[3:], ["signals"])
        setup.write_text(header.removesuffix(",signals") + "\n" + row.removesuffix(",1") + "\n")
        told = subprocess.run([str(BUILT), "load"], cwd=self.folder / "case", capture_output=True, text=True)
        self.assertEqual(told.stdout, (FROM_SUMO / "town.out").read_text())

    def test_the_town_with_turns_is_near_to_sumo(self) -> None:
        self.make("--no-yellow", "--lanes", "counted")
        ours, theirs, likeness = self.compared(*TOWN)
        self.assertGreater(likeness, 0.985)
        self.assertLess(abs(ours / theirs - 1), 0.03)

    @needs("sumo-tools")
    def test_a_real_network_is_near_to_sumo_without_its_drop(self) -> None:
        net, types, routes, plans = (
            f"{BOLOGNA}{end}.xml" for end in ("_buslanes.net", "_vtypes.add", ".rou", "_tls.add")
        )
        words = ["--fit", "2s", "--horizon", "150", "--lanes", "full", "--allow-losses", *BEFORE]
        self.run_all([IMPORT, "from-sumo", net, types, routes, plans, "case", *words])
        self.assertGreater(self.compared(net, routes, types, plans, "--sumo", " ".join(compare.NO_DROP))[2], 0.85)


if __name__ == "__main__":
    unittest.main()
