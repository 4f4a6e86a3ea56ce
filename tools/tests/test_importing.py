"""Networks imported from Python: what is given, what is refused, and that each run gives the same."""
import argparse
import subprocess
import sys
import unittest
from fractions import Fraction
from pathlib import Path

import commands
from support import EXAMPLES, FolderTest, TOOLS
from ltm_tools.case import Case, Demand, Link, Setup
from ltm_tools.commands import from_gmns, from_sumo, from_tntp
from ltm_tools.errors import Fault
from ltm_tools.gmns.importing import GmnsOptions, import_gmns, steps_of_gmns
from ltm_tools.network.early import check_destinations, destinations_that_fit
from ltm_tools.network.importing import NotCarried
from ltm_tools.network.network import Network, Node, road_of
from ltm_tools.network.bad_option import BadOption
from ltm_tools.network.crossings.options import CrossingOptions
from ltm_tools.network.options import Options
from ltm_tools.sumo.importing import import_sumo
from ltm_tools.sumo.options import SumoOptions
from ltm_tools.tntp.importing import TntpOptions
from support_sumo import SumoTest

TOWN = EXAMPLES / "from_gmns" / "gmns"
PLAIN = "link_id,from_node_id,to_node_id,length,lanes,free_speed,capacity\na,1,2,1000,1,60,1000\nb,2,3,1000,1,60,1000\n"


class Gmns(FolderTest):
    def net(self, links: str) -> Path:
        (self.folder / "net").mkdir()
        (self.folder / "net" / "link.csv").write_text(links)
        return self.folder / "net"

    def test_the_case_is_given_and_nothing_is_written(self) -> None:
        made = import_gmns(self.net(PLAIN), GmnsOptions(entries=False, horizon=60))
        # 1000 m at 60 km/h take a minute; a lane of 150 vehicles/km at 60 km/h with a wave of 8 km/h lets 1000 through:
        # 150 * 480 / 68 = 1058.8, and 7: 940.3
        self.assertEqual(
            made.case,
            Case(
                Setup(60_000, 60, 32_000, carry=True),
                [Link("a", "1", "2", 1000, 60, 8, 150), Link("b", "2", "3", 1000, 60, 8, 150)],
            ),
        )
        self.assertIsNone(made.changes)
        self.assertEqual((made.source.nodes, made.source.links["b"].link), ({"1": "1", "2": "2", "3": "3"}, "b"))
        self.assertEqual(made.told[0], "2 links, 3 nodes, 0 destinations")
        self.assertEqual([path.name for path in self.folder.iterdir()], ["net"])

    def test_what_is_written_is_what_the_command_writes(self) -> None:
        words = (
            "--period",
            "30",
            "--horizon",
            "30",
            "--fit",
            "60s",
            "--destinations",
            "2",
            "--no-balance",
            "--entries",
            "none",
        )
        status, out, _ = commands.run("from-gmns", str(TOWN), str(self.folder / "one"), *words)
        made = import_gmns(
            TOWN, GmnsOptions(entries=False, period=30, horizon=30, fit=60_000, destinations=2, balance=False)
        )
        self.assertEqual(made.write(self.folder / "other"), [])
        self.assertEqual((status, out), (0, "".join(line + "\n" for line in made.told)))
        self.assertEqual(
            {path.name: path.read_bytes() for path in (self.folder / "one").iterdir()},
            {path.name: path.read_bytes() for path in (self.folder / "other").iterdir()},
        )
        self.assertEqual(Case.read(self.folder / "other"), made.case)
        self.assertTrue(made.changes)

    def test_older_files(self) -> None:
        made = import_gmns(self.net(PLAIN), GmnsOptions(entries=False))
        case = self.case()
        (case / "changes.csv").write_text("")
        self.assertEqual(
            made.write(case),
            [f"an older splits.csv stands in {case}: ltm routes, or ltm-tools splits, makes it anew"],
        )
        self.assertFalse((case / "changes.csv").exists())

    def test_what_cannot_be_carried(self) -> None:
        net = self.net(PLAIN.replace("1000,1,60", "990,1,60"))
        with self.assertRaises(NotCarried) as caught:
            import_gmns(net, GmnsOptions(entries=False, step=60_000))
        # 990 m at 60 km/h take 59.4 s
        first = "link a: 990 m at 60 and 8 km/h allow a step of at most 59400 ms, and 60000 ms are asked for"
        self.assertEqual((caught.exception.lines[0], len(caught.exception.lines)), (first, 2))
        self.assertEqual(str(caught.exception), f"cannot be carried: {first}, and 1 more such faults")
        self.assertIsInstance(caught.exception, Fault)
        self.assertEqual(
            caught.exception.told()[2:4][0],
            "the longest step that changes no link is 59400 ms; --fit STEP fits the network to a step:",
        )

    def test_options_out_of_range(self) -> None:
        for options, told in (
            ({"horizon": 0}, "horizon is at least 1"),
            ({"origin_capacity": 33}, "origin_capacity is 1 to 32"),
            ({"fit": 0}, "fit is 1 to 60000"),
        ):
            with self.subTest(told), self.assertRaises(BadOption) as caught:
                GmnsOptions(entries=False, **options)
            self.assertEqual(str(caught.exception), told)
        with self.assertRaises(BadOption):
            SumoOptions(demand_slice=0)

    def test_steps(self) -> None:
        lines = steps_of_gmns(self.net(PLAIN))
        # two links of a minute fit each step of the table to a minute, and the horizon of two hours in steps of half a
        # second has too many slots
        self.assertEqual(
            lines[1].split(), ["500", "2", "0", "0", "0", "0", "0", "+0.00", "%", "+0.00", "%", "14,400", "slots"]
        )
        self.assertEqual(len(lines), 13)


class Sizes(unittest.TestCase):
    def test_destinations_that_are_advised_fit(self) -> None:
        """A row of 4,000 links has 72,005 cells a slot and 24,004 beside with one destination, and with each further
        one 48,004 a slot and 24,004 more: with 10,000 slots 8 destinations have fewer than 4,294,967,296 cells, and 9
        more."""
        raw = Network()
        for number in range(4001):
            raw.add_node(Node(f"n{number}"))
        for number in range(4000):
            raw.add(
                road_of(
                    *(f"a{number}", f"n{number}", f"n{number + 1}"),
                    metres=Fraction(100),
                    kmh=Fraction(50),
                    jam=Fraction(150),
                    capacity=Fraction(1800),
                )
            )
        self.assertEqual(destinations_that_fit(raw, 10_000_000, 1000), 8)
        self.assertEqual(destinations_that_fit(raw, 10_000_000, None), 256)
        with self.assertRaisesRegex(Fault, "--destinations 8 .about 8 fit into the cells .* these are the nodes 8, 9,"):
            check_destinations(map(str, range(300)), Options(history=True), 8)
        with self.assertRaisesRegex(Fault, "give --destinations 256, which"):
            check_destinations(map(str, range(300)), Options(history=True))
        check_destinations(map(str, range(2000)), Options(), 8)
        with self.assertRaisesRegex(Fault, "there are 2001 destinations, .* give --destinations 2000, which"):
            check_destinations(map(str, range(2001)), Options(), 8)


class Sumo(SumoTest):
    def test_the_case_is_given(self) -> None:
        status, out, _ = self.make(
            "--begin",
            "0:00",
            "--horizon",
            "10",
            "--fit",
            "2s",
            "--headway",
            "2",
            "--no-signals",
            routes='<vehicle id="x" depart="7.5"><route edges="in on"/></vehicle>',
        )
        made = import_sumo(
            self.folder / "net.net.xml",
            [self.folder / "routes.rou.xml"],
            SumoOptions(
                begin_ms=0,
                horizon=10,
                fit=2000,
                headway=Fraction(2),
                signals=False,
                entries=False,
                carry=False,
                ends="node",
                crossings=CrossingOptions(turns="none", saturation=None),
            ),
        )
        self.assertEqual((status, out), (0, "".join(line + "\n" for line in made.told)))
        # a minute of a slice has 30 slots of 2 s
        self.assertEqual(made.case.demand, [Demand("A", "C", 0, 30, 1000)])
        self.assertEqual(Case.read(self.folder / "case"), made.case)


# a ladder whose rungs of 20 m are too short for a step of 5 s at 36 km/h
LADDER = (
    "link_id,from_node_id,to_node_id,length,lanes,free_speed,capacity\n"
    + "".join(
        f"{side}{k},{side}_{k},{side}_{k + 1},{length},1,36,800\n"
        for k in range(8)
        for side, length in (("u", 150), ("d", 170))
    )
    + "".join(f"r{k},u_{k},d_{k},20,1,36,800\nl{k},d_{k},u_{k},25,1,36,800\n" for k in range(9))
)
PAIRS = "o_zone_id,d_zone_id,volume\n" + "".join(
    f"{one}_{k},{other}_8,{9 + k}\n" for k in range(7) for one in "ud" for other in "ud"
)


class EachRun(FolderTest):
    def test_gives_the_same(self) -> None:
        for name, text in (("link", LADDER), ("demand", PAIRS)):
            (self.folder / f"{name}.csv").write_text(text)
        script = (
            "from ltm_tools.gmns.importing import GmnsOptions, import_gmns; import sys\n"
            "made = import_gmns(sys.argv[1], GmnsOptions(entries=False, fit=5000, rename=True)); print(made.changes,"
            " made.case,"
            " made.told)"
        )
        runs = {
            subprocess.run(
                [sys.executable, "-B", "-c", script, str(self.folder)],
                cwd=TOOLS,
                env={"PYTHONHASHSEED": str(seed)},
                capture_output=True,
                check=True,
            ).stdout
            for seed in range(4)
        }
        self.assertEqual(len(runs), 1)
        self.assertIn(b"evened out", next(iter(runs)))


class Defaults(unittest.TestCase):
    def test_those_of_python_are_those_of_the_commands(self) -> None:
        """What is asked for without any option, by a command and from Python."""
        for module, words, options in (
            (from_sumo, ("net", "case"), SumoOptions()),
            (from_gmns, ("net", "case"), GmnsOptions()),
            (from_tntp, ("net", "trips", "case"), TntpOptions()),
        ):
            with self.subTest(module.NAME):
                parser = argparse.ArgumentParser()
                module.add_arguments(parser)
                self.assertEqual(module.options_of(parser.parse_args(words)), options)


if __name__ == "__main__":
    unittest.main()
