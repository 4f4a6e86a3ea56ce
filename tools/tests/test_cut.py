"""The inside of a network as a case: worked by hand, with vehicles that come in at the edge, from an origin inside, and
through a node that both come to; and with a queue over the edge."""
import csv
import re
import shutil
import subprocess
import unittest
from pathlib import Path
from unittest import mock

import commands
from support import BUILT, EXAMPLES, FolderTest, needs, needs_program
from ltm_tools.case import Link, history
from ltm_tools.case.roads import Roads
from ltm_tools.cutting.cut import demand_rows
from ltm_tools.cutting.exits import parts_of
from ltm_tools.cutting.inside import Inside

# o -in0-> m -l1-> n -l2-> p -x-> d, with r -z-> n and n -y-> q; m, n and p are inside. At 10 m/s in0 takes 2 s, l1 3 s.
LINKS = "link,from,to,length_m,free_kmh,wave_kmh,jam_per_km\n" + "".join(
    f"{name},{tail},{head},{metres},36,18,150\n"
    for name, tail, head, metres in (
        ("in0", "o", "m", 20),
        ("l1", "m", "n", 30),
        ("l2", "n", "p", 20),
        ("x", "p", "d", 20),
        ("y", "n", "q", 20),
        ("z", "r", "n", 20),
    )
)
SPLITS = "node,destination,from_slot,weights\n" + "".join(
    f"{node},{end},0,{link}=1\n"
    for node, end, link in (
        ("o", "d", "in0"),
        ("m", "d", "l1"),
        ("n", "d", "l2"),
        ("p", "d", "x"),
        ("r", "d", "z"),
        ("o", "q", "in0"),
        ("m", "q", "l1"),
        ("n", "q", "y"),
    )
)
DEMAND = (
    "origin,destination,from_slot,to_slot,vehicles\n"
    "o,d,0,4,1\no,q,0,4,0.5\nn,d,0,4,0.4\nr,d,3,5,0.2\n"  # 0.25, 0.125, 0.1 and 0.1 a slot
)
NODES = "name,x,y\no,-20,0\nm,0,0\nn,30,0\np,50,0\nd,70,0\nq,30,-20\nr,30,20\n"
CASE = {
    "setup": "step_ms,slots,origin_capacity\n1000,60,32\n",
    "links": LINKS,
    "demand": DEMAND,
    "splits": SPLITS,
}
NO_HISTORY = "step_ms,slots,origin_capacity,history\n1000,60,32,0\n"
BOX = ("--box", "0", "0", "50", "0")


@needs_program
class ACut(FolderTest):
    def cut(self, *words: str, **files: str) -> "tuple[int, str, str]":
        case = self.case(**{**CASE, **files})
        (case / "nodes.csv").write_text(NODES)
        return commands.run("cut", str(case), *words, "-o", str(self.folder / "out"), "--program", str(BUILT))

    def rows(self, name: str) -> "list[tuple[str, ...]]":
        with open(self.folder / "out" / name, encoding="utf-8") as file:
            return [tuple(row.values()) for row in csv.DictReader(file)]

    def test_what_comes_in_and_leaves(self) -> None:
        """What sets out at o in slots 0 to 3 comes to m in slots 2 to 5, and leaves the inside at p for d and at n for
        q. That of r comes to n in slots 5 and 6, with some of that from m."""
        status, out, err = self.cut(*BOX)
        self.assertEqual((status, err), (0, ""))
        self.assertEqual([row[0] for row in self.rows("links.csv")], ["l1", "l2"])
        self.assertEqual(
            sorted(self.rows("demand.csv")),
            [
                ("m", "n", "2", "6", "0.5"),
                ("m", "p", "2", "6", "1"),
                ("n", "p", "0", "4", "0.4"),
                ("n", "p", "5", "7", "0.2"),
            ],
        )
        self.assertEqual(
            [row[:3] + (row[3].partition("=")[0],) for row in self.rows("splits.csv")],
            [("m", "n", "0", "l1"), ("m", "p", "0", "l1"), ("n", "p", "0", "l2")],
        )
        self.assertEqual([row[0] for row in self.rows("nodes.csv")], ["m", "n", "p"])
        self.assertIn("2 of 6 links, 2 origins, 2 destinations; 2.1 vehicles come in or set out\n", out)
        self.assertIn("no queue reaches the edge\n", out)
        self.assertIn("differ most at l1, by 0 vehicles at boundary 0\n", out)

    def test_splits_that_change_on_the_way(self) -> None:
        """At n all for d go by l2 up to slot 5, and by y from slot 6 on. Who enters in0 in slot 0 is at n in slot 5,
        and those of slots 1 to 3 are there later, so that they leave at n."""
        splits = SPLITS + "n,d,6,y=1\nq,d,0,yd=1\n"
        demand = "origin,destination,from_slot,to_slot,vehicles\no,d,0,4,1\n"
        status, out, err = self.cut(
            *("--box", "-20", "0", "50", "0"), links=LINKS + "yd,q,d,20,36,18,150\n", splits=splits, demand=demand
        )
        self.assertEqual((status, err), (0, ""))
        self.assertEqual(sorted(self.rows("demand.csv")), [("o", "n", "1", "4", "0.75"), ("o", "p", "0", "1", "0.25")])
        self.assertIn("differ most at in0, by 0 vehicles", out)

    def test_links_by_a_file(self) -> None:
        """With y inside as well, q is the end of those that go there."""
        (self.folder / "wanted.csv").write_text("link\nl1\ny\n")
        status, out, err = self.cut("--links", str(self.folder / "wanted.csv"))
        self.assertEqual((status, err), (0, ""))
        self.assertEqual(sorted(self.rows("demand.csv")), [("m", "n", "2", "6", "1"), ("m", "q", "2", "6", "0.5")])

    def test_a_queue_over_the_edge(self) -> None:
        """Nobody leaves x, which stores 3 vehicles: of 5 the others stand inside, and in the cut they go on."""
        status, out, err = self.cut(
            *BOX,
            setup="step_ms,slots,origin_capacity,signals\n1000,60,32,1\n",
            demand="origin,destination,from_slot,to_slot,vehicles\no,d,0,10,5\n",
            signals="link,from_slot,to_slot,vehicles\nx,0,60,0\n",
        )
        self.assertEqual((status, err), (0, ""))
        self.assertRegex(out, r"queues reach the edge at 1 link, most at x \([0-9]+ slots\)")
        self.assertRegex(out, r"differ most at l2, by 2(\.[0-9]+)? vehicles")
        (self.folder / "case" / "street_names.csv").write_text("link,street\nx,Allee\nl2,Weg\n")
        words = (str(self.folder / "case"), *BOX, "-o", str(self.folder / "out"), "--program", str(BUILT))
        out = commands.run("cut", *words)[1]
        self.assertRegex(out, r"most at Allee \(x\) \(")
        self.assertIn("differ most at Weg (l2), by ", out)

    def test_what_is_refused(self) -> None:
        for words, told in (
            (("--box", "0", "0", "1", "1"), "no link of the case has both ends inside"),
            (("--box", "50", "0", "70", "0", "--slice", "-1"), "--slice -1 is no number of minutes"),
        ):
            status, _, err = self.cut(*words)
            self.assertEqual((status, err.count("\n")), (1, 1))
            self.assertIn(told, err)

    def test_a_whole_without_history(self) -> None:
        """It is cut by a copy that keeps one, and the cut keeps one itself."""
        kept = self.cut(*BOX)
        files = {path.name: path.read_bytes() for path in (self.folder / "out").iterdir()}
        self.assertEqual(self.cut(*BOX, setup=NO_HISTORY), kept)
        self.assertEqual({path.name: path.read_bytes() for path in (self.folder / "out").iterdir()}, files)
        self.assertEqual(self.rows("setup.csv"), [("1000", "60", "32")])

    def test_a_whole_that_is_too_large(self) -> None:
        """One line says why totals do not do, and what would help, and there is no case."""
        with mock.patch.object(history, "MOST_DESTINATIONS_ASKED", 1):
            status, _, err = self.cut(*BOX, setup=NO_HISTORY)
        self.assertEqual(status, 1)
        self.assertRegex(
            err,
            r"\Altm-tools cut: \S+/case keeps no history of its loading \(history is 0 in setup.csv\), and a curve for"
            r" each destination, which ltm totals does not tell, needs one. It is too large to keep one, with 2"
            r" destinations \(at most 1\): gather zones into fewer, or import a smaller area\n\Z",
        )
        self.assertFalse((self.folder / "out" / "setup.csv").exists())

    def test_a_copy_that_cannot_be_loaded(self) -> None:
        """The case is named, and not the copy."""
        case = self.case(**{**CASE, "setup": NO_HISTORY})
        (case / "nodes.csv").write_text(NODES)
        words = ("cut", str(case), *BOX, "-o", str(self.folder / "out"), "--program", str(self.program("sys.exit(9)")))
        status, _, err = commands.run(*words)
        told = f"ltm-tools cut: {case}: ltm curves ended with status 9: no answer, in a copy that keeps its history\n"
        self.assertEqual((status, err), (1, told))

    def test_a_file_beside_without_a_field(self) -> None:
        """One line says what is missing, and there is no case."""
        case = self.case(**CASE)
        (case / "street_names.csv").write_text("name,street\nl1,High Street\n")
        (self.folder / "wanted.csv").write_text("link\nl1\n")
        words = ("--links", str(self.folder / "wanted.csv"), "-o", str(self.folder / "out"), "--program", str(BUILT))
        status, _, err = commands.run("cut", str(case), *words)
        self.assertEqual((status, err.count("\n")), (1, 1))
        self.assertIn("street_names.csv: no field link in the header", err)
        self.assertFalse((self.folder / "out" / "setup.csv").exists())

    def test_what_lies_beside(self) -> None:
        case = self.case(**CASE)
        beside = {
            "nodes.csv": NODES,
            "shapes.csv": "link,points\nl1,0 0;10 5;30 0\nx,50 0;60 5;70 0\n",
            "street_names.csv": "link,street\nl2,High Street\nx,Low Street\nA,Main Street\n",
            "source_links.csv": "source,from,to,link\nA,O,N,in0\nA,O,N,l1\nB,N,P,l2\nC,P,D,x\n",
            "source_nodes.csv": "source,node\nN,n\nD,d\n",
            "clock.txt": "7:00\n",
        }
        for name, text in beside.items():
            (case / name).write_text(text)
        out = self.folder / "out"
        status, _, err = commands.run("cut", str(case), *BOX, "-o", str(out), "--program", str(BUILT))
        self.assertEqual((status, err), (0, ""))
        found = {name: Path(out, name).read_text() for name in beside}
        self.assertEqual(found["shapes.csv"], "link,points\nl1,0 0;10 5;30 0\n")
        self.assertEqual(found["street_names.csv"], "link,street\nl2,High Street\nA,Main Street\n")
        self.assertEqual(found["source_links.csv"], "source,from,to,link\nA,O,N,\nA,O,N,l1\nB,N,P,l2\n")
        self.assertEqual(found["source_nodes.csv"], "source,node\nN,n\n")
        self.assertEqual(found["clock.txt"], "7:00\n")


Passed = dict[str, list[int]]
"""By link what has entered it, and behind that what has left it, by each boundary, in thousandths of a vehicle."""


def passed(case: Path) -> Passed:
    """What `ltm totals 1` says of the links of a case."""
    run = subprocess.run([BUILT, "totals", "1"], cwd=case, check=True, capture_output=True, text=True)
    rows = [line.split() for line in run.stdout.splitlines() if line.startswith("link ")]
    return {row[1]: [int(word) for word in row[3:] if word != "left"] for row in rows}


@needs_program
class FlowsOfTheWhole(FolderTest):
    """The flows inside the cut are those of the whole but for the rounding that is told, by the totals of both, which
    the cut itself does not ask for; where the whole keeps a history and where it keeps none."""

    def differs(self, case: Path, *words: str) -> tuple[int, str]:
        """By how many thousandths of a vehicle a cut differs from the whole at most, and what the command tells."""
        made = self.folder / "made"
        shutil.rmtree(made, ignore_errors=True)
        status, out, err = commands.run("cut", str(case), *words, "-o", str(made), "--program", str(BUILT))
        self.assertEqual((status, err), (0, ""))
        whole, own = passed(case), passed(made)
        self.assertTrue(own.keys() < whole.keys())
        self.assertGreater(max(counts[-1] for counts in own.values()), 10_000)
        most = max(abs(one - other) for name in own for one, other in zip(whole[name], own[name], strict=True))
        told = re.search(r"differ most at [^,]+, by ([0-9.]+) vehicles? at boundary [0-9]+\n\Z", out)
        assert told is not None, out
        self.assertEqual(round(float(told[1]) * 1000), most)
        return most, out

    def without_history(self, case: Path) -> None:
        """Lets a case keep no history."""
        header, row = (case / "setup.csv").read_text().split()
        (case / "setup.csv").write_text(f"{header},history\n{row},0\n")

    def test_of_the_corridor(self) -> None:
        """One road behind the other, where nothing is rounded."""
        case = self.folder / "case"
        shutil.copytree(EXAMPLES / "corridor", case)
        (self.folder / "wanted.csv").write_text("link\nr7\nr8\nworks\nr9\n")
        words = ("--links", str(self.folder / "wanted.csv"))
        kept = self.differs(case, *words)
        self.assertEqual(kept[0], 0)
        self.without_history(case)
        self.assertEqual(self.differs(case, *words), kept)

    @needs("sumo")
    def test_of_the_town(self) -> None:
        """With a tenth of its vehicles, nine crossings: what comes in and leaves by many ways differs by less than half
        a vehicle of 178."""
        town, case = self.folder / "town", self.folder / "case"
        make = EXAMPLES / "from_sumo" / "make.py"
        subprocess.run([make, "town", town, "--share", "0.1"], check=True, capture_output=True)
        files = [str(town / f"town.{kind}.xml") for kind in ("net", "rou", "add")]
        words = ("--fit", "5s", "--horizon", "60", "--turns", "none", "--entries", "none", "--carry", "0")
        self.assertEqual(commands.run("from-sumo", *files, str(case), *words)[0], 0)
        box = ("--box", "480", "480", "900", "900")
        kept = self.differs(case, *box)
        self.assertLess(kept[0], 500)
        self.assertIn("24 of 224 links", kept[1])
        self.assertIn("no queue reaches the edge\n", kept[1])
        self.without_history(case)
        self.assertEqual(self.differs(case, *box), kept)


class Parts(unittest.TestCase):
    def test_what_rounding_leaves_over(self) -> None:
        """Of a third of a thousandth in each slot nothing is lost: every third slot has one."""
        rows = demand_rows("m", "n", [1 / 3] * 6 + [0.0] * 3 + [2 / 3] * 3)
        self.assertEqual(sum(row.units for row in rows), 4)
        self.assertEqual([(row.from_slot, row.to_slot) for row in rows[:2]], [(1, 2), (4, 5)])

    def test_a_loop(self) -> None:
        """Half of those at n leave for good by y, and half go round by l2 and back, to n again: all leave there. At m
        a quarter leaves by w."""
        links = {"l1": ("m", "n"), "l2": ("n", "p"), "back": ("p", "n"), "y": ("n", "q"), "w": ("m", "v")}
        roads = Roads.of([Link(name, tail, head, 20, 36, 18, 150) for name, (tail, head) in links.items()])
        inside = Inside(tuple(roads.links[name] for name in ("l1", "l2", "back")), roads)
        shares = {"m": {"l1": 0.75, "w": 0.25}, "n": {"y": 0.5, "l2": 0.5}, "p": {"back": 1.0}}
        found = parts_of("d", shares, inside)
        self.assertAlmostEqual(found["n"]["n"], 1.0)
        self.assertAlmostEqual(found["m"]["n"], 0.75)
        self.assertAlmostEqual(found["m"]["m"], 0.25)


if __name__ == "__main__":
    unittest.main()
