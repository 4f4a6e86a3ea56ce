"""What a case is loaded by while its shares change: a session, or a load of all of it each time. Both give what the
program says of the same files, and results that are the same byte for byte."""
import subprocess
import unittest
from pathlib import Path
from unittest.mock import patch

import commands
from support import BUILT, EXAMPLES, FolderTest, needs, needs_numpy, needs_program
from support_assign import LINKS, SIGNALS
from ltm_tools import libraries
from ltm_tools.case import Case, Limit
from ltm_tools.errors import Fault
from ltm_tools.formats import told_time, told_units
from ltm_tools.loading.totals import told_totals
from ltm_tools.program import output
from ltm_tools.scenario import edits

if not libraries.missing(("numpy",)):
    from ltm_tools.assign.anew import Anew
    from ltm_tools.assign.engine import check_size
    from ltm_tools.assign.rerouting import Base
    from ltm_tools.assign.assigning import AssignOptions
    from ltm_tools.assign.settling import Settling
    from ltm_tools.assign.shares import LineShares, RowShares, lines_of, split_rows

SPLITS = "node,destination,from_slot,weights\n"


def signals_until(end: int) -> str:
    """Limits of `fast` up to a slot: it is red for 20 s of 40, and from 100 s on once narrow."""
    return SIGNALS + "".join(f"fast,{slot},{slot + 20},0\n" for slot in range(0, end - 19, 40)) + "fast,100,120,1.5\n"


# From a, b and m to d and e, by `fast` or `slow` from m to n; `fast` is signalled, and `nd` shut for half a minute. A
# link has a name that is a word of what the program writes.
MIXED = {
    "setup": "step_ms,slots,origin_capacity,signals,limits\n1000,400,0.5,1,1\n",
    "links": LINKS + "am,a,m,200,36,18,300\nbm,b,m,300,36,18,300\nfast,m,n,200,36,18,300\nentered,m,n,600,36,18,300\n"
    "nd,n,d,100,36,18,300\nne,n,e,100,36,18,300\nbe,b,e,2000,36,18,300\n",
    "demand": "origin,destination,from_slot,to_slot,vehicles\na,d,0,100,50.5\na,d,20,60,10\na,e,5,50,7\nb,d,0,90,30\n"
    "b,e,30,90,45.125\nm,d,0,100,20\nm,d,0,100,25\n",
    "splits": SPLITS + "a,d,0,am=1\na,e,0,am=1\nb,d,0,bm=1\nb,e,0,bm=1\nb,e,50,be=1 bm=3\nm,d,0,fast=1\n"
    "m,e,0,entered=1\nm,d,37,fast=1 entered=2\nm,e,99,fast=1 entered=1\nn,d,0,nd=1\nn,e,0,ne=1\n",
    "signals": signals_until(400),
    "limits": SIGNALS + "nd,60,90,0\nnd,80,85,1\n",
}


@needs_numpy
@needs_program
class Both(FolderTest):
    def test_what_the_program_says(self) -> None:
        """Of the case as it is, with an entry shut and other rows, and with both undone: the total travel time, and
        who has not arrived, are those of `ltm delay` and `ltm load`, and the counts are the same.
        """
        cut = {"setup": MIXED["setup"].replace("400", "130"), "signals": signals_until(130)}  # before all have arrived
        case = Case.read(self.case(**{**MIXED, **cut}))
        base = Base(case, AssignOptions())
        engines = [kind(base.net, RowShares(base.all), BUILT) for kind in (Anew, Settling)]
        for engine in engines:
            self.addCleanup(engine.__exit__, None, None, None)
        other = {**base.all, ("m", "d"): [(0, {"entered": 1000}), (61, {"fast": 300, "entered": 700})]}
        shut, back = edits.Limit("am", 30, 77, 0), edits.Limit("am", 30, 77)
        for rows, limits in ((base.all, []), (other, [shut]), (base.all, [back])):
            wanted = Case.of(case)
            wanted.splits = [row for row in case.splits or () if (row.node, row.destination) != ("m", "d")]
            wanted.splits += split_rows({("m", "d"): rows["m", "d"]})
            wanted.limits = [*case.limits, *(Limit(*edit.key[1:], edit.units) for edit in limits)]
            wanted.write(self.folder / "wanted")
            spent = told_time(output(self.folder / "wanted", "delay", program=BUILT).decode().split()[3])
            load = output(self.folder / "wanted", "load", program=BUILT).decode().split()
            late = told_units(load[7]) + told_units(load[9])
            for engine in engines:
                for edit in limits:
                    engine.limit(edit)
                self.assertEqual(engine.tell(RowShares(rows)), bool(limits))
                self.assertFalse(engine.tell(RowShares(rows)))
                engine.counts()
                self.assertEqual(engine.spent(), (spent, late), type(engine))
            one, two = (engine.counts() for engine in engines)
            self.assertEqual((one.entered.tolist(), one.left.tolist()), (two.entered.tolist(), two.left.tolist()))
            self.assertEqual(
                *({node: [of.tolist() for of in both] for node, both in of.origins.items()} for of in (one, two))
            )
            self.assertEqual(engines[0].exact_gap(), engines[1].exact_gap())
            self.assertGreater(one.entered[-1].min(), 0)  # all links are in use
            self.assertGreater(late, 0)

    def test_results(self) -> None:
        """Assignments and closures by both are the same, by one process and by two."""
        self.case(**MIXED)
        first = self.results(1000)
        self.assertEqual(self.results(0), first)
        self.assertEqual(self.results(0, "--processes", "2"), first)

    @needs("sumo")
    def test_results_of_the_town(self) -> None:
        """The same of the town of the examples, whose signals change all the time."""
        town = self.folder / "town"
        subprocess.run([EXAMPLES / "from_sumo" / "make.py", "town", town], check=True, capture_output=True)
        words = "--fit 5s --horizon 75 --turns none --no-yellow --saturation road --entries none --carry 0".split()
        sources = [str(town / f"town.{kind}.xml") for kind in ("net", "rou", "add")]
        self.assertEqual(commands.run("from-sumo", *sources, str(self.folder / "case"), *words)[0], 0)
        self.assertEqual(*(self.results(ends, "--iterations", "2", closures=False) for ends in (0, 1000)))

    def results(self, least_ends: int, *words: str, closures: bool = True) -> "list[object]":
        """What `assign` and `closures` write where so many destinations are loaded anew."""
        case, made, table = (str(self.folder / name) for name in ("case", "made", "table.json"))
        program = ("--program", str(BUILT))
        with patch("ltm_tools.assign.engines.LEAST_ENDS", least_ends):
            status, out, err = commands.run("assign", case, "-o", made, "--period", "1", *words, *program)
            self.assertEqual((status, err), (0, ""), out)
            found: list[object] = [{path.name: path.read_bytes() for path in Path(made).iterdir()}]
            if closures:
                closed = ("--from", "0:00:40", "--to", "0:01:30", "--links", "fast", "--format", "json", "-o", table)
                status, out, err = commands.run("closures", made, *closed, *program)
                self.assertEqual((status, err), (0, ""), out)
                found.append(Path(table).read_bytes())
        return found


@needs_numpy
class EachTime(FolderTest):
    @needs_program
    def test_a_program_that_is_killed(self) -> None:
        """Once, and the counts are those of before; again and again, and it says so."""
        base = Base(Case.read(self.case(**MIXED)), AssignOptions())
        count = self.folder / "count"
        counts = "import os, sys\nopen({0!r}, 'a').write('.')\n"
        dies = counts + "if len(open({0!r}).read()) < {1}: os.kill(os.getpid(), 9)\n"
        runs = f"os.execv({str(BUILT)!r}, ['ltm', *sys.argv[1:]])\n"
        for times, lives in ((2, True), (9, False)):
            count.write_text("")
            program = self.program(dies.format(str(count), times) + runs)
            with Anew(base.net, RowShares(base.all), program) as engine:
                if lives:
                    self.assertEqual(engine.spent()[1], 0)
                else:
                    with self.assertRaisesRegex(Fault, "ltm totals 1 ended with status -9"):
                        engine.spent()

    def test_lines(self) -> None:
        """Rows, and the lines of `splits.csv` that they are."""
        rows = {("a", "d"): [(0, {"x": 1, "y": 999}), (7, {"y": 1000})], ("b", "d"): [(0, {"z": 1000})]}
        lines = b"a,d,0,x=1 y=999\na,d,7,y=1000\nb,d,0,z=1000\n"
        self.assertEqual(lines_of(rows), lines)
        self.assertEqual(LineShares([lines[:20], lines[20:]]).rows(), rows)

    def test_too_many(self) -> None:
        """Of rows, and of bytes that the program reads of a file."""
        check_size(500_000, 16_777_216)
        for size in ((500_001, 0), (0, 16_777_217)):
            with self.assertRaisesRegex(Fault, "give a longer --period"):
                check_size(*size)


class Lines(unittest.TestCase):
    def test_what_a_line_says(self) -> None:
        """A link and an origin that are called as the words of a line."""
        told = list(told_totals([b"link left entered 0 5 left 0 4\n", b"origin departed departed 1 7\n"], 2))
        self.assertEqual([one[:2] for one in told], [("link", "left"), ("origin", "departed")])
        self.assertEqual([[list(of) for of in one.counts] for one in told], [[[0, 5], [0, 4]], [[1, 7]]])

    def test_what_is_none(self) -> None:
        cut = (
            b"link a entered 0 5",
            b"link a entered 0 5 left 0",
            b"link a entered 0 x left 0 1",
            b"origin o departed 1",
        )
        for line in (b"", b"bad case", *cut, b"origin o entered 1 2", b"node a entered 0 5 left 0 4"):
            with self.assertRaisesRegex(Fault, "which is no line of 2 counts"):
                list(told_totals([line], 2))
