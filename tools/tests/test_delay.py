"""Queues and delay: against numbers worked by hand, and against the exact answers of an engine that was written without
this one."""
import subprocess
import unittest
from unittest import mock

import commands
from support import BUILT, EXAMPLES, FolderTest, needs_program
from support_loadings import DATA, read
from ltm_tools.case import Case, Demand, Link, Setup
from ltm_tools.errors import Fault
from ltm_tools.loading import counts as module, delay
from ltm_tools.loading.answers import Totals
from ltm_tools.loading.counts import less, total
from ltm_tools.loading.curves import Curves
from ltm_tools.loading.loaded import loaded, made
from ltm_tools.loading.told import ToldCurves
from ltm_tools.program import has_command

WITH_CURVES = sorted(path.parent.name for path in DATA.glob("*/curves.csv"))
LARGE = ("large_16", "large_40")

# docs/MODEL.md, a worked corridor: totals by boundary
PRODUCED = [0, 700, 1400, 2100, 2800, 3500, 4200, 4900, 5600, 6300, 7000, 7000, 7000, 7000, 7000, 7000, 7000]


class ByHand(unittest.TestCase):
    def test_ready(self) -> None:
        up = [0, 500, 1000, 1000, 1000]
        self.assertEqual(list(delay.ready(up, 1000, 2000)), [0, 0, 0, 500, 1000])
        # 2500 ms: at boundary 3 the moment 500 ms is looked at, at 4 the moment 1500 ms
        self.assertEqual(list(delay.ready(up, 1000, 2500)), [0, 0, 0, 250, 750])
        # 1 unit in a slot is only whole at its end
        self.assertEqual(list(delay.ready([0, 1, 1, 1], 1000, 1001)), [0, 0, 0, 1])
        # a free-flow time beyond the horizon
        self.assertEqual(list(delay.ready([0, 7, 7], 1000, 9000)), [0, 0, 0])

    def test_produced(self) -> None:
        self.assertEqual(list(delay.produced([Demand("n1", "n3", 0, 10, 7000)], 17)), PRODUCED)
        # floor(10 * k / 3) is 0, 3, 6, 10, and two rows add up
        rows = [Demand("n1", "n3", 1, 4, 10), Demand("n1", "n2", 2, 3, 5)]
        self.assertEqual(list(delay.produced(rows, 6)), [0, 0, 3, 11, 15, 15])

    def test_spillback(self) -> None:
        case, curves = read("spillback")
        told = delay.report(curves, case)
        self.assertEqual(told.links["a"], delay.Delay(30_500_000, 20_700_000, 1800, 8))
        self.assertEqual(told.links["b"], delay.Delay(5_400_000, 0, 0, 0))
        self.assertEqual(told.origins, {"n1": delay.Wait(29_000_000, 3200, 10)})
        # 80.5 produced less 15.6 arrived, boundary by boundary
        self.assertEqual(
            (told.spent, told.queued, told.waited, told.delay), (64_900_000, 20_700_000, 29_000_000, 49_700_000)
        )
        self.assertEqual(list(delay.waiting(curves, case, "n1"))[:9], [0, 200, 400, 600, 800, 1000, 1200, 1700, 2200])
        self.assertEqual(list(delay.waiting(curves, case, "n2")), [0] * 17)
        # a(4): 2 slots before, 1000 had entered, and 400 have left
        self.assertEqual(list(delay.queue(curves, case.link("a")))[:5], [0, 0, 0, 300, 600])

    def test_one_road(self) -> None:
        """Of 20 m nobody queues; of 25 m, 2500 ms, with its exit shut in slot 2, 250 are ready at boundary 3 and none
        has gone."""
        for metres, down, told in (
            (20, "0 0 0 500 1000", delay.Delay(2_000_000, 0, 0, 0)),
            (25, "0 0 0 0 500", delay.Delay(3_000_000, 500_000, 250, 3)),
        ):
            case = Case(
                Setup(1000, 4, 1000), [Link("a", "n1", "n2", metres, 36, 18, 150)], [Demand("n1", "n2", 0, 2, 1000)]
            )
            lines = [
                "kind,name,destination,counts",
                "up,a,n2,0 500 1000 1000 1000",
                f"down,a,n2,{down}",
                "dep,n1,n2,0 500 1000 1000 1000",
                "dep,n2,n2,0 0 0 0 0",
                f"arr,n2,n2,{down}",
            ]
            found = delay.report(Curves.of_lines([f"{line}\n".encode() for line in lines], "made", 1000, 5), case)
            self.assertEqual((found.links, found.origins), ({"a": told}, {"n1": delay.Wait(0, 0, 0)}))

    def test_texts(self) -> None:
        self.assertEqual(delay.seconds_text(64_900_000), "64.900000")
        self.assertEqual(delay.seconds_text(1), "0.000001")
        self.assertEqual(delay.seconds_text(-1_500_000), "-1.500000")
        self.assertEqual(delay.seconds_text(4_500_000_000_000_000_000_001), "4500000000000000.000001")

    def test_what_is_no_loading(self) -> None:
        for counts in ([0, 2, 1], [1, 1], [0, 32_001]):
            for form in (counts, total([counts])):
                self.assertRaises(Fault, delay.check_curve, form, "x")
        delay.check_curve([0, 0, 32_000, 32_000], "x")


class Exact(unittest.TestCase):
    """Against `delay.out`, and against what a session answers about a moment."""

    def reports(self) -> None:
        self.assertGreaterEqual(len(WITH_CURVES), 10)
        for name in WITH_CURVES:
            with self.subTest(name):
                case, curves = read(name)
                told = "".join(line + "\n" for line in delay.report(curves, case).lines())
                self.assertEqual(told, (DATA / name / "delay.out").read_text())

    def test_reports(self) -> None:
        self.reports()

    def test_reports_without_numpy(self) -> None:
        with mock.patch.object(module, "numpy", None), mock.patch.object(delay, "numpy", None):
            self.reports()

    def test_moments(self) -> None:
        asked = 0
        for path in sorted(DATA.glob("*/answers.out")):
            case, curves = read(path.parent.name)
            for line in path.read_text().splitlines():
                words = line.split()
                asked += self.moment(case, curves, words)
        self.assertGreaterEqual(asked, 10)

    def moment(self, case: Case, curves: Curves, words: list[str]) -> int:
        """`version 0 link NAME slot N in G out A queue Q`, or `version 0 node NAME slot N produced P left L waiting
        W`."""
        if words[2] == "link" and words[-2] == "queue":
            counts = delay.queue(curves, case.link(words[3]))
        elif words[2] == "node":
            counts = delay.waiting(curves, case, words[3])
        else:
            return 0
        self.assertEqual(delay.vehicles_text(int(counts[int(words[5])])), words[-1], words)
        return 1

    def test_reports_that_are_read(self) -> None:
        """The lines of 23 reports become numbers, and these the same lines; where the curves are here, they are the
        numbers worked out from them."""
        reports = [part + "\n" for part in (DATA / "reports.txt").read_text().rstrip("\n").split("\n\n")]
        self.assertEqual(len(reports), 23)
        for text in reports:
            self.assertEqual("".join(line + "\n" for line in delay.read_report(text).lines()), text)
        for name in WITH_CURVES:
            case, curves = read(name)
            self.assertEqual(delay.read_report((DATA / name / "delay.out").read_text()), delay.report(curves, case))

    def test_what_is_no_report(self) -> None:
        text = (DATA / "spillback" / "delay.out").read_text()
        told = delay.read_report(text)
        self.assertEqual(
            (told.links["a"], told.origins["n1"]),
            (delay.Delay(30_500_000, 20_700_000, 1800, 8), delay.Wait(29_000_000, 3200, 10)),
        )
        for old, new, part in (
            ("version 0", "version 1", "first line"),
            ("64.900000", "64.900001", "first line"),
            ("queued 20.700000 waited", "queued 20.700001 waited", "first line"),
            ("spent 5.400000", "spent 5.40000", "line 3"),
            ("most 3.200", "most 3.20", "line 4"),
            ("at 8", "at -8", "line 2"),
            ("node n1", "node n 1", "line 4"),
            ("link b", "Link b", "line 3"),
            ("most 3.200 at 10\n", "most 3.200 at 10\n\n", "line 5"),
            (text, "", "first line"),
        ):
            with self.subTest(new), self.assertRaisesRegex(Fault, part):
                delay.read_report(text.replace(old, new, 1))

    @needs_program
    def test_large(self) -> None:
        for name in LARGE:
            told = "".join(
                line + "\n"
                for line in delay.report(
                    loaded(str(DATA / name), None, str(BUILT)).curves, Case.read(DATA / name)
                ).lines()
            )
            self.assertEqual(told, (DATA / name / "delay.out").read_text())

    @needs_program
    def test_the_program_tells_large_times(self) -> None:
        """Of `large_40` more than 2^64 thousandths of a vehicle times milliseconds."""
        for name in LARGE:
            done = subprocess.run([BUILT, "delay"], cwd=DATA / name, capture_output=True, text=True)
            self.assertEqual((done.returncode, done.stdout), (0, (DATA / name / "delay.out").read_text()))


class Told(FolderTest):
    """A program, made for the test, whose sessions tell no curves, that has a command `delay` or not, and whose report
    has 0.1 vehicle seconds more in the queue of `a`."""

    def made(self, usage: str) -> str:
        text = (DATA / "spillback" / "delay.out").read_text().replace("20.700000", "20.800000")
        return str(
            self.program(
                f"""
words = sys.argv[1:]
with open({str(self.folder / "asked.txt")!r}, "a") as asked:
    asked.write(" ".join(words) + "\\n")
if words == ["session", "0"]:
    for line in sys.stdin:
        print("refused command NotCommand 0")
elif words == ["delay"]:
    sys.stdout.write({text!r})
elif words == ["curves"]:
    sys.stdout.write(open("curves.csv").read())
else:
    print({usage!r})
    sys.exit(2)
"""
            )
        )

    def test_by_the_program(self) -> None:
        case, named = str(DATA / "spillback"), self.made("usage: ltm load | ltm delay | ltm session N")
        self.assertIn("20.80 in queues of links", commands.run("queues", case, "--program", named)[1])
        self.assertRegex(
            commands.run("compare", case, case, "--program", named, "--format", "csv", "--table", "totals")[1],
            "queued_seconds,20.800000,20.800000,0.000000\n",
        )
        self.assertEqual(
            (self.folder / "asked.txt").read_text().split("\n"),
            ["session 0", "curves", "", "delay", *2 * ["session 0", "curves", "delay"], ""],
        )

    def test_without_the_command(self) -> None:
        case, named = str(DATA / "spillback"), self.made("usage: ltm load | ltm delays | ltm session N")
        self.assertIn("20.70 in queues of links", commands.run("queues", case, "--program", named)[1])
        self.assertIn(
            "queued_seconds,20.700000,20.700000,0.000000\n",
            commands.run("compare", case, case, "--program", named, "--format", "csv", "--table", "totals")[1],
        )
        self.assertNotIn("delay", (self.folder / "asked.txt").read_text())

    def test_by_curves(self) -> None:
        """What a file tells is not asked of the program; a table for programs has no sum of delays and asks for
        none."""
        case, named = str(DATA / "spillback"), self.made("usage: ltm delay")
        self.assertIn(
            "20.70 in queues of links",
            commands.run("queues", case, "--program", named, "--curves", f"{case}/curves.csv")[1],
        )
        self.assertIn(
            "link,a,6000,16000,1,1.800,", commands.run("queues", case, "--program", named, "--format", "csv")[1]
        )
        self.assertEqual((self.folder / "asked.txt").read_text(), "session 0\ncurves\n")

    def test_no_program(self) -> None:
        self.assertFalse(has_command("delay", str(self.folder / "nowhere")))
        self.assertFalse(has_command("delay", str(self.program("print('delay: ltm delay')"))))


@needs_program
class Program(FolderTest):
    """What is worked out agrees with what the program tells of the same loading."""

    def test_told_as_written(self) -> None:
        """What a session tells of each link and origin, and of all who have arrived, is the sum of what the curve file
        has for each destination; a destination is told too."""
        for name in ("merge", "evening", "closures", "signal", "ramp_meter"):
            case, curves = loaded(str(EXAMPLES / name), None, str(BUILT))
            assert isinstance(curves, ToldCurves)
            file = made(str(EXAMPLES / name), str(BUILT), case.setup.step_ms, case.setup.slots + 1)
            self.assertEqual(
                (curves.links, curves.nodes, curves.destinations), (file.links, file.nodes, file.destinations)
            )
            for kind, names in (("up", file.links), ("down", file.links), ("dep", file.nodes)):
                for one in names:
                    self.assertEqual(list(curves.counts(kind, one)), list(file.counts(kind, one)), (kind, one))
            self.assertEqual(list(curves.all_arrived()), list(file.all_arrived()))
            self.assertEqual(curves.report, delay.report(file, case))
            end = case.destinations[-1]
            self.assertEqual(list(curves.up(file.links[-1], end)), list(file.up(file.links[-1], end)))
            self.assertRaisesRegex(Fault, "no `up` of nowhere", curves.up, "nowhere")

    def test_laws(self) -> None:
        for name in ("spillback", "incident", "corridor", "evening", "merge"):
            with self.subTest(name):
                case, curves = loaded(str(EXAMPLES / name), None, str(BUILT))
                told = delay.report(curves, case)
                for link in case.links:
                    up, down = curves.up(link.name), curves.down(link.name)
                    self.assertTrue(
                        all(
                            0 <= q <= on <= link.storage_units
                            for q, on in zip(delay.queue(curves, link), less(up, down))
                        )
                    )
                generated = delay.produced(case.standing_demand(), curves.boundaries)
                arrived = total([curves.arrived(end) for end in case.destinations])
                self.assertEqual(told.spent, delay.sum_of_counts(less(generated, arrived)) * curves.step_ms)


class NoOrigin(unittest.TestCase):
    def test_departures_of_a_node_without_demand(self) -> None:
        """None leave it, and no curves are made for that; of what is no node there are none."""
        case, curves = read("spillback")
        whole = mock.Mock(return_value=curves)
        told = ToldCurves(case, Totals(0, 7000, 2400, 2600, 2000), delay.Report({}, {}), {}, whole)
        self.assertEqual(list(told.departed("n2")), [0] * 17)
        whole.assert_not_called()
        self.assertRaises(Fault, told.departed, "nowhere")


if __name__ == "__main__":
    unittest.main()
