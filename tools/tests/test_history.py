"""Commands over a case that keeps no history (`history` 0 in `setup.csv`): those that need no more than `ltm totals`
and the other words that answer write the same as with a history, and the others say in one line why they cannot."""
import re
import unittest
from collections.abc import Iterator
from pathlib import Path
from unittest import mock

from stage import RUNS, Run
from support import EXAMPLES, FolderTest, needs, needs_program
from support_runs import RunsTest, begins, runs, without_history
from ltm_tools.case import Case, Demand, Link, Setup, Split, history, reading
from ltm_tools.case.history import NoHistory, check_history, keeping_one, to_have_one, too_large
from ltm_tools.errors import Fault
from ltm_tools.loading.loaded import loaded
from ltm_tools.loading.sides import totals_at_end
from ltm_tools.loading.totals import written_totals
from ltm_tools.scenario.session import Session

ANSWER = (
    "inspect",
    "queues",
    "times",
    "compare case other",
    "page",
    "geojson",
    "flows",
    "validate",
    "drive",
    "draw",
    "cut",
)
ASSIGN = ("assign", "closures")
REFUSE = ("apply", "compare case --script", "sweep", "signals turning --optimise", "bottlenecks", "calibrate")
NOT_LOADED = ("from-", "demand", "splits", "signals case", "turns", "explain", "plot")
"""How the words of the runs begin that need no loading, or draw a curve file."""
SECONDS = re.compile(r" +[0-9.]+$", re.MULTILINE)


class Commands(RunsTest):
    def of_each(self, run: Run) -> Iterator[tuple[int, str, str, dict[str, bytes]]]:
        """What a command does over cases with a history, and without one."""
        return (self.told(run, change) for change in (lambda case: None, without_history))

    def test_each_run_is_tested(self) -> None:
        for run in RUNS:
            self.assertEqual(
                sum(begins(run, *some) for some in (ANSWER, ASSIGN, REFUSE, NOT_LOADED, ("live",))), 1, run.words
            )

    @needs_program
    def test_those_that_answer(self) -> None:
        """The text and the files are the same, byte for byte; of `inspect` all but the lines on size."""
        for run in runs(*ANSWER):
            with self.subTest(run.words):
                one, other = self.of_each(run)
                self.assertEqual((one[0], other[0]), (0, 0), other[2])
                if begins(run, "inspect"):
                    continue
                self.assertTrue(one[1] or one[3])
                self.assertEqual(one, other)

    @needs_program
    @needs("python3-numpy")
    def test_those_that_assign(self) -> None:
        """The shares are the same, and so are the lines but for seconds."""
        for run in runs(*ASSIGN):
            with self.subTest(run.words):
                one, other = self.of_each(run)
                self.assertEqual((one[0], other[0]), (0, 0), other[2])
                self.assertEqual(
                    SECONDS.sub("", one[1]).split("have not")[0], SECONDS.sub("", other[1]).split("have not")[0]
                )
                self.assertEqual(one[3].pop("made/setup.csv", b"")[:30], other[3].pop("made/setup.csv", b"")[:30])
                self.assertEqual(one[3], other[3])

    @needs_program
    def test_those_that_cannot(self) -> None:
        for run in runs(*REFUSE):
            with self.subTest(run.words):
                one, other = self.of_each(run)
                self.assertEqual(one[0], 0, one[2])
                self.assertEqual((other[0], other[1], other[3]), (1, "", {}))
                self.assertRegex(
                    other[2],
                    r"\Altm-tools [a-z]+: \S+ keeps no history of its loading \(history is 0 in setup.csv\), and a"
                    r" session needs one. It is small enough to keep one: remove the column history from setup.csv\n\Z",
                )

    @needs_program
    def test_they_cannot_before_routes_are_made(self) -> None:
        """Of a city these are millions, and the refusal does not wait for them."""

        def change(case: Path) -> None:
            without_history(case)
            header, row = (case / "setup.csv").read_text().split()
            (case / "setup.csv").write_text(f"{header},routes\n{row},1\n")

        for run in runs(*REFUSE, "live"):
            with self.subTest(run.words), mock.patch.object(reading, "give_routes", side_effect=AssertionError):
                status, _, err, _ = self.told(run, change)
                self.assertEqual((status, "keeps no history of its loading" in err), (1, True), err)

    def test_a_curve_file_that_is_not_there(self) -> None:
        """A case with a history is told what writes it, and one without what would let it have one."""
        for run in runs("plot"):
            with self.subTest(run.words):
                one, other = self.of_each(run)
                self.assertEqual((one[0], other[0]), (1, 1))
                told = "ltm-tools plot: curves.csv is not there: ./ltm case curves >case/curves.csv writes it\n"
                self.assertEqual(one[2], told)
                self.assertIn("and a curve file needs one. It is small enough to keep one: remove", other[2])

    @needs_program
    @needs("python3-tornado")
    def test_live(self) -> None:
        for run in runs("live"):
            with mock.patch("webbrowser.open", side_effect=KeyboardInterrupt):
                status, out, err, made = self.told(run, without_history)
            self.assertEqual((status, out, made), (1, "", {}))
            self.assertIn(
                "case keeps no history of its loading (history is 0 in setup.csv), and the live map needs one", err
            )
            self.assertTrue(
                err.endswith(". It is small enough to keep one: remove the column history from setup.csv\n")
            )


@needs_program
class Loadings(FolderTest):
    def test_the_same_as_a_session_tells(self) -> None:
        """Curves, delay and totals of the examples, with signals, limits, queues at the end and waiting origins."""
        for name in ("merge", "signal", "spillback", "incident", "evening", "detour", "ramp_meter"):
            Case.read(EXAMPLES / name).write(self.folder / name)
            with_one = loaded(str(self.folder / name), None, None)
            without_history(self.folder / name)
            one, other = with_one.curves, loaded(str(self.folder / name), None, None)
            case, curves = other
            self.assertFalse(case.setup.history)
            with self.subTest(name):
                for link in case.links:
                    self.assertEqual(list(one.up(link.name)), list(curves.up(link.name)))
                    self.assertEqual(list(one.down(link.name)), list(curves.down(link.name)))
                for node in case.nodes:
                    self.assertEqual(list(one.departed(node)), list(curves.departed(node)))
                arrived = [list(some.all_arrived()) for some in (one, curves)]
                self.assertEqual(arrived[0], arrived[1])
                self.assertEqual(one.report, curves.report)  # type: ignore[attr-defined]
                self.assertEqual(one.totals, curves.totals)  # type: ignore[attr-defined]
                ends = [totals_at_end(some, arrived[0][-1]) for some in (with_one, other)]
                self.assertEqual(ends[0], ends[1])
                with self.assertRaisesRegex(
                    NoHistory,
                    "and a curve for each destination, which ltm totals does not tell, needs one. It is small enough",
                ):
                    curves.up(case.links[0].name, case.destinations[0])

    def test_a_session(self) -> None:
        Case.read(EXAMPLES / "merge").write(self.folder)
        with Session(self.folder) as session:
            self.assertGreater(session.totals().generated, 0)
        without_history(self.folder)
        with self.assertRaisesRegex(NoHistory, "and a session needs one"):
            Session(self.folder)


class Rules(FolderTest):
    LINES = [b"link a entered 1 2 left 0 1", b"origin n1 departed 1 2"]

    def test_what_is_no_line(self) -> None:
        self.assertEqual(len(list(written_totals(self.LINES, 2))), 2)
        for lines, boundaries in ((self.LINES, 3), ([b"link a entered 1 2"], 2), ([b"node n1 departed 1 2"], 2)):
            with self.assertRaisesRegex(Fault, "is no line of . counts"):
                list(written_totals(lines, boundaries))

    def chain(self) -> Case:
        """A case of 300 links one behind the other, without history."""
        links = [Link(f"a{k}", f"n{k}", f"n{k + 1}", 20, 36, 18, 150) for k in range(300)]
        return Case(
            Setup(1000, 4, 1000, history=False), links, [Demand("n0", "n1", 0, 1, 1)], [Split("n0", "n1", 0, {"a0": 1})]
        )

    def test_what_would_let_it_have_one(self) -> None:
        case = self.chain()
        self.assertEqual(too_large(case), [])
        self.assertEqual(to_have_one(case), "It is small enough to keep one: remove the column history from setup.csv")
        case.setup.slots = 10_000
        for end in range(1, 260):
            case.demand.append(Demand("n0", f"n{end}", 0, 1, 1))
        # widths: 2 links and an origin at each node within, 6 * 259 + 4 each; 301 nodes
        self.assertEqual(
            too_large(case), ["259 destinations (at most 256)", f"{case.cells():,} cells (at most 4,294,967,295)"]
        )
        with self.assertRaisesRegex(
            NoHistory,
            r"\Atown keeps no history of its loading \(history is 0 in setup.csv\), and a session needs one. It is too"
            " large to keep one, with 259 destinations .* cells .*: gather zones into fewer, or take a longer step or a"
            r" shorter horizon, or import a smaller area\Z",
        ):
            check_history(case, "town", "a session")
        case.setup.history = True
        check_history(case, "town", "a session")
        case.setup.history, case.demand = False, case.demand[:60]
        self.assertGreater(case.cells(), 54_000_000)
        cells = -(-case.cells() // 1_000_000) * 1_000_000
        self.assertTrue(to_have_one(case).endswith(f"from setup.csv, and ask for {cells} in its column cells"))
        case.setup.cells = 1
        self.assertTrue(to_have_one(case).endswith(f"from setup.csv, and write {cells} in its column cells"))
        case.setup.cells = case.cells()
        self.assertTrue(to_have_one(case).endswith("from setup.csv"))

    def test_what_is_too_much_says_what_helps(self) -> None:
        """Rows are not made fewer by a longer step, nor links by fewer zones."""
        case = self.chain()
        for changed, told in (
            ({"MOST_LINKS_ASKED": 299}, "300 links (at most 299): import a smaller area"),
            (
                {"MOST_ROWS_ASKED": 0},
                "1 row (at most 0): gather zones into fewer, or let demand and turning fractions stay the same for"
                " longer, or import",
            ),
            ({"MOST_FILE_BYTES": 61}, "62 bytes of demand.csv (at most 61): gather zones into fewer, or let demand"),
            ({"MOST_FILE_BYTES": 62}, "small enough"),
        ):
            with self.subTest(told), mock.patch.multiple(history, **changed):
                self.assertIn(told, to_have_one(case))
                self.assertEqual(keeping_one(case) is None, told != "small enough")

    def test_a_copy_that_keeps_one(self) -> None:
        """It asks for as much as it has, and for no more than may be asked for with a history."""
        case = self.chain()
        case.setup.links, case.setup.destinations, case.setup.rows = 40_000, 2_000, 8_000_000
        case.setup.moves = case.setup.carry = True
        case.setup.slots = 2_000
        for end in range(2, 60):
            case.demand.append(Demand("n0", f"n{end}", 0, 1, 1))
        kept = keeping_one(case)
        assert kept is not None
        cells = -(-case.cells() // 1_000_000) * 1_000_000
        self.assertEqual(
            kept.setup, Setup(1000, 2_000, 1000, False, False, cells, 500_000, 16_000, 256, True, True, True)
        )
        self.assertFalse(case.setup.history)


if __name__ == "__main__":
    unittest.main()
