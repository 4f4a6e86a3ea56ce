"""Cases: their numbers, their files, and what they are refused for."""
import unittest

from support import EXAMPLES, FolderTest, ROAD
import ltm_tools
from ltm_tools.case import Case, Demand, Limit, Link, Setup, Split
from ltm_tools.case.bad_case import BadCase, NoFile


class Numbers(unittest.TestCase):
    """The worked numbers of docs/MODEL.md and docs/FORMATS.md."""

    def test_limits_of_a_link(self) -> None:
        link = Link("a", "n1", "n2", 20, 36, 18, 150)
        self.assertEqual((link.free_ms, link.wave_ms, link.storage_units, link.capacity(1000)), (2000, 4000, 3000, 500))
        self.assertEqual(Link("a", "n1", "n2", 100, 30, 7, 1).free_ms, 12000)
        self.assertEqual(Link("a", "n1", "n2", 100, 30, 7, 1).wave_ms, 51429)  # 360000 / 7 = 51428.57
        self.assertEqual(link.longest_step_ms, 2000)

    def test_longest_and_least_step(self) -> None:
        # 50,000 vehicles an hour: 13.888.. units a ms, 32,000 in 2304 ms
        wide = Link("a", "n1", "n2", 1000, 100, 100, 1000)
        self.assertEqual(wide.capacity(wide.longest_step_ms), 32_000)
        self.assertEqual(wide.capacity(wide.longest_step_ms + 1), 32_013)
        narrow = Link("a", "n1", "n2", 1000, 1, 1, 1)  # half a vehicle an hour: a thousandth in 7200 ms
        self.assertEqual((narrow.least_step_ms, narrow.capacity(7199), narrow.capacity(7200)), (7200, 0, 1))

    def test_what_is_left_over_is_carried(self) -> None:
        # 300 * 120 * 20 * 10,000 / (140 * 3600) = 14,285 5/7 thousandths a slot, 100,000 in seven
        link = Link("a", "n1", "n2", 500, 120, 20, 300)
        self.assertEqual(
            [link.capacity_at(10_000, slot) for slot in range(8)],
            [14_285, 14_286, 14_286, 14_285, 14_286, 14_286, 14_286, 14_285],
        )
        self.assertEqual([link.most_capacity(10_000, carry) for carry in (False, True)], [14_285, 14_286])
        # of 32,000.69 thousandths in a second 32,000 pass within it, and 32,001 with what is carried
        wide = Link("a", "n1", "n2", 1000, 29, 29, 7945)
        self.assertEqual((wide.passing_step(False), wide.passing_step(True)), (1000, 999))

    def test_cells(self) -> None:
        links = [Link(f"l{k}", f"n{k}", f"n{k + 1}", 100, 36, 18, 150) for k in range(1000)]
        case = Case(Setup(1000, 2000, 1000), links, [Demand("n0", "n1000", 0, 1, 1000)], [])
        self.assertEqual((case.cells(), case.cells(10_000)), (36_016_004, 180_056_004))
        # the cells are 18,005 a slot and 6,004 beside: 2,998 slots have 53,984,994 and 2,999 slots 54,002,999
        self.assertEqual(case.slots_that_fit(), 2998)


class Names(unittest.TestCase):
    def test_what_the_package_names(self) -> None:
        from ltm_tools import Curves, Fault, Refused, Session, errors
        from ltm_tools.loading import curves
        from ltm_tools.scenario import session

        self.assertEqual(
            (ltm_tools.Case, Curves, Fault, Refused, Session),
            (Case, curves.Curves, errors.Fault, session.Refused, session.Session),
        )
        self.assertFalse(hasattr(ltm_tools, "Nothing"))


class Files(FolderTest):
    def test_read(self) -> None:
        case = Case.read(EXAMPLES / "signal")
        self.assertEqual(case.setup, Setup(1000, 4, 1000, True))
        self.assertEqual(case.links, [Link("a", "n1", "n2", 20, 36, 18, 150)])
        self.assertEqual(case.signals, [Limit("a", 0, 4, 250)])
        self.assertEqual(case.splits, [Split("n1", "n2", 0, {"a": 1})])
        self.assertEqual((case.nodes, case.destinations), (["n1", "n2"], ["n2"]))

    def test_written_is_read_again(self) -> None:
        for name in ("merge", "incident", "evening"):
            case = Case.read(EXAMPLES / name)
            case.write(self.folder / name)
            self.assertEqual(Case.read(self.folder / name), case)

    def test_no_splits(self) -> None:
        case = Case.read(self.case(splits=None))
        self.assertIsNone(case.splits)
        case.write(self.folder / "written")
        self.assertEqual(
            sorted(path.name for path in (self.folder / "written").iterdir()), ["demand.csv", "links.csv", "setup.csv"]
        )

    def test_limits_and_cells(self) -> None:
        case = Case(Setup(1000, 4, 1000, cells=2000), Case.read(self.case()).links, limits=[Limit("a", 0, 1, 50)])
        case.write(self.folder / "written")
        self.assertEqual(
            (self.folder / "written" / "setup.csv").read_text(),
            "step_ms,slots,origin_capacity,limits,cells\n1000,4,1,1,2000\n",
        )
        self.assertEqual(Case.read(self.folder / "written").limits, [Limit("a", 0, 1, 50)])

    def test_a_copy_has_rows_of_its_own(self) -> None:
        case = Case.read(EXAMPLES / "signal")
        made = case.copied()
        self.assertEqual(made, case)
        made.setup.slots, made.links[0].length_m, made.demand[0].units, made.signals[0].units = 1, 1, 1, 1
        assert made.splits is not None
        made.splits[0].weights["a"] = 9
        made.links.pop()
        self.assertEqual(case, Case.read(EXAMPLES / "signal"))

    def test_rows_that_replace(self) -> None:
        case = Case.read(self.case(demand=ROAD["demand"] + "n1,n2,0,2,3\nn1,n2,0,3,2\nn1,n2,0,3,0\n"))
        self.assertEqual(case.standing_demand(), [Demand("n1", "n2", 0, 2, 3000)])

    def test_missing_file(self) -> None:
        with self.assertRaisesRegex(NoFile, "links.csv is not there"):
            Case.read(self.case(links=None))

    def test_refused(self) -> None:
        with self.assertRaises(BadCase) as caught:
            Case.read(self.case(setup="step_ms,slots,origin_capacity\n3000,4,1\n"))
        self.assertEqual(caught.exception.line(), "bad case links row 2 StepTooLong 2000 4000")


if __name__ == "__main__":
    unittest.main()
