"""What `inspect` says of rounding: capacities, reds of few steps, and rows of demand that are alike."""
import unittest
from fractions import Fraction

from support import BUILT, FolderTest, needs_program
from ltm_tools.case import Case, Demand, Limit, Link, Setup, Split
from ltm_tools.case.flooring import pulse_lines
from ltm_tools.case.inspect import inspect
from ltm_tools.case.rounding import least_step, lossy_links, red_lines, rounding_lines, shortest_reds
from ltm_tools.loading.delay import report
from ltm_tools.loading.inspect import loading_lines
from ltm_tools.loading.loaded import loaded


def road(units: int, slots: int = 1000, carry: bool = False, moves: bool = False) -> Case:
    """Two roads one behind the other: of 47 and of 94 vehicles/km, at 36 and 18 km/h, so that 156 2/3 thousandths pass
    the first in a slot of a second, and 313 1/3 the second; so many units set out evenly in all slots."""
    links = [Link("a", "n1", "n2", 80, 36, 18, 47), Link("b", "n2", "n3", 80, 36, 18, 94)]
    splits = [Split("n1", "n3", 0, {"a": 1}), Split("n2", "n3", 0, {"b": 1})]
    setup = Setup(1000, slots, 1000, moves=moves, carry=carry)
    return Case(setup, links, [Demand("n1", "n3", 0, slots, units)], splits)


class Capacities(FolderTest):
    def test_the_least_step(self) -> None:
        """Of 156 2/3 thousandths a second 2/3 are 0.43 %, and of 313 1/3 a third is 0.11 %. In 1002 ms 156.98 and
        313.96 pass, in 1003 ms 157.14 and 314.27: 0.09 % less of each."""
        case = road(0)
        self.assertEqual(lossy_links(case), {"a": Fraction(2, 470), "b": Fraction(1, 940)})
        self.assertEqual(least_step(case, {"a", "b"}), 1003)
        self.assertIn("take a step of 1,003 ms", "\n".join(rounding_lines(case, {})))
        case.links[1].jam_per_km = 90  # 300 in a second, but 300.9 in 1003 ms; 163.09 and 312.3 in 1041 ms
        self.assertEqual(least_step(case, {"a", "b"}), 1041)
        self.assertIn("take a step of 1,041 ms", "\n".join(rounding_lines(case, {})))
        self.assertEqual(rounding_lines(road(0, carry=True), {}), [])

    def test_no_longer_step(self) -> None:
        """Ten metres are driven in a second at 36 km/h: no step above that of the case may be."""
        case = road(0)
        case.links[0].length_m = 10
        self.assertIsNone(least_step(case, {"a"}))
        self.assertNotIn("take a step", "\n".join(rounding_lines(case, {})))

    @needs_program
    def test_full_roads(self) -> None:
        """142 thousandths in a slot are 0.906 of what passes the first road and 0.453 of the second; 140 are 0.894."""
        for units, told in ((142_000, True), (140_000, False)):
            road(units).write(self.folder / "road")
            lines = loading_lines(str(self.folder / "road"), None, str(BUILT))
            self.assertEqual(len(lines), 3 if told else 1, lines)
            if told:
                self.assertRegex(lines[1], "^rounding    1 link of these pass.*; the worst is a, with 0.43 % less$")


class Reds(FolderTest):
    SIGNALS = [Limit("a", first, first + 6, 0) for first in range(4, 600, 20)]

    def test_the_shortest(self) -> None:
        """Red for 6 slots of 20; one at the end of the horizon may go on behind it, and is not counted."""
        case = road(0, slots=602)
        case.signals = [*self.SIGNALS, Limit("a", 600, 602, 0)]
        self.assertEqual(shortest_reds(case), {"a": 6})
        case.signals.append(Limit("a", 9, 10, 1))
        self.assertEqual(shortest_reds(case), {"a": 5})
        self.assertEqual(shortest_reds(road(0)), {})

    def test_told(self) -> None:
        case = road(0, slots=602)
        case.signals = self.SIGNALS
        told = red_lines(case, {})
        self.assertIn("counts up to 17 % too much", told[0])
        self.assertEqual(told[1], "            the shortest has 6 steps (a); with steps of 600 ms it is at most 10 %")
        case.signals = [Limit("a", first, first + 10, 0) for first in range(4, 600, 20)]
        self.assertEqual(red_lines(case, {}), [])

    @needs_program
    def test_a_queue_that_ends_within_a_step(self) -> None:
        """A red of 6 slots every 20, and 10 units in each slot, which are gone at once when it is green. At the
        boundaries of a red 10, 20 .. 60 units wait, 210 unit seconds; exactly it is 6 * 60 / 2, a sixth too much. The
        first units come in slot 8: 10 and 20 of them wait in the first red."""
        case = road(6_000, slots=600)
        case.signals, case.setup.signals = self.SIGNALS, True
        case.write(self.folder / "road")
        loading = loaded(str(self.folder / "road"), None, str(BUILT))
        queued = report(loading.curves, loading.case).links["a"].queued
        self.assertEqual(queued / 1000, 210 * 29 + 30)


class Pulses(unittest.TestCase):
    def test_rows_that_are_alike(self) -> None:
        """156 thousandths pass the first road in a slot: two rows alike may lose 2 of them, 1.3 %; one loses none, nor
        rows that differ; nor two where what moves is floored for the turn."""
        case = road(1000)
        self.assertEqual(pulse_lines(case), [])
        case.demand.append(Demand("n1", "n2", 0, 1000, 1000))
        told = pulse_lines(case)
        self.assertIn("2 rows of demand from n1 are alike", told[0])
        self.assertIn("may lose 1.3 %", told[0])
        for other in (Demand("n1", "n2", 0, 1000, 999), Demand("n1", "n2", 1, 1000, 1000)):
            case.demand[1] = other
            self.assertEqual(pulse_lines(case), [])
        case = road(1000, moves=True)
        case.demand.append(Demand("n1", "n2", 0, 1000, 1000))
        self.assertEqual(pulse_lines(case), [])


class Inspected(FolderTest):
    def test_what_inspect_tells(self) -> None:
        """Reds of 6 steps, and two rows of demand that are alike: each has its line."""
        case = road(1000, slots=602)
        case.signals, case.setup.signals = [Limit("a", first, first + 6, 0) for first in range(4, 600, 20)], True
        case.demand.append(Demand("n1", "n2", 0, 602, 1000))
        case.write(self.folder / "road")
        told = inspect(str(self.folder / "road"))
        lines = [line.split()[0] for line in told if "17 % too much" in line or "2 rows of demand from n1 are" in line]
        self.assertEqual(lines, ["pulses", "reds"])


if __name__ == "__main__":
    unittest.main()
