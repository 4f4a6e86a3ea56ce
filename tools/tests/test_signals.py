"""Cycles against records of exit limits by hand, and plans by turn."""
import unittest
from fractions import Fraction

import commands
from support import FolderTest

from ltm_tools.case import Case, Demand, Limit, Link, Setup, Split
from ltm_tools.demand.cycles import Green, Plan, by_turn, even_limits, exit_limits


def limits(plan: Plan, capacity: int, slots: int, step_ms: int = 10_000) -> list[tuple[int, int, int]]:
    return [
        (limit.from_slot, limit.to_slot, limit.units)
        for limit in exit_limits(plan, capacity=capacity, step_ms=step_ms, slots=slots)
    ]


class Cycles(unittest.TestCase):
    def test_a_cycle_of_90_s_against_slots_of_10_s(self) -> None:
        # green from 0 to 42 s: four whole slots, a fifth of the next, nothing in four slots; 5 vehicles pass in a slot
        plan = Plan("a", (Green(90_000, 0, 42_000),), 0, 10**9)
        self.assertEqual(limits(plan, 5000, 18), [(4, 5, 1000), (5, 9, 0), (13, 14, 1000), (14, 18, 0)])

    def test_an_offset_and_a_green_in_the_middle(self) -> None:
        # the cycle of 60 s begins at 5 s; it is green from 15 to 40 s of it, so from 20 to 45 s, and from 80 to 105 s
        plan = Plan("a", (Green(60_000, 15_000, 40_000, 5000),), 0, 10**9)
        self.assertEqual(limits(plan, 4000, 12), [(0, 2, 0), (4, 5, 2000), (5, 8, 0), (10, 11, 2000), (11, 12, 0)])

    def test_an_offset_of_more_than_a_cycle_and_one_below_0(self) -> None:
        for offset in (125_000, -55_000):
            plan = Plan("a", (Green(60_000, 15_000, 40_000, offset),), 0, 10**9)
            self.assertEqual(limits(plan, 4000, 12), [(0, 2, 0), (4, 5, 2000), (5, 8, 0), (10, 11, 2000), (11, 12, 0)])

    def test_a_step_that_is_a_cycle_has_one_record(self) -> None:
        self.assertEqual(
            limits(Plan("a", (Green(60_000, 0, 24_000),), 0, 10**9), 30_000, 20, 60_000), [(0, 20, 12_000)]
        )

    def test_what_is_rounded_off_is_carried_on(self) -> None:
        # a third of 1000 in each slot of 10 s: 333, 333, 334
        found = limits(Plan("a", (Green(30_000, 0, 10_000, share=Fraction(1)),), 0, 10**9), 1000, 3, 30_000)
        self.assertEqual(sum(units * (end - start) for start, end, units in found), 1000)

    def test_a_plan_with_a_start_and_an_end(self) -> None:
        # green never, from 25 to 45 s: slot 2 and slot 4 are half of them without a plan
        plan = Plan("a", (Green(60_000, 59_999, 60_000),), 25_000, 45_000)
        self.assertEqual(limits(plan, 1000, 9), [(2, 3, 500), (3, 4, 0), (4, 5, 500)])

    def test_a_plan_that_begins_within_a_slot(self) -> None:
        # from 5 to 65 s, green in the first 12 s of each minute: all of the plan in slots 0 and 6, a fifth of slot 1
        plan = Plan("a", (Green(60_000, 0, 12_000),), 5000, 65_000)
        self.assertEqual(limits(plan, 1000, 8), [(1, 2, 200), (2, 6, 0)])

    def test_two_greens_in_a_cycle(self) -> None:
        plan = Plan("a", (Green(60_000, 0, 10_000), Green(60_000, 30_000, 40_000)), 0, 10**9)
        self.assertEqual(limits(plan, 1000, 6), [(1, 3, 0), (4, 6, 0)])

    def test_even(self) -> None:
        plan = Plan("a", (Green(90_000, 0, 42_000),), 0, 10**9)
        self.assertEqual(even_limits(plan, capacity=5000, step_ms=10_000, slots=18), [Limit("a", 0, 18, 2333)])

    def test_turns_by_their_shares(self) -> None:
        greens = by_turn(
            {"left": [Green(60_000, 0, 10_000)], "on": [Green(60_000, 0, 30_000)]},
            {"left": Fraction(1), "on": Fraction(3)},
        )
        # a slot of 10 s with both green is whole; with `on` alone three quarters
        self.assertEqual(limits(Plan("a", greens, 0, 10**9), 4000, 6), [(1, 3, 3000), (3, 6, 0)])


class Command(FolderTest):
    LINKS = [
        Link("a", "n1", "n2", 500, 36, 18, 150),
        Link("b", "n2", "n3", 500, 36, 18, 150),
        Link("c", "n2", "n4", 500, 36, 18, 150),
    ]

    def give(self, text: str, *words: str) -> tuple[int, str, str]:
        """Gives signals to a case, a of which sends three quarters by b and a quarter by c; its capacity is 5 vehicles
        in a slot."""
        folder = self.folder / "case"
        Case(
            Setup(10_000, 36, 32_000),
            self.LINKS,
            [Demand("n1", "n3", 0, 6, 3000), Demand("n1", "n4", 0, 6, 1000)],
            [
                Split("n1", "n3", 0, {"a": 1}),
                Split("n1", "n4", 0, {"a": 1}),
                Split("n2", "n3", 0, {"b": 1}),
                Split("n2", "n4", 0, {"c": 1}),
            ],
        ).write(folder)
        (self.folder / "greens.csv").write_text(text)
        return commands.run("signals", str(folder), "--cycles", str(self.folder / "greens.csv"), *words)

    def test_the_case_has_its_signals(self) -> None:
        status, out, err = self.give(
            "link,cycle,green_from,green_to,offset,start,end\na,90,0,42,0,7:00,7:03\n", "--clock", "7:00"
        )
        self.assertEqual((status, err), (0, ""))
        case = Case.read(self.folder / "case")
        self.assertTrue(case.setup.signals)
        self.assertEqual(
            [(limit.link, limit.from_slot, limit.to_slot, limit.units) for limit in case.signals],
            [("a", 4, 5, 1000), ("a", 5, 9, 0), ("a", 13, 14, 1000), ("a", 14, 18, 0)],
        )
        self.assertIn("4 records of signals, of 1 link", out)

    def test_a_plan_by_turn_counts_turns_by_the_demand_and_says_so(self) -> None:
        status, out, err = self.give("link,to,cycle,green_from,green_to\na,b,60,0,10\na,c,60,0,30\n")
        self.assertEqual((status, err), (0, ""))
        # b has three quarters: where c alone is green a quarter of 5 passes
        self.assertEqual(
            [(limit.from_slot, limit.to_slot, limit.units) for limit in Case.read(self.folder / "case").signals[:2]],
            [(1, 3, 1250), (3, 6, 0)],
        )
        self.assertIn("the limit of a link counts each green for the share of its turn", out)

    def test_a_signal_before_a_destination_is_told(self) -> None:
        self.assertNotIn("end at a destination", self.give("link,cycle,green_from,green_to\na,60,0,30\n")[1])
        self.assertIn(
            "1 of the links end at a destination: vehicles that arrive there wait for green as well",
            self.give("link,cycle,green_from,green_to\nb,60,0,30\n")[1],
        )

    def test_shares_that_are_told_count(self) -> None:
        self.give("link,to,cycle,green_from,green_to,share\na,b,60,0,10,1\na,c,60,0,30,1\n")
        self.assertEqual(Case.read(self.folder / "case").signals[0].units, 2500)

    def test_faults_are_one_line_each(self) -> None:
        head = "link,cycle,green_from,green_to\n"
        for text, told in (
            (head + "x,90,0,42\n", "no link"),
            (head + "a,90,50,42\n", "begins before it ends"),
            (head + "a,0,0,42\n", "a cycle is above 0"),
            (head + "a,90,80,100\n", "give one over the cycle's end as two"),
            (head + "a,90,0,soon\n", "green_to"),
            ("link\na\n", "no field cycle"),
            ("", "empty"),
            ("link,cycle,green_from,green_to,start,end\na,90,0,42,0,100\na,90,0,42,50,200\n", "while one runs"),
            ("link,to,cycle,green_from,green_to\na,b,90,0,42\na,,90,0,10\n", "name all, or none"),
        ):
            status, out, err = self.give(text)
            self.assertEqual((status, out, err.count("\n")), (1, "", 1), err)
            self.assertIn(told, err)
            self.assertFalse(Case.read(self.folder / "case").setup.signals)


if __name__ == "__main__":
    unittest.main()
