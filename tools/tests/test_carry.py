"""What is left over of a capacity, rounded down, is carried to the next slot or not: numbers worked by hand."""
import subprocess
import unittest
from fractions import Fraction

import commands
from support import BUILT, EXAMPLES, FolderTest, needs_program
from ltm_tools.case import Case, Limit, Link
from ltm_tools.demand.cycles import Green, Plan, even_limits, exit_limits
from ltm_tools.network.importing import kept_to_a_slot

SETUP = "step_ms,slots,origin_capacity,carry\n1000,8,1,{carry}\n"
DEMAND = "origin,destination,from_slot,to_slot,vehicles\nn1,n2,0,1,1\n"
LINKS = "link,from,to,length_m,free_kmh,wave_kmh,jam_per_km\na,n1,n2,20,36,18,{jam}\n"


@needs_program
class Carried(FolderTest):
    def told(self, words: list[str], text: str = "", **files: str) -> list[str]:
        """What the program answers of the road with these files."""
        run = subprocess.run(
            [BUILT, *words],
            cwd=self.case(demand=DEMAND, **files),
            input=text,
            capture_output=True,
            text=True,
            check=True,
        )
        return run.stdout.splitlines()

    def test_a_third_of_a_unit(self) -> None:
        """333 1/3 units pass in a slot. A vehicle that sets out in slot 0 has entered after three slots if thirds are
        carried, else after four. It leaves from slot 2 on; in slot 4 the link passes 333 in either case, so the last
        unit leaves in slot 5."""
        left = "0 0 0 333 666 999 1000 1000 1000"
        entered = ("0 333 666 999 1000 1000 1000 1000 1000", "0 333 666 1000 1000 1000 1000 1000 1000")
        for carry, counts in enumerate(entered):
            lines = self.told(["curves"], setup=SETUP.format(carry=carry), links=LINKS.format(jam=100))
            self.assertIn(f"up,a,n2,{counts}", lines)
            self.assertIn(f"down,a,n2,{left}", lines)

    def test_edits_keep_the_rule(self) -> None:
        """A session that edits the diagram and the horizon has the loading of the case that says so at once."""
        edits = (
            '{"do":"edit","edits":[{"kind":"diagram","link":"a","length_m":20,"free_kmh":36,"wave_kmh":18,'
            '"jam_per_km":100},{"kind":"horizon","slots":8}]}\n{"do":"settle"}\n'
        )
        ask = '{"do":"curve","link":"a"}\n'
        setup = SETUP.format(carry=1)
        edited = self.told(
            ["session", "0"], edits + ask, setup=setup.replace(",8,", ",5,"), links=LINKS.format(jam=150)
        )
        made = self.told(["session", "0"], ask, setup=setup, links=LINKS.format(jam=100))
        self.assertEqual(edited[-1].split(" link ")[1], made[-1].split(" link ")[1])
        self.assertIn("in 0 333 666 1000 1000", made[-1])


class Limits(unittest.TestCase):
    """A link that takes 333 1/3 units in a slot of 10 s."""

    THIRD = Fraction(1000, 3)

    def units(self, limits: list[Limit]) -> list[int]:
        return [limit.units for limit in limits for _ in range(limit.from_slot, limit.to_slot)]

    def test_greens(self) -> None:
        """Half of each slot is green: 166 2/3 units, of which three slots make 500, or 166 of what is rounded down
        before. Green for 20 s of a minute, 666 2/3 pass in two slots that have no limit, and none in four."""
        half = Plan("a", (Green(10_000, 0, 5_000),), 0, 60_000)
        whole, parts = ({"step_ms": 10_000, "slots": 6, "capacity": capacity} for capacity in (333, self.THIRD))
        self.assertEqual(self.units(exit_limits(half, **parts)), [166, 167, 167, 166, 167, 167])
        self.assertEqual(self.units(exit_limits(half, **whole)), [166, 167, 166, 167, 166, 167])
        third = Plan("a", (Green(60_000, 0, 20_000),), 0, 120_000)
        self.assertEqual(exit_limits(third, **parts), [Limit("a", 2, 6, 0)])

    def test_a_plan_that_ends_within_a_slot(self) -> None:
        """Green in the second half of each cycle of 10 s, up to 15 s, and free behind it: 166 2/3 in each of the first
        two slots, the second time of the half that is free."""
        plan = Plan("a", (Green(10_000, 5_000, 10_000),), 0, 15_000)
        self.assertEqual(self.units(exit_limits(plan, capacity=self.THIRD, step_ms=10_000, slots=3)), [166, 166])

    def test_the_mean_of_a_cycle(self) -> None:
        """A quarter of 333 1/3 is 83 1/3: in six slots, a minute, 500 pass, two units more than six times 83. Of eight
        slots the last two pass 166 2/3, so that 666 have passed in all."""
        plan = Plan("a", (Green(10_000, 0, 2_500),), 0, 80_000)
        made = even_limits(plan, capacity=self.THIRD, step_ms=10_000, slots=8, carry=True)
        self.assertEqual(made, [Limit("a", 0, 4, 83), Limit("a", 4, 6, 84), Limit("a", 6, 8, 83)])
        self.assertEqual(even_limits(plan, capacity=self.THIRD, step_ms=10_000, slots=8), [Limit("a", 0, 8, 83)])
        even = Plan("a", (Green(10_000, 0, 3_000),), 0, 80_000)  # 100 units, and no more records for it
        self.assertEqual(
            even_limits(even, capacity=self.THIRD, step_ms=10_000, slots=8, carry=True), [Limit("a", 0, 8, 100)]
        )


class Imports(FolderTest):
    def made(self, *words: str) -> Case:
        net, case = EXAMPLES / "from_gmns" / "gmns", self.folder / "case"
        status, _, err = commands.run("from-gmns", str(net), str(case), "--period", "30", *words)
        self.assertEqual((status, err), (0, ""))
        return Case.read(case)

    def test_a_case_carries_unless_a_word_says_not(self) -> None:
        self.assertTrue(self.made().setup.carry)
        self.assertFalse(self.made("--carry", "0").setup.carry)

    def test_no_slot_passes_more_than_it_may(self) -> None:
        """At 120 and 20 km/h and 672 vehicles/km 32,000 pass in a slot of 10 s, and at 673 more. With 19 km/h it is
        673 * 120 * 19 * 10 / (139 * 3.6) = 30,664.3."""
        fits = Link("a", "n1", "n2", 500, 120, 20, 672)
        self.assertEqual(kept_to_a_slot(fits, 10_000), fits)
        over = Link("a", "n1", "n2", 500, 120, 20, 673)
        self.assertEqual(kept_to_a_slot(over, 10_000), Link("a", "n1", "n2", 500, 120, 19, 673))


if __name__ == "__main__":
    unittest.main()
