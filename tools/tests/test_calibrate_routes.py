"""Demand that is fitted on the routes that its own vehicles choose, where both are known by hand."""
import unittest

import commands
from support import BUILT, FolderTest, lack_of, needs_program
from support_assign import TWO
from ltm_tools.case import Case

if lack_of("python3-numpy"):
    raise unittest.SkipTest(lack_of("python3-numpy"))

# In truth 180 vehicles set out in three minutes: a minute's worth goes by `fast` until its queue costs as much as
# `slow`, and then half of them; so 120 go by `fast` and 60 by `slow`. If V set out, V - 120 go by `slow`.
PRIOR = "origin,destination,from_slot,to_slot,vehicles\no,d,0,180,142\n"
COUNTS = "link,from,to,vehicles,use\nslow,0,400,60,fit\nfast,0,400,120,hold\n"


@needs_program
class TwoRoutes(FolderTest):
    def test_demand_and_routes(self) -> None:
        """A count of `slow` alone. On the routes of the prior, by which a fifth take it, half as many vehicles again
        would be wanted for it; on the routes of these, by which more take it, the prior. The second round is behind
        both."""
        case = self.folder / "case"
        case.mkdir()
        for name, text in {**TWO, "demand": PRIOR}.items():
            (case / f"{name}.csv").write_text(text)
        (self.folder / "counts.csv").write_text(COUNTS)
        words = ["--counts", str(self.folder / "counts.csv"), "-o", str(self.folder / "made"), "--program", str(BUILT)]
        words += ["--start", "0:00", "--slice", "3", "--rounds", "2", "--period", "1", "--samples", "0"]
        status, told, err = commands.run("calibrate", str(case), *words)
        self.assertEqual(status, 0, err)
        made = Case.read(self.folder / "made")
        (row,) = made.demand
        self.assertLess(abs(row.units - 180_000), 2000)
        weights = {one.from_slot: one.weights for one in made.standing_splits() if one.node == "o"}
        for slot, wanted in ((0, 0.0), (60, 0.5), (120, 0.5)):
            of = weights[slot]
            self.assertLess(abs(of.get("slow", 0) / sum(of.values()) - wanted), 0.05, slot)
        rows = [line.split(",") for line in (self.folder / "made/iterations.csv").read_text().splitlines()[1:]]
        self.assertEqual([one[-1] for one in rows], ["prior", "routes", "routes"])
        self.assertIn("\nround 2 is kept", told)


if __name__ == "__main__":
    unittest.main()
