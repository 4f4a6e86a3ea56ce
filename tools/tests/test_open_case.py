"""An open case has exactly the batches that are wanted, also where its session's lines end or the program does."""
import os
import signal
import unittest
from fractions import Fraction

from support import BUILT, EXAMPLES, FolderTest, needs_program
from ltm_tools.errors import Fault
from ltm_tools.live.scenario import Scenario
from ltm_tools.scenario.edits import KINDS, Demand, Diagram, Edit, Exit, Horizon, Limit, Split, Splits, edit_of
from ltm_tools.scenario.open import OpenCase, SessionLost
from ltm_tools.scenario.session import Ended, Session

CLOSED, LIMITED = [Limit("north_east", 60, 90, 0)], [Exit("centre_east", 3, 60, 100)]
ARRIVED = 735_196  # of examples/closures as it is, in thousandths of a vehicle


class Objects(unittest.TestCase):
    def test_each_kind_to_a_script_and_back(self) -> None:
        made: list[Edit] = [
            Demand("a", "b", 0, 4, 1500),
            Limit("a", 0, 4),
            Exit("a", 0, 4, 250),
            Split("a", "b", 3, {"c": 2}),
            Splits("a", "b", ((0, {"c": 1}), (4, {"d": 3}))),
            Diagram("a", 20, 36, 18, 150),
            Horizon(9),
        ]
        self.assertEqual([edit.kind for edit in made], list(KINDS))
        self.assertEqual([edit_of(edit.told()) for edit in made], made)
        self.assertEqual(made[0].told()["vehicles"], "1.5")

    def test_what_is_no_edit(self) -> None:
        for told in ({}, {"kind": "x"}, {"kind": "horizon", "slots": True}, {"kind": "horizon", "slots": Fraction(9)}):
            self.assertRaisesRegex(Fault, "is no edit", edit_of, told)


@needs_program
class Open(FolderTest):
    def setUp(self) -> None:
        super().setUp()
        self.open = OpenCase(EXAMPLES / "closures", BUILT, most_lines=20)
        self.addCleanup(self.open.kill)

    def arrived(self) -> int:
        self.open.settle()
        return self.open.session.totals().arrived

    def kill(self) -> None:
        os.kill(self.open.session.process.pid, signal.SIGKILL)

    def test_batches_come_and_go(self) -> None:
        self.open.have([])
        self.assertEqual(self.arrived(), ARRIVED)
        self.open.have([CLOSED, LIMITED])
        both = self.arrived()
        self.assertLess(both, ARRIVED)
        self.open.have([LIMITED])
        self.open.settle()
        with Session(EXAMPLES / "closures", program=BUILT) as session:
            session.edit(*LIMITED)
            session.settle()
            self.assertEqual(self.open.session.delay()[1:], session.delay()[1:])
        self.open.have([])
        self.assertEqual((self.arrived(), self.open.opened), (ARRIVED, 1))

    def test_the_horizon_opens_it_anew(self) -> None:
        self.open.have([[Horizon(121)]])
        self.open.have([])
        self.assertEqual((self.arrived(), self.open.opened), (ARRIVED, 2))

    def test_lines_that_end(self) -> None:
        """Whatever is asked, 20 lines a session: each later one has the batch, and shows it."""
        self.open.have([CLOSED])
        found = {self.arrived(), *(self.open.session.totals().arrived for _ in range(60))}
        self.assertEqual(len(found), 1)
        self.assertGreater(self.open.opened, 3)

    def test_the_last_line(self) -> None:
        """A session takes 20 lines, and what comes then goes to another."""
        for _ in range(20):
            self.open.session.totals()
        self.assertEqual(self.open.opened, 1)
        self.open.session.totals()
        self.assertEqual((self.open.opened, self.open.session.lines), (2, 1))

    def test_lines_that_are_wanted(self) -> None:
        """Of 20 lines 17 are used: there is room for two more batches and a line, not for two lines; and for one batch
        by which another is undone, one more and a line."""
        for wanted in ([CLOSED, LIMITED, LIMITED], [LIMITED]):
            for lines, opened in ((1, 1), (2, 2)):
                with OpenCase(EXAMPLES / "closures", BUILT, most_lines=20) as one:
                    one.have([CLOSED])
                    for _ in range(16):
                        one.session.totals()
                    one.have(wanted, lines)
                    self.assertEqual((one.opened, one.made), (opened, wanted))

    def test_a_live_scenario_keeps_lines(self) -> None:
        """Of 40 lines it uses 30 before it is opened anew, with the same list: two when it begins, one for a closure
        and one to settle it."""
        with Scenario(EXAMPLES / "closures", BUILT, most_lines=40) as scenario:
            scenario.add("me", {"kind": "close", "link": "north_east", "from": 60, "to": 90})
            scenario.settle()
            for _ in range(25):
                closed = scenario.totals()
                scenario.renew()
            self.assertEqual((scenario.open.opened, scenario.session.lines), (1, 29))
            scenario.totals()
            scenario.renew()
            self.assertEqual((scenario.open.opened, scenario.session.lines), (2, 2))
            self.assertEqual(scenario.totals()[1:], closed[1:])

    def test_a_live_scenario_near_its_last_line(self) -> None:
        """One change after another, each taken back again: no session is asked more than 30 lines."""
        with Scenario(EXAMPLES / "closures", BUILT, most_lines=40) as scenario:
            lines = []
            for _ in range(30):
                entry = scenario.add("me", {"kind": "close", "link": "north_east", "from": 60, "to": 90})
                lines.append(scenario.session.lines)
                scenario.undo(entry.number)
                lines.append(scenario.session.lines)
            self.assertEqual(scenario.open.opened, 3)
            self.assertLessEqual(max(lines), 30)

    def test_a_program_that_ends(self) -> None:
        self.open.have([CLOSED])
        closed = self.arrived()
        self.kill()
        self.assertRaises(Ended, self.open.session.totals)
        self.assertEqual(self.open.tried(lambda: self.open.session.totals().arrived), closed)

    def test_a_program_that_ends_at_the_same_work_again(self) -> None:
        def work() -> int:
            self.kill()
            return self.open.session.totals().arrived

        self.open.have([CLOSED])
        self.assertRaises(SessionLost, self.open.tried, work)
        self.assertEqual(self.open.opened, 2)


if __name__ == "__main__":
    unittest.main()
