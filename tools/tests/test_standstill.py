"""Vehicles that stand still until the end: whether it is told, since when, and that it is a gridlock."""
import io
import os
import subprocess
import unittest
from contextlib import redirect_stdout

from support import BUILT, CLONE, FolderTest, needs_program
from ltm_tools import cli
from ltm_tools.case import Case, Demand, Limit, Link, Setup, Split
from ltm_tools.case.inspect import inspect
from ltm_tools.loading.loaded import loaded
from ltm_tools.loading.standstill import Standstill, standstill
from ltm_tools.scenario.session import Session


def ring() -> Case:
    """Four nodes in a ring, at each of which 200 vehicles set out that leave it three links further: more enter than
    leave, so that the ring fills and locks. Each link stores 6 vehicles."""
    case = Case(Setup(1000, 600, 1000), [], [], [])
    assert case.splits is not None
    for k in range(4):
        case.links.append(Link(f"r{k}", f"p{k}", f"p{(k + 1) % 4}", 40, 36, 18, 150))
        case.links.append(Link(f"x{k}", f"p{k}", f"z{k}", 40, 36, 18, 150))
        case.splits += [Split(f"p{k}", f"z{j}", 0, {f"{'x' if j == k else 'r'}{k}": 1}) for j in range(4)]
        case.demand.append(Demand(f"p{k}", f"z{(k + 3) % 4}", 0, 100, 200_000))
    return case


def road(slots: int = 60, signals: list[Limit] | None = None, limits: list[Limit] | None = None) -> Case:
    """Two roads one behind the other, each driven in 4 s with waves of 8 s, and one vehicle that sets out in 2 s."""
    links = [Link(name, *ends, 40, 36, 18, 150) for name, ends in (("a", ("n1", "n2")), ("b", ("n2", "n3")))]
    splits = [Split("n1", "n3", 0, {"a": 1}), Split("n2", "n3", 0, {"b": 1})]
    setup = Setup(1000, slots, 1000, signals=signals is not None, limits=limits is not None)
    return Case(setup, links, [Demand("n1", "n3", 0, 2, 1000)], splits, signals or [], limits or [])


class Standing(FolderTest):
    def found(self, case: Case) -> Standstill | None:
        case.write(self.folder / "case")
        loading = loaded(str(self.folder / "case"), None, str(BUILT))
        return standstill(loading.curves, loading.case)

    @needs_program
    def test_a_ring_that_locks(self) -> None:
        """All four links hold what they store but for single thousandths, wait for the next one, and are at the moment
        that is told for the first time as they are at the end."""
        found = self.found(ring())
        assert found is not None
        self.assertEqual({link.name for link in found.links}, {"r0", "r1", "r2", "r3"})
        self.assertTrue(all(5_990 < link.units <= 6_000 for link in found.links))
        at = found.circle.index("r0")
        self.assertEqual(found.circle[at:] + found.circle[:at], ("r0", "r1", "r2", "r3"))
        self.assertEqual((found.on_links, found.waiting), (found.units, 800_000 - found.units))
        with Session(self.folder / "case", program=BUILT) as session:
            before, since, end = (session.state(slot)[2:4] for slot in (found.since - 1, found.since, 600))
        self.assertNotEqual(before, end)
        self.assertEqual(since, end)

    @needs_program
    def test_red_is_no_standstill(self) -> None:
        """Nothing moves from 2 s on, where the light is red to the end: for five minutes that is a red light, and no
        longer. Where it was never green, or is again and nothing may enter `b`, the link stands."""
        for slots, standing in ((302, False), (303, True)):
            found = self.found(road(slots, signals=[Limit("a", 2, slots, 0)]))
            self.assertEqual(found is not None, standing)
        closed = [Limit("b", 0, 60, 0)]
        self.assertIsNone(self.found(road(signals=[Limit("a", 2, 60, 0)], limits=closed)))
        self.assertIsNotNone(self.found(road(signals=[Limit("a", 2, 59, 0)], limits=closed)))
        found = self.found(road(signals=[Limit("a", 0, 60, 0)]))
        assert found is not None
        self.assertEqual([(link.name, link.since, link.units) for link in found.links], [("a", 2, 1000)])
        self.assertEqual((found.circle, found.whole, found.waiting), ((), True, 0))

    @needs_program
    def test_a_horizon_that_ends_first(self) -> None:
        """The vehicle is on `a` from 2 s on, and nothing may enter `b`. The wave time of `a` is 8 s: by 10 s it could
        still have moved, a step later not."""
        for slots, standing in ((10, False), (11, True)):
            found = self.found(road(slots, limits=[Limit("b", 0, slots, 0)]))
            self.assertEqual(found is not None, standing)

    @needs_program
    def test_what_is_told(self) -> None:
        case = road(limits=[Limit("b", 0, 60, 0)])
        case.links.append(Link("c", "m1", "m2", 400, 36, 18, 150))
        case.demand.append(Demand("m1", "m2", 50, 60, 2000))
        assert case.splits is not None
        case.splits.append(Split("m1", "m2", 0, {"c": 1}))
        self.found(case)
        (self.folder / "case" / "clock.txt").write_text("8:00\n")
        (self.folder / "case" / "street_names.csv").write_text("link,street\nr0,Ringstrasse\n")
        self.assertIn(
            "standing    Nothing has moved on 1 link since 8:00:02; 1 vehicles are on it\n"
            "            limits.csv or signals.csv may close what lies ahead of them to the end of the horizon\n",
            self.inspected(),
        )
        self.found(ring())
        told = self.inspected()
        self.assertRegex(
            told, "standing    Nothing has moved since 8:00:[0-9]+; 24 vehicles are on links, and 776 wait"
        )
        self.assertRegex(told, "it is a gridlock, in which full links wait for one another: .*Ringstrasse .r0.")

    def inspected(self) -> str:
        told = io.StringIO()
        with redirect_stdout(told):
            self.assertEqual(cli.main(["inspect", str(self.folder / "case"), "--load", "--program", str(BUILT)]), 0)
        return told.getvalue()

    @needs_program
    def test_the_wrapper_tells_of_it(self) -> None:
        """`load` writes what it did, and the standard error why; of a loading that comes to its end nothing is said."""

        def load(case: Case) -> tuple[str, str]:
            case.write(self.folder / "case")
            done = subprocess.run(
                [CLONE / "ltm", self.folder / "case", "load"],
                env={**os.environ, "LTM": str(BUILT)},
                capture_output=True,
                text=True,
            )
            bare = subprocess.run([BUILT, "load"], cwd=self.folder / "case", capture_output=True, text=True)
            self.assertEqual((done.returncode, done.stdout), (0, bare.stdout))
            return bare.stdout, done.stderr

        self.assertRegex(load(ring())[1], "^ltm: Nothing has moved since 0:00:[0-9]+; 24 vehicles are on links")
        self.assertEqual(load(road())[1], "")
        report, said = load(road(slots=7))  # a vehicle on its way
        self.assertIn(" on_links 1.000 ", report)
        self.assertEqual(said, "")


class Closed(FolderTest):
    def told(self, case: Case) -> list[str]:
        case.write(self.folder / "case")
        return [line for line in inspect(str(self.folder / "case")) if line.startswith("closed")]

    def test_no_green(self) -> None:
        """Red in all slots, by one record or two; not where a later record lets something pass, or nobody is sent."""
        what = "closed      1 link with traffic without any green, where vehicles wait for ever: a"
        self.assertEqual(self.told(road(signals=[Limit("a", 0, 60, 0)])), [what])
        self.assertEqual(self.told(road(signals=[Limit("a", 0, 30, 0), Limit("a", 30, 60, 0)])), [what])
        self.assertEqual(self.told(road(signals=[Limit("a", 0, 60, 0), Limit("a", 59, 60, 1)])), [])
        self.assertEqual(self.told(road(signals=[Limit("a", 0, 59, 0)])), [])
        idle = road(signals=[Limit("a", 0, 60, 0)])
        idle.demand[0].units = 0
        self.assertEqual(self.told(idle), [])

    def test_no_entry(self) -> None:
        what = "closed      1 link with traffic that nobody may ever enter, before which vehicles wait for ever: b"
        self.assertEqual(self.told(road(limits=[Limit("b", 0, 60, 0)])), [what])


if __name__ == "__main__":
    unittest.main()
