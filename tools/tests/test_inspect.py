"""What `inspect` tells of a case, circles among it."""
import subprocess
import unittest
from unittest import mock

from support import BUILT, EXAMPLES, FolderTest, ROAD, needs_program
from ltm_tools.case import Case, Demand, Link, Setup, Split
from ltm_tools.case import inspect as inspecting
from ltm_tools.case.cells import cells_in, memory_text, produced_bytes
from ltm_tools.case.circles import find_circles
from ltm_tools.case.flooring import Narrow, narrow_links
from ltm_tools.case.inspect import inspect, link_lines, read_loosely


def ring(*links: tuple[str, str, str], round_from: int = 0) -> Case:
    """A ring p, q, r with a way in from o and one out to z, where q sends half of the traffic round from a slot on."""
    roads = [
        Link(name, tail, head, 40, 36, 18, 150)
        for name, tail, head in (("in", "o", "p"), ("a", "p", "q"), *links, ("c", "r", "p"))
    ]
    splits = [
        Split("o", "z", 0, {"in": 1}),
        Split("p", "z", 0, {"a": 1}),
        Split("q", "z", 0, {"exit": 1}),
        Split("r", "z", 0, {"c": 1}),
    ]
    splits.append(Split("q", "z", round_from, {"exit": 1, "b": 1}))
    return Case(Setup(1000, 400, 1000), roads, [Demand("o", "z", 0, 1, 1)], splits)


OUT_FIRST = (("exit", "q", "z"), ("b", "q", "r"))
ROUND_FIRST = (("b", "q", "r"), ("exit", "q", "z"))


class Circles(FolderTest):
    def test_found(self) -> None:
        (circle,) = find_circles(ring(*OUT_FIRST))
        self.assertEqual((circle.destination, circle.from_slot), ("z", 0))
        at = circle.links.index("a")
        self.assertEqual(circle.links[at:] + circle.links[:at], ["a", "b", "c"])

    def test_found_when_it_begins(self) -> None:
        (circle,) = find_circles(ring(*OUT_FIRST, round_from=60))
        self.assertEqual(circle.from_slot, 60)
        self.assertTrue(any("from 0:01 on" in line for line in self.told(ring(*OUT_FIRST, round_from=60))))

    def test_rows_that_are_not_in_force_together(self) -> None:
        case = ring(*OUT_FIRST, round_from=60)
        case.splits += [Split("r", "z", 30, {"d": 1})]
        case.links.append(Link("d", "r", "z", 40, 36, 18, 150))
        self.assertEqual(find_circles(case), [])

    def test_weight_0(self) -> None:
        case = ring(*OUT_FIRST)
        case.splits[-1].weights["b"] = 0
        self.assertEqual(find_circles(case), [])

    def told(self, case: Case) -> list[str]:
        case.write(self.folder / "ring")
        return inspect(str(self.folder / "ring"))

    @needs_program
    def test_a_thousandth_that_never_arrives(self) -> None:
        """Of a single unit over weights 1 and 1 the first link gets floor(1 / 2) = 0, and the last what is left."""
        for links, arrived in ((OUT_FIRST, "0.000"), (ROUND_FIRST, "0.001")):
            ring(*links).write(self.folder / "ring")
            run = subprocess.run([BUILT, "load"], cwd=self.folder / "ring", capture_output=True, text=True)
            self.assertIn(f"generated 0.001 arrived {arrived} ", run.stdout)


def row_of_ends(count: int, moves: bool = False) -> Case:
    """Roads one behind another, each of 500 thousandths in a slot, from n0 to so many destinations, one at the end of
    each."""
    links = [Link(f"a{k}", f"n{k}", f"n{k + 1}", 20, 36, 18, 150) for k in range(count)]
    ends = [f"n{k + 1}" for k in range(count)]
    splits = [Split(f"n{k}", end, 0, {f"a{k}": 1}) for number, end in enumerate(ends) for k in range(number + 1)]
    return Case(Setup(1000, 400, 1000, moves=moves), links, [Demand("n0", end, 0, 100, 1000) for end in ends], splits)


class Flooring(FolderTest):
    def told(self, case: Case) -> list[str]:
        case.write(self.folder / "row")
        told = inspect(str(self.folder / "row"))
        return told[next((place for place, line in enumerate(told) if line.startswith("flooring")), len(told) - 1) : -1]

    def test_from_20_thousandths_a_destination_on(self) -> None:
        """500 thousandths are 20 for each of 25, and 520 would be for each of 26; the second road has one destination
        less."""
        self.assertEqual(narrow_links(row_of_ends(25)), [])
        self.assertEqual(narrow_links(row_of_ends(26)), [Narrow("a0", 500, 26)])
        self.assertEqual(
            narrow_links(row_of_ends(28)), [Narrow("a0", 500, 28), Narrow("a1", 500, 27), Narrow("a2", 500, 26)]
        )

    def test_destinations_that_use_it(self) -> None:
        """Not those to which nobody sets out, or whose traffic goes another way; but one to which some goes later
        on."""
        case = row_of_ends(26)
        case.demand = case.demand[:-1]
        self.assertEqual(narrow_links(case), [])
        case = row_of_ends(26)
        case.links.append(Link("b", "n0", "n1", 20, 36, 18, 150))
        case.splits[0].weights = {"a0": 0, "b": 1}
        self.assertEqual(narrow_links(case), [])
        case.splits.append(Split("n0", "n1", 7, {"a0": 1}))
        self.assertEqual(narrow_links(case), [Narrow("a0", 500, 26)])

    def test_what_is_told(self) -> None:
        self.assertEqual(self.told(row_of_ends(25)), [])
        self.assertEqual(
            self.told(row_of_ends(28)),
            [
                "flooring    3 links with less than 20 thousandths of a vehicle in a slot for each "
                "destination that uses"
                " it: flooring takes a part of what could pass",
                "            the worst is a0: 500 thousandths in a slot, and 28 destinations",
                "            write 1 in the column moves of setup.csv, or take longer steps or fewer destinations",
            ],
        )
        self.assertEqual(
            self.told(row_of_ends(26, moves=True)),
            [
                "flooring    1 link with less than 20 thousandths of a vehicle in a slot for each "
                "destination that uses it:"
                " what passes is shared over the destinations in coarse parts",
                "            the worst is a0: 500 thousandths in a slot, and 26 destinations",
                "            take longer steps or fewer destinations",
            ],
        )

    def test_without_splits(self) -> None:
        case = row_of_ends(28)
        case.splits = None
        self.assertEqual(narrow_links(case), [])


class Memory(FolderTest):
    def test_what_origins_have_produced(self) -> None:
        """n0 up to slot 100 for 3 destinations and for all, 8 bytes each; n1, to the second and third alone, up to slot
        7; as many for 0 vehicles are none."""
        case = row_of_ends(3)
        self.assertEqual(produced_bytes(case), 8 * 4 * 100)
        case.demand += [Demand("n1", "n3", 2, 7, 5), Demand("n1", "n2", 0, 3, 5), Demand("n2", "n3", 0, 400, 0)]
        self.assertEqual(produced_bytes(case), 8 * 4 * 100 + 8 * 4 * 7)

    def test_it_is_told(self) -> None:
        """A load takes 1.1 bytes a cell and the table once, a session 2 and the table twice; at most 2 and 3."""
        self.assertEqual(
            memory_text(10_000_000, 39_000_000), "about 50 MB for a load and 98 MB for a session, at most 59 and 108"
        )
        self.assertEqual(memory_text(10_000_000), "about 11 MB for a load and 20 MB for a session, at most 20 and 30")
        self.assertEqual(
            [cells_in(108_000_000, produced) for produced in (0, 39_000_000, 60_000_000)], [36_000_000, 10_000_000, 0]
        )
        case = row_of_ends(4)
        case.demand += [Demand("n1", "n4", 0, 400, 5), Demand("n2", "n4", 0, 400, 5), Demand("n3", "n4", 0, 400, 5)]
        case.write(self.folder / "row")
        with mock.patch.object(inspecting, "memory_text", lambda cells, produced=0: f"{cells} {produced}"):
            told = inspect(str(self.folder / "row"))
        self.assertTrue(any(line.startswith(f"memory      {case.cells()} 52000; ") for line in told), told)


class Told(FolderTest):
    def test_spillback(self) -> None:
        """Worked numbers: widths 7 + 10 + 4, 8 boundaries of two curves, limits 4; 0.7 vehicles a second, and 0.5 on
        the link."""
        self.assertEqual(
            [line for line in inspect(str(EXAMPLES / "spillback")) if not line.startswith("memory")],
            [
                "network     2 links, 3 nodes, 1 destination",
                "demand      7.000 vehicles in 1 row, setting out from 0:00 to 0:00:10",
                "splits      2 rows",
                "horizon     0:00:16, 16 slots of 1000 ms",
                f"cells       {16 * 21 + 2 * 17 * 8 + 2 * 2 * 16} of at most 54,000,000; up to 10,000 slots "
                "fit, the most"
                f" there may be",
                "step        1000 ms; the links allow 2000 ms at most",
                "            a allows 2000 ms: its free-flow time, 20 m at 36 km/h",
                "            b allows 2000 ms: its free-flow time, 20 m at 36 km/h",
                "loops       none in the splits",
                "origins     1 origin with more demand in a slot than can be sent, so that vehicles wait there",
                "            n1: 2,520 vehicles an hour from 0:00 on, and its links take 1,800 at most",
                "load        takes the case",
            ],
        )

    def test_capacity_that_is_lost(self) -> None:
        """At 47 vehicles per km 156 2/3 thousandths pass in a slot, and 2/3 of them are 0.4255 %; at 100 it is 1/3 of
        333 1/3, a thousandth, which is not worth a word."""
        links = "link,from,to,length_m,free_kmh,wave_kmh,jam_per_km\na,n1,n2,20,36,18,{}\n"
        setup = "step_ms,slots,origin_capacity,carry\n1000,4,1,{}\n"
        told = inspect(str(self.case(setup=setup.format(0), links=links.format(47))))
        self.assertIn("rounding    1 link with over 0.1 % less capacity", "\n".join(told))
        self.assertIn("            the worst is a, with 0.43 % less", told)
        for jam, carry in ((100, 0), (47, 1)):
            told = inspect(str(self.case(setup=setup.format(carry), links=links.format(jam))))
            self.assertNotIn("rounding", "\n".join(told))

    def test_a_step_that_is_too_long(self) -> None:
        told = inspect(str(self.case(setup="step_ms,slots,origin_capacity\n3000,4,1\n")))
        self.assertIn("            1 link may not have the step of 3000 ms", told)
        self.assertIn("would refuse it first for: bad case links row 2 StepTooLong 2000 4000", told[-1])

    def test_records_that_are_wrong_are_left_out(self) -> None:
        told = inspect(str(self.case(demand=ROAD["demand"] + "n1,n9,0,2,1\n", splits=None)))
        self.assertEqual(
            told[:2],
            [
                "network     1 link, 2 nodes, 1 destination",
                "demand      1.000 vehicles in 1 row, setting out from 0:00 to 0:00:02",
            ],
        )
        self.assertIn("splits      none: ltm routes writes them", told)
        self.assertIn("splits.csv is not there", told[-1])

    def test_origin_capacity(self) -> None:
        told = inspect(str(self.case(setup="step_ms,slots,origin_capacity\n1000,4,0.25\n")))
        self.assertIn("            n1: 1,800 vehicles an hour from 0:00 on, and an origin sends 900 at most", told)

    def test_a_link_that_is_not_used(self) -> None:
        """0.7 vehicles a second go by a alone, which takes 0.5; with b there is room."""
        links = ROAD["links"] + "b,n1,n2,20,36,18,150\n"
        demand = "origin,destination,from_slot,to_slot,vehicles\nn1,n2,0,2,1.4\n"
        told = inspect(str(self.case(links=links, demand=demand)))
        self.assertIn("            n1: 2,520 vehicles an hour from 0:00 on, and its links take 1,800 at most", told)
        told = inspect(str(self.case(links=links, demand=demand, splits=ROAD["splits"].replace("a=1", "a=1 b=1"))))
        self.assertIn("origins     none with more demand in a slot than can be sent", told)

    def test_links(self) -> None:
        self.assertEqual(link_lines(str(self.case()))[1].split(), ["a", "20", "2000", "4000", "2000", "3"])

    def test_cells(self) -> None:
        """102 cells: widths 7 and 4, so 4 * 11, then 2 * 5 * (2 + 2 + 1) counts and 2 * 4 limits; 21 * 4 + 18, so that
        3 slots have 81."""
        told = inspect(str(self.case(setup="step_ms,slots,origin_capacity,cells\n1000,4,1,100\n")))
        self.assertIn(
            "cells       102 of at most 100; up to 3 slots fit; the column cells of setup.csv may ask for 1000000",
            told,
        )
        self.assertTrue(
            any(
                line.startswith(
                    "memory      about 1 MB for a load and 1 MB for a session, at most 1 and 1;"
                    " up to 3 slots fit in what is free"
                )
                for line in told
            )
        )
        self.assertIn("load        would refuse it first for: bad case whole row 0 CellsOver 102", told[-1])
        told = inspect(str(self.case(setup="step_ms,slots,origin_capacity,cells\n1000,4,1,102\n")))
        self.assertIn("cells       102 of at most 102; up to 4 slots fit", told)
        self.assertEqual(told[-1], "load        takes the case")

    def test_nothing_there(self) -> None:
        self.assertEqual(
            inspect(str(self.folder)),
            [f"load        would refuse it first for: {self.folder}/setup.csv is not there"],
        )


class Loosely(FolderTest):
    def test_links_without_limits(self) -> None:
        """A link too short for the step is read, so that its longest step is told; one of which a number is 0, or above
        what may be, is left out."""
        header, row = ROAD["links"].splitlines()
        links = [header, row, "b,n1,n2,20,0,18,150", "c,n1,n2,1000001,36,18,150", "d,n1,n2,1,36,18,150"]
        case = read_loosely(str(self.case(links="\n".join(links) + "\n")))
        self.assertEqual([link.name for link in case.links], ["a", "d"])


if __name__ == "__main__":
    unittest.main()
