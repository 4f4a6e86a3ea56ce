"""Demand in time adds up to the thousandth; tables, matrices, profiles and trips as they come."""
import unittest
from fractions import Fraction
from unittest import mock

import commands
from support import FolderTest

from ltm_tools.case import Case, Demand, Link, Setup
from ltm_tools.case.roads import Roads
from ltm_tools.demand.profiles import Part, by_profile, cut_by_shares
from ltm_tools.demand.trips import Trip, by_trips
from ltm_tools.errors import Fault


class Spread(unittest.TestCase):
    def test_parts_add_up(self) -> None:
        self.assertEqual(cut_by_shares(10_000, [Fraction(1)] * 3), [3334, 3333, 3333])
        self.assertEqual(cut_by_shares(1, [Fraction(1), Fraction(3)]), [0, 1])
        self.assertEqual(cut_by_shares(0, [Fraction(1), Fraction(3)]), [0, 0])
        shares = [Fraction(1, 3), Fraction(2, 7), Fraction(0), Fraction(11, 13)]
        for units in range(0, 5000, 7):
            self.assertEqual(sum(cut_by_shares(units, shares)), units)
            self.assertEqual(cut_by_shares(units, shares)[2], 0)

    def test_all_shares_0(self) -> None:
        self.assertRaisesRegex(Fault, "sum to 0", cut_by_shares, 5, [Fraction(0)])

    def test_rows_of_a_profile(self) -> None:
        rows = by_profile({("a", "b"): 1000, ("a", "c"): 3}, [Part(0, 10, Fraction(1)), Part(10, 30, Fraction(3))])
        self.assertEqual(
            rows,
            [
                Demand("a", "b", 0, 10, 250),
                Demand("a", "b", 10, 30, 750),
                Demand("a", "c", 0, 10, 1),
                Demand("a", "c", 10, 30, 2),
            ],
        )

    def test_parts_with_the_same_slots_are_one_row(self) -> None:
        self.assertEqual(
            by_profile({("a", "b"): 1000}, [Part(0, 10, Fraction(1)), Part(0, 10, Fraction(1))]),
            [Demand("a", "b", 0, 10, 1000)],
        )

    def test_more_rows_than_may_be(self) -> None:
        amounts = {("a", f"n{number}"): 1000 for number in range(60)}
        self.assertRaisesRegex(
            Fault, "longer slices", by_profile, amounts, [Part(slot, slot + 1, Fraction(1)) for slot in range(200)]
        )


class Trips(unittest.TestCase):
    def test_trips_are_counted_by_slices(self) -> None:
        trips = [
            Trip("a", "b", 0, 1000),
            Trip("a", "b", 59_999, 1000),
            Trip("a", "b", 60_000, 1000),
            Trip("a", "c", 119_000, 500),
            Trip("a", "b", 150_000, 1000),
        ]
        rows, late = by_trips(trips, step_ms=10_000, slots=15, slice_slots=6)
        self.assertEqual(
            rows, [Demand("a", "b", 0, 6, 2000), Demand("a", "b", 6, 12, 1000), Demand("a", "c", 6, 12, 500)]
        )
        self.assertEqual(late, 1000)
        # the last slice ends with the horizon
        self.assertEqual(
            by_trips([Trip("a", "b", 149_000, 1000)], step_ms=10_000, slots=15, slice_slots=6)[0],
            [Demand("a", "b", 12, 15, 1000)],
        )


class Command(FolderTest):
    def give(
        self, text: str, *words: str, encoding: str = "utf-8", setup: Setup = Setup(10_000, 360, 1000), **more: str
    ) -> tuple[int, str, str]:
        """Gives demand of a file to a case of two roads of an hour in steps of 10 s."""
        folder = self.folder / "case"
        Case(setup, [Link("a", "n1", "n2", 500, 36, 18, 150), Link("b", "n2", "n3", 500, 36, 18, 150)]).write(folder)
        for name, other in more.items():
            (self.folder / name).write_text(other)
        (self.folder / "file").write_text(text, encoding=encoding)
        return commands.run("demand", str(folder), *(word.replace("@", str(self.folder) + "/") for word in words))

    def rows(self) -> list[tuple[str, str, int, int, int]]:
        return [
            (row.origin, row.destination, row.from_slot, row.to_slot, row.units)
            for row in Case.read(self.folder / "case").demand
        ]

    def test_a_table_with_a_profile_by_the_clock(self) -> None:
        status, out, err = self.give(
            "origin,destination,vehicles\nn1,n3,10\nn2,n3,0.5\nn1,n1,4\n",
            "--table",
            "@file",
            "--profile",
            "@profile",
            "--start",
            "6:45",
            profile="from,share\n7:00,1\n7:15,2\n7:30,1\n",
        )
        self.assertEqual((status, err), (0, ""))
        self.assertEqual(
            self.rows(),
            [
                ("n1", "n3", 90, 180, 2500),
                ("n1", "n3", 180, 270, 5000),
                ("n1", "n3", 270, 360, 2500),
                ("n2", "n3", 90, 180, 125),
                ("n2", "n3", 180, 270, 250),
                ("n2", "n3", 270, 360, 125),
            ],
        )
        self.assertIn("slot 0 begins at 6:45", out)
        self.assertIn("10.5 vehicles to 1 destination in 6 rows", out)

    def test_a_matrix_with_semicolons_and_decimal_commas(self) -> None:
        status, _, err = self.give(
            "zone;n1;n2;n3\nn1;0;1,5;2\nn2;0;0;3\nn3;;;\n", "--table", "@file", "--period", "30", encoding="latin-1"
        )
        self.assertEqual((status, err), (0, ""))
        self.assertEqual(
            self.rows(), [("n1", "n2", 0, 180, 1500), ("n1", "n3", 0, 180, 2000), ("n2", "n3", 0, 180, 3000)]
        )

    def test_trips_by_the_clock_or_in_seconds(self) -> None:
        for text in (
            "origin,destination,depart\nn1,n3,7:01\nn1,n3,07:02:30\nn2,n3,7:59:59\n",
            "from,to,departure_time\nn1,n3,25260\nn1,n3,25350\nn2,n3,28799\n",
        ):
            status, _, err = self.give(text, "--trips", "@file")
            self.assertEqual((status, err), (0, ""))
            self.assertEqual(self.rows(), [("n1", "n3", 0, 90, 2000), ("n2", "n3", 270, 360, 1000)])

    def test_what_the_setup_asks_for(self) -> None:
        """Rows and destinations are as many as the setup says; destinations are counted before ways are sought."""
        table = "origin,destination,vehicles\nn1,n3,1\nn2,n3,1\nn1,n2,1\n"
        for more, told in (
            ({"rows": 3}, ""),
            ({"rows": 2}, "rows of demand, of 3 pairs"),
            ({"destinations": 2}, ""),
            ({"destinations": 1}, "there are 2 destinations, and at most 1 may be"),
        ):
            with mock.patch.object(Roads, "least_times", autospec=True, side_effect=Roads.least_times) as sought:
                status, _, err = self.give(table, "--table", "@file", setup=Setup(10_000, 360, 1000, **more))
            self.assertEqual((status, told in err, sought.called), (1 if told else 0, True, not told))
            trips = "origin,destination,depart\nn1,n3,7:01\nn2,n3,7:01\nn1,n2,7:01\n"
            self.assertEqual(
                self.give(trips, "--trips", "@file", setup=Setup(10_000, 360, 1000, **more))[0], 1 if told else 0
            )

    def test_faults_are_one_line_each(self) -> None:
        for text, words, told in (
            ("origin,destination,vehicles\nn1,n9,1\n", ("--table", "@file"), "n9 is no node"),
            ("origin,destination,vehicles\nn1,n3,-1\n", ("--table", "@file"), "0 or more"),
            ("origin,destination,vehicles\nn1,n3,much\n", ("--table", "@file"), "vehicles"),
            ("origin,destination,vehicles\nn3,n1,2\n", ("--table", "@file"), "--leave-out-unreached"),
            ("", ("--table", "@file"), "empty"),
            ("a\n1\n", ("--table", "@file"), "no field"),
            ("origin,destination,depart\nn1,n3,25:99\n", ("--trips", "@file"), "depart"),
            ("origin,destination,vehicles\nn1,n3,1\n", ("--table", "@none"), "no such file"),
            ("origin,destination,vehicles\nn1,n3,1\n", ("--table", "@file", "--period", "90"), "--horizon"),
        ):
            status, out, err = self.give(text, *words)
            self.assertEqual((status, out, err.count("\n")), (1, "", 1), err)
            self.assertIn(told, err)
            self.assertEqual(self.rows(), [])


if __name__ == "__main__":
    unittest.main()
