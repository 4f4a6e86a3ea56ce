"""What capacity is worth, on queues worked by hand, and on a junction where a longer green costs time."""
import csv
import unittest
import unittest.mock
from fractions import Fraction

import commands
from support import BUILT, FolderTest, needs_dask, needs_program
from support_assign import LINKS, SIGNALS
from support_cluster import ClusterTest
from ltm_tools.case import Case, Limit
from ltm_tools.errors import Fault
from ltm_tools.scenario.rows import OwnRows
from ltm_tools.worth.capacity import ENTRY, ROAD, STOP_LINE, Capacity, capacity_of, scaled
from ltm_tools.worth.result import FIELDS, read_worths, savings
from ltm_tools.worth.trials import Trials

# Ten vehicles set out at once and stand at stop lines that let half a vehicle a second through, in steps of 1 s. At
# a rate of c a second the queue is 10 - c k vehicles k seconds after the first has left, as long as that is above 0:
# together 95 vehicle seconds at 0.5, 75 at 0.625, 128.375 at 0.375.
QUEUE = {
    "setup": "step_ms,slots,origin_capacity,signals\n1000,100,32,1\n",
    "links": LINKS + "a,o,m,200,72,36,300\nb,m,d,200,72,36,300\n",
    "demand": "origin,destination,from_slot,to_slot,vehicles\no,d,0,1,10\n",
    "splits": "node,destination,from_slot,weights\no,d,0,a=1\nm,d,0,b=1\n",
    "signals": SIGNALS + "a,0,100,0.5\n",
}
# Two roads meet before a third, which they fill; the first is the shorter queue, and empties early.
MERGE = {
    "setup": "step_ms,slots,origin_capacity,signals\n1000,40,32,1\n",
    "links": LINKS + "a,o1,m,200,72,36,75\nb,o2,m,200,72,36,75\nout,m,z,200,72,36,90\n",
    "demand": "origin,destination,from_slot,to_slot,vehicles\no1,z,0,1,4\no2,z,0,1,8\n",
    "splits": "node,destination,from_slot,weights\no1,z,0,a=1\no2,z,0,b=1\nm,z,0,out=1\n",
    "signals": SIGNALS + "a,0,40,0.2\n",
}


def weighed(folder: str, *words: str) -> "dict[str, dict[str, str]]":
    """The rows of the table by link."""
    status, out, err = commands.run("bottlenecks", folder, "--program", str(BUILT), "--format", "csv", *words)
    assert (status, err) == (0, ""), (status, err)
    return {row["link"]: row for row in csv.DictReader(out.splitlines())}


class Capacities(FolderTest):
    def test_nothing_is_lost_by_rounding(self) -> None:
        # 1.05 of 333 is 349.65, of the next 699.3 together, of the third 1048.95; what is above the road, and red, stay
        self.assertEqual(scaled([333, 0, 333, 900, 333], [800] * 5, Fraction(105, 100)), [349, 0, 350, 900, 349])

    def test_what_holds_a_link(self) -> None:
        """Of the limits at both ends those at its end; limits that the road does not reach hold nothing."""
        case = Case.read(self.case(**QUEUE))

        def capacity(name: str) -> Capacity:
            return capacity_of(case.setup, OwnRows(case), name, 0, 100)

        found = capacity("a")
        self.assertEqual((found.kind, found.per_hour), (STOP_LINE, 1800))
        found = capacity("b")
        self.assertEqual((found.kind, found.per_hour), (ROAD, 7200))
        case.limits = [Limit("a", 0, 50, 1000), Limit("b", 0, 50, 1000)]
        self.assertEqual([capacity(name).kind for name in ("a", "b")], [STOP_LINE, ENTRY])
        self.assertEqual(capacity("b").per_hour, 5400)  # half of the time a vehicle a second, half two
        case.limits = [Limit("b", 0, 50, 2000)]
        self.assertEqual(capacity("b").kind, ROAD)

    def test_edits_of_a_span(self) -> None:
        """Slots with the same limit are one edit, those that stay none; a road has a whole number of vehicles a
        kilometre, and one more or less at least."""
        case = Case.read(self.case(**{**QUEUE, "signals": SIGNALS + "a,0,20,0.5\na,20,30,0\na,30,100,0.4\n"}))
        change = capacity_of(case.setup, OwnRows(case), "a", 10, 40).changed(Fraction(1, 10))
        assert change is not None
        told = [(edit.told()["from"], edit.told()["to"], edit.told()["vehicles"]) for edit in change.edits]
        self.assertEqual(told, [(10, 20, "0.55"), (30, 40, "0.44")])
        self.assertEqual(change.per_hour, Fraction((500 + 400) * 3600, 1000 * 30))
        change = capacity_of(case.setup, OwnRows(case), "b", 0, 100).changed(Fraction(-1, 1000))
        assert change is not None
        self.assertEqual((change.edits[0].told()["jam_per_km"], change.per_hour), (299, -24))


class TheTable(FolderTest):
    def read(self, *rows: str) -> "dict[str, int]":
        path = self.folder / "worth.csv"
        path.write_text("".join(f"{row}\n" for row in (",".join(FIELDS), *rows)))
        return dict(savings(read_worths(path)))

    def test_what_is_saved(self) -> None:
        """Times are in thousandths of a vehicle times ms; a link that cannot have more is left out."""
        row = "stop line,1800.0,450.0,-20.000001,-20,0.000,-450.0,33.375,33.375,0.000,0.02,1,20,0,a,"
        none = "road,7200.0,,,,,-24.0,1.000,1.000,0.000,0.02,0,0,0,,"
        costs = "entry,1800.0,180.0,1.000000,1.000,0.000,-180.0,0,0,0.000,0.02,1,0,1,,a"
        self.assertEqual(self.read(f"a,{row}", f"b,{none}", f"c,{costs}"), {"a": 20_000_001, "c": -1_000_000})
        for wrong, told in (
            (f"a,{row.replace('stop line', 'bridge')}", "expected one of stop line, entry, road"),
            (f"a,{row.replace('-20.000001', 'x')}", "row 2: more_travel_time_s is .x.: expected a number"),
        ):
            with self.assertRaisesRegex(Fault, told):
                self.read(wrong)
        with self.assertRaisesRegex(Fault, "no link stands in it"):
            self.read()


@needs_program
class ByHand(FolderTest):
    def test_a_queue(self) -> None:
        row = weighed(str(self.case(**QUEUE)), "--by", "25%")["a"]
        self.assertEqual((row["held_by"], row["capacity_per_h"]), ("stop line", "1800.0"))
        self.assertEqual((row["more_per_h"], row["less_per_h"]), ("450.0", "-450.0"))
        self.assertEqual((row["more_travel_time_s"], row["more_delay_s"]), ("-20.000000", "-20.000000"))
        self.assertEqual(row["less_travel_time_s"], "33.375000")
        self.assertEqual((row["falls"], row["rises"], row["clear"]), ("a", "", "1"))

    def test_a_queue_that_moves_on(self) -> None:
        """Both stop lines let half a vehicle a second through: more at the first only moves the queue to the second."""
        case = self.case(**{**QUEUE, "signals": SIGNALS + "a,0,100,0.5\nb,0,100,0.5\n"})
        row = weighed(str(case), "--by", "25%")["a"]
        self.assertEqual((row["more_travel_time_s"], row["less_travel_time_s"]), ("0.000000", "33.375000"))
        self.assertEqual((row["delay_falls_s"], row["delay_rises_s"]), ("20.000000", "20.000000"))
        self.assertEqual((row["falls"], row["rises"]), ("a", "b"))

    def test_a_longer_green_may_cost_time(self) -> None:
        """354, 355 and 356.282 vehicle seconds where the first road lets 0.200, 0.250 and 0.300 through."""
        case = str(self.case(**MERGE))
        row = weighed(case, "--by", "25%", "--links", "a")["a"]
        self.assertEqual((row["more_per_h"], row["more_travel_time_s"]), ("180.0", "1.000000"))
        self.assertEqual(weighed(case, "--by", "50%", "--links", "a")["a"]["more_travel_time_s"], "2.282000")

    def test_the_first_alone_are_weighed_both_ways(self) -> None:
        """More of the road out saves most. Behind it is what more of the others costs, and nothing else of them."""
        rows = weighed(str(self.case(**MERGE)), "--by", "25%", "--most", "1")
        self.assertEqual(list(rows), ["out", "a"])
        self.assertEqual([bool(row["less_travel_time_s"]) for row in rows.values()], [True, False])
        self.assertEqual([row["clear"] for row in rows.values()], ["1", ""])
        self.assertEqual(rows["a"]["more_travel_time_s"], "1.000000")

    def test_a_change_without_effect_is_not_made_larger(self) -> None:
        """All have passed by the time at which the entry has a limit, though rounding has an effect before."""
        limits = "link,from_slot,to_slot,vehicles\nb,90,100,0.5\n"
        setup = "step_ms,slots,origin_capacity,signals,limits\n1000,100,32,1,1\n"
        with unittest.mock.patch.object(Trials, "effect", autospec=True, side_effect=Trials.effect) as effect:
            self.assertEqual(weighed(str(self.case(**{**QUEUE, "setup": setup, "limits": limits})), "--links", "b"), {})
        self.assertEqual(effect.call_count, 2)

    def test_what_rounding_hides(self) -> None:
        """A thousandth that stays behind in the busiest slot waits for the 20 s of the queue. So the part is doubled
        twice, until a change is worth ten times as much: a thousandth a second, which leaves 94.81 or 95.21."""
        row = weighed(str(self.case(**QUEUE)), "--by", "0.05%")["a"]
        self.assertEqual((row["rounding_s"], row["more_per_h"], row["clear"]), ("0.020000", "3.6", "1"))
        self.assertEqual((row["more_travel_time_s"], row["less_travel_time_s"]), ("-0.190000", "0.210000"))

    def test_what_is_refused(self) -> None:
        case = str(self.case(**QUEUE))
        for words, told in (
            (("--by", "0"), "no part of a capacity"),
            (("--by", "60%"), "at most 50"),
            (("--links", "x"), "the case has no link x"),
            (("--from", "0:02"), "lasts from 0:00 to 0:01:40"),
            (("--sessions", "0"), "0 sessions cannot run"),
        ):
            status, out, err = commands.run("bottlenecks", case, "--program", str(BUILT), *words)
            self.assertEqual((status, out, err.count("\n")), (1, "", 1))
            self.assertIn(told, err)


@needs_dask
@needs_program
class OnACluster(ClusterTest):
    def test_the_rows_are_the_same(self) -> None:
        address, *_ = self.cluster(2)
        case = self.folder / "queue"
        self.case(**MERGE).rename(case)
        words = ("--by", "25%", "--links", "a", "b", "out")
        self.assertEqual(weighed(str(case), *words, "--scheduler", address), weighed(str(case), *words))


if __name__ == "__main__":
    unittest.main()
