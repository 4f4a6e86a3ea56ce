"""What closures cost, worked by hand where nobody and where all find another way; here, in processes and on a
cluster."""
import csv
import unittest
from unittest import mock

import commands
from support import BUILT, FolderTest, needs_dask, needs_numpy, needs_program
from support_assign import LINKS, SIGNALS, TWO
from support_cluster import ClusterTest
from ltm_tools import libraries
from ltm_tools.case import Case, Split
from ltm_tools.scenario import edits
from ltm_tools.scenario.session import Session

if not libraries.missing(("numpy",)):
    from ltm_tools.assign.assigning import AssignOptions
    from ltm_tools.assign.closing import ALL, HALF, MOMENT, NOBODY as NONE, Closure, respond
    from ltm_tools.assign.rerouting import Base

# TWO with the shares at which nobody gains. Its hours are 60 x 70 s, by `fast` with half a minute in its queue, and
# 120 x 100 s. Then `fast` is shut for three minutes from 1:00 on:
# nobody finds another way: the 120 who set out from then on wait at o, at first three minutes and at last two; from
#                           4:00 on two a second go on, half of them by `fast`, where they wait 30 s in the mean
# all:   they take `slow`, which half of them do anyway, and to the others it is no slower
ASSIGNED = {**TWO, "splits": "node,destination,from_slot,weights\no,d,0,fast=1\no,d,60,fast=1 slow=1\n"}
OPEN = 60 * 70 + 120 * 100
NOBODY = 60 * 70 + 120 * 150 + 60 * 70 + 60 * 100
TIMES = ("--from", "7:01", "--to", "7:04", "--start", "7:00", "--period", "1", "--step", "2")


def closures(folder: str, *words: str) -> "tuple[int, str, str]":
    return commands.run("closures", folder, "--program", str(BUILT), *words)


@needs_numpy
@needs_program
class ByHand(FolderTest):
    def test_nobody_and_all(self) -> None:
        status, out, err = closures(
            str(self.case(**ASSIGNED)), *TIMES, "--links", "fast", "--respond", "nobody", "all", "0", "--format", "csv"
        )
        self.assertEqual((status, err), (0, ""))
        rows = list(csv.DictReader(out.splitlines()))
        self.assertEqual(
            [(row["respond"], float(row["spent"]), float(row["cost"])) for row in rows],
            [("nobody", NOBODY, NOBODY - OPEN), ("all", OPEN, 0), ("0", NOBODY, NOBODY - OPEN)],
        )
        self.assertEqual(
            {(row["link"], row["from_ms"], row["to_ms"], row["vehicles"], row["not_there"]) for row in rows},
            {("fast", "25260000", "25440000", "60.000", "0.000")},
        )

    def test_no_way(self) -> None:
        """A case whose splits send somebody where no links lead on."""
        links = LINKS + "fast,o,p,400,36,18,300\nback,p,o,400,36,18,300\nin,d,o,400,36,18,300\n"
        splits = "node,destination,from_slot,weights\no,d,0,fast=1\np,d,0,back=1\n"
        status, _, err = closures(str(self.case(**{**TWO, "links": links, "splits": splits})), *TIMES)
        self.assertEqual((status, err.count("\n")), (1, 1))
        self.assertIn("no links lead from o to d: add a link, or take the demand out", err)

    def test_empty_cases(self) -> None:
        """Without links, and without destinations."""
        demand, splits = "origin,destination,from_slot,to_slot,vehicles\n", "node,destination,from_slot,weights\n"
        for links, signals, lack in ((TWO["links"], TWO["signals"], "demand"), (LINKS, SIGNALS, "links")):
            case = self.case(**{**TWO, "links": links, "demand": demand, "splits": splits, "signals": signals})
            status, out, err = closures(str(case), *TIMES)
            told = f"ltm-tools closures: the case has no {lack}, so nobody chooses a route\n"
            self.assertEqual((status, out, err), (1, "", told))

    def test_the_place_of_the_table_is_tried_first(self) -> None:
        with mock.patch.object(Base, "look", side_effect=AssertionError):
            status, out, err = closures(str(self.case(**ASSIGNED)), *TIMES, "-o", str(self.folder / "no" / "table"))
        self.assertEqual((status, out, err.count("\n")), (1, "", 1))
        self.assertIn("table: No such file or directory", err)

    def test_table(self) -> None:
        """The busiest links first; two processes tell the same."""
        words = *TIMES, "--respond", "nobody", "10", "--iterations", "2", "--busiest", "2"
        status, out, err = closures(str(self.case(**ASSIGNED)), *words)
        self.assertEqual((status, err), (0, ""))
        lines = out.splitlines()
        self.assertEqual(lines[1], "open: 4.50 vehicle hours, relative gap 0.00 %, late 0.000")
        self.assertEqual(
            lines[3].split(), ["link", "vehicles", "nobody", "routes", "late", "10", "%", "routes", "late"]
        )
        self.assertEqual(
            [line.split()[:5] for line in lines[4:]],
            [["fast", "60.000", "4.50", "0.00", "0.000"], ["slow", "60.000", "4.50", "0.00", "0.000"]],
        )
        self.assertEqual(closures(str(self.case(**ASSIGNED)), *words, "--processes", "2")[1], out)

    def test_shares_that_are_none(self) -> None:
        """Where the shares of the open case are no answer it says so: all by `slow` though `fast` is free."""
        out = closures(str(self.case(**TWO)), *TIMES, "--respond", "nobody", "--links", "slow")[1]
        self.assertIn("the open case has a relative gap of 60.00 %", out)

    def test_edits_of_those_who_hear(self) -> None:
        """Edits that make a session's shares theirs: rows before the closure stay as they are, and none where nobody
        hears of it."""
        case = Case.read(self.case(**ASSIGNED))
        closure, options = Closure("fast", 60, 240), AssignOptions(iterations=8, period_ms=60_000, size=2.0)
        for informed, spent in (NONE, NOBODY), (ALL, OPEN):
            done: list[int] = []
            found = respond(case, closure, informed, options, BUILT, done.append)
            with Session(self.folder / "case", program=BUILT) as session:
                session.edit(edits.limit(*closure, 0), *found.edits)
                session.settle()
                self.assertEqual((session.delay().spent, found.cost.spent), (spent * 10**6, spent * 10**6))
            self.assertEqual(done, [] if informed == NONE else list(range(8)))
            self.assertEqual(
                [(edit.kind, [*map(list, edit.rows[:2])]) for edit in found.edits if isinstance(edit, edits.Splits)],
                [] if informed == NONE else [("splits", [[0, {"fast": 1}], [60, {"slow": 1000}]])],
            )

    def test_edits_lead_on(self) -> None:
        """Where the case has no rows they are there before others lead to them, also where one leads to the other now
        and the other to the one later. In the second minute half a vehicle a second drives 50 s, by m, n, k and l."""
        ends = {
            "fast": "o,d",
            "om": "o,m",
            "mn": "m,n",
            "nm": "n,m",
            "md": "m,d",
            "nk": "n,k",
            "kl": "k,l",
            "ld": "l,d",
        }
        case = Case.read(
            self.case(
                **{
                    **ASSIGNED,
                    "links": LINKS + "".join(f"{name},{end},100,36,18,300\n" for name, end in ends.items()),
                    "demand": "origin,destination,from_slot,to_slot,vehicles\no,d,60,120,30\n",
                    "splits": "node,destination,from_slot,weights\no,d,0,fast=1\n",
                }
            )
        )
        base = Base(case, AssignOptions(period_ms=60_000))
        rows: dict[tuple[str, str], list[tuple[int, dict[str, int]]]] = {
            ("o", "d"): [(0, {"fast": 1}), (60, {"om": 1})],
            ("m", "d"): [(0, {"md": 1}), (60, {"mn": 1})],
            ("n", "d"): [(0, {"nm": 1}), (60, {"nk": 1})],
        }
        with Session(self.folder / "case", program=BUILT) as session:
            for edit in base.edits(rows):
                session.edit(edit)
            session.settle()
            self.assertEqual(session.delay().spent, 30 * 50 * 10**6)

    def test_the_case_is_taken_as_it_is(self) -> None:
        """Open and where nobody responds: also rows that begin within a period and weights that are no thousandths."""
        case = Case.read(self.case(**ASSIGNED))
        assert case.splits is not None
        case.splits += [Split("o", "d", 97, {"fast": 2, "slow": 1}), Split("o", "d", 131, {"fast": 3, "slow": 4})]
        case.write(self.folder / "case")
        hours, shut = [], edits.limit("fast", 60, 240, 0)
        for limits in ((), (shut,)):
            with Session(self.folder / "case", program=BUILT) as session:
                for limit in limits:
                    session.edit(limit)
                session.settle()
                hours.append(session.delay().spent / 10**6)
        out = closures(
            str(self.folder / "case"), *TIMES, "--links", "fast", "--respond", "nobody", "half", "--format", "csv"
        )[1]
        rows = list(csv.DictReader(out.splitlines()))
        self.assertEqual((float(rows[0]["spent"]), float(rows[0]["cost"])), (hours[1], round(hours[1] - hours[0], 6)))
        found = respond(case, Closure("fast", 60, 240), HALF, AssignOptions(iterations=2, period_ms=60_000), BUILT)
        (edit,) = found.edits
        assert isinstance(edit, edits.Splits)
        starts = [slot for slot, _ in edit.rows]
        self.assertEqual((starts[0], dict(edit.rows)[240]), (0, {"fast": 3, "slow": 4}))
        self.assertTrue({97, 131} <= set(starts), starts)

    def test_the_same_shares_without_the_closure(self) -> None:
        """Rerouting alone is told apart from the closure: by a session with the edits and without the limit."""
        case = Case.read(self.case(**ASSIGNED))
        for informed in (HALF, ALL, MOMENT):
            found = respond(
                case, Closure("fast", 60, 240), informed, AssignOptions(iterations=3, period_ms=60_000), BUILT
            )
            for limits, spent in ((), found.cost.alone), ((edits.limit("fast", 60, 240, 0),), found.cost.spent):
                with Session(self.folder / "case", program=BUILT) as session:
                    session.edit(*limits, *found.edits)
                    session.settle()
                    self.assertEqual(session.delay().spent, spent)
            self.assertEqual(found.open, OPEN * 10**6)

    def test_by_the_times_of_the_moment(self) -> None:
        """All who set out while `fast` is closed take `slow`, as nobody knows how long it will be."""
        case = Case.read(self.case(**ASSIGNED))
        found = respond(case, Closure("fast", 60, 240), MOMENT, AssignOptions(period_ms=60_000), BUILT)
        self.assertEqual((found.cost.spent, found.cost.informed), (OPEN * 10**6, MOMENT))

    def test_who_cannot_avoid_it(self) -> None:
        """Where the only road to a fork is closed nothing is gained by it, though who passes the fork later would gain
        without a closure too: the shares there are not the road's."""
        case = Case.read(
            self.case(
                **{
                    **ASSIGNED,
                    "links": LINKS + "in,w,o,100,36,18,300\nfast,o,d,400,36,18,300\nslow,o,d,1000,36,18,300\n",
                    "demand": "origin,destination,from_slot,to_slot,vehicles\nw,d,0,180,180\n",
                    "splits": "node,destination,from_slot,weights\nw,d,0,in=1\no,d,0,slow=1\n",
                }
            )
        )
        closure, options = Closure("in", 60, 120), AssignOptions(iterations=3, period_ms=60_000)
        nobody = respond(case, closure, NONE, options, BUILT).cost
        for informed in (HALF, ALL, MOMENT):
            found = respond(case, closure, informed, options, BUILT)
            self.assertEqual((found.edits, found.cost.spent), ([], nobody.spent))

    def test_faults(self) -> None:
        self.case(**ASSIGNED)
        for words, told in (
            ((*TIMES, "--respond", "some"), "--respond 'some': it is nobody, moment, half, all, or whole per"),
            ((*TIMES, "--links", "none"), "the case has no link none"),
            (
                ("--from", "0:01", "--to", "0:09"),
                "--to 0:09 is not where a slot of 1000 ms begins within the horizon, 0:00 to 0:06:40",
            ),
            (("--from", "0:02", "--to", "0:02"), "--from is not before --to"),
            ((*TIMES, "--iterations", "0"), "--iterations and --processes are at least 1"),
        ):
            status, out, err = closures(str(self.folder / "case"), *words)
            self.assertEqual((status, out, len(err.splitlines())), (1, "", 1), out + err)
            self.assertIn(told, err)


@needs_dask
@needs_numpy
@needs_program
class Cluster(ClusterTest):
    def test_as_here(self) -> None:
        """On a cluster the costs are those of one machine."""
        address, _, _ = self.cluster(1)
        folder = str(self.case(**ASSIGNED, limits=SIGNALS))
        words = *TIMES, "--respond", "nobody", "half", "--iterations", "1", "--format", "csv"
        here = closures(folder, *words)
        self.assertEqual((here[0], len(here[1].splitlines())), (0, 5))
        self.assertEqual(closures(folder, *words, "--scheduler", address), here)


if __name__ == "__main__":
    unittest.main()
