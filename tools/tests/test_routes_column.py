"""The column `routes` of `setup.csv`: nodes without a record of splits for a destination take their free-flow
routes."""
import random
import subprocess
import unittest
from dataclasses import replace
from pathlib import Path
from unittest import mock

from support import BUILT, FolderTest, needs_program
from support_runs import RunsTest, runs
from ltm_tools.case import Case
from ltm_tools.case.bad_case import BadCase
from ltm_tools.case import history as history_rules
from ltm_tools.case.inspect import inspect
from ltm_tools.case.routes import missing_routes, missing_rows, split_rows
from ltm_tools.case.rows import Demand, Limit, Link, Rows, Setup, Split
from ltm_tools.case.sizes import ask_for_sizes
from ltm_tools.commands import signals
from ltm_tools.formats import MOST_ROUTED_ROWS, MOST_ROWS_ASKED
from ltm_tools.loading.loaded import loaded

# from n1 to n3 over n2 or by c, both in 4 seconds; from n3 to n1 by d; and no way leads to n4
LINKS = [
    Link("a", "n1", "n2", 20, 36, 18, 150),
    Link("b", "n2", "n3", 20, 36, 18, 150),
    Link("c", "n1", "n3", 40, 36, 18, 150),
    Link("d", "n3", "n1", 20, 36, 18, 150),
    Link("e", "n4", "n1", 20, 36, 18, 150),
]
DEMAND = [Demand("n1", "n3", 0, 4, 9_000), Demand("n4", "n3", 0, 4, 2_000), Demand("n3", "n2", 0, 4, 5_000)]
ALL = [
    Split("n1", "n3", 0, {"a": 1, "c": 1}),
    Split("n2", "n3", 0, {"b": 1}),
    Split("n4", "n3", 0, {"e": 1}),
    Split("n1", "n2", 0, {"a": 1}),
    Split("n3", "n2", 0, {"d": 1}),
    Split("n4", "n2", 0, {"e": 1}),
]


def asking_for_routes(folder: Path) -> None:
    """Has a case ask for all its routes."""
    header, row = (folder / "setup.csv").read_text().split()
    (folder / "setup.csv").write_text(f"{header},routes\n{row},1\n")
    (folder / "splits.csv").write_text("node,destination,from_slot,weights\n")


class Rewritten(RunsTest):
    def test_in_place(self) -> None:
        """Commands that write other files of a case leave its splits as they are; signals by turn see its routes."""
        for run in runs("signals case --cycles", "turns"):
            asked = mock.patch.object(signals, "read_signals", wraps=signals.read_signals)
            with self.subTest(run.words), asked as seen:
                status, _, err, made = self.told(run, asking_for_routes)
                self.assertEqual((status, err), (0, ""))
                self.assertIn("signals.csv", {Path(name).name for name in made})
                self.assertNotIn("splits.csv", {Path(name).name for name in made})
                for call in seen.call_args_list:
                    self.assertEqual(len(call.args[1].splits), 5)  # to n3 from n1, n2 and n4; to n4 from n1 and n2


class Routes(FolderTest):
    def case(self, splits: list[Split] | None, **setup: object) -> Case:
        made = Rows(replace(Setup(1000, 12, 9_000, routes=True), **setup), LINKS, DEMAND, splits)
        return Case.of(made)

    def read(self, case: Case) -> Case:
        case.write(self.folder / "case")
        return Case.read(self.folder / "case", splits=True)

    def test_all_are_given(self) -> None:
        """In order of destination, then of node, from slot 0 on."""
        self.assertEqual(self.read(self.case([])).splits, ALL)
        self.assertEqual(list(missing_routes(self.case([]))), ALL)

    def test_what_stands_stays(self) -> None:
        """A node with a record for a destination gets none, and with one for another destination gets one."""
        own = [Split("n1", "n3", 0, {"c": 5}), Split("n1", "n3", 3, {"a": 2})]
        self.assertEqual(self.read(self.case(own)).splits, [*own, *ALL[1:]])

    def test_a_record_from_a_later_slot_on_stands_alone(self) -> None:
        """So the first row of the node begins too late, and the case is refused."""
        self.case([Split("n1", "n3", 3, {"c": 5})]).write(self.folder / "case")
        with self.assertRaises(BadCase) as fault:
            Case.read(self.folder / "case", splits=True)
        self.assertEqual(fault.exception.line(), "bad case whole row 0 NoSplit n1 n3")

    def test_without_it_none_is_given(self) -> None:
        self.case([], routes=False).write(self.folder / "case")
        with self.assertRaises(BadCase) as fault:
            Case.read(self.folder / "case", splits=True)
        self.assertEqual(fault.exception.line(), "bad case whole row 0 NoSplit n1 n3")

    def test_it_is_written_and_read_again(self) -> None:
        case = self.read(self.case([]))
        header = (self.folder / "case" / "setup.csv").read_text().split("\n")[0]
        self.assertEqual(header, "step_ms,slots,origin_capacity,routes")
        self.assertEqual(self.read(case), case)

    def test_rows_bound_demand_alone(self) -> None:
        setup = self.read(self.case([], rows=3)).setup
        self.assertEqual((setup.most_demand_rows, setup.most_split_rows), (3, MOST_ROWS_ASKED))
        self.assertEqual(replace(setup, history=False).most_split_rows, MOST_ROUTED_ROWS)

    def test_an_import_that_asks_for_routes(self) -> None:
        """A case without splits gets none, and its setup asks for routes; one that has splits keeps them."""
        case = self.case(None, routes=False)
        told = ask_for_sizes(case, routes=True)
        self.assertIn("the column routes of setup.csv is 1", told[0])
        self.assertEqual((case.setup.routes, case.splits, self.read(case).splits), (True, [], ALL))
        case = self.case(list(ALL), routes=False)
        self.assertNotIn("routes", "".join(ask_for_sizes(case, routes=True)))
        self.assertEqual((case.setup.routes, case.splits), (False, ALL))

    def test_an_import_of_a_city_asks_for_routes_by_itself(self) -> None:
        """Where it keeps no history, and has more destinations, links or rows than a case with one: 2, 5 and 6 here;
        cells alone do not count."""
        for name, over in (("MOST_DESTINATIONS_ASKED", 1), ("MOST_LINKS_ASKED", 4), ("MOST_ROWS_ASKED", 5)):
            for most, asked, history, wanted in (
                (over, None, None, True),
                (over, None, False, True),
                (over, False, None, False),
                (over, None, True, False),
                (over + 1, None, False, False),
            ):
                case = self.case(None, routes=False)
                with mock.patch.multiple(history_rules, **{name: most}), self.subTest(name, most=most, asked=asked):
                    told = "\n".join(ask_for_sizes(case, history=history, routes=asked))
                    self.assertEqual((case.setup.routes, case.splits), (wanted, [] if wanted else None))
                    self.assertEqual("of which ltm routes would write 6; --routes 0 leaves that to it" in told, wanted)
        case = self.case(None, routes=False)
        with mock.patch.object(history_rules, "MOST_CELLS_ASKED", 1):
            ask_for_sizes(case, history=None, routes=None)
        self.assertEqual((case.setup.history, case.setup.routes), (False, False))
        case = self.case(list(ALL), routes=False)
        with mock.patch.object(history_rules, "MOST_DESTINATIONS_ASKED", 1):
            ask_for_sizes(case, history=None, routes=None)
        self.assertEqual((case.setup.routes, case.splits), (False, ALL))

    def test_routes_need_not_be_made(self) -> None:
        """Then there are the records of `splits.csv` alone, and as many rows are counted."""
        own = [Split("n1", "n3", 0, {"c": 5}), Split("n1", "n3", 3, {"a": 2})]
        made = self.read(self.case(own))
        with mock.patch("ltm_tools.case.routes.least", side_effect=AssertionError("routes are sought")):
            bare = Case.read(self.folder / "case", splits=True, routes=False)
        self.assertEqual((bare.splits, bare.destinations), (own, made.destinations))
        self.assertEqual((missing_rows(bare), split_rows(bare)), (5, 7))
        self.assertEqual((missing_rows(made), split_rows(made), len(made.standing_splits())), (0, 7, 7))

    def test_too_many_are_refused_whether_they_are_made_or_not(self) -> None:
        self.case([]).write(self.folder / "case")
        for routes in (True, False):
            with mock.patch("ltm_tools.case.rows.MOST_ROWS_ASKED", 5), self.assertRaises(BadCase) as fault:
                Case.read(self.folder / "case", splits=True, routes=routes)
            self.assertEqual(fault.exception.line(), "bad case whole row 0 TooManyRows")
            with mock.patch("ltm_tools.case.rows.MOST_ROWS_ASKED", 6):
                Case.read(self.folder / "case", splits=True, routes=routes)

    def test_where_no_route_leads_there_is_no_row(self) -> None:
        """For demand, and behind a record; whether routes are made or not."""
        more = [*LINKS, Link("f", "n1", "n5", 20, 36, 18, 150)]
        for demand, own, line in (
            ([Demand("n1", "n4", 0, 4, 9_000)], [], "NoSplit n1 n4"),
            (DEMAND, [Split("n1", "n3", 0, {"f": 1})], "NoSplit n5 n3"),
        ):
            Case.of(replace(self.case(own), links=more, demand=demand)).write(self.folder / "case")
            for routes in (True, False):
                with self.subTest(line, routes=routes), self.assertRaises(BadCase) as fault:
                    Case.read(self.folder / "case", splits=True, routes=routes)
                self.assertEqual(fault.exception.line(), f"bad case whole row 0 {line}")

    def test_of_a_city_none_are_made_where_none_are_needed(self) -> None:
        """To look at it, and to load it."""
        self.case([], history=False, cells=None).write(self.folder / "case")
        folder = str(self.folder / "case")
        plain = inspect(folder)
        self.assertIn("splits      0 rows, and 6 of free-flow routes", plain)
        self.assertIn("loops       none in the splits", plain)
        sought = AssertionError("routes are sought")
        with mock.patch("ltm_tools.case.routes.least", side_effect=sought):
            with mock.patch("ltm_tools.case.inspect.MOST_ROWS_ASKED", 5):
                told = inspect(folder)
            if BUILT.exists():
                loading = loaded(folder, None, str(BUILT))
                self.assertEqual(loading.curves.links, [link.name for link in LINKS])
        self.assertEqual(
            [line for line in told if line not in plain],
            ["ways        not looked at, as routes are more than 5: loops, links that are closed or narrow"],
        )
        self.assertEqual(told[-1], "load        takes the case")

    @needs_program
    def test_the_program_gives_the_same(self) -> None:
        """Of 60 networks made at random, some of whose nodes have records: the program makes of the case what it makes
        of all rows that the second reader gives, and refuses what that refuses."""
        pick, ended = random.Random(11), {0: 0, 6: 0}
        for number in range(60):
            case = made_at_random(pick)
            case.write(self.folder / "case")
            try:
                whole = Case.read(self.folder / "case", splits=True)
            except BadCase as fault:
                whole, line = None, fault.line() + "\n"
            status, told = self.run_on(self.folder / "case")
            with self.subTest(number):
                if whole is None:
                    self.assertEqual((status, told), (6, line))
                else:
                    bare = Case.read(self.folder / "case", splits=True, routes=False)
                    self.assertEqual(split_rows(bare), len(whole.standing_splits()))
                    whole.setup.routes = False
                    whole.setup.rows = 1_000
                    whole.write(self.folder / "whole")
                    self.assertEqual((status, told), self.run_on(self.folder / "whole"))
            ended[status] += 1
        self.assertGreater(min(ended.values()), 5)

    def run_on(self, folder: object) -> tuple[int, str]:
        run = subprocess.run([BUILT, "load"], cwd=str(folder), capture_output=True, text=True)
        return run.returncode, run.stdout


def made_at_random(pick: random.Random) -> Case:
    """Some links between eight nodes, some trips, and records for some nodes, a few of them from a later slot on."""
    nodes = [f"n{number}" for number in range(8)]
    links: list[Link] = []
    for tail in nodes:
        for head in pick.sample([node for node in nodes if node != tail], pick.choice((2, 2, 3))):
            if sum(link.head == head for link in links) < 4:
                links.append(Link(f"k{len(links)}", tail, head, pick.choice((20, 40, 40, 60)), 36, 18, 150))
    out = {node: [link.name for link in links if link.tail == node] for node in nodes}
    origins = [node for node in nodes if out[node]]
    trips = [(pick.choice(origins), pick.choice(nodes)) for _ in range(6)]
    heads = {end for link in links for end in (link.tail, link.head)}
    demand = [
        Demand(tail, head, 0, 8, pick.randrange(1, 20_000)) for tail, head in trips if tail != head and head in heads
    ]
    ends = sorted({row.destination for row in demand})
    splits = []
    for _ in range(pick.randrange(4)):
        node = pick.choice(origins)
        end = pick.choice([end for end in ends if end != node] or [""])
        if end:
            weights = {name: pick.randrange(3) for name in out[node]}
            weights[out[node][0]] += 1
            splits.append(Split(node, end, pick.choice((0, 0, 0, 0, 3)), weights))
    return Case.of(Rows(Setup(1000, 30, 9_000, routes=True), links, demand, splits, [Limit(links[0].name, 2, 5, 0)]))


if __name__ == "__main__":
    unittest.main()
