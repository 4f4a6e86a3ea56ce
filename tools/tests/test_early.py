"""What no case can have is refused in one line before the work that takes long, by all importers; and nothing that a
case can have."""
import contextlib
import random
import unittest
from collections.abc import Iterator
from dataclasses import replace
from unittest import mock

from made_network import made_network
from support_gmns import PLAIN, GmnsTest
from support_roads import network, road
from support_sumo import SumoTest
from support_tntp import TntpTest
from ltm_tools.case import Case, Demand, Setup
from ltm_tools.case.leading import Leading
from ltm_tools.case.valid import route_rows
from ltm_tools.errors import Fault
from ltm_tools.network import early, options as bounds
from ltm_tools.network.early import Sure, check_cells, check_ends, check_links, check_routes
from ltm_tools.network.fit import FittedNetwork
from ltm_tools.network.importing import NotCarried, carried
from ltm_tools.network.network import Network
from ltm_tools.network.options import Options

LATE = "work that takes long has begun"
KM = ("--length-unit", "km")


@contextlib.contextmanager
def least(**most: int) -> Iterator[None]:
    """With these bounds in place of larger ones, and where a fit, a search for routes or writing fails the test."""
    late = {"side_effect": AssertionError(LATE)}
    with contextlib.ExitStack() as opened:
        opened.enter_context(mock.patch.multiple(bounds, **most) if most else contextlib.nullcontext())
        for place in ("fit.FittedNetwork.run", "imported.Imported.write", "reach.Reach.leads"):
            opened.enter_context(mock.patch(f"ltm_tools.network.{place}", **late))
        for place in ("tntp", "gmns"):
            opened.enter_context(mock.patch(f"ltm_tools.{place}.importing.least_routes", **late))
        opened.enter_context(mock.patch("ltm_tools.sumo.ways.Ways.legs", **late))
        yield


class Tntp(TntpTest):
    def test_links(self) -> None:
        """Of six links, before trips are read; with a history where more may be without."""
        with mock.patch("ltm_tools.tntp.importing.read_trips", side_effect=AssertionError(LATE)):
            with least(MOST_LINKS_NO_HISTORY=5):
                said = self.refused(*KM)
            self.assertEqual(
                said,
                f"ltm-tools from-tntp: {self.folder}/net.tntp: 6 links, and at most 5 may be: cut out a smaller area\n",
            )
            with least(MOST_LINKS_ASKED=5):
                said = self.refused(*KM, "--history", "1")
        self.assertIn(
            "6 links, and at most 5 may be with --history 1: give --history 0, with which 40,000 may be, or cut out",
            said,
        )

    def test_times_before_any_file_is_read(self) -> None:
        with mock.patch("ltm_tools.tntp.importing.read_net", side_effect=AssertionError(LATE)), least():
            said = self.refused("--horizon", "834")
            self.assertIn("a horizon of 834 minutes has 10008 slots of 5000 ms, and at most 10000 may be", said)
            self.assertIn(
                "the demand's period of 121 minutes is longer than the horizon of 120", self.refused("--period", "121")
            )
            self.assertIn("no such file", self.refused("--profile", str(self.folder / "none.csv")))
            (self.folder / "profile.csv").write_text("from,to,share\n0:00,3:00,1\n")
            self.assertIn(
                "period of 180 minutes is longer", self.refused("--profile", str(self.folder / "profile.csv"))
            )

    def test_destinations_with_a_history(self) -> None:
        with least(MOST_DESTINATIONS_ASKED=1):
            said = self.refused(*KM, "--history", "1")
        self.assertIn("there are 2 destinations, and at most 1 may be: give --destinations 1", said)
        self.assertIn("ends at the nearest of them, or --history 0; past".replace("ends", "end"), said)

    def test_what_is_left_out_is_not_counted(self) -> None:
        """Of two destinations one is kept, which is as many as may be."""
        with mock.patch.multiple(bounds, MOST_DESTINATIONS_NO_HISTORY=1):
            self.assertEqual(len(self.made(*KM, "--destinations", "1").destinations), 1)

    def test_cells(self) -> None:
        """6 links, 2 destinations and 1,440 slots of 5 s: 8 * 6 * 2 * 1,440 cells or more."""
        words = (*KM, "--history", "1")
        with mock.patch.object(early, "MOST_CELLS_ASKED", 138_239), least():
            said = self.refused(*words)
        self.assertIn("138,240 cells or more, and at most 138,239 may be with --history 1: give --history 0, or", said)
        with mock.patch.object(early, "MOST_CELLS_ASKED", 138_240):
            self.made(*words)

    def test_rows_of_routes(self) -> None:
        """To 1_end and to 2_end ways lead from 4 nodes each, those of the zones parted: 1, 2, 3 and 4."""
        with least(MOST_ROUTED_ROWS=7):
            said = self.refused(*KM)
        self.assertIn("8 rows of routes or more, one for each node and destination, and at most 7 may be: give", said)
        self.assertIn("--destinations 1 or fewer, or cut out a smaller area\n", said)

    def test_rows_of_routes_that_are_to_be_written(self) -> None:
        """They bound a case with `--routes 0` alone, and what helps is said."""
        with least(MOST_ROWS_NO_HISTORY=7):
            said = self.refused(*KM, "--routes", "0")
        self.assertIn("at most 7 may be with --routes 0: give --routes 1, or --destinations 1 or fewer, or cut", said)
        with least(MOST_ROWS_NO_HISTORY=7, MOST_ROUTED_ROWS=7):
            self.assertIn("at most 7 may be: give --destinations 1", self.refused(*KM, "--routes", "0"))
        with mock.patch.multiple(bounds, MOST_ROWS_NO_HISTORY=7):
            self.made(*KM)

    def test_rows_of_demand(self) -> None:
        """Two pairs over a profile of two parts, of which one of a vehicle each gets nothing: 3 rows."""
        (self.folder / "profile.csv").write_text("from,to,share\n0:00,0:30,1999\n0:30,1:00,1\n")
        words = (*KM, "--profile", str(self.folder / "profile.csv"))
        trips = "Origin 1\n 2 : 1; Origin 2\n 1 : 20;\n".replace("; Origin", ";\nOrigin")
        whole = self.made(*words, trips=trips).demand
        self.assertEqual([(row.from_slot, row.units) for row in whole], [(0, 1000), (0, 19990), (360, 10)])
        late = mock.patch("ltm_tools.tntp.importing.carried", side_effect=AssertionError(LATE))
        with mock.patch.multiple(bounds, MOST_ROWS_NO_HISTORY=2), late, mock.patch(
            "ltm_tools.tntp.importing.check_pairs"
        ):
            said = self.make(*words, trips=trips)
        self.assertEqual((said[0], said[2].count("\n")), (1, 1))
        self.assertIn(
            "3 rows of demand, of 2 pairs of origin and destination in 2 slices, and at most 2 may be", said[2]
        )


class Gmns(GmnsTest):
    def test_links_and_times(self) -> None:
        self.net(PLAIN, demand="o_zone_id,d_zone_id,volume\n1,3,10\n")
        with least(MOST_LINKS_NO_HISTORY=1):
            self.assertEqual(
                self.refused(),
                f"ltm-tools from-gmns: {self.folder}/net: 2 links, and at most 1 may be: cut out a smaller area\n",
            )
        with mock.patch("ltm_tools.gmns.importing.read_gmns", side_effect=AssertionError(LATE)), least():
            self.assertIn("10008 slots of 5000 ms", self.refused("--step", "5s", "--horizon", "834"))

    def test_ends_and_clock(self) -> None:
        """A node where trips end stays, though roads of 50 m that only lead through it are too short for 5 s."""
        demand = "o_zone_id,d_zone_id,volume\n1,2,10\n1,3,10\n"
        self.net(PLAIN.replace(",1000,1,60", ",50,1,60"), "node_id,zone_id\n1,1\n2,2\n3,3\n", demand)
        case = self.made("--turns", "none", "--fit", "5s", "--start", "7:00")
        self.assertEqual(case.destinations, ["2", "3"])
        self.assertEqual((self.folder / "case" / "clock.txt").read_text(), "7:00\n")

    def test_rows_and_cells(self) -> None:
        node = "node_id,zone_id\n1,1\n2,\n3,3\n"
        self.net(PLAIN, node, "o_zone_id,d_zone_id,volume\n1,3,10\n")
        with least(MOST_ROWS_NO_HISTORY=1):
            self.assertIn("2 rows of routes or more", self.refused("--turns", "none", "--routes", "0"))
        with mock.patch.object(early, "MOST_CELLS_ASKED", 1000), least():
            self.assertIn("cells or more", self.refused("--history", "1", "--step", "5s"))

    def test_rows_of_demand(self) -> None:
        """Two pairs over a profile of two parts, of which one of a vehicle gets nothing in the second: 3 rows."""
        self.net(PLAIN, "node_id,zone_id\n1,1\n2,2\n3,3\n", "o_zone_id,d_zone_id,volume\n1,3,1\n2,3,20\n")
        (self.folder / "profile.csv").write_text("from,to,share\n0:00,0:30,1999\n0:30,1:00,1\n")
        words = ("--turns", "none", "--step", "5s", "--profile", str(self.folder / "profile.csv"))
        with mock.patch("ltm_tools.gmns.importing.carried", side_effect=AssertionError(LATE)), mock.patch.multiple(
            bounds, MOST_ROWS_NO_HISTORY=2
        ):
            said = self.refused(*words)
        self.assertIn("3 rows of demand, of 2 pairs of origin and destination in 2 slices, and at most 2 may be", said)
        with mock.patch.multiple(bounds, MOST_ROWS_NO_HISTORY=3):
            self.assertEqual(len(self.made(*words).demand), 3)


class Sumo(SumoTest):
    ROUTES = '<vehicle id="v" depart="5"><route edges="in on"/></vehicle>'

    def test_links_before_anything_is_made_of_the_net(self) -> None:
        """They are counted as soon as the net is read: no times, routes or signals are looked at."""
        late = {"side_effect": AssertionError(LATE)}
        with least(MOST_LINKS_NO_HISTORY=4), contextlib.ExitStack() as opened:
            for name in ("set_times", "find_routes", "background_of"):
                opened.enter_context(mock.patch(f"ltm_tools.sumo.inputs.{name}", **late))
            self.assertIn("5 links, and at most 4 may be: cut out", self.refused(routes=self.ROUTES))
        with least(MOST_LINKS_ASKED=4):
            said = self.refused("--history", "1", routes=self.ROUTES)
        self.assertIn("5 links, and at most 4 may be with --history 1: give --history 0", said)

    def test_links_and_cells(self) -> None:
        with least(MOST_LINKS_NO_HISTORY=4):
            self.assertEqual(
                self.refused("--fit", "5s", routes=self.ROUTES),
                f"ltm-tools from-sumo: {self.folder}/net.net.xml: 5 links, and at most 4 may be:"
                " cut out a smaller area\n",
            )
        with mock.patch.object(early, "MOST_CELLS_ASKED", 1000), least():
            said = self.refused("--history", "1", "--fit", "5s", "--horizon", "60", routes=self.ROUTES)
        self.assertIn("28,800 cells or more, and at most 1,000 may be with --history 1", said)


def heads(network: Network, node: str) -> list[str]:
    """The nodes to which the roads out of a node lead."""
    return [network.roads[name].head for name in network.outs[node]]


class NeverTooMuch(unittest.TestCase):
    def test_what_is_counted_is_never_more_than_the_case_has(self) -> None:
        """Of made networks, fitted to steps with which most of their roads are too short, few, or none: where exactly
        as many links, rows of routes and cells may be as there are, nothing is refused."""
        closer = 0
        for seed in range(150):
            raw, step = made_network(seed), random.Random(seed).choice((500, 2000, 5000, 10_000))
            for fit in (step, None):
                options = Options(fit=fit, step=None if fit else 100, least_step=1, rename=True)
                made = FittedNetwork(raw, fit).run() if fit else raw
                after, ends = Leading({node: heads(made, node) for node in made.nodes}), sorted(raw.ends)
                each = after.by_part(dict.fromkeys(made.nodes, 1))
                rows = sum(after.sum_of(end, each) - 1 for end in ends)
                links = max(1, len(made.roads))
                with mock.patch.multiple(bounds, MOST_LINKS_NO_HISTORY=links, MOST_ROUTED_ROWS=rows):
                    with self.subTest(seed, fit=fit):
                        check_links(raw, options, "made")
                        check_routes(raw, ends, options)
                with mock.patch.object(early, "MOST_CELLS_ASKED", 8 * links * len(ends) * 60), self.subTest(seed):
                    check_cells(raw, ends, replace(options, history=True), 60 * (fit or 100))
                closer += Sure.of(raw, options).joined > 0 and Sure.of(raw, options).links > 1
        self.assertGreater(closer, 20)

    def test_links_that_a_fit_makes(self) -> None:
        """A node with five roads on each side gets two links more, which pass the bound; with a longer step two roads
        become one."""
        roads = [road(f"in{one}", f"a{one}", "m", 500) for one in range(5)]
        roads += [road(f"out{one}", "m", f"b{one}", 500) for one in range(5)]
        raw = network(*roads, road("short", "b0", "c", 50), ends="c")
        with mock.patch.object(bounds, "MOST_LINKS_NO_HISTORY", 12):
            with self.assertRaises(NotCarried) as fault:
                carried(raw, Options(fit=1000))
            self.assertEqual(
                fault.exception.lines,
                [
                    "there are 13 links, and at most 12 may be: take a longer step by --fit (--steps shows how many"
                    " links each leaves), cut out a smaller area, or leave out small roads"
                ],
            )
            self.assertEqual(len(carried(raw, Options(fit=10_000)).links), 12)

    def test_what_a_fit_joins_is_counted_by_hand(self) -> None:
        """A ring of six roads with one of 5 m, too short for 5 s: of its six links four are counted, and of the five
        nodes from which ways lead to each end four."""
        lengths = (500, 500, 5, 500, 500, 500)
        roads = [road(f"k{k}", f"n{k}", f"n{(k + 1) % 6}", metres) for k, metres in enumerate(lengths)]
        raw, options = network(*roads, ends="n0 n1"), Options(fit=5000)
        self.assertEqual(Sure.of(raw, options), Sure(4, 1))
        with mock.patch.multiple(bounds, MOST_ROUTED_ROWS=8, MOST_LINKS_NO_HISTORY=4):
            check_links(raw, options, "ring")
            check_routes(raw, sorted(raw.ends), options)
        with mock.patch.multiple(bounds, MOST_ROUTED_ROWS=7):
            with self.assertRaisesRegex(Fault, "^8 rows of routes or more"):
                check_routes(raw, sorted(raw.ends), options)
        with mock.patch.multiple(bounds, MOST_LINKS_NO_HISTORY=3):
            with self.assertRaisesRegex(Fault, "^ring: 4 links or more, and at most 3 may be"):
                check_links(raw, options, "ring")
        for most in (8 * 4 * 2 * 60, 8 * 4 * 2 * 60 - 1):
            with mock.patch.object(early, "MOST_CELLS_ASKED", most):
                with self.assertRaises(Fault) if most % 2 else contextlib.nullcontext():
                    check_cells(raw, sorted(raw.ends), replace(options, history=True), 60 * 5000)

    def test_pairs_are_rows_of_demand(self) -> None:
        """Each pair of origin and destination has one at least."""
        pairs = [("a", "c"), ("b", "c"), ("d", "c")]
        with mock.patch.multiple(bounds, MOST_ROWS_NO_HISTORY=3):
            check_ends(pairs, Options())
        with mock.patch.multiple(bounds, MOST_ROWS_NO_HISTORY=2):
            with self.assertRaisesRegex(Fault, "3 pairs of origin and destination, and at most 2 rows of demand may"):
                check_ends(pairs, Options())

    def test_cells_of_a_network_that_is_not_fitted(self) -> None:
        for seed in range(40):
            raw = made_network(seed)
            options = Options(step=100, least_step=1, rename=True, history=True)
            try:
                links = carried(raw, options).links
            except Fault:
                continue
            ends = sorted({link.head for link in links})[:5]
            cells = Case(Setup(100, 50, 1), links, [Demand(links[0].tail, end, 0, 1, 1) for end in ends]).cells()
            with mock.patch.object(early, "MOST_CELLS_ASKED", cells):
                check_cells(raw, ends, options, 5000)

    def test_routes_of_a_network_that_is_not_fitted(self) -> None:
        """Exactly as many as the case has are let pass, and one fewer are not."""
        raw = network(road("x", "a", "b", 500), road("y", "b", "a", 500), road("z", "b", "c", 500), ends="b c")
        options, ends = Options(step=100, least_step=1), sorted(raw.ends)
        demand = [Demand("a", end, 0, 1, 1) for end in ends]
        rows = route_rows(Case(Setup(100, 50, 1), carried(raw, options).links, demand))
        self.assertEqual(rows, 3)
        for routes, history, bound in (
            (None, None, "MOST_ROUTED_ROWS"),
            (True, False, "MOST_ROUTED_ROWS"),
            (True, True, "MOST_ROWS_ASKED"),
            (None, True, "MOST_ROWS_ASKED"),
            (False, None, "MOST_ROWS_NO_HISTORY"),
        ):
            asked = replace(options, routes=routes, history=history)
            with mock.patch.multiple(bounds, **{bound: rows}):
                check_routes(raw, ends, asked)
            with mock.patch.multiple(bounds, **{bound: rows - 1}), self.assertRaisesRegex(Fault, "rows of routes"):
                check_routes(raw, ends, asked)


if __name__ == "__main__":
    unittest.main()
