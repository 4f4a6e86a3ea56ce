"""Least routes over a net of SUMO: those of a search by hand, whichever side they are sought from, and the least name
where several are as short."""
import random
import unittest
from dataclasses import replace
from fractions import Fraction
from unittest import mock

from support_sumo import SumoTest, edge, way
from ltm_tools.case import sizes
from ltm_tools.network.network import Network, Road
from ltm_tools.sumo import rows
from ltm_tools.sumo.net import Connection, SumoNet
from ltm_tools.sumo.ways import Leg, Ways


def net_of(roads: dict[str, tuple[str, str, Fraction]], turns: list[Leg]) -> SumoNet:
    """A net of these edges, each with its ends and the time to pass it, and these turns."""
    network = Network()
    for name, (tail, head, time) in roads.items():
        network.add(Road(name, tail, head, Fraction(100), time, Fraction(15), Fraction(1800), "", (name,)))
    return SumoNet(network, connections=[Connection(edge, after, 0, None, -1) for edge, after in turns])


def random_net(pick: random.Random) -> SumoNet:
    """A net in which many ways take the same time, with names in no order."""
    nodes = [f"n{number}" for number in range(pick.randint(2, 7))]
    names = pick.sample([f"e{number}" for number in range(40)], pick.randint(1, 18))
    roads = {name: (*pick.sample(nodes, 2), Fraction(pick.randint(1, 4), pick.choice((1, 1, 3)))) for name in names}
    turns = [
        (one, other)
        for one, (_, head, _) in roads.items()
        for other, (tail, _, _) in roads.items()
        if head == tail and pick.random() < 0.8
    ]
    return net_of(roads, turns)


def least(net: SumoNet, start: str, end: str) -> tuple[str, ...] | None:
    """The least route, by times to the end that are bettered until none is to be bettered; of those as short that with
    the least names."""
    roads, turns = net.network.roads, {(way.edge, way.after) for way in net.connections}
    if not turns:
        turns = {(one, other) for one in roads for other in roads if roads[one].head == roads[other].tail}
    times = {end: roads[end].time}
    while True:
        better = {
            edge: roads[edge].time + times[after]
            for edge, after in sorted(turns)
            if after in times and roads[edge].time + times[after] < times.get(edge, Fraction(10**9))
        }
        if not better:
            break
        times |= better
    if start not in times:
        return None
    route = [start]
    while route[-1] != end:
        route.append(min((times[after], after) for edge, after in turns if edge == route[-1] and after in times)[1])
    return tuple(route)


class Routes(unittest.TestCase):
    def test_random_nets(self) -> None:
        pick, sought, onward, ties = random.Random(5), 0, 0, 0
        for _ in range(400):
            net = random_net(pick)
            ways, names = Ways(net), list(net.network.roads)
            pairs = [(pick.choice(names[:number]), pick.choice(names)) for number in (1, len(names)) for _ in range(5)][
                pick.randrange(2) * 5 :
            ][: pick.randint(1, 10)]
            told = ways.legs(pairs)
            onward += len({start for start, _ in pairs}) < len({end for _, end in pairs})
            for pair in pairs:
                self.assertEqual(told.get(pair), least(net, *pair))
                self.assertEqual(tuple(ways.leg(*pair)), told.get(pair, ()))
                gain = (
                    sum((net.network.roads[name].time for name in told[pair][1:]), Fraction(0))
                    if pair in told
                    else None
                )
                self.assertEqual(ways.gain(*pair), gain)
                sought += 1
                ties += pair in told and len(told[pair]) > 3
        self.assertGreater(min(onward, 400 - onward), 50)
        self.assertGreater(ties, 100)

    def test_the_least_name_of_ways_as_short(self) -> None:
        roads = {
            name: (tail, head, Fraction(1))
            for name, tail, head in (
                ("s", "a", "b"),
                ("y", "b", "c"),
                ("x", "b", "d"),
                ("p", "c", "e"),
                ("q", "d", "e"),
                ("t", "e", "f"),
            )
        }
        for more in ([], [("s", "p")]):  # one end more, or one beginning more
            ways = Ways(net_of(roads, []))
            self.assertEqual(ways.legs([("s", "t"), *more])["s", "t"], ("s", "x", "q", "t"))

    def test_parts(self) -> None:
        """A ring of three edges is a part, and the way into it none."""
        roads = {
            name: (tail, head, Fraction(1))
            for name, tail, head in (
                ("in", "o", "a"),
                ("r1", "a", "b"),
                ("r2", "b", "c"),
                ("r3", "c", "a"),
                ("out", "b", "z"),
            )
        }
        parts = Ways(net_of(roads, [])).circling()
        self.assertEqual((set(parts), len(set(parts.values()))), ({"r1", "r2", "r3"}, 1))


class Many(SumoTest):
    def ring(self, ends: int, closed: bool = True) -> dict[str, str]:
        """A ring of edges, or a row, with a trip from the first to so many that come behind the next one."""
        count = ends + 2
        edges = "".join(edge(f"e{k}", f"v{k}", f"v{(k + 1) % (count + 1)}") for k in range(count + closed))
        turns = "".join(way(f"e{k}", f"e{(k + 1) % (count + 1)}") for k in range(count - (not closed)))
        trips = "".join(f'<trip id="{k}" depart="{k}" from="e0" to="e{k + 2}"/>' for k in range(ends))
        return {"net": edges + turns + (way(f"e{count}", "e0") if closed else ""), "routes": trips}

    def test_destinations_are_counted_before_routes_are_sought(self) -> None:
        with mock.patch.object(Ways, "search", side_effect=AssertionError("routes are sought")):
            self.assertIn(
                "there are 257 destinations, and at most 256 may be: give --destinations 256",
                self.refused("--history", "1", **self.ring(257)),
            )

    def test_destinations_without_a_circle_are_counted_behind(self) -> None:
        self.assertIn(
            "there are 257 destinations, and at most 256 may be",
            self.refused("--history", "1", **self.ring(257, closed=False)),
        )

    def test_more_cells_than_a_history_may_have(self) -> None:
        """It asks for no cells, as none are kept."""
        with (
            mock.patch("ltm_tools.case.cells.MOST_CELLS_ASKED", 100),
            mock.patch("ltm_tools.case.history.MOST_CELLS_ASKED", 100),
            mock.patch("ltm_tools.case.cells.MOST_CELLS", 100),
        ):
            setup = self.made(**self.ring(3, closed=False)).setup
        self.assertEqual((setup.history, setup.cells), (False, None))
        self.assertIn("cells, of which no history is kept", self.out)

    def test_destinations_of_a_case_without_history(self) -> None:
        case = self.made(**self.ring(257, closed=False))
        self.assertEqual((len(case.destinations), case.setup.history), (257, False))
        self.assertIn("too large for the history of a loading, with 257 destinations (at most 256)", self.out)

    def test_trips_without_a_route_do_not_count(self) -> None:
        """257 ends, to one of which no way leads, and one where a trip begins: 255 destinations."""
        files = self.ring(255)
        files["net"] += edge("far", "x", "y")
        files["routes"] += '<trip id="a" depart="0" from="e0" to="far"/><trip id="b" depart="0" from="e5" to="e4"/>'
        case = self.made(**files)
        self.assertEqual(len(case.destinations), 255)
        self.assertEqual((case.setup.destinations, case.setup.moves), (255, True))
        self.assertIn("255 destinations, more than 16, so the column moves of setup.csv is 1", self.out)
        self.assertIn("1 vehicles are left out: without a route that is connected", self.out)

    def test_one_search_for_each_origin(self) -> None:
        with mock.patch.object(Ways, "search", autospec=True, side_effect=Ways.search) as search:
            self.made(**self.ring(20))
        self.assertEqual(search.call_count, 1)


class Sizes(SumoTest):
    TRIPS = "".join(
        f'<trip id="{k}" depart="{60 * k}" from="home" to="{end}"/>'
        for k, end in enumerate(("on", "on", "left#1", "on", "on", "on"))
    )

    def limits(self, **most: int) -> None:
        """Lets a case have fewer rows, links or destinations without asking."""
        for name, number in most.items():
            for module in (sizes, rows):
                if hasattr(module, name):
                    patch = mock.patch.object(module, name, number)
                    patch.start()
                    self.addCleanup(patch.stop)

    def test_what_is_not_asked_for(self) -> None:
        self.assertEqual(
            self.made("--allow-losses", routes=self.TRIPS).setup,
            replace(
                self.made("--allow-losses", routes=self.TRIPS).setup,
                rows=None,
                links=None,
                destinations=None,
                moves=False,
            ),
        )

    def test_links_and_destinations(self) -> None:
        self.limits(MOST_LINKS=4, MOST_DESTINATIONS=1)
        setup = self.made("--allow-losses", routes=self.TRIPS + '<trip id="x" depart="0" from="in" to="left#1"/>').setup
        self.assertEqual((setup.links, setup.destinations, setup.rows), (5, 2, None))
        self.assertIn("5 links, so the column links of setup.csv asks for as many, as without it 4 may be\n", self.out)

    def test_rows(self) -> None:
        """5 trips to C a minute each, and one to D that ends where it begins: 5 rows of slices of a minute, 3 of 2
        minutes, 1 of 15."""
        self.limits(MOST_DEMAND_ROWS=3)
        case = self.made("--allow-losses", routes=self.TRIPS)
        self.assertEqual((len(case.demand), case.setup.rows), (3, None))
        self.assertIn("3 rows of demand in slices of 2 minutes, of at most 3\n", self.out)
        self.limits(MOST_DEMAND_ROWS=0, MOST_SPLIT_ROWS=2)
        case = self.made("--allow-losses", routes=self.TRIPS)
        self.assertEqual((len(case.demand), len(case.splits or ()), case.setup.rows), (5, 3, 1000))
        self.assertIn(
            "5 rows of demand in slices of 1 minutes, of at most 500000\n"
            "3 rows of splits in slices of 15 minutes, of at most 500000\n",
            self.out,
        )
        self.assertIn(
            "5 rows of demand and 3 of splits, so the column rows of setup.csv asks for 1,000 of each, as"
            " without it 0 and 2 may be\n",
            self.out,
        )

    def test_files_that_are_too_long(self) -> None:
        """demand.csv has a header of 46 bytes, a row `D,C,0,12,1` of 11, and four as `D,C,12,24,1` of 12."""
        self.limits(MOST_DEMAND_ROWS=1, MOST_FILE_BYTES=100)
        self.assertIn(
            "demand.csv would have 105 bytes, and at most 100 are read",
            self.refused("--demand-slice", "1", "--step", "5s", "--begin", "0", "--allow-losses", routes=self.TRIPS),
        )

    def test_slices(self) -> None:
        """Without asking those of up to 15 minutes of demand and 30 of splits, then all with as many rows as may be
        asked for, and the longest with as many as there may be without history; one that is asked for alone."""
        self.assertEqual(
            rows.slices_tried("splits", None, 9, 500_000),
            [(15, 9), (20, 9), (30, 9), *((size, 500_000) for size in (15, 20, 30, 60, 120))],
        )
        self.assertEqual(
            rows.slices_tried("demand", None, 9, 500_000)[4:8], [(10, 9), (15, 9), (1, 500_000), (2, 500_000)]
        )
        self.assertEqual(rows.slices_tried("demand", 60, 9, 500_000), [(60, 9), (60, 500_000)])
        self.assertEqual(rows.slices_tried("splits", None, 9, 8_000_000)[-2:], [(120, 500_000), (120, 8_000_000)])


if __name__ == "__main__":
    unittest.main()
