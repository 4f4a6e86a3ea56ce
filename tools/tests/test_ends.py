"""Where trips end: at the node to which their last edge leads, or on that edge alone."""
import unittest
from fractions import Fraction
from unittest import mock

import commands
from support_sumo import SumoTest, edge, way
from ltm_tools.case import Case
from ltm_tools.case.roads import Roads
from ltm_tools.case.source import Source
from ltm_tools.files import read_table
from ltm_tools.network.network import road_of
from ltm_tools.sumo.ends import cut_time

# from a to d over b or over c; both lead on to e
NET = (
    edge("ab", "a", "b")
    + edge("ac", "a", "c")
    + edge("bd", "b", "d")
    + edge("cd", "c", "d")
    + edge("de", "d", "e")
    + edge("sa", "s", "a")
)
WAYS = "".join(
    way(*pair) for pair in (("sa", "ab"), ("sa", "ac"), ("ab", "bd"), ("ac", "cd"), ("bd", "de"), ("cd", "de"))
)
ROUTES = "".join(
    f'<vehicle id="{number}" depart="{number}"><route edges="sa {edges}"/></vehicle>'
    for number, edges in enumerate(("ab bd", "ac cd", "ac cd", "ab bd de"))
)


WORDS = ("--entries", "none", "--saturation", "road")
OVER_C, OVER_B = ("sa", "ac", "cd"), ("sa", "ab", "bd", "de")


class Ends(SumoTest):
    def own(self, *words: str, routes: str = ROUTES) -> dict[str, int]:
        """The thousandths of vehicles by destination, where nothing is said of ends."""
        self.PLAIN = WORDS
        self.case = self.made("--fit", "2s", *words, net=NET + WAYS, routes=routes)
        ends: dict[str, int] = {}
        for row in self.case.demand:
            ends[row.destination] = ends.get(row.destination, 0) + row.units
        return ends

    def test_at_a_node_by_whichever_edge(self) -> None:
        case = self.made("--ends", "node", net=NET + WAYS, routes=ROUTES)
        self.assertEqual({(row.destination, row.units) for row in case.demand}, {("d", 3000), ("e", 1000)})
        self.assertIn("3 vehicles end where other edges lead too, and may come there by these (--ends edge", self.out)

    def test_on_an_edge_alone(self) -> None:
        """Of the three that end at d one comes by bd and two by cd; no split leads who ends on bd over c."""
        self.assertEqual(self.own(), {"bd_end": 1000, "cd_end": 2000, "e": 1000})
        self.assertEqual(
            {(row.destination, *row.weights) for row in self.case.splits or () if row.node == "a"},
            {("bd_end", "ab"), ("cd_end", "ac"), ("e", "ab")},
        )
        self.assertIn("2 edges at which trips end have an end of their own, as other edges lead there too,", self.out)
        self.assertIn(" 3 destinations in place of 2 (--ends node", self.out)
        self.assertNotIn("end where other edges lead too", self.out)
        err = self.make("--ends", "edge", "--wait-at-ends", net=NET + WAYS, routes=ROUTES)[2]
        self.assertIn("--wait-at-ends leaves them whole: give one of them", err)

    def test_at_a_crossing_with_turns(self) -> None:
        """There each approach has an end of its own too, and one at which no trip ends has none."""
        only_c = ROUTES.replace('sa ab bd"', 'sa ab bd de"')
        self.assertEqual(self.own("--turns", "d", routes=only_c), {"cd_end": 2000, "e": 2000})
        self.assertEqual({link.name for link in self.case.links if link.name.endswith("_stop")}, {"cd_stop"})
        self.assertEqual(self.own("--turns", "d"), {"bd_end": 1000, "cd_end": 2000, "e": 1000})
        self.assert_whole()
        self.own("--turns", "d", "--ends", "node")
        self.assertEqual(self.case.destinations, ["d", "e"])

    def test_edges_stay_whole_for_what_reads_routes(self) -> None:
        """An edge with an end of its own is one link of the source with its parts, over which routes lead."""
        self.own()
        self.assert_whole()
        self.assertNotIn("bd_before", (self.folder / "case" / "source_nodes.csv").read_text())
        before = (self.folder / "case" / "splits.csv").read_text()
        words = ("splits", str(self.folder / "case"), "--routes", str(self.folder / "counted.csv"))
        lines = [f"{count},{edges}" for count, edges in ((1, "sa ab bd"), (2, "sa ac cd"), (1, "sa ab bd de"))]
        (self.folder / "counted.csv").write_text("\n".join(["count,links", *lines, ""]))
        status, _, err = commands.run(*words)
        self.assertEqual((status, err), (0, ""))
        self.assertEqual((self.folder / "case" / "splits.csv").read_text(), before)

    def test_traffic_counted_by_other_vehicles_drives_over_the_parts(self) -> None:
        """Two vehicles go on over cd, on which others end, and one over bd; of either one link leads on from e."""
        ways = (OVER_B, *[("sa", "ac", "cd", "de", "ef")] * 2)
        lines = (
            f'<vehicle id="{place}" depart="1"><route edges="{" ".join(on)}"/></vehicle>'
            for place, on in enumerate(ways)
        )
        (self.folder / "volumes.rou.xml").write_text(f'<?xml version="1.0"?>\n<routes>{"".join(lines)}</routes>\n')
        words = ("--turns", "e", "--yielding", "none", "--volumes", str(self.folder / "volumes.rou.xml"))
        self.PLAIN = WORDS
        self.made("--fit", "2s", *words, net=NET + edge("ef", "e", "f") + WAYS + way("de", "ef"), routes=ROUTES)
        rows = read_table(self.folder / "case" / "turns.csv", ("approach", "vehicles"))
        self.assertEqual([(row.text("approach"), row.text("vehicles")) for row in rows], [("de", "2")])

    def assert_whole(self) -> None:
        roads = Roads.of(Case.read(self.folder / "case").links)
        source = Source.read(self.folder / "case", roads)
        self.assertEqual(roads.links[source.route(OVER_C, roads)[-1]].head, "cd_end")
        self.assertEqual(roads.links[source.route(OVER_B, roads)[-1]].head, "e")

    def test_no_more_ends_than_there_is_room_for(self) -> None:
        """Edges with most vehicles come first, and the last of a node costs nothing."""
        self.assertEqual(self.own("--destinations", "2"), {"d": 3000, "e": 1000})
        self.assertIn("3 vehicles (75.0 %) end on 2 other edges to whose nodes others lead", self.out)
        self.assertIn("more than 2 destinations would take too much memory", self.out)
        self.assertEqual(self.own("--destinations", "3"), {"bd_end": 1000, "cd_end": 2000, "e": 1000})
        whole = "".join(
            f'<vehicle id="{number}" depart="{number}"><route edges="{edges}"/></vehicle>'
            for number, edges in enumerate(("sa ab bd", "sa ab bd"))
        )
        self.assertEqual(self.own("--destinations", "1", routes=whole), {"bd_end": 2000})

    def test_by_nodes_where_ends_of_edges_make_a_case_too_large(self) -> None:
        self.own()
        cells = self.case.cells()
        with mock.patch("ltm_tools.case.cells.MOST_CELLS_ASKED", cells - 1):
            self.assertEqual(self.own(), {"d": 3000, "e": 1000})
        self.assertIn("trips end at nodes, by whichever edge (--ends node); with an end for each edge: ", self.out)

    def test_a_road_on_which_vehicles_wait_for_gaps(self) -> None:
        """Its 15 km/h and 133 vehicles/km are too little for 2,155 an hour: a step of 2 s are 8.3 m at 15 km/h, or more
        where its waves are faster."""
        road = road_of(
            "a", "b", "c", metres=Fraction(200), kmh=Fraction(15), jam=Fraction(133), capacity=Fraction(2155)
        )
        self.assertGreaterEqual(cut_time(road, 2000), 2000)
        self.assertLess(cut_time(road, 2000), road.time / 2)

    def test_edges_too_short_for_an_end(self) -> None:
        self.own("--fit", "15s")
        self.assertIn("3 vehicles (75.0 %) end on 2 edges that are too short to be cut", self.out)


if __name__ == "__main__":
    unittest.main()
