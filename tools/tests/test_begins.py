"""Where trips begin: on the first edge of their route, by which alone they leave, or at the node where it begins."""
import unittest
from unittest import mock

import commands
from support import BUILT, needs_program
from support_sumo import SumoTest, edge, way

from ltm_tools.case.roads import Roads
from ltm_tools.case.source import Source
from ltm_tools.case.streets import read_streets
from ltm_tools.files import read_table
from ltm_tools.formats import UNITS
from ltm_tools.loading.loaded import loaded

# from a over b to e, there over c or over d; both lead on to e
NET = (
    edge("ab", "a", "b")
    + edge("bc", "b", "c")
    + edge("bd", "b", "d")
    + edge("ce", "c", "e")
    + edge("de", "d", "e")
    + edge("ef", "e", "f")
)
WAYS = "".join(
    way(*pair) for pair in (("ab", "bc"), ("ab", "bd"), ("bc", "ce"), ("bd", "de"), ("ce", "ef"), ("de", "ef"))
)
OVER_C, OVER_D = ("bc", "ce", "ef"), ("ab", "bd", "de", "ef")
# one sets out on bc, and two come over b and go by d
ROUTES = "".join(
    f'<vehicle id="{number}" depart="{number}"><route edges="{" ".join(edges)}"/></vehicle>'
    for number, edges in enumerate((OVER_C, OVER_D, OVER_D))
)


class Begins(SumoTest):
    PLAIN = ("--saturation", "road", "--horizon", "10")

    def case_of(self, *words: str) -> None:
        self.case = self.made("--fit", "2s", *words, net=NET + WAYS, routes=ROUTES)

    def splits_at_b(self) -> set[tuple[str, ...]]:
        """The links that lead away from b for those who drive to f."""
        return {tuple(row.weights) for row in self.case.splits or () if row.node == "b"}

    def test_on_an_edge_alone(self) -> None:
        """Who begins on bc leaves by it, and nobody who comes over b does."""
        self.case_of()
        self.assertEqual(
            {(row.origin, row.units) for row in self.case.demand}, {("a", 2000), ("bc_begin_origin", 1000)}
        )
        self.assertEqual(self.splits_at_b(), {("bd",)})
        self.assertIn("1 edge on which trips begin have an origin of their own, as other edges lead away", self.out)
        # 200 m at 10 m/s take 20 s: by the entry and the rest of the edge as by the whole of it
        links = {link.name: link for link in self.case.links}
        self.assertEqual([links["bc_begin_entry"].head, links["bc_in"].head], [links["bc"].tail] * 2)
        for part in ("bc_begin_entry", "bc_in"):
            self.assertAlmostEqual(links[part].free_ms + links["bc"].free_ms, 20_000, delta=300)

    def test_at_a_node_from_which_any_edge_may_be_taken(self) -> None:
        for words in (("--origins", "node"), ("--origins", "turns"), ("--entries", "none")):
            with self.subTest(words=words):
                self.case_of(*words)
                origin = "b" if "none" in words else "b_origin"
                self.assertEqual({row.origin for row in self.case.demand}, {"a", origin})
                self.assertIn(("bc", "bd"), self.splits_at_b())
                self.assertIn("1 vehicles begin where other edges lead away too, and may leave by these", self.out)

    @needs_program
    def test_as_many_drive_on_it_as_begin_there(self) -> None:
        self.case_of()
        curves = loaded(self.folder / "case", None, str(BUILT)).curves
        self.assertEqual([curves.up(name)[-1] / UNITS for name in ("bc", "bc_in", "bd", "ef")], [1, 0, 2, 3])

    def test_edges_stay_whole_for_what_reads_routes(self) -> None:
        """An edge with a beginning of its own is one link of the source, and counted routes give the same splits."""
        self.case_of()
        roads = Roads.of(self.case.links)
        source = Source.read(self.folder / "case", roads)
        self.assertEqual((source.links["bc"].tail, source.links["bc"].all_links), ("b", ("bc", "bc_in")))
        self.assertNotIn("bc_begin", (self.folder / "case" / "source_nodes.csv").read_text())
        self.assertEqual(source.route(OVER_C, roads), OVER_C)
        self.assertEqual(source.route(("ab", *OVER_C), roads), ("ab", "bc_in", *OVER_C))
        before = (self.folder / "case" / "splits.csv").read_text()
        lines = [f"{count},{' '.join(edges)}" for count, edges in ((1, OVER_C), (2, OVER_D))]
        (self.folder / "counted.csv").write_text("\n".join(["count,links", *lines, ""]))
        words = ("splits", str(self.folder / "case"), "--routes", str(self.folder / "counted.csv"))
        status, _, err = commands.run(*words)
        self.assertEqual((status, err), (0, ""))
        self.assertEqual((self.folder / "case" / "splits.csv").read_text(), before)

    def test_each_part_has_the_name_of_its_street(self) -> None:
        """On bc trips begin, and on ce one ends, where de leads too."""
        net = NET.replace('id="bc"', 'id="bc" name="Allee"').replace('id="ce"', 'id="ce" name="Weg"')
        ends = '<vehicle id="e" depart="9"><route edges="bc ce"/></vehicle>'
        self.made("--fit", "2s", net=net + WAYS, routes=ROUTES + ends)
        self.assertEqual(
            read_streets(self.folder / "case"),
            {**dict.fromkeys(("bc", "bc_in"), "Allee"), **dict.fromkeys(("ce", "ce_exit", "ce_stop"), "Weg")},
        )

    @needs_program
    def test_driven_vehicles_leave_by_their_first_edge(self) -> None:
        self.case_of()
        out = self.folder / "driven.rou.xml"
        words = (str(self.folder / "case"), str(self.folder / "routes.rou.xml"), "-o", str(out))
        status, _, err = commands.run("drive", *words, "--program", str(BUILT))
        self.assertEqual((status, err), (0, ""))
        self.assertEqual(out.read_text().count(f'edges="{" ".join(OVER_C)}"'), 1)
        self.assertEqual(out.read_text().count(f'edges="{" ".join(OVER_D)}"'), 2)

    def test_traffic_counted_by_other_vehicles_drives_over_the_parts(self) -> None:
        """Two vehicles that come over the whole of bc turn to ce, and one turns to de."""
        others = (("ab", *OVER_C), ("ab", *OVER_C), OVER_D)
        lines = (
            f'<vehicle id="{place}" depart="1"><route edges="{" ".join(on)}"/></vehicle>'
            for place, on in enumerate(others)
        )
        (self.folder / "volumes.rou.xml").write_text(f'<?xml version="1.0"?>\n<routes>{"".join(lines)}</routes>\n')
        self.case_of("--turns", "c,d", "--volumes", str(self.folder / "volumes.rou.xml"))
        rows = read_table(self.folder / "case" / "turns.csv", ("approach", "vehicles"))
        self.assertEqual({row.text("approach"): row.text("vehicles") for row in rows}, {"bc": "2", "bd": "1"})

    def test_edges_too_short_or_too_many(self) -> None:
        self.case_of("--fit", "15s")
        self.assertIn("1 vehicles (33.3 %) begin on 1 edge too short to be cut, and may leave by", self.out)
        with mock.patch("ltm_tools.sumo.own_begins.MOST_LINKS_ASKED", 9):
            self.case_of()
        self.assertIn("1 vehicles (33.3 %) begin on 1 edge for which 9 links leave no room", self.out)

    def test_by_nodes_where_own_origins_make_a_case_too_large(self) -> None:
        self.case_of()
        with mock.patch("ltm_tools.case.cells.MOST_CELLS_ASKED", self.case.cells() - 1):
            self.case_of()
        self.assertEqual({row.origin for row in self.case.demand}, {"a", "b_origin"})
        self.assertIn(
            "trips begin at nodes, but for crossings (--origins turns); with an end for each edge: ", self.out
        )


if __name__ == "__main__":
    unittest.main()
