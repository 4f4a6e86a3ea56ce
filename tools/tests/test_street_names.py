"""The names of streets: what importers keep of them, and that tables, the page and Python have them."""
import json
import unittest
from fractions import Fraction

import commands
from support import EXAMPLES, FolderTest, needs_matplotlib
from support_sumo import WAYS, SumoTest, edge, way

from ltm_tools.case import Case
from ltm_tools.case.streets import read_streets, street_and_id
from ltm_tools.loading.curves import Curves
from ltm_tools.loading.loaded import LoadedCase
from ltm_tools.network.crossings.told import turn_name
from ltm_tools.network.crossings.turn import Turn
from ltm_tools.show.draw import draw_newell, draw_shares
from ltm_tools.show.plot import draw_link, draw_path

NAMED = (
    edge("in", "A", "B", 2, more='name="Große Straße"')
    + edge("on", "B", "C", more='name="Weg, oben"')
    + edge("left#1", "B", "D")
    + edge("home", "D", "A", more='name=" "')
)
TOWN = EXAMPLES / "from_gmns" / "gmns"


class Kept(SumoTest):
    def test_of_edges_of_sumo(self) -> None:
        self.made(net=NAMED + WAYS)
        self.assertEqual(
            (self.folder / "case" / "street_names.csv").read_text(),
            'link,street\nin,Große Straße\non,"Weg, oben"\n',
        )
        self.made(net=NAMED.replace(' name="', ' other="').replace("name=", "other=") + WAYS)
        self.assertFalse((self.folder / "case" / "street_names.csv").exists())

    def test_links_of_several_streets_and_turns(self) -> None:
        """`on` goes on by `far` alone, so that a fit to more than its 20 s merges them; at B turns are links."""
        net = NAMED + edge("far", "C", "E", more='name="Allee"') + WAYS + way("on", "far")
        self.made("--fit", "60s", net=net, routes='<trip id="1" depart="0" from="in" to="far"/>')
        self.assertIn("Weg, oben / Allee", read_streets(self.folder / "case").values())
        self.assertRegex(self.out, r"\n  merged .* most: (Allee \(far\), with on|Weg, oben \(on\), with far)\n")
        self.assertRegex(self.out, r"used routes: .* \(Große Straße \(in\) to Allee \(far\), ")
        self.made("--fit", "1s", "--turns", "B", net=net, routes='<trip id="1" depart="0" from="in" to="far"/>')
        streets = read_streets(self.folder / "case")
        self.assertEqual(streets["in__on"], "Große Straße to Weg, oben")
        self.assertEqual(streets["in__left_1"], "Große Straße to left#1")

    def test_what_an_import_says_of_a_turn(self) -> None:
        turn = Turn(approach="in", exit="on", link="in__on", lanes=Fraction(1), saturation=Fraction(1800))
        self.assertEqual(turn_name(turn, {"in": "Allee"}), "Allee to on (in__on)")
        self.assertEqual(turn_name(turn, {"far": "Allee"}), "in__on")


class Shown(FolderTest):
    """A corridor with streets on it, whose link `b` has a queue."""

    def setUp(self) -> None:
        super().setUp()
        self.made = self.case(
            setup="step_ms,slots,origin_capacity\n1000,4,1\n",
            links="link,from,to,length_m,free_kmh,wave_kmh,jam_per_km\na,n1,n2,20,36,18,150\nb,n2,n3,20,36,18,150\n",
            demand="origin,destination,from_slot,to_slot,vehicles\nn1,n3,0,2,1\n",
            splits="node,destination,from_slot,weights\nn1,n3,0,a=1\nn2,n3,0,b=1\n",
            curves="kind,name,destination,counts\nup,a,n3,0 500 1000 1000 1000\ndown,a,n3,0 0 0 0 0\n"
            "up,b,n3,0 0 0 0 0\ndown,b,n3,0 0 0 0 0\ndep,n1,n3,0 500 1000 1000 1000\ndep,n2,n3,0 0 0 0 0\n"
            "dep,n3,n3,0 0 0 0 0\narr,n3,n3,0 0 0 0 0\n",
        )
        (self.made / "street_names.csv").write_text("link,street\na,Hauptstraße\n")
        self.words = str(self.made), "--curves", str(self.made / "curves.csv")

    def test_in_tables(self) -> None:
        words = ("queues", *self.words, "--least", "0.1")
        self.assertIn("link  Hauptstraße (a)", commands.run(*words)[1])
        rows = json.loads(commands.run(*words, "--format", "json")[1])
        self.assertEqual([(row["name"], row["street"]) for row in rows], [("a", "Hauptstraße")])
        out = commands.run("times", self.words[0], "a", "b", *self.words[1:])[1]
        self.assertTrue(out.startswith("from n1 to n3, 2 links, by Hauptstraße, "), out)
        (self.made / "street_names.csv").unlink()
        self.assertEqual(commands.run(*words, "--format", "csv")[1].splitlines()[0].split(",")[-1], "delay")

    def test_on_the_page_and_in_python(self) -> None:
        status, _, err = commands.run("page", *self.words, "--d3", self.d3(), "-o", str(self.folder / "page.html"))
        self.assertEqual((status, err), (0, ""))
        self.assertIn('"street": "Hauptstra', (self.folder / "page.html").read_text().replace('":"', '": "'))
        self.assertEqual(street_and_id("a", read_streets(self.made)), "Hauptstraße (a)")
        self.assertEqual(street_and_id("b", read_streets(self.made)), "b")

    def test_in_words_and_on_maps(self) -> None:
        """What `inspect` says, the rows of flows, a map, and what Python gives."""
        told = commands.run("inspect", self.words[0])[1]
        self.assertIn("            Hauptstraße (a) allows 2000 ms: its free-flow time", told)
        self.assertIn("            b allows 2000 ms", told)
        self.assertIn("\nHauptstraße (a)  ", commands.run("flows", *self.words, "--every", "1/60")[1])
        rows = json.loads(commands.run("flows", *self.words, "--every", "1/60", "--format", "json")[1])
        self.assertEqual({(row["link"], row["street"]) for row in rows}, {("a", "Hauptstraße"), ("b", "")})
        (self.made / "nodes.csv").write_text("name,x,y\nn1,0,0\nn2,1,0\nn3,2,0\n")
        links = json.loads(commands.run("geojson", *self.words)[1])["features"]
        self.assertEqual(
            [link["properties"].get("street") for link in links],
            ["Hauptstraße", None],
            "a link without a name has none",
        )
        self.assertEqual(Case.read(self.made).streets(self.made), {"a": "Hauptstraße"})

    @needs_matplotlib
    def test_in_pictures(self) -> None:
        import matplotlib

        matplotlib.use("Agg")
        import matplotlib.pyplot as plot

        case, streets = Case.read(self.made), {"a": "Haupt$traße"}
        loading = LoadedCase(case, Curves.of_case(self.made))
        path = [("Haupt\\$traße (a)"), "b"]
        ticks = draw_shares(plot, [loading], ["one"], ["a", "b"], 0, streets).axes[0].child_axes[0].get_yticklabels()
        self.assertEqual([tick.get_text() for tick in ticks], path)
        legend = draw_newell(plot, loading, ["a", "b"], 0, streets).axes[0].get_legend()
        self.assertEqual(
            [text.get_text() for text in legend.get_texts()][1:], [f"entered {path[0]}", f"left {path[0]}", "left b"]
        )
        links = {link.name: link for link in case.links}
        ticks = draw_path(plot, loading.curves, links, ["a", "b"], streets).axes[0].child_axes[0].get_yticklabels()
        self.assertEqual([tick.get_text() for tick in ticks], path)
        title = draw_link(plot, loading.curves, links, "a", streets)._suptitle  # type: ignore[attr-defined]
        self.assertEqual(title.get_text(), "Haupt\\$traße (link a), from n1 to n2, 0.02 km")
        plot.close("all")

    def d3(self) -> str:
        (self.folder / "d3.min.js").write_text("// https://d3js.org v7.8.5 Copyright\n!function(){}();\n")
        return str(self.folder / "d3.min.js")


if __name__ == "__main__":
    unittest.main()
