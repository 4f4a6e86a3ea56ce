"""Where nodes lie and links run: the files beside a case, and that imports write what their networks say."""
import json
import math
import unittest
from fractions import Fraction

import commands
from support import FolderTest
from support_roads import network, road
from support_gmns import GmnsTest
from support_sumo import WAYS, SumoTest, edge, way
from ltm_tools.case import Case
from ltm_tools.case.places import Places, points_of, read_places
from ltm_tools.errors import Fault
from ltm_tools.network.fit import FittedNetwork
from ltm_tools.network.network import Network, Node, Road

NODES = "name,x,y,crs\nn1,11.25,48,EPSG:4326\nn2,11.5,48.1,EPSG:4326\n"
BENT = "link,points\na,11.25 48;11.3 48.2;11.5 48.1\n"


def places_in(test: FolderTest) -> Places:
    """The places in the folder of the case that a test made."""
    case = Case.read(test.folder / "case")
    places = case.places(test.folder / "case")
    assert places is not None
    return places


class Files(FolderTest):
    def test_shapes(self) -> None:
        folder = self.case(nodes=NODES, shapes=BENT)
        case = Case.read(folder)
        places = case.places(folder)
        assert places is not None
        self.assertEqual(places.line(case.links[0]), ((11.25, 48.0), (11.3, 48.2), (11.5, 48.1)))
        told = json.loads(case.to_geojson(folder))
        self.assertEqual(told["features"][0]["geometry"]["coordinates"], [[11.25, 48.0], [11.3, 48.2], [11.5, 48.1]])
        # in a plane a degree to the east is shorter, by the cosine of the middle of 48 and 48.1 degrees
        shorter = math.cos(math.radians(48.05))
        self.assertEqual(places.plane().line(case.links[0])[1], (11.3 * shorter, 48.2))

    def test_links_without_a_shape_run_straight(self) -> None:
        folder = self.case(nodes=NODES)
        case = Case.read(folder)
        for text in (None, "link,points\n", "link,points\nb,0 0;1 1\n"):
            if text is not None:
                (folder / "shapes.csv").write_text(text)
            places = read_places(folder, case)
            assert places is not None
            self.assertEqual(places.line(case.links[0]), ((11.25, 48.0), (11.5, 48.1)))

    def test_shapes_without_nodes_are_passed_over(self) -> None:
        folder = self.case(shapes="no shapes")
        self.assertIsNone(Case.read(folder).places(folder))

    def test_faults(self) -> None:
        for text, told in (
            ("link,points\na,11 48\n", "two points or more"),
            ("link,points\na,11 48;12\n", "two points or more"),
            ("link,points\na,11 48;12 x\n", "two points or more"),
            ("link,points\na,11 48;12 nan\n", "two points or more"),
            ("link,points\na,11 48;12 1e999\n", "two points or more"),
            ("link,points\na,\n", "expected a value"),
            (BENT + "a,11 48;12 49\n", "has a shape already"),
            ("link\na\n", "no field points"),
            ("", "the file is empty"),
        ):
            folder = self.case(nodes=NODES, shapes=text)
            with self.subTest(text):
                self.assertRaisesRegex(Fault, f"shapes.csv.*{told}", Case.read(folder).places, folder)

    def test_what_is_written_is_read(self) -> None:
        folder = self.case()
        case = Case.read(folder)
        for crs in (None, "EPSG:25832"):
            places = Places(
                {"n1": (604_099.61, -0.125), "n2": (1e-7, 5_792_153.74)},
                crs,
                {"a": ((0.1, 0.2), (0.3, -4.0), (123_456.78, 9.0))},
            )
            places.write(folder)
            self.assertEqual(case.places(folder), places)
        self.assertEqual(
            (folder / "nodes.csv").read_text(),
            "name,x,y,crs\nn1,604099.61,-0.125,EPSG:25832\nn2,0.0000001,5792153.74,EPSG:25832\n",
        )
        self.assertEqual((folder / "shapes.csv").read_text(), "link,points\na,0.1 0.2;0.3 -4;123456.78 9\n")
        Places(places.of).write(folder)
        self.assertFalse((folder / "shapes.csv").exists())

    def test_points(self) -> None:
        self.assertEqual(points_of(" 1 2 ; 3.5 -4 "), ((1, 2), (3.5, -4)))
        self.assertIsNone(points_of("1 2 3;4 5 6"))
        self.assertIsNone(points_of("1 2;"))


LINK = "link_id,from_node_id,to_node_id,length,lanes,free_speed,directed,geometry\n"
NODE = "node_id,x_coord,y_coord\n1,13.4,52.5\n2,13.41,52.51\n3,13.42,52.5\n"


class Gmns(GmnsTest):
    def test_degrees_and_lines_in_both_directions(self) -> None:
        # b is drawn from its end; the way back of a and c is the way there turned
        self.net(
            LINK + 'a,1,2,1400,1,60,0,"LINESTRING (13.4 52.5, 13.402 52.508, 13.41 52.51)"\n'
            'b,2,3,1300,1,60,1,"LINESTRING (13.42 52.5, 13.418 52.509, 13.41 52.51)"\nc,3,1,1400,1,60,1,\n',
            NODE,
        )
        self.made()
        places = places_in(self)
        self.assertEqual(
            (places.crs, places.of), ("EPSG:4326", {"1": (13.4, 52.5), "2": (13.41, 52.51), "3": (13.42, 52.5)})
        )
        self.assertEqual(
            places.shapes,
            {
                "a": ((13.4, 52.5), (13.402, 52.508), (13.41, 52.51)),
                "a_r": ((13.41, 52.51), (13.402, 52.508), (13.4, 52.5)),
                "b": ((13.41, 52.51), (13.418, 52.509), (13.42, 52.5)),
            },
        )

    def test_lines_begin_and_end_at_their_nodes(self) -> None:
        self.net(LINK + 'a,1,2,1400,1,60,1,"LINESTRING (13.401 52.501, 13.402 52.508, 13.409 52.51)"\n', NODE)
        self.made()
        self.assertEqual(
            places_in(self).shapes["a"],
            ((13.4, 52.5), (13.401, 52.501), (13.402, 52.508), (13.409, 52.51), (13.41, 52.51)),
        )

    def test_rows_of_both_directions(self) -> None:
        self.net(
            "link_id,from_node_id,to_node_id,length,direction,lanes_ab,lanes_ba,free_speed,geometry\n"
            'a,1,2,1400,0,1,1,60,"LINESTRING (13.4 52.5, 13.402 52.508, 13.41 52.51)"\n'
        )
        self.made()
        places = places_in(self)
        # from the ends of lines, as there is no node.csv
        self.assertEqual(places.of, {"1": (13.4, 52.5), "2": (13.41, 52.51)})
        self.assertEqual(places.shapes["a_r"], tuple(reversed(places.shapes["a"])))

    def test_a_projection_is_told_or_given(self) -> None:
        links, nodes = LINK + "a,1,2,1000,1,60,1,\n", "node_id,x_coord,y_coord\n1,391000,5820000\n2,392000,5820000\n"
        for words, more, crs in (
            ((), {}, None),
            (("--crs", "epsg:25833"), {}, "EPSG:25833"),
            ((), {"config": "crs,speed\nEPSG:32633,kmh\n"}, "EPSG:32633"),
            ((), {"config": "crs\nlocal\n"}, None),
            (("--crs", "EPSG:3068"), {"config": "crs\n32633\n"}, "EPSG:3068"),
        ):
            self.net(links, nodes, **{"config": "speed\nkmh\n", **more})
            self.made(*words)
            self.assertEqual((places_in(self).crs, places_in(self).of["2"]), (crs, (392_000, 5_820_000)))

    def test_what_is_no_projection(self) -> None:
        self.net(LINK + "a,1,2,1000,1,60,1,\n")
        self.assertIn("ltm-tools from-gmns: --crs is an EPSG code, as EPSG:25832\n", self.refused("--crs", "UTM32"))

    def test_nodes_without_a_place(self) -> None:
        links = LINK + "a,1,2,1000,1,60,1,\nb,2,3,1000,1,60,1,\n"
        self.net(links)
        _, out, _ = self.make()
        self.assertNotIn("nodes.csv", out)
        self.assertFalse((self.folder / "case" / "nodes.csv").exists())
        self.net(links, NODE.replace("2,13.41,52.51", "2,,"))
        _, out, _ = self.make()
        self.assertIn("nodes.csv is not written, as nodes have no place: 2\n", out)
        self.assertFalse((self.folder / "case" / "nodes.csv").exists())
        (self.folder / "case" / "nodes.csv").write_text(NODES)
        _, out, _ = self.make()
        self.assertIn(
            f"an older nodes.csv stands in {self.folder / 'case'}, and the network says no places: take it away\n",
            out,
        )

    def test_names_are_those_of_the_case(self) -> None:
        self.net(
            LINK + 'a b,1+,2,1400,1,60,1,"LINESTRING (13.4 52.5, 13.402 52.508, 13.41 52.51)"\n',
            NODE.replace("\n1,", "\n1+,"),
        )
        self.made("--rename")
        self.assertEqual((list(places_in(self).of), list(places_in(self).shapes)), (["1_", "2"], ["a_b"]))


def junction(name: str, x: str, y: str) -> str:
    return f'<junction id="{name}" type="priority" x="{x}" y="{y}"/>'


JUNCTIONS = (
    junction("A", "100.00", "50.00")
    + junction("B", "300.00", "50.00")
    + junction("C", "500.00", "50.00")
    + junction("D", "300.00", "250.30")
)
CURVED = (
    edge("in", "A", "B", 2, more='shape="100.00,50.00 200.00,90.55 300.00,50.00"')
    + edge("on", "B", "C")
    + edge("left#1", "B", "D", more='shape="302.00,52.00 350,150 301.00,250.00"')
    + edge("-in", "B", "A")
    + edge("home", "D", "A")
)


class Sumo(SumoTest):
    def placed(self, location: str, *words: str) -> Places:
        self.made(*words, net=location + JUNCTIONS + CURVED + WAYS)
        return places_in(self)

    def test_no_projection(self) -> None:
        places = self.placed(
            '<location netOffset="100.10,-50.00" convBoundary="0,0,1,1" origBoundary="0,0,1,1" projParameter="!"/>'
        )
        self.assertEqual(
            (places.crs, places.of),
            (None, {"A": (-0.1, 100), "B": (199.9, 100), "C": (399.9, 100), "D": (199.9, 300.3)}),
        )
        self.assertEqual(
            places.shapes,
            {
                "in": ((-0.1, 100), (99.9, 140.55), (199.9, 100)),
                "left_1": ((199.9, 100), (201.9, 102), (249.9, 200), (200.9, 300), (199.9, 300.3)),
            },
        )

    def test_utm_becomes_degrees(self) -> None:
        # what is added to A makes it the CN Tower, at 630084 east and 4833438 north in zone 17, to a metre
        places = self.placed(
            '<location netOffset="-629984.00,-4833388.00" projParameter="+proj=utm +zone=17'
            ' +ellps=WGS84 +datum=WGS84 +units=m +no_defs"/>'
        )
        self.assertEqual(places.crs, "EPSG:4326")
        self.assertAlmostEqual(places.of["A"][0], -(79 + 23 / 60 + 13.7 / 3600), 5)
        self.assertAlmostEqual(places.of["A"][1], 43 + 38 / 60 + 33.24 / 3600, 5)
        self.assertEqual(len(places.shapes["in"]), 3)

    def test_off_the_earth(self) -> None:
        """A place from which no degrees can be worked out is told, and the case is made without places."""
        self.made(
            net='<location netOffset="1e10,0" projParameter="+proj=utm +zone=32 +ellps=WGS84"/>'
            + JUNCTIONS
            + CURVED
            + WAYS
        )
        self.assertIn("nodes.csv is not written, as the projection has nothing where nodes lie: A, B, ", self.out)
        self.assertFalse((self.folder / "case" / "nodes.csv").exists())

    def test_other_projections_and_none_stay_metres_of_the_net(self) -> None:
        for location in (
            "",
            '<location netOffset="7,8" projParameter="+proj=tmerc +lat_0=0 +lon_0=9 +ellps=bessel"/>',
            '<location netOffset="x" projParameter="!"/>',
            '<location netOffset="1e99999999,0" projParameter="!"/>',
        ):
            places = self.placed(location)
            self.assertEqual((places.crs, places.of["D"]), (None, (300.0, 250.3)))

    def test_an_edge_that_is_cut_before_a_signal(self) -> None:
        program = (
            '<tlLogic id="B" type="static" programID="0" offset="0"><phase duration="30" state="GG"/><phase'
            ' duration="30" state="rr"/></tlLogic>'
        )
        ways = way("in", "on", 0, 'tl="B" linkIndex="0"') + way("in", "left#1", 1, 'tl="B" linkIndex="1"')
        self.made(
            "--fit",
            "2s",
            "--no-balance",
            net=JUNCTIONS + CURVED + ways + program,
            routes='<vehicle id="x" depart="1"><route edges="in"/></vehicle>',
        )
        places, case = places_in(self), Case.read(self.folder / "case")
        # at 36 km/h a step of 2 s asks for 21 m of the 200: the edge of two equal halves is cut at 179 / 200 of its way
        part = 2 * Fraction(179, 200) - 1
        middle = (200 + float(part) * 100, 90.55 - float(part) * 40.55)
        for found, wanted in zip((*places.of["in_before"], *places.shapes["in"][-1]), (*middle, *middle)):
            self.assertAlmostEqual(found, wanted, 6)
        self.assertEqual(places.shapes["in"][:2], ((100, 50), (200, 90.55)))
        lines = {link.name: places.line(link) for link in case.links}
        self.assertEqual((lines["in_exit"], lines["in_stop"]), ((places.of["in_before"], (300, 50)),) * 2)

    def test_the_command_geojson_draws_along_them(self) -> None:
        self.placed("")
        (self.folder / "none.csv").write_text("kind,name,destination,counts\n")
        status, out, _ = commands.run("geojson", str(self.folder / "case"), "--curves", str(self.folder / "none.csv"))
        lines = {
            feature["properties"]["link"]: feature["geometry"]["coordinates"] for feature in json.loads(out)["features"]
        }
        self.assertEqual(
            (status, lines["in"], lines["on"]), (0, [[100, 50], [200, 90.55], [300, 50]], [[300, 50], [500, 50]])
        )


class Fitted(unittest.TestCase):
    """Roads of 36 km/h, fitted to a step of 5 s, which asks for 50 m."""

    def placed(self, roads: list[Road], ends: str, **places: tuple[float, float]) -> Network:
        raw = network(*roads, ends=ends)
        for name, place in places.items():
            raw.nodes[name] = Node(name, *place)
        return FittedNetwork(raw, 5000).run()

    def test_merged_roads_have_the_joined_shape(self) -> None:
        first, second = road("a", "m", "u", 100), road("b", "u", "z", 20)
        first.shape = ((0, 0), (50, 10), (100, 0))
        made = self.placed([first, second], "m z", m=(0, 0), u=(100, 0), z=(100, 20))
        self.assertEqual(list(made.roads), ["a"])
        self.assertEqual(made.line(made.roads["a"]), ((0, 0), (50, 10), (100, 0), (100, 20)))

    def test_a_contracted_road_leaves_lines_that_lead_to_the_node_that_is_left(self) -> None:
        made = self.placed(
            [
                road("a", "m", "u", 100),
                road("d", "k", "u", 100),
                road("b", "u", "v", 20),
                road("c", "v", "z", 100),
                road("e", "v", "w", 100),
            ],
            "m k z w",
            m=(0, 0),
            k=(0, 50),
            u=(100, 0),
            v=(120, 0),
            z=(220, 0),
            w=(220, 50),
        )
        self.assertNotIn("b", made.roads)
        node = made.roads["a"].head
        self.assertEqual(made.roads["c"].tail, node)
        self.assertEqual(
            (made.line(made.roads["a"]), made.line(made.roads["c"])),
            (((0, 0), made.nodes[node].place), (made.nodes[node].place, (220, 0))),
        )

    def test_a_node_of_many_arms_is_split_along_them(self) -> None:
        names = [f"i{k}" for k in range(6)]
        angles = {name: math.pi / 2 + k * math.pi / 5 for k, name in enumerate(names)}
        roads = [road(name, f"n{name}", "u", 1000) for name in names] + [road("o", "u", "z", 1000)]
        made = self.placed(
            roads,
            " ".join(f"n{name}" for name in names) + " z",
            u=(0, 0),
            z=(1000, 0),
            **{f"n{name}": (1000 * math.cos(angle), 1000 * math.sin(angle)) for name, angle in angles.items()},
        )
        self.assertIn("u_in1", made.nodes)
        connector = made.roads["u_in1"]
        gathered = made.ins["u_in1"]
        # each is cut as far from the node as the connector is long, and there the node in between lies, in their middle
        share = float(connector.length) / 1000
        cuts = [(share * x, share * y) for x, y in (made.nodes[f"n{name}"].place or (0, 0) for name in gathered)]
        middle = tuple(sum(place[axis] for place in cuts) / len(cuts) for axis in (0, 1))
        for found, wanted in zip(made.nodes["u_in1"].place or (), middle):
            self.assertAlmostEqual(found, wanted, 6)
        for name, place in zip(gathered, cuts):
            line = made.line(made.roads[name])
            self.assertEqual((line[0], line[-1]), (made.nodes[f"n{name}"].place, made.nodes["u_in1"].place))
            self.assertAlmostEqual(math.dist(line[-2], place), 0, 6)
        self.assertEqual(made.line(connector), (made.nodes["u_in1"].place, (0, 0)))

    def test_without_places_there_are_no_lines(self) -> None:
        made = self.placed(
            [road(f"i{k}", f"n{k}", "u", 1000) for k in range(6)] + [road("o", "u", "z", 1000)],
            "z " + " ".join(f"n{k}" for k in range(6)),
        )
        self.assertTrue(all(node.place is None for node in made.nodes.values()))
        self.assertTrue(all(made.line(one) == () for one in made.roads.values()))


if __name__ == "__main__":
    unittest.main()
