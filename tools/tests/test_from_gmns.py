"""Cases of small GMNS networks, as they come: units, missing fields, encodings, zones, names; and each refusal says
what to do."""
import shutil
import unittest
from fractions import Fraction
from unittest import mock

import commands
from support import EXAMPLES
from support_gmns import GmnsTest, PLAIN

from ltm_tools.case import Case
from ltm_tools.network.ends import Joined, nearest_kept, most_used
from ltm_tools.network.names import names_for
from ltm_tools.network.network import Network, road_of
from ltm_tools.network.reach import Reach


KM = (("a", "1", "2", "1.5"), ("b", "2", "3", "3"), ("c", "3", "4", "1"))


class AsItWas(GmnsTest):
    def test_the_example_gives_the_case_that_it_gave(self) -> None:
        _, out, _ = commands.run(
            "from-gmns",
            str(EXAMPLES / "from_gmns" / "gmns"),
            str(self.folder / "case"),
            "--period",
            "30",
            "--horizon",
            "30",
            "--entries",
            "none",
            "--carry",
            "0",
        )
        for line in (
            "13 links, 6 nodes, 3 destinations",
            "1650 vehicles over 30 minutes, 60 slots of 30000 ms",
            "capacities are kept within 5.9 percent",
            "35 vehicles stay within a zone and are left out",
        ):
            self.assertIn(line + "\n", out)
        text = (self.folder / "case" / "links.csv").read_text()
        self.assertIn("104_r,5,4,820,70,7,300\n", text)
        self.assertIn("1,3,0,60,420\n", (self.folder / "case" / "demand.csv").read_text())

    def test_one_of_each_is_no_several(self) -> None:
        self.net(
            "link_id,from_node_id,to_node_id,length,lanes,free_speed,capacity\na,1,2,1000,1,60,1000\n",
            node="node_id,zone_id\n1,1\n2,2\n",
            demand="o_zone_id,d_zone_id,volume\n1,2,7\n",
        )
        self.made("--period", "30", "--horizon", "30")
        self.assertTrue(self.out.startswith("1 link, 2 nodes, 1 destination\n"), self.out)
        case = str(self.folder / "case")
        (self.folder / "table.csv").write_text("origin,destination,vehicles\n1,2,7\n")
        words = "demand", case, "--table", str(self.folder / "table.csv")
        self.assertIn("7 vehicles to 1 destination in 1 row\n", commands.run(*words)[1])
        (self.folder / "cycles.csv").write_text("link,cycle,green_from,green_to\na,3600,0,60\n")
        words = "signals", case, "--cycles", str(self.folder / "cycles.csv")
        self.assertRegex(commands.run(*words)[1], "^[0-9]+ records? of signals, of 1 link\n")
        (self.folder / "turns.csv").write_text("from_link,to_link,vehicles\n")
        words = "splits", case, "--turns", str(self.folder / "turns.csv")
        self.assertIn("1 row of splits for 1 destination; none has a loop\n", commands.run(*words)[1])

    def test_a_unit_that_is_guessed_is_told_first(self) -> None:
        """Links of 1 to 3 km by the places of their ends: 0.0135 degrees of latitude are 1.5 km."""
        rows = "".join(f"{name},{tail},{head},{length},1,60,1000\n" for name, tail, head, length in KM)
        self.net(
            "link_id,from_node_id,to_node_id,length,lanes,free_speed,capacity\n" + rows,
            node="node_id,x_coord,y_coord\n1,10,50\n2,10,50.0135\n3,10,50.0405\n4,10,50.0495\n",
        )
        self.assertEqual(self.links()["b"][0], 3000)
        self.assertTrue(
            self.out.startswith(
                "no unit of lengths is given: they are read as km, as the places of nodes and lines say;"
                " --length-unit m reads them as metres\n"
            ),
            self.out,
        )
        self.assertTrue(self.make("--length-unit", "km")[1].startswith("3 links, "))

    def test_a_link_too_short_for_the_step_is_named(self) -> None:
        self.net(PLAIN.replace("1000,1,60", "990,1,60"))
        # 990 m at 60 km/h take 59.4 s
        self.assertIn(
            "cannot be carried: link a: 990 m at 60 and 8 km/h allow a step of at most 59400 ms, and 60000 ms"
            " are asked for\n",
            self.refused("--step", "60000"),
        )


class Fields(GmnsTest):
    def test_any_order_more_columns_semicolons_decimal_commas_and_latin_1(self) -> None:
        self.net(
            "name;lanes;TO_NODE_ID;length;from_node_id;free_speed;capacity;link_id\n"
            "Straße;2;2;999,6;1;50,4;900;a\nWeg;1;3;500;2;50;900;b\n",
            encoding="latin-1",
        )
        self.assertEqual(self.links(), {"a": (1000, 50, 300), "b": (500, 50, 150)})

    def test_demand_by_node_without_zones(self) -> None:
        self.net(PLAIN, "node_id,x_coord,y_coord\n1,0,0\n2,1000,0\n3,2000,0\n", "o_zone_id,d_zone_id,volume\n1,3,60\n")
        self.assertEqual([(it.origin, it.destination, it.units) for it in self.made().demand], [("1", "3", 60000)])

    def test_names_of_streets_are_kept(self) -> None:
        rows = zip(PLAIN.splitlines(), ("name", '"Allee, oben"', ""))
        self.net("".join(f"{row},{name}\n" for row, name in rows))
        self.made()
        self.assertEqual((self.folder / "case" / "street_names.csv").read_text(), 'link,street\na,"Allee, oben"\n')

    def test_trips_that_begin_on_a_through_road_have_an_entry(self) -> None:
        """From 2, over which others drive, as much comes in as b carries, or as many as set out, if these are more.
        Nobody drives over 1."""
        for volume in (60, 1500):
            self.net(PLAIN, "node_id\n1\n2\n3\n", f"o_zone_id,d_zone_id,volume\n1,3,60\n2,3,{volume}\n")
            case = self.made("--entries", "links", "--horizon", "90")
            self.assertEqual({(it.origin, it.destination) for it in case.demand}, {("1", "3"), ("2_origin", "3")})
            links = {it.name: it for it in case.links}
            self.assertEqual((links["2_entry"].tail, links["2_entry"].head), ("2_origin", "2"))
            carried = max(links["b"].capacity(3_600_000) / 1000, volume)
            self.assertAlmostEqual(links["2_entry"].capacity(3_600_000) / 1000, carried, delta=carried / 10)
        self.assertNotIn("2_entry", (self.folder / "case" / "source_links.csv").read_text())

    def test_utf_16_and_the_note_of_it(self) -> None:
        self.net(PLAIN, encoding="utf-16")
        status, out, _ = self.make()
        self.assertEqual(status, 0)
        self.assertIn("link.csv is read as UTF-16", out)

    def test_lengths_by_geometry_in_degrees(self) -> None:
        # 0.01 degrees of longitude at the equator on a sphere of 6371008.8 m: 6371008.8 * pi / 18000 = 1111.95 m
        self.net(
            "link_id,from_node_id,to_node_id,lanes,free_speed,geometry\n"
            'a,1,2,1,60,"LINESTRING (0 0, 0.005 0, 0.01 0)"\nb,2,3,1,60,"LINESTRING (0.01 0, 0.03 0)"\n'
        )
        self.assertEqual(self.links(), {"a": (1112, 60, 150), "b": (2224, 60, 150)})

    def test_lengths_by_places_of_nodes(self) -> None:
        self.net(
            "link_id,from_node_id,to_node_id,lanes,free_speed\na,1,2,1,60\nb,2,3,1,60\n",
            "node_id,x_coord,y_coord\n1,1000,1000\n2,1300,1400\n3,1300,2400\n",
        )
        self.assertEqual(self.links(), {"a": (500, 60, 150), "b": (1000, 60, 150)})

    def test_without_length_and_places_it_is_refused(self) -> None:
        self.net("link_id,from_node_id,to_node_id\na,1,2\n")
        self.assertIn(
            "cannot be carried: link a: no length, and no geometry or places of its nodes to work it out;"
            " give the field length\n",
            self.refused(),
        )

    def test_units_by_arguments_and_by_config(self) -> None:
        self.net(PLAIN.replace("1000,1,60", "0.5,1,30"), config="dataset_name,long_length,speed\nx,mi,mph\n")
        self.assertEqual(self.links()["a"], (805, 48, 150))
        self.assertEqual(self.links("--length-unit", "km", "--speed-unit", "kmh")["a"], (500, 30, 150))

    def test_miles_are_known_by_the_places(self) -> None:
        rows = "".join(f"l{number},{number},{number + 1},0.691,1,60,900\n" for number in range(1, 6))
        nodes = "".join(f"{number},{number / 100},0\n" for number in range(1, 7))
        self.net(
            "link_id,from_node_id,to_node_id,length,lanes,free_speed,capacity\n" + rows,
            "node_id,x_coord,y_coord\n" + nodes,
        )
        self.assertEqual(self.links()["l1"][0], 1112)

    def test_capacity_lanes_and_speed_by_kind(self) -> None:
        self.net("link_id,from_node_id,to_node_id,length,facility_type\na,1,2,3000,motorway\nb,2,3,1000,residential\n")
        case = self.made()
        self.assertEqual([(link.free_kmh, link.jam_per_km) for link in case.links], [(110, 300), (30, 150)])
        self.assertIn("2 links get their capacity by their kind", self.make()[1])

    def test_two_ways_by_directed(self) -> None:
        for text, names in (
            ("0", {"a", "a_r"}),
            ("0.0", {"a", "a_r"}),
            ("false", {"a", "a_r"}),
            ("1", {"a"}),
            ("TRUE", {"a"}),
            ("", {"a"}),
        ):
            self.net(
                f"link_id,from_node_id,to_node_id,length,lanes,free_speed,capacity,directed\n"
                f"a,1,2,1000,1,60,900,{text}\n"
            )
            self.assertEqual(set(self.links()), names)

    def test_links_that_end_where_they_begin(self) -> None:
        self.net(PLAIN + "c,2,2,1000,1,60,1000\nd,3,3,1000,1,60,1000\n")
        status, out, _ = self.make()
        self.assertEqual((status, [link.name for link in Case.read(self.folder / "case").links]), (0, ["a", "b"]))
        self.assertIn("2 links end where they begin and are left out\n", out)

    def test_many_faults_of_one_kind(self) -> None:
        """Twenty are told, and how many more there are."""
        for count, last in ((20, "link l19"), (21, "1 more such faults of links"), (24, "4 more such faults of links")):
            self.net(
                "link_id,from_node_id,to_node_id,length,lanes,free_speed,capacity\n"
                + "".join(f"l{number},{number},{number + 1},none,1,60,900\n" for number in range(count))
            )
            told = [line for line in self.refused().splitlines() if line.startswith("cannot be carried: ")]
            self.assertEqual(len(told), min(count, 21))
            self.assertTrue(told[-1].startswith(f"cannot be carried: {last}"), told[-1])

    def test_ids_that_were_written_as_decimals(self) -> None:
        self.net(
            PLAIN.replace("a,1,2", "a,1.0,2.0").replace("b,2,3", "b,2.0,3.0"),
            demand="o_zone_id,d_zone_id,volume\n1,3,7\n",
        )
        self.assertEqual([(row.origin, row.destination, row.units) for row in self.made().demand], [("1", "3", 7000)])

    def test_links_that_are_not_for_cars_are_left_out_and_told(self) -> None:
        self.net(
            "link_id,from_node_id,to_node_id,length,facility_type,allowed_uses\na,1,2,900,primary,auto\n"
            'f,1,2,900,footway,\nw,1,2,900,primary,"bike,ped"\n'
        )
        self.assertEqual(set(self.links()), {"a"})
        self.assertIn("2 links are not for cars and are left out", self.make()[1])

    def test_faults_name_link_field_and_text(self) -> None:
        self.net(PLAIN.replace("b,2,3,1000,1,60", "b,2,3,1000,1,fast"))
        self.assertEqual(
            self.refused(),
            "cannot be carried: link b: free_speed is 'fast'; expected a number above 0; left empty"
            " it is set by the link's kind\n",
        )

    def test_movements_are_told_to_be_passed_over(self) -> None:
        self.net(PLAIN, movement="mvmt_id,node_id,ib_link_id,ob_link_id\n1,2,a,b\n")
        self.assertIn("movement.csv is not read: ", self.make("--turns", "none")[1])

    def test_numbers_of_any_size(self) -> None:
        """Each is a fault that names it, or is read exactly."""
        for text in ("1e308", "1e99999999", "-1e99999999", "9" * 400, "1e400", "inf", "nan", "1e-99999999"):
            for old in ("b,2,3,1000", "b,2,3,1000,1,60", "b,2,3,1000,1,60,1000"):
                self.net(
                    PLAIN.replace(
                        old + ("\n" if old.endswith("60,1000") else ","),
                        old.rpartition(",")[0] + f",{text}" + ("\n" if old.endswith("60,1000") else ","),
                    )
                )
                status, _, err = self.make()
                self.assertNotIn("Traceback", err)
                self.assertTrue(
                    status == 0 and text == "nan" or "expected a number above 0" in err or "no length" in err,
                    (text, old, err),
                )
            self.net(PLAIN, demand=f"o_zone_id,d_zone_id,volume\n1,3,{text}\n")
            shutil.rmtree(self.folder / "case", ignore_errors=True)
            self.assertRegex(
                self.refused(),
                r"demand\.csv line 2: volume is \".*: expected a number|vehicles, and 0 to 1000000 are allowed",
            )
            (self.folder / "net" / "demand.csv").unlink()
        self.net(PLAIN, demand="o_zone_id,d_zone_id,volume\n1,3,3.2e-41\n1,2,4\n")
        self.assertEqual([(row.destination, row.units) for row in self.made().demand], [("2", 4000)])
        for words in (
            ("--jam", "1e99999999"),
            ("--jam", "1e400"),
            ("--step", "1e99999999"),
            ("--fit", "1e-99999999s"),
            ("--horizon", "9" * 4000),
            ("--period", "1e3"),
        ):
            status, out, err = self.make(*words)
            self.assertEqual((status, out, err.count("\n")), (1, "", 1), words)

    def test_a_missing_file_or_field_is_one_line(self) -> None:
        self.net("a,b\n1,2\n")
        self.assertEqual(len(self.refused().splitlines()), 1)
        (self.folder / "net" / "link.csv").unlink()
        self.assertIn("no link.csv", self.refused())
        self.net("")
        self.assertIn("the file is empty", self.refused())


class Names(GmnsTest):
    ODD = PLAIN.replace("a,1,2", "a[0],1,2+3").replace("b,2,3", "b[0],2+3,3")

    def test_odd_names_are_refused_with_what_to_do(self) -> None:
        self.net(self.ODD)
        err = self.refused()
        self.assertIn("cannot be carried: link 'a[0]': a name is 1 to 32 ASCII letters, digits, _ or -\n", err)
        self.assertTrue(err.endswith("give --rename, which makes names and lists both\n"))

    def test_renamed_with_a_map(self) -> None:
        self.net(self.ODD + "a_0_,3,4,1000,1,60,1000\n")
        self.assertEqual(
            [(link.name, link.tail, link.head) for link in self.made("--rename").links],
            [("a_0__2", "1", "2_3"), ("b_0_", "2_3", "3"), ("a_0_", "3", "4")],
        )
        self.assertIn("a[0],1,2+3,a_0__2\n", (self.folder / "case" / "source_links.csv").read_text())
        self.assertIn("2+3,2_3\n", (self.folder / "case" / "source_nodes.csv").read_text())

    def test_two_names_that_would_be_one(self) -> None:
        self.assertEqual(
            names_for(["a[0]", "a+0+", "b", "x" * 40, "y" * 8 + "x" * 32], True),
            {"a[0]": "a_0_", "a+0+": "a_0__2", "b": "b", "x" * 40: "x" * 32, "y" * 8 + "x" * 32: "x" * 30 + "_2"},
        )


class Ends(unittest.TestCase):
    def test_the_nearest_is_driven_to_or_from(self) -> None:
        # 10 s from n0 to n1, 40 s from n1 to n2, 20 s from n2 to n3
        made = Network()
        for number, metres in enumerate((100, 400, 200)):
            made.add(
                road_of(
                    f"r{number}",
                    f"n{number}",
                    f"n{number + 1}",
                    metres=Fraction(metres),
                    kmh=Fraction(36),
                    jam=Fraction(150),
                    capacity=Fraction(1800),
                )
            )
        self.assertEqual(
            nearest_kept(made, ["n0", "n3"], ["n1", "n2"]),
            {"n1": Joined("n0", Fraction(10_000)), "n2": Joined("n3", Fraction(20_000))},
        )
        self.assertEqual(most_used({"a": 1, "b": 5, "c": 5, "d": 2}, 3), ["b", "c", "d"])


class Zones(GmnsTest):
    NODES = "node_id,zone_id,zone_share\n1,A,3\n2,A,1\n3,B,1\n"
    DEMAND = "o_zone_id,d_zone_id,volume\nA,B,10\nA,A,5\n"

    def amounts(self, *words: str) -> dict[tuple[str, str], int]:
        return {(row.origin, row.destination): row.units for row in self.made(*words).demand}

    def test_a_network_without_demand_and_zones(self) -> None:
        self.net(PLAIN)
        self.assertEqual(self.amounts(), {})
        self.net(PLAIN, "node_id\n1\n2\n3\n", "o_zone_id,d_zone_id,volume\n1,3,2.5\n")
        self.assertEqual(self.amounts(), {("1", "3"): 2500})

    def test_shares_the_first_node_or_even_parts(self) -> None:
        self.net(PLAIN, self.NODES, self.DEMAND)
        self.assertEqual(self.amounts(), {("1", "3"): 7500, ("2", "3"): 2500})
        self.net(PLAIN, self.NODES.replace(",zone_share", "").replace(",3\n", "\n").replace(",1\n", "\n"), self.DEMAND)
        self.assertEqual(self.amounts(), {("1", "3"): 10_000})
        self.assertEqual(self.amounts("--zone-nodes", "even"), {("1", "3"): 5000, ("2", "3"): 5000})

    def test_no_route_leads_through_a_zone_of_connectors(self) -> None:
        link = (
            "link_id,from_node_id,to_node_id,length,facility_type,directed\nc1,Z,1,500,connector,0\n"
            "c2,Z,2,500,connector,0\nr,1,2,5000,primary,0\nx,0,1,700,primary,0\n"
        )
        self.net(link, "node_id,zone_id\nZ,9\n0,8\n2,7\n", "o_zone_id,d_zone_id,volume\n8,9,4\n9,8,4\n8,7,1\n")
        case = self.made()
        self.assertEqual(
            {(link.tail, link.head) for link in case.links if link.name in ("c1", "c1_r")}, {("Z", "1"), ("1", "Z_end")}
        )
        self.assertEqual(
            [(row.origin, row.destination) for row in case.demand], [("0", "Z_end"), ("Z", "0"), ("0", "2")]
        )

    def test_two_nodes_of_a_zone_of_connectors(self) -> None:
        """The first has one exit, and stays one; through the second, with two, no route leads."""
        link = (
            "link_id,from_node_id,to_node_id,length,facility_type,directed\ncy,Y,1,500,connector,0\n"
            "c1,Z,1,500,connector,0\nc2,Z,2,500,connector,0\nr,1,2,5000,primary,0\nx,0,1,700,primary,0\n"
        )
        self.net(link, "node_id,zone_id\nY,9\nZ,9\n0,8\n2,7\n", "o_zone_id,d_zone_id,volume\n8,9,4\n9,8,4\n")
        case = self.made("--zone-nodes", "even")
        self.assertEqual({row.destination for row in case.demand if row.origin == "0"}, {"Y", "Z_end"})

    def test_demand_without_a_route_is_refused_or_left_out(self) -> None:
        self.net(PLAIN, demand="o_zone_id,d_zone_id,volume\n1,3,2\n3,1,4\n1,7,1\n")
        err = self.refused()
        self.assertIn("cannot be carried: demand from 3 to 1: no link leads out of node 3\n", err)
        self.assertIn("cannot be carried: demand from 1 to 7: no node on a link stands for zone 7\n", err)
        self.net(PLAIN, demand="o_zone_id,d_zone_id,volume\n1,3,2\n3,1,4\n")
        self.assertEqual(self.amounts("--leave-out-unreached"), {("1", "3"): 2000})

    def row_of_ends(self, ends: int) -> None:
        """So many roads behind one another, with demand from the first node to each other, to each more than to the one
        before."""
        rows = "".join(f"l{number},{number},{number + 1},1000,1,60,900\n" for number in range(1, ends + 1))
        demand = "o_zone_id,d_zone_id,volume\n" + "".join(f"1,{number},{number}\n" for number in range(2, ends + 2))
        self.net("link_id,from_node_id,to_node_id,length,lanes,free_speed,capacity\n" + rows, demand=demand)

    def test_fewer_destinations(self) -> None:
        self.row_of_ends(257)
        kept = ("--history", "1")
        said = self.refused(*kept)
        self.assertIn("there are 257 destinations, and at most 256 may be: give --destinations 256", said)
        self.assertIn("there are 257 destinations", self.refused("--leave-out-unreached", *kept))
        self.assertIn("--destinations is 1 to 2000", self.refused("--destinations", "2001"))
        self.assertIn("--destinations is 1 to 256 with --history 1", self.refused("--destinations", "257", *kept))
        case = self.made("--destinations", "2", "--horizon", "60")
        # 258 and 257 have most; whoever wants less far drives on to 257
        self.assertEqual(
            {row.destination: row.units for row in case.demand}, {"257": 1000 * (257 * 258 // 2 - 1), "258": 258_000}
        )

    def test_destinations_are_counted_before_ways_are_sought(self) -> None:
        self.row_of_ends(257)
        with mock.patch.object(Reach, "__init__", side_effect=AssertionError("ways are sought")):
            self.assertIn("there are 257 destinations", self.refused("--history", "1"))

    def test_destinations_that_are_asked_for(self) -> None:
        self.row_of_ends(65)
        self.assertEqual(self.made("--horizon", "60").setup.destinations, 65)
        self.assertIn(
            "\n"
            "65 destinations, so the column destinations of setup.csv asks for as many, as without it 64 may"
            " be\n"
            "65 destinations, more than 16, so the column moves of setup.csv is 1: what moves through a turn"
            " is floored for the turn",
            self.out,
        )
        self.row_of_ends(64)
        case = self.made("--horizon", "60")
        self.assertEqual((case.setup.destinations, case.setup.moves), (None, True))

    def test_the_rule_of_flooring(self) -> None:
        """1 from 17 destinations on; told where it is not asked for."""
        for ends, words, moves, told in (
            (16, (), False, False),
            (17, (), True, True),
            (17, ("--moves", "0"), False, False),
            (2, ("--moves", "1"), True, False),
        ):
            self.row_of_ends(ends)
            self.assertEqual(self.made("--horizon", "60", *words).setup.moves, moves, (ends, words))
            self.assertEqual("so the column moves of setup.csv is 1" in self.out, told, (ends, words))

    def test_rows_that_are_asked_for(self) -> None:
        """65 ends of a row of 1,000 roads: of the k-th from the end the routes are from 1,001 - k nodes, 65 * 1,000 -
        64 * 65 / 2 = 62,920 in all."""
        rows = "".join(f"l{number},{number},{number + 1},1000,1,60,900\n" for number in range(1, 1001))
        demand = "o_zone_id,d_zone_id,volume\n" + "".join(f"1,{1001 - number},10\n" for number in range(65))
        self.net("link_id,from_node_id,to_node_id,length,lanes,free_speed,capacity\n" + rows, demand=demand)
        case = self.made("--horizon", "60", "--step", "30s")
        self.assertEqual(case.setup.rows, 63_000)
        self.assertIn(
            "65 rows of demand and 62,920 of routes, so the column rows of setup.csv asks for 63,000 of each,"
            " as without it 10,000 and 50,000 may be\n",
            self.out,
        )


class Fitted(GmnsTest):
    SHORT = PLAIN + "c,3,4,30,1,60,1000\nd,4,5,1000,1,60,1000\n"

    def test_without_a_fit_it_says_what_each_step_would_change(self) -> None:
        self.net(self.SHORT, demand="o_zone_id,d_zone_id,volume\n1,5,10\n")
        err = self.refused("--least-step", "5s")
        # 30 m at 60 km/h take 1.8 s
        self.assertIn("link c: 30 m at 60 and 8 km/h allow a step of at most 1800 ms, and 5000 ms are asked for", err)
        self.assertIn("the longest step that changes no link is 1800 ms", err)
        self.assertRegex(err, r"\n  5000 +3 +1 ")

    def test_with_a_fit_it_tells_the_changes_and_lists_them(self) -> None:
        self.net(self.SHORT, demand="o_zone_id,d_zone_id,volume\n1,5,10\n")
        status, out, _ = self.make("--fit", "5s")
        self.assertEqual(status, 0)
        self.assertEqual(len(Case.read(self.folder / "case").links), 3)
        self.assertIn("  merged ", out)
        self.assertIn("length 3.0 km becomes 3.0 km (+0.00 %)", out)
        self.assertIn("free-flow times of the 1 most used routes: +0.00 % in the mean", out)
        self.assertIn("merged,c,", (self.folder / "case" / "changes.csv").read_text())

    def test_five_arms(self) -> None:
        self.net(
            "link_id,from_node_id,to_node_id,length,lanes,free_speed,capacity,directed\n"
            + "".join(f"r{number},{number},0,900,1,50,900,0\n" for number in range(1, 6)),
            demand="o_zone_id,d_zone_id,volume\n1,5,10\n",
        )
        err = self.refused()
        self.assertIn(
            "cannot be carried: node 0: 5 links lead out of it, and at most 4 may: r1_r, r2_r, r3_r, r4_r, r5_r\n",
            err,
        )
        self.assertIn("--fit STEP", err)
        self.assertEqual(len(self.made("--fit", "5s").links), 12)

    def corridor(self, ends: int) -> None:
        """A corridor of 1,499 links, with demand from its first node to its last ones."""
        rows = "".join(f"l{number},{number},{number + 1},1000,1,60,900\n" for number in range(1, 1500))
        demand = "".join(f"1,{1501 - end},10\n" for end in range(1, ends + 1))
        self.net(
            "link_id,from_node_id,to_node_id,length,lanes,free_speed,capacity\n" + rows,
            demand="o_zone_id,d_zone_id,volume\n" + demand,
        )

    def test_cells_that_are_asked_for(self) -> None:
        # a corridor of L links has 18*L + 5 cells a slot and 6*L + 4 beside: 26,987 * 3,600 + 8,998, and of 2,000 slots
        # 53,982,998
        self.corridor(1)
        told = (
            "97,162,198 cells, so the column cells of setup.csv asks for 98,000,000, as without it 54,000,000 may"
            " be: "
            "about 107 MB for a load and 195 MB for a session, at most 195 and 292"
        )
        status, out, _ = self.make("--step", "2s", "--horizon", "120")
        self.assertEqual((status, out.splitlines()[-1]), (0, told))
        self.assertEqual(
            (self.folder / "case" / "setup.csv").read_text(),
            "step_ms,slots,origin_capacity,cells\n2000,3600,32,98000000\n",
        )
        case = Case.read(self.folder / "case")
        self.assertEqual((case.cells(), case.setup.most_cells), (97_162_198, 98_000_000))
        out = self.make("--step", "3600ms", "--horizon", "120")[1]
        self.assertEqual(out.splitlines()[-1], "53,982,998 cells of at most 54,000,000")
        self.assertEqual(
            (self.folder / "case" / "setup.csv").read_text(), "step_ms,slots,origin_capacity\n3600,2000,32\n"
        )

    def test_steps_tell_the_cells_of_each(self) -> None:
        # 26,987 a slot and 8,998 beside; slots are told where these are too many
        self.corridor(1)
        status, out, _ = self.make("--steps", "--horizon", "120")
        self.assertEqual((status, (self.folder / "case").exists()), (0, False))
        lines = {line.split()[0]: line.split()[-2:] for line in out.splitlines()[1:]}
        self.assertEqual((lines["2000"][1], lines["60000"][1]), ("97,162,198", f"{26_987 * 120 + 8_998:,}"))
        self.assertEqual(lines["500"], ["14,400", "slots"])

    def test_more_cells_than_may_be_asked_for_are_told_with_what_fits(self) -> None:
        # with 32 destinations the widths are 131, 196 of 1,498 nodes and 66, a boundary of both curves 287,936, the
        # limits 2,998: 584,739 a slot
        self.corridor(32)
        err = self.refused("--step", "2s", "--horizon", "300", "--history", "1")
        self.assertIn(
            f"{584_739 * 9000 + 287_936:,} cells, and at most 4,294,967,295 may be: --horizon 244 at this"
            f" step or --fit 2500 at this horizon"
            " or --destinations 26 at both",
            err,
        )
        self.assertIn(
            "4,280,577,416 cells, so the column cells of setup.csv asks for 4,281,000,000",
            self.make("--step", "2s", "--horizon", "244")[1],
        )

    def test_a_case_of_more_cells_keeps_no_history(self) -> None:
        self.corridor(32)
        status, out, _ = self.make("--step", "2s", "--horizon", "300")
        lines = out.splitlines()
        self.assertEqual(status, 0)
        self.assertEqual(lines[-1], f"{584_739 * 9000 + 287_936:,} cells, of which no history is kept")
        self.assertIn(
            f"too large for the history of a loading, with {584_739 * 9000 + 287_936:,} cells (at most 4,294,967,295):"
            " so the column history of setup.csv is 0, with which load, delay, gap, totals and routes answer, and no"
            " session; for a session, and so for the live map, give --horizon 244 at this step or --fit 2500 at this"
            " horizon or --destinations 26 at both",
            lines,
        )
        setup = (self.folder / "case" / "setup.csv").read_text()
        self.assertEqual(setup, "step_ms,slots,origin_capacity,moves,history\n2000,9000,32,1,0\n")


class InTime(GmnsTest):
    def test_a_profile_adds_up_to_the_vehicle(self) -> None:
        self.net(PLAIN, demand="o_zone_id,d_zone_id,volume\n1,3,10\n")
        profile = self.folder / "profile.csv"
        profile.write_text("from,to,share\n7:00,7:15,1\n7:15,7:30,1\n7:30,7:45,1\n")
        rows = self.made("--profile", str(profile), "--step", "30s").demand
        self.assertEqual(
            [(row.from_slot, row.to_slot, row.units) for row in rows], [(0, 30, 3334), (30, 60, 3333), (60, 90, 3333)]
        )

    def test_a_matrix_over_a_profile(self) -> None:
        """Of a case without history, where all pairs are split alike: thirds of 5 and of 10 vehicles are not."""
        profile = self.folder / "profile.csv"
        words = "--profile", str(profile), "--step", "30s", "--history", "0"
        self.net(PLAIN, demand="o_zone_id,d_zone_id,volume\n1,3,10\n1,2,5\n")
        profile.write_text("from,to,share\n7:00,7:15,0.25\n7:30,7:45,0.75\n")
        rows = self.made(*words).demand
        self.assertEqual(
            [(row.destination, row.from_slot, row.to_slot, row.units) for row in rows],
            [("3", 0, 30, 2500), ("3", 60, 90, 7500), ("2", 0, 30, 1250), ("2", 60, 90, 3750)],
        )
        case = self.folder / "case"
        self.assertEqual((case / "demand.csv").read_text(), "origin,destination,vehicles\n1,3,10\n1,2,5\n")
        self.assertEqual((case / "profile.csv").read_text(), "from_slot,to_slot,share\n0,30,1\n60,90,3\n")
        self.assertIn("in 2 slices of slots; ltm and all tools read this as 4 rows\n", self.out)
        profile.write_text("from,to,share\n7:00,7:15,1\n7:15,7:30,1\n7:30,7:45,1\n")
        self.assertEqual([row.units for row in self.made(*words).demand], [3334, 3333, 3333, 1667, 1667, 1666])
        self.assertFalse((case / "profile.csv").exists())
        self.assertNotIn("matrix", self.out)

    def test_a_period_longer_than_the_horizon(self) -> None:
        self.net(PLAIN, demand="o_zone_id,d_zone_id,volume\n1,3,10\n")
        self.assertIn(
            "the demand's period of 60 minutes is longer than the horizon of 30; give --horizon 60 or more",
            self.refused("--horizon", "30"),
        )


if __name__ == "__main__":
    unittest.main()
