"""GMNS networks and demand as several tools write them: names and units of fields, both directions in a row, names that
stand twice."""
import unittest

from support_gmns import PLAIN, GmnsTest

from ltm_tools.network.lengths import metres

LINK = "link_id,from_node_id,to_node_id,length,lanes,free_speed,capacity"
DEMAND = "o_zone_id,d_zone_id,volume\n"


class Sides(GmnsTest):
    def ends(self, *words: str) -> dict[str, tuple[str, str, int, int]]:
        return {link.name: (link.tail, link.head, link.free_kmh, link.jam_per_km) for link in self.made(*words).links}

    def test_a_field_for_each_direction(self) -> None:
        self.net(
            "link_id,a_node,b_node,direction,distance,speed_ab,speed_ba,lanes_ab,lanes_ba,capacity_ab,"
            "capacity_ba\n"
            "1,A,B,0,900,50,40,1,2,900,800\n2,B,C,1,900,60,,1,,900,\n3,C,A,-1,900,,30,,1,,700\n"
        )
        self.assertEqual(
            self.ends(),
            {"1": ("A", "B", 50, 150), "1_r": ("B", "A", 40, 300), "2": ("B", "C", 60, 150), "3": ("A", "C", 30, 150)},
        )

    def test_without_a_direction_the_fields_that_are_filled_say_it(self) -> None:
        self.net("ID,ANode,BNode,Length,AB_Lanes,BA_Lanes,AB_Speed,BA_Speed\n1,A,B,900,1,1,50,50\n2,B,C,900,,2,,60\n")
        self.assertEqual(self.ends(), {"1": ("A", "B", 50, 150), "1_r": ("B", "A", 50, 150), "2": ("C", "B", 60, 300)})

    def test_a_way_that_is_drawn_backwards(self) -> None:
        self.net("link_id,from,to,length,oneway,maxspeed\na,1,2,900,-1,50\nb,2,3,900,yes,50\nc,3,4,900,no,50\n")
        self.assertEqual(
            {name: ends[:2] for name, ends in self.ends().items()},
            {"a": ("2", "1"), "b": ("2", "3"), "c": ("3", "4"), "c_r": ("4", "3")},
        )


class Fields(GmnsTest):
    def test_units_behind_numbers(self) -> None:
        self.net("NO,FROMNODENO,TONODENO,LENGTH,V0PRT,NUMLANES\n1,10,11,0.600km,30 mph,1\n2,11,12,1000,50km/h,1\n")
        self.assertEqual(self.links(), {"1": (600, 48, 150), "2": (1000, 50, 150)})

    def test_of_several_numbers_the_least_counts(self) -> None:
        self.net(LINK + "\na,1,2,900,\"['3', '2']\",50;70,900\n")
        self.assertEqual(self.links(), {"a": (900, 50, 300)})
        self.assertIn("1 link has several lanes, of which the least counts\n", self.make()[1])

    def test_a_length_of_0_is_that_of_its_places_else_1_m(self) -> None:
        self.net(LINK + "\na,1,2,0.001,1,60,900\nb,2,3,1000,1,60,900\n", demand=DEMAND + "1,3,1\n")
        self.assertIn("link a: 1 m at 60 and 7 km/h allow a step of at most 60 ms", self.refused())
        status, out, _ = self.make("--fit", "5s")
        self.assertEqual(status, 0)
        self.assertIn("1 link is shorter than 1 m and gets 1 m\n", out)
        self.net(
            LINK + "\na,1,2,0,1,60,900\nb,2,3,1000,1,60,900\n",
            "node_id,x_coord,y_coord\n1,1000,1000\n2,1300,1400\n3,1300,2400\n",
        )
        self.assertEqual(self.links()["a"][0], 500)

    def test_places_that_are_none(self) -> None:
        self.net("link_id,from_node_id,to_node_id\na,1,2\n", "node_id,x_coord,y_coord\n1,inf,nan\n2,1e300,-1e300\n")
        self.assertEqual(self.refused().count("no length, and no geometry or places"), 1)

    def test_lines_that_are_none(self) -> None:
        for line in ("1 1, 1e308 2", "-1e308 1, 1e308 2", "1 1, 2 1e400"):
            self.net(f'link_id,from_node_id,to_node_id,geometry\na,1,2,"LINESTRING ({line})"\n')
            self.assertEqual(self.refused().count("no length, and no geometry or places"), 1, line)

    def test_places_past_the_poles(self) -> None:
        # over the pole and many times round the earth to the same place
        self.assertEqual(metres([(0.0, 51.228), (180.0, 180 - 51.228 + 360 * 2_254_258)], "degrees"), 0)

    def test_a_unit_that_is_not_known(self) -> None:
        self.net(PLAIN, config="long_length,speed\nfurlong,mph\n")
        self.assertIn(
            "config.csv: long_length is 'furlong', a unit that is not known; give --length-unit", self.refused()
        )
        self.assertEqual(self.links("--length-unit", "m")["a"], (1000, 97, 150))

    def test_nothing_to_drive_on_is_told_with_why(self) -> None:
        self.net(LINK + "\na,1,2,900,1,50,0\n")
        self.assertIn("no link that cars may use; 1 link has no lanes or no capacity", self.refused())

    def test_nodes_of_another_network(self) -> None:
        self.net(PLAIN, "node_id,zone_id\nn1,1\nn2,2\n")
        self.assertIn("no node of node.csv, as 'n1', is on a link of link.csv, as '1'", self.refused())


class Twice(GmnsTest):
    def test_a_name_for_both_directions(self) -> None:
        self.net(LINK + "\na,1,2,900,1,50,900\na,2,1,900,1,50,900\n")
        self.assertIn("link a: the name stands twice; --rename puts a number behind it", self.refused())
        self.assertEqual(set(self.links("--rename")), {"a", "a_2"})

    def test_parallel_links_without_names(self) -> None:
        self.net("from_node_id,to_node_id,length\n1,2,900\n1,2,800\n")
        self.assertEqual(set(self.links()), {"1_2", "1_2_2"})


class Files(GmnsTest):
    def test_capital_letters_comments_and_marks_at_the_end(self) -> None:
        self.net("# made by X, 2024\n\n" + PLAIN + "\0\0\x1a")
        (self.folder / "net" / "link.csv").rename(self.folder / "net" / "LINK.CSV")
        self.assertEqual(set(self.links()), {"a", "b"})
        self.net(PLAIN, encoding="utf-32")
        (self.folder / "net" / "LINK.CSV").unlink()
        self.assertEqual(set(self.links()), {"a", "b"})

    def test_another_name_is_told_with_what_to_do(self) -> None:
        self.net(PLAIN)
        (self.folder / "net" / "link.csv").rename(self.folder / "net" / "links.csv")
        self.assertIn("no link.csv; if links.csv has the links, call it link.csv", self.refused())
        (self.folder / "net" / "links.csv").rename(self.folder / "net" / "town.zip")
        self.assertIn("unpack town.zip", self.refused())


class Tables(GmnsTest):
    NODES = "node_id,zone_id\n1,7\n2,8\n3,9\n"

    def rows(self, demand: str, node: str = NODES, *words: str) -> list[tuple[str, str, int]]:
        self.net(PLAIN, node, demand)
        return [(row.origin, row.destination, row.units) for row in self.made(*words).demand]

    def test_names_of_fields(self) -> None:
        self.net(PLAIN, self.NODES, "o,d,car,truck\n7,9,5,1\n")
        self.assertIn("no field volume in the header; call one of car, truck volume", self.refused())
        for header in (
            "from_zone_id,to_zone_id,vol",
            "orig_taz,dest_taz,flow",
            "Origin_ID,Destination_ID,weight",
            "O,D,Ton",
            "i,j,v",
        ):
            self.assertEqual(self.rows(header + "\n7,9,5\n"), [("1", "3", 5000)], header)

    def test_zones_that_were_written_as_decimals_and_a_matrix_with_letters(self) -> None:
        self.assertEqual(self.rows(DEMAND + "7.0,9.0,5\n"), [("1", "3", 5000)])
        self.assertEqual(self.rows("zone,7.0,9.0\n7.0,0,5\n"), [("1", "3", 5000)])
        self.assertEqual(
            self.rows("zone,North,South\nNorth,0,5\n", "node_id,zone_id\n1,North\n3,South\n"), [("1", "3", 5000)]
        )

    def test_rows_of_several_times_are_added_and_it_is_told(self) -> None:
        self.assertEqual(self.rows("o_zone_id,d_zone_id,time_period,volume\n7,9,AM,5\n7,9,PM,4\n"), [("1", "3", 9000)])
        self.assertIn("demand.csv has 2 values of time_period, and the vehicles of all are added\n", self.make()[1])

    def test_shares_of_a_zone_add_up_to_the_vehicle(self) -> None:
        # a third of a vehicle from each of three nodes: 0.333, 0.334 and 0.333
        net = LINK + "".join(f"\nl{node},{node},9,1000,1,60,900" for node in (1, 2, 3)) + "\n"
        self.net(net, "node_id,zone_id\n1,A\n2,A\n3,A\n9,B\n", DEMAND + "A,B,1\n")
        self.assertEqual([row.units for row in self.made("--zone-nodes", "even").demand], [333, 334, 333])


class ManyArms(GmnsTest):
    def test_a_step_to_which_nothing_fits_is_told_beside_the_others(self) -> None:
        self.net(
            LINK
            + "".join(
                f"\n{word}{arm},{ends},900,1,50,900"
                for arm in range(40)
                for word, ends in (("i", f"a{arm},c"), ("o", f"c,a{arm}"))
            )
            + "\n"
        )
        err = self.refused()
        self.assertIn("node c: 40 links lead out of it", err)
        self.assertRegex(err, r"\n  30000 +[0-9]+ ")
        self.assertRegex(err, r"\n  60000 +link .*more than 32 vehicles pass in 60000 ms")
        self.assertGreater(len(self.made("--fit", "5s").links), 80)


if __name__ == "__main__":
    unittest.main()
