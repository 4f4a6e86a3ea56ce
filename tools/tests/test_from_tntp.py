"""Cases of small networks in the format of the Transportation Networks collection, written by hand after its
description: units, zones that no route leads through, trips, and each refusal says what to do."""
import unittest
from unittest import mock

import commands
from support import EXAMPLES
from support_tntp import ROWS, TRIPS, TntpTest

from ltm_tools.network.reach import Reach

VILLAGE = EXAMPLES / "from_tntp" / "village"


class Units(TntpTest):
    def test_lengths_and_times_as_they_are_stated(self) -> None:
        # 0.5 mi are 804.67 m, in half a minute 96.6 km/h
        link = self.made("--length-unit", "mi").links[0]
        self.assertEqual((link.length_m, link.free_kmh), (805, 97))
        # 1,500 m in 90 s are 60 km/h, 1,500 m in 150 s 36
        links = self.made("--length-unit", "km", "--time-unit", "min").links
        self.assertEqual([(it.length_m, it.free_kmh) for it in links[2:6:3]], [(1500, 60), (1500, 36)])

    def test_a_header_names_them(self) -> None:
        rows = tuple(f"{a} {b} 1800 2640 0.5" for a, b in ("13", "31", "34", "42", "24", "43"))
        header = (
            "<ORIGINAL HEADER>~ \tInit node \tTerm node \tCapacity (veh/h) \tLength (ft) \tFree Flow Time (min)\t;\n"
        )
        self.assertEqual(self.made(rows=rows, more=header).links[0].length_m, 805)
        self.assertEqual(self.out.splitlines()[0], "the header says: lengths in ft and times in min")

    def test_a_guess_is_said_first(self) -> None:
        # 1,500 m in 90 s; no other unit of length, with times in minutes or in seconds, comes to 20 to 130 km/h
        rows = tuple(f"{a} {b} 1800 1500 90" for a, b in ("13", "31", "34", "42", "24", "43"))
        self.assertEqual(self.made(rows=rows).links[0].free_kmh, 60)
        self.assertEqual(
            self.out.splitlines()[0],
            "lengths are taken as m and times as s, a guess by which the middle link is driven at 60 km/h:"
            " --length-unit and --time-unit say them",
        )

    def test_where_two_would_do_it_asks_or_looks_at_places(self) -> None:
        self.assertIn(
            "the middle link is driven at 60 km/h if lengths are in km and 97 km/h if lengths are in mi; give"
            " --length-unit km or mi",
            self.refused(),
        )
        # at the equator 0.009 degrees of longitude are 1.0 km, and the middle link of 0.5 has 0.0045
        places = "Node X Y ;\n1 0 0 ;\n3 0.0045 0 ;\n4 0.018 0 ;\n2 0.0225 0 ;\n"
        self.assertEqual(self.made(nodes=places).links[0].length_m, 500)
        self.assertIn("name,x,y,crs\n1,0,0,EPSG:4326\n", (self.folder / "case" / "nodes.csv").read_text())


class Diagrams(TntpTest):
    def test_lanes_wave_speed_and_capacity(self) -> None:
        rows = ("1 3 3000 0.5 0.5", *ROWS[1:])
        # two lanes of 150 vehicles/km: 3000 * 60 / (300 * 60 - 3000) = 12 km/h
        link = self.made("--length-unit", "km", rows=rows).links[0]
        self.assertEqual((link.jam_per_km, link.wave_kmh), (300, 12))
        # with 20 km/h: 3000 * (1 / 60 + 1 / 20) = 200 vehicles/km
        link = self.made("--length-unit", "km", "--wave", "20", rows=rows).links[0]
        self.assertEqual((link.jam_per_km, link.wave_kmh), (200, 20))
        # of a day: 48,000 in 24 hours are 2,000 an hour, on two lanes: 2000 * 60 / (18000 - 2000) = 7.5 km/h
        rows = ("1 3 48000 0.5 0.5", *ROWS[1:])
        link = self.made("--length-unit", "km", "--capacity-hours", "24", rows=rows).links[0]
        self.assertEqual((link.jam_per_km, link.wave_kmh in (7, 8)), (300, True))

    def test_connectors_without_a_time(self) -> None:
        # 0.5 km at 50 km/h
        link = self.made("--length-unit", "km", rows=("1 3 9999 0.5 0", *ROWS[1:])).links[0]
        self.assertEqual((link.length_m, link.free_kmh), (500, 50))
        self.assertIn("1 link has no free-flow time or no length and gets 50 km/h\n", self.out)


class Zones(TntpTest):
    def test_links_that_are_too_short(self) -> None:
        """Half a metre, in time for 50 km/h."""
        self.make(rows=("1 3 1800 0.0005 0.0006", *ROWS[1:]))
        files = [str(self.folder / f"{name}.tntp") for name in ("net", "trips")]
        _, out, err = commands.run("from-tntp", *files, str(self.folder / "c"), "--fit", "5s", "--length-unit", "km")
        self.assertIn("1 link is shorter than 1 m and gets 1 m\n", out + err)

    def test_no_route_leads_through_a_zone(self) -> None:
        case = self.made("--length-unit", "km")
        self.assertEqual([(it.tail, it.head) for it in case.links if "1" in (it.tail, it.head)], [("1", "3")])
        self.assertIn("1_end", {it.head for it in case.links})
        self.assertEqual({(it.origin, it.destination) for it in case.demand}, {("1", "2_end"), ("2", "1_end")})
        case = self.made("--length-unit", "km", zones="<NUMBER OF ZONES> 2\n<FIRST THRU NODE> 1\n")
        self.assertEqual({(it.origin, it.destination) for it in case.demand}, {("1", "2"), ("2", "1")})

    def test_trips_that_begin_on_a_through_road_have_an_entry(self) -> None:
        """Trips from 3, over which others drive from 1 to 4, come to it by a link that carries what 3_1 does."""
        words = ("--length-unit", "km", "--horizon", "90")
        text = {"trips": TRIPS + "Origin 3\n 2 : 40;\n", "zones": "<NUMBER OF ZONES> 3\n<FIRST THRU NODE> 1\n"}
        case = self.made(*words, **text)
        self.assertEqual(
            {(it.origin, it.destination) for it in case.demand}, {("1", "2"), ("2", "1"), ("3_origin", "2")}
        )
        links = {it.name: it for it in case.links}
        self.assertEqual((links["3_entry"].tail, links["3_entry"].head), ("3_origin", "3"))
        self.assertAlmostEqual(links["3_entry"].capacity(3_600_000) / 1000, 1800, delta=60)
        self.assertIn("1 origin at nodes that others drive over with a link of their own", self.out)
        self.assertNotIn("3_entry", (self.folder / "case" / "source_links.csv").read_text())
        case = self.made(*words, "--entries", "none", **text)
        self.assertEqual({it.origin for it in case.demand}, {"1", "2", "3"})

    def test_destinations_are_counted_before_ways_are_sought(self) -> None:
        """A road of 258 nodes, from whose first one trips go to each other one."""
        rows = tuple(f"{node} {node + 1} 1800 0.5 0.5" for node in range(1, 258))
        trips = "Origin 1\n" + " ".join(f"{node} : 1;" for node in range(2, 259)) + "\n"
        zones = "<NUMBER OF ZONES> 258\n<FIRST THRU NODE> 1\n"
        with mock.patch.object(Reach, "__init__", side_effect=AssertionError("ways are sought")):
            said = self.refused("--length-unit", "km", "--history", "1", rows=rows, trips=trips, zones=zones)
        self.assertIn("there are 257 destinations, and at most 256 may be: give --destinations", said)
        case = self.made("--length-unit", "km", rows=rows, trips=trips, zones=zones)
        self.assertEqual((len(case.destinations), case.setup.destinations, case.setup.history), (257, 257, False))
        self.assertIn(
            "too large for the history of a loading, with 257 destinations (at most 256): so the column history of"
            " setup.csv is 0, with which load, delay, gap, totals and routes answer, and no session; for a session, and"
            " so for the live map, give --destinations 256\n",
            self.out,
        )
        self.assertTrue(case.setup.routes)
        (self.folder / "case" / "splits.csv").unlink()
        case = self.made("--length-unit", "km", "--destinations", "256", rows=rows, trips=trips, zones=zones)
        self.assertEqual((len(case.destinations), case.setup.history, case.setup.routes), (256, True, False))

    def test_what_no_case_can_have_is_refused_before_ways_are_sought(self) -> None:
        """A road of 2,002 nodes, from whose first one trips go to each other one."""
        rows = tuple(f"{node} {node + 1} 1800 0.5 0.5" for node in range(1, 2002))
        trips = "Origin 1\n" + " ".join(f"{node} : 1;" for node in range(2, 2003)) + "\n"
        zones = "<NUMBER OF ZONES> 2002\n<FIRST THRU NODE> 1\n"
        with mock.patch.object(Reach, "__init__", side_effect=AssertionError("ways are sought")):
            said = self.refused("--length-unit", "km", rows=rows, trips=trips, zones=zones)
            self.assertIn("there are 2001 destinations, and at most 2000 may be: give --destinations 2000,", said)

    def test_a_case_that_is_small_enough_for_a_history(self) -> None:
        self.assertTrue(self.made("--length-unit", "km").setup.history)
        self.assertFalse(self.made("--length-unit", "km", "--history", "0").setup.history)
        self.assertIn(
            "small enough for a history: the column history of setup.csv is 0 all the same, with which load", self.out
        )

    def test_a_demand_without_history_is_a_matrix(self) -> None:
        """It reads as the rows that stand with a history, and its profile goes with it."""
        case, rows = self.folder / "case", self.made("--length-unit", "km").demand
        self.assertEqual(self.made("--length-unit", "km", "--history", "0").demand, rows)
        self.assertEqual((case / "demand.csv").read_text(), "origin,destination,vehicles\n1,2_end,300.5\n2,1_end,20\n")
        self.assertEqual((case / "profile.csv").read_text(), "from_slot,to_slot,share\n0,720,1\n")
        self.assertIn("demand.csv has one record for each of 2 pairs of origin and destination, and", self.out)
        self.assertIn("set out, in 1 slice of slots; ltm and all tools read this as 2 rows\n", self.out)
        self.assertEqual(self.made("--length-unit", "km").demand, rows)
        self.assertFalse((case / "profile.csv").exists())
        self.assertNotIn("matrix", self.out)

    def test_trips_over_a_period_and_scaled(self) -> None:
        case = self.made("--length-unit", "km", "--period", "30", "--scale", "0.5")
        # 30 minutes are 360 slots of 5 s
        self.assertEqual(
            [(it.units, it.from_slot, it.to_slot) for it in case.demand], [(150250, 0, 360), (10000, 0, 360)]
        )
        self.assertIn("3.5 vehicles stay within a zone and are left out\n", self.out)
        self.assertNotIn("a total of", self.out)
        self.made("--length-unit", "km", trips=TRIPS.replace("300.5", "400.5"))
        self.assertIn("the trips sum to 427.5, and their file says a total of 327.5\n", self.out)

    def test_the_example(self) -> None:
        files = (str(VILLAGE / f"village_{name}.tntp") for name in ("net", "trips", "node"))
        status, out, err = commands.run("from-tntp", *files, str(self.folder / "case"), "--fit", "5s")
        self.assertEqual((status, err), (0, ""))
        text = (EXAMPLES / "from_tntp" / "README.md").read_text()
        for line in out.splitlines()[:5]:
            self.assertIn(f"    {line}\n", text)


class Refusals(TntpTest):
    def test_each_names_file_line_and_field(self) -> None:
        km = ("--length-unit", "km")
        self.assertIn("<NUMBER OF LINKS> says 76: the file is cut off", self.refused(more="<NUMBER OF LINKS> 76\n"))
        self.assertIn('net.tntp line 7: capacity is "many": expected a number', self.refused(rows=("1 3 many 1 1",)))
        self.assertIn("trips.tntp line 5:", self.refused(*km, trips="2 : 100.0;\n"))
        self.assertIn('trips from 1 to 2 is "-3": it is 0 or more', self.refused(*km, trips="Origin 1\n2 : -3;\n"))
        status, _, err = self.make(*km, trips="Origin 1\n9 : 3;\n")
        self.assertEqual(
            (status, err.splitlines()[0]),
            (1, "cannot be carried: demand from 1 to 9: no node on a link stands for zone 9"),
        )

    def test_a_file_of_another_kind(self) -> None:
        (self.folder / "x").write_text("a,b\n1,2\n")
        err = commands.run("from-tntp", *2 * [str(self.folder / "x")], str(self.folder / "case"))[2]
        self.assertIn("x: no line <END OF METADATA>; expected a file of the Transportation Networks collection", err)


if __name__ == "__main__":
    unittest.main()
