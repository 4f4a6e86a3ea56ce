"""Cases of small nets of SUMO, written by hand: what is left out, routes, trips, flows, programs of signals; and each
refusal says what to do."""
import gzip
import os
import subprocess
import sys
import unittest
from fractions import Fraction
from unittest import mock

import commands
from support import TOOLS
from support_sumo import EDGES, SumoTest, WAYS, edge, way

from ltm_tools.case import Case, cells
from ltm_tools.network.crossings.lanes import filled
from ltm_tools.errors import Fault
from ltm_tools.sumo import routes
from ltm_tools.sumo.routes import single


class Network(SumoTest):
    def test_lengths_speeds_lanes_and_names(self) -> None:
        case = self.made()
        # 10 m/s are 36 km/h; a lane takes a vehicle every 1.13 s + 7.5 m / 10 m/s = 1.88 s, which is 1915 an hour, and
        # stores 133.3 in a km
        self.assertEqual(
            [
                (link.name, link.tail, link.head, link.length_m, link.free_kmh, link.jam_per_km)
                for link in case.links[:3]
            ],
            [("in", "A", "B", 200, 36, 267), ("on", "B", "C", 200, 36, 133), ("left_1", "B", "D", 200, 36, 133)],
        )
        link = case.links[1]
        self.assertAlmostEqual(link.capacity(3_600_000) / 1000, 3600 / 1.88, delta=30)
        self.assertIn("left#1,B,D,left_1\n", (self.folder / "case" / "source_links.csv").read_text())

    def test_what_cars_may_not_use_is_left_out_and_told(self) -> None:
        more = (
            edge("walk", "A", "C", lane='allow="pedestrian"')
            + edge("bus", "A", "C", lane='disallow="passenger taxi"')
            + edge("rail", "A", "C", lane='allow="rail"')
            + edge("loop", "A", "A")
            + edge(":B_0", "", "", more='function="internal"')
            + edge(":B_w0", "", "", more='function="walkingarea"')
            + edge("tie", "C", "D", more='function="connector"')
            + edge("half", "A", "C", 2, lane="").replace('index="0"', 'index="0" allow="bicycle"')
        )
        case = self.made(net=EDGES + more + WAYS)
        self.assertEqual({link.name for link in case.links}, {"in", "on", "left_1", "-in", "home", "tie", "half"})
        self.assertEqual(next(link.jam_per_km for link in case.links if link.name == "half"), 133)
        self.assertIn("3 edges are left out: not for a passenger\n", self.out)
        self.assertIn("1 edges are left out: ending where they begin\n", self.out)

    def test_a_packed_net(self) -> None:
        path = self.folder / "net.net.xml.gz"
        path.write_bytes(gzip.compress(f"<net>{EDGES}{WAYS}</net>".encode()))
        status, _, err = commands.run("from-sumo", str(path), str(self.folder / "case"))
        self.assertEqual((status, err), (0, ""))

    def test_files_that_are_no_nets(self) -> None:
        self.assertIn("this is no XML file, or it is cut off", self.refused(net="<edge"))
        self.assertIn("expected a net of SUMO", self.refused(net=""))
        self.assertIn("--vehicle-class", self.refused(net=edge("walk", "A", "C", lane='allow="pedestrian"')))
        self.assertIn("expected a number", self.refused(net=edge("a", "A", "B", speed="fast")))
        (self.folder / "x.xml").write_text("<nodes><node id='a'/></nodes>")
        status, _, err = commands.run("from-sumo", str(self.folder / "x.xml"), str(self.folder / "case"))
        self.assertEqual((status, err.count("\n")), (1, 1))
        self.assertIn(
            "netconvert",
            commands.run("from-sumo", str(self.folder / "none.xml"), str(self.folder / "case"))[2] + "netconvert",
        )
        self.assertIn(
            "no such file", commands.run("from-sumo", str(self.folder / "none.xml"), str(self.folder / "case"))[2]
        )


class Edges(SumoTest):
    """What SUMO refuses or opens, numbers of any size, and files that are damaged: one line, in a short time."""

    HELD = (
        EDGES
        + way("in", "on", 0, 'tl="B" linkIndex="0"')
        + way("in", "left#1", 1, 'tl="B" linkIndex="1"')
        + way("left#1", "home")
        + way("home", "in")
    )

    def program(self, *states: str) -> str:
        phases = "".join(f'<phase duration="30" state="{state}"/>' for state in states)
        return f'<tlLogic id="B" type="static" programID="1" offset="0">{phases}</tlLogic>'

    def test_faults_of_a_program_name_its_file(self) -> None:
        wrong = '<tlLogic id="B" programID="1"><phase duration="long" state="Gr"/></tlLogic>'
        told = 'signal B: duration is "long"'
        self.assertIn(f"{self.folder / 'more.add.xml'}: {told}", self.refused(net=self.HELD, more=wrong))
        self.assertIn(f"{self.folder / 'net.net.xml'}: {told}", self.refused(net=self.HELD + wrong))

    def test_letters_of_a_program(self) -> None:
        """As SUMO 1.15 has it: fewer letters than ways, those on foot too, or phases of several numbers it does not
        take; more it passes over."""
        on_foot = '<connection from=":B_c0" to=":B_w0" fromLane="0" toLane="0" tl="B" linkIndex="2" dir="s" state="M"/>'
        for held, states, told in (
            (self.HELD, ("G", "r"), "its phases have 1 letters, and the signal holds 2 ways"),
            (self.HELD, ("Gr", "r"), "its phases have 1 and 2 letters"),
            (self.HELD + on_foot, ("Gr", "rG"), "its phases have 2 letters, and the signal holds 3 ways"),
        ):
            self.assertIn(f"signal B, program 1: {told}", self.refused(net=held + self.program(*states)))
            self.assertIn(f"signal B, program 1: {told}", self.refused(net=held, more=self.program(*states)))
        self.made(net=self.HELD + self.program("Gr", "rG"))
        self.made(net=self.HELD + self.program("GrGG", "rGrr"))

    def test_a_class_that_ignores_what_is_forbidden(self) -> None:
        more = edge("walk", "A", "C", lane='allow="pedestrian"') + edge("shut", "A", "C", lane='disallow="all"')
        self.assertEqual(
            {link.name for link in self.made("--vehicle-class", "ignoring", net=EDGES + more).links},
            {"in", "on", "left_1", "-in", "home", "walk", "shut"},
        )

    def test_trips_between_zones_begin_and_end_on_their_edges(self) -> None:
        """Of six trips two in three begin on `in`, as the weights say, and the others on `home`."""
        zones = (
            '<taz id="a"><tazSource id="in" weight="2"/><tazSource id="home" weight="1"/></taz>'
            '<taz id="b" edges="on"/>'
        )
        trips = "".join(f'<trip id="{number}" depart="5" fromTaz="a" toTaz="b"/>' for number in range(6))
        for text in (zones, f"<tazs>{zones}</tazs>"):
            case = self.made(more=text, routes=trips)
            self.assertEqual({(row.origin, row.destination): row.units for row in case.demand}, self.TWO_IN_THREE)
            self.assertIn("6 vehicles set out between zones, on edges of these by their weights\n", self.out)
        self.assertIn(
            'zone "c" has no edge by which trips begin', self.make(more=zones, routes=trips.replace('"a"', '"c"'))[2]
        )

    TWO_IN_THREE = {("A", "C"): 4000, ("D", "C"): 2000}

    def test_the_length_before_a_fit(self) -> None:
        """Five edges of 200 m; that to the signal is cut 51 m before it, 5 s at 36 km/h and a metre, since a trip ends
        there: what is there twice then is no length of the source."""
        self.made(
            "--fit",
            "5s",
            net=self.HELD + self.program("Gr", "rG"),
            routes='<vehicle id="1" depart="0"><route edges="home in"/></vehicle>',
        )
        self.assertIn("1 edges are cut a step before a signal", self.out)
        self.assertIn(
            "  length 1.0 km becomes 1.1 km (+5.10 %), free-flow times 100 s become 105 s (+5.10 %)\n", self.out
        )

    def test_a_reader_that_goes(self) -> None:
        """As `head`: the case is there."""
        path = self.folder / "net.net.xml"
        path.write_text(f"<net>{EDGES}{WAYS}</net>")
        read, write = os.pipe()
        os.close(read)
        done = subprocess.run(
            [sys.executable, TOOLS / "ltm-tools", "from-sumo", path, self.folder / "case"],
            stdout=write,
            stderr=subprocess.PIPE,
        )
        os.close(write)
        self.assertEqual(done.stderr, b"")
        self.assertEqual(len(Case.read(self.folder / "case").links), 5)

    def test_numbers_of_any_size(self) -> None:
        flow = '<flow id="f" begin="{}" end="{}" {}><route edges="in on"/></flow>'
        for told, words in (
            ("1,000,000,000 vehicles, and at most 3,000,000 may set out", ("0", "3600", 'number="1000000000"')),
            ("is no number: expected a number, of at most 10^15", ("0", "3600", 'number="1e99999999"')),
            ("is no number: expected a number, of at most 10^15", ("0", "3600", 'vehsPerHour="1e308"')),
            ("vehicles, and at most 3,000,000 may set out", ("0", "3600", 'period="1e-9"')),
            ("is no time", ("0", "1e12", 'vehsPerHour="60"')),
            ("is no time", ("1e99999999", "5", 'vehsPerHour="60"')),
            ("it lasts longer than 10,000,000 s", ("0", "", 'number="5" vehsPerHour="1e-200"')),
        ):
            self.assertIn(told, self.refused(routes=flow.format(*words)))
        for metres, speed in (("1e99999999", "10"), ("200", "1e400"), ("1e300", "1"), ("9" * 5000, "10")):
            self.assertIn(
                "expected a number, of at most 10^15",
                self.refused(net=edge("a", "A", "B", metres=metres, speed=speed)),
            )
        self.assertIn(
            "1 edges are left out: without length or speed",
            self.make(net=EDGES + edge("slow", "A", "C", speed="1e-300"))[1],
        )

    def test_damaged_files(self) -> None:
        whole = gzip.compress(f"<net>{EDGES}{WAYS}</net>".encode() * 50)
        path = self.folder / "net.net.xml.gz"
        for data in (
            whole[: len(whole) // 2],
            whole[:40] + b"\xff" * 40 + whole[80:],
            whole[:-6] + b"abcdef",
            b"\x1f\x8b",
            b"\x1f\x8b" + b"\0" * 40,
        ):
            path.write_bytes(data)
            status, out, err = commands.run("from-sumo", str(path), str(self.folder / "case"))
            self.assertEqual((status, out, err.count("\n")), (1, "", 1))
            self.assertRegex(err, "the packed file is cut off or damaged|this is no XML file, or it is cut off")

    def test_odd_encodings(self) -> None:
        path = self.folder / "net.net.xml"
        for name, told in (
            ("utf-32", ""),
            ("shift_jis", "multi-byte encodings are not supported"),
            ("nonsense", "unknown encoding"),
            ("rot13", ""),
        ):
            path.write_bytes(f'<?xml version="1.0" encoding="{name}"?><net>{EDGES}{WAYS}</net>'.encode())
            status, out, err = commands.run("from-sumo", str(path), str(self.folder / "case"))
            self.assertEqual((status, out, err.count("\n")), (1, "", 1), (name, err))
            self.assertIn(told, err)
        for name in ("latin-1", "utf-16", "cp1252"):
            path.write_bytes(f'<?xml version="1.0" encoding="{name}"?><net>{EDGES}{WAYS}</net>'.encode(name))
            self.assertEqual(commands.run("from-sumo", str(path), str(self.folder / "case"))[0], 0, name)


class Vehicles(SumoTest):
    def rows(self, routes: str, *words: str, **files: str) -> dict[tuple[str, str], int]:
        """Thousandths by origin and destination."""
        made: dict[tuple[str, str], int] = {}
        for row in self.made("--allow-losses", *words, routes=routes, **files).demand:
            made[row.origin, row.destination] = made.get((row.origin, row.destination), 0) + row.units
        return made

    def test_routes_inside_and_by_name_types_and_distributions(self) -> None:
        text = (
            '<vType id="car" vClass="passenger"/><vType id="bike" vClass="bicycle"/><route id="r" edges="in on"/>'
            '<routeDistribution id="d"><route edges="in on" probability="1"/>'
            '<route edges="in left#1" probability="3"/></routeDistribution>'
            '<vehicle id="1" depart="0"><route edges="in left#1"/></vehicle>'
            '<vehicle id="2" depart="0:01:00" route="r" type="car"/>'
            '<vehicle id="3" depart="70" route="d"/><vehicle id="4" depart="70" route="r" type="bike"/>'
            '<vehicle id="5" depart="triggered" route="r"/>'
            '<person id="p" depart="0"><walk edges="in on"/></person>'
        )
        self.assertEqual(self.rows(text), {("A", "D"): 1000 + 750, ("A", "C"): 1000 + 250})
        self.assertIn("1 vehicles are left out: of class bicycle\n", self.out)
        self.assertIn("1 vehicles are left out: that wait for a person, a container or another vehicle", self.out)

    def test_alternatives_of_duarouter_count_by_the_last_one(self) -> None:
        text = (
            '<vehicle id="1" depart="0"><routeDistribution last="1"><route cost="9" probability="0.5" edges="in'
            ' on"/>'
            '<route cost="8" probability="0.5" edges="in left#1"/></routeDistribution></vehicle>'
        )
        self.assertEqual(self.rows(text), {("A", "D"): 1000})

    def test_trips_take_the_least_route_by_allowed_turns(self) -> None:
        # from -in there is no turn to in, so from home the way leads over in alone
        self.assertEqual(
            self.rows(
                '<trip id="1" depart="5" from="home" to="on"/><trip id="2" depart="5" from="in"'
                ' to="home" via="left#1"/>'
            ),
            {("D", "C"): 1000},
        )
        self.assertIn("vehicles are left out: that end where they begin", self.out)
        self.assertIn("1 vehicles have no route and take the least one by free-flow time", self.out)
        rows = self.rows(
            '<trip id="1" depart="5" from="-in" to="on"/><trip id="2" depart="5" from="in" to="on"/><trip'
            ' id="3" depart="5" fromTaz="a" toTaz="b"/>'
        )
        self.assertEqual(rows, {("A", "C"): 1000})
        self.assertIn("1 vehicles are left out: without a route that is connected", self.out)
        self.assertIn(
            "1 vehicles are left out: between zones or junctions (give the file of zones, TAZ, with it)", self.out
        )

    def test_flows_by_number_period_rate_and_chance(self) -> None:
        for words, units in (
            ('number="7" end="600"', 7000),
            ('period="100" end="600"', 6000),
            ('vehsPerHour="90" end="600"', 15_000),
            ('vehsPerHour="90" end="610"', 15_250),
            ('perHour="90" end="600"', 15_000),
            ('probability="0.01" end="600"', 6000),
            ('period="exp(0.02)" end="600"', 12_000),
            ('number="4" period="50"', 4000),
        ):
            self.assertEqual(
                self.rows(f'<flow id="f" begin="0" {words} from="in" to="on"/>'), {("A", "C"): units}, words
            )
        self.assertIn(
            'give one, as end="3600"', self.refused_new('<flow id="f" begin="0" vehsPerHour="9" from="in" to="on"/>')
        )
        self.assertIn(
            "no number, period, vehsPerHour or probability",
            self.refused_new('<flow id="f" begin="0" end="9" from="in" to="on"/>'),
        )

    def test_vehicles_of_a_number_set_out_at_even_distances(self) -> None:
        # every third of a millisecond, and every half about 0, where parts of a millisecond are cut off
        for begin, end, count, told in (
            ("7", "7.002", 6, [(7000, 3000), (7001, 3000)]),
            ("-0.0015", "0.0015", 6, [(-1, 2000), (0, 3000), (1, 1000)]),
            ("0", "10", 2, [(0, 1000), (5000, 1000)]),
            ("3", "3", 4, [(3000, 4000)]),
        ):
            self.assertEqual(list(single(Fraction(begin), Fraction(end), count, "")), told)

    def refused_new(self, routes: str) -> str:
        """What is said of vehicles that are refused."""
        status, _, err = self.make(routes=routes)
        self.assertEqual((status, err.count("\n")), (1, 1))
        return err

    def test_a_flow_with_a_number_sets_out_evenly(self) -> None:
        case = self.made(
            "--demand-slice", "5", routes='<flow id="f" begin="0" end="1200" number="8" from="in" to="on"/>'
        )
        self.assertEqual([row.units for row in case.demand], [2000] * 4)

    def test_a_matrix_without_history(self) -> None:
        """Of vehicles that set out alike; where those of one route set out in other slices there are rows."""
        flow = '<flow id="{}" begin="0" end="{}" number="8" from="in" to="{}"/>'
        alike, case = flow.format("f", 1200, "on") + flow.format("g", 1200, "left#1"), self.folder / "case"
        rows = self.made("--demand-slice", "10", routes=alike).demand
        self.assertEqual(self.made("--demand-slice", "10", "--history", "0", routes=alike).demand, rows)
        self.assertEqual((case / "demand.csv").read_text(), "origin,destination,vehicles\nA,C,8\nA,D,8\n")
        self.assertIn("in 2 slices of slots; ltm and all tools read this as 4 rows\n", self.out)
        other = flow.format("f", 1200, "on") + flow.format("g", 2400, "left#1")
        rows = self.made("--demand-slice", "10", "--history", "0", routes=other).demand
        self.assertEqual([row.units for row in rows], [4000, 4000, 2000, 2000, 2000, 2000])
        self.assertFalse((case / "profile.csv").exists())

    def test_begin_and_end(self) -> None:
        text = "".join(
            f'<vehicle id="{time}" depart="{time}"><route edges="in on"/></vehicle>'
            for time in (25_000, 25_300, 26_100)
        )
        self.assertEqual(self.rows(text), {("A", "C"): 3000})
        self.assertIn("from 6:45", self.out)
        self.assertEqual(self.rows(text, "--begin", "7:00", "--end", "26000"), {("A", "C"): 1000})
        self.assertIn("vehicles are left out: that set out before --begin", self.out)
        self.assertIn("vehicles are left out: that set out after --end", self.out)

    def test_routes_over_edges_that_are_not_there_and_jumps(self) -> None:
        self.assertEqual(
            self.rows(
                '<vehicle id="1" depart="0"><route edges="in gone"/></vehicle><vehicle id="2"'
                ' depart="0"><route edges="in home"/></vehicle>'
                '<vehicle id="3" depart="0"><route edges="in on"/></vehicle>'
            ),
            {("A", "C"): 1000},
        )
        self.assertIn("1 vehicles are left out: over edges that are not in the net, or not for cars", self.out)
        self.assertIn("1 vehicles are left out: without a route that is connected", self.out)

    def test_faults_say_what_to_do(self) -> None:
        self.assertIn(
            "give the file with it before this one", self.refused_new('<vehicle id="1" depart="0" route="none"/>')
        )
        self.assertIn("is no time", self.refused_new('<vehicle id="1" depart="soon"><route edges="in on"/></vehicle>'))

    def test_splits_follow_the_routes(self) -> None:
        case = self.made(routes='<vehicle id="1" depart="0"><route edges="home in on"/></vehicle>')
        self.assertEqual(
            {(row.node, row.destination): row.weights for row in case.splits or []},
            {("D", "C"): {"home": 1}, ("A", "C"): {"in": 1}, ("B", "C"): {"on": 1}},
        )

    def test_cells_that_are_asked_for(self) -> None:
        """Where a case may have fewer without asking: the same line and column as of other networks."""
        with mock.patch.object(cells, "MOST_CELLS", 1000):
            case = self.made(routes='<vehicle id="1" depart="0"><route edges="in on"/></vehicle>')
        self.assertEqual(case.setup.cells, cells.asked_for(case.cells()))
        self.assertIn(
            f"{case.cells():,} cells, so the column cells of setup.csv asks for 1,000,000, as without it"
            f" 1,000 may be: about 1 MB",
            self.out,
        )

    def test_fewer_destinations(self) -> None:
        text = "".join(
            f'<vehicle id="{number}" depart="0"><route edges="{edges}"/></vehicle>'
            for number, edges in enumerate(("in on", "in on", "in left#1"))
        )
        self.assertEqual(self.rows(text, "--destinations", "1"), {("A", "C"): 3000})
        # from D the way to C leads over home, in and on, which take 20 s each
        self.assertIn(
            "1 of 2 destinations are kept; 33.3 % of the vehicles end elsewhere, in the mean 60 s from where"
            " they would",
            self.out,
        )


class Signals(SumoTest):
    WAYS = (
        way("in", "on", 0, 'tl="B" linkIndex="0"')
        + way("in", "left#1", 1, 'tl="B" linkIndex="1"')
        + way("left#1", "home")
        + way("home", "in")
    )
    PROGRAM = (
        '<tlLogic id="B" type="{}" programID="{}" offset="10"><phase duration="20" state="GG"/><phase'
        ' duration="5" state="yy"/><phase duration="15" state="Gr"/><phase duration="20" state="rr"/></tlLogic>'
    )
    ROUTES = (
        '<vehicle id="1" depart="0"><route edges="in on"/></vehicle><vehicle id="2" depart="0"><route edges="in'
        ' left#1"/></vehicle>'
    )

    def limits(
        self, *words: str, program: str = PROGRAM.format("static", "0"), more: str | None = None
    ) -> list[tuple[int, int, int]]:
        net = EDGES + program + self.WAYS
        case = self.made(
            "--step",
            "10s",
            "--horizon",
            "2",
            "--saturation",
            "road",
            *words,
            net=net,
            routes=self.ROUTES,
            **({"more": more} if more else {}),
        )
        self.capacity = case.links[0].capacity(10_000)
        self.assertEqual({limit.link for limit in case.signals} - {"in"}, set())
        return [(limit.from_slot, limit.to_slot, limit.units) for limit in case.signals]

    def test_a_program_by_hand(self) -> None:
        # of 60 s from 10 s on: both green in the slots 1 and 2; yellow for 5 s, then half of the vehicles for 15 s, so
        # a quarter in slot 3 and a half in slot 4
        found = self.limits()
        whole = self.capacity
        self.assertEqual(
            [(start, end) for start, end, _ in found],
            [(0, 1), (1, 3), (3, 4), (4, 5), (5, 7), (7, 9), (9, 10), (10, 11), (11, 12)],
        )
        # half go on from lane 0, green for 35 s, half left from lane 1, green for 20 s: by share 27.5 s pass, but lane
        # 1 lets 20 s of half the
        # capacity for half of the vehicles, so that 20 s pass
        factor = Fraction(20) / Fraction(55, 2)
        for (_, _, units), share in zip(
            found, (0, 1, Fraction(1, 4), Fraction(1, 2), 0, 1, Fraction(1, 4), Fraction(1, 2), 0)
        ):
            self.assertAlmostEqual(units, share * whole * factor, delta=2)
        self.assertIn("on 1 of them turns have greens of their own", self.out)

    def test_the_last_program_counts_and_a_file_goes_over_the_net(self) -> None:
        always = '<tlLogic id="B" type="static" programID="1" offset="0"><phase duration="60" state="GG"/></tlLogic>'
        self.assertEqual(self.limits(program=self.PROGRAM.format("static", "0") + always), [])
        self.assertEqual(self.limits(more=always), [])
        self.assertIn("has 1 programs of signals, which go over those of the net", self.out)

    def test_a_program_that_is_not_of_fixed_times_is_told(self) -> None:
        self.limits(program=self.PROGRAM.format("actuated", "0"))
        self.assertIn("1 programs are actuated and not of fixed times", self.out)

    def test_a_lane_that_leads_onto_two_lanes_of_an_edge(self) -> None:
        # the second way from lane 0 onto `on` changes nothing
        whole = self.limits()
        with mock.patch.object(
            self,
            "WAYS",
            self.WAYS.replace("<connection", way("in", "on", 0, 'tl="B" linkIndex="1"') + "<connection", 1),
        ):
            self.assertEqual(self.limits(), whole)

    def test_without_signals(self) -> None:
        self.assertEqual(self.limits("--no-signals"), [])

    def test_a_file_of_another_net(self) -> None:
        status, _, err = self.make(
            net=EDGES + self.WAYS,
            more='<tlLogic id="X" type="static" programID="1" offset="0"><phase duration="60"'
            ' state="GG"/></tlLogic>',
        )
        self.assertEqual((status, err.count("\n")), (1, 1))
        self.assertIn("the file belongs to another net", err)

    def test_trips_end_before_a_signal_without_waiting(self) -> None:
        # one trip ends at B, at the end of in, and one goes on; 200 m at 10 m/s are cut 51 m, 5.1 s, before the end
        net = EDGES + self.PROGRAM.format("static", "0") + self.WAYS
        text = (
            '<vehicle id="1" depart="0"><route edges="in"/></vehicle><vehicle id="2" depart="0"><route edges="in'
            ' on"/></vehicle>'
        )
        case = self.made("--step", "5s", net=net, routes=text)
        links = {link.name: (link.tail, link.head, link.length_m) for link in case.links}
        self.assertEqual(
            (links["in"], links["in_exit"], links["in_stop"]),
            (("A", "in_before", 149), ("in_before", "B", 51), ("in_before", "B_end", 51)),
        )
        self.assertEqual({limit.link for limit in case.signals}, {"in_exit"})
        self.assertEqual({(row.origin, row.destination) for row in case.demand}, {("A", "B_end"), ("A", "C")})
        self.assertEqual(
            {(row.node, row.destination): row.weights for row in case.splits or []},
            {
                ("A", "B_end"): {"in": 1},
                ("in_before", "B_end"): {"in_stop": 1},
                ("A", "C"): {"in": 1},
                ("in_before", "C"): {"in_exit": 1},
                ("B", "C"): {"on": 1},
            },
        )
        self.assertIn("1 edges are cut a step before a signal", self.out)
        case = self.made("--step", "5s", "--wait-at-ends", net=net, routes=text)
        self.assertEqual({limit.link for limit in case.signals}, {"in"})
        case = self.made("--step", "15s", net=net, routes=text)
        self.assertIn("trips that end on 1 edges wait for the signal at their end", self.out)

    def test_lanes_are_filled_from_the_emptiest(self) -> None:
        self.assertEqual(
            filled(Fraction(1, 2), {0: Fraction(0), 1: Fraction(1, 4)}), {0: Fraction(3, 8), 1: Fraction(1, 8)}
        )
        self.assertEqual(
            filled(Fraction(1, 8), {0: Fraction(0), 1: Fraction(1, 4)}), {0: Fraction(1, 8), 1: Fraction(0)}
        )


class Departures(unittest.TestCase):
    def test_as_many_as_may_be(self) -> None:
        found, one = routes.FoundVehicles(), routes.Vehicles(("in",), True, 0, 1000)
        with mock.patch.object(routes, "MOST_DEPARTURES", 3):
            found.add([one] * 3, "flow f")
            with self.assertRaisesRegex(Fault, "flow f: vehicles set out more than 3 times, which is the most"):
                found.add([one], "flow f")


if __name__ == "__main__":
    unittest.main()
