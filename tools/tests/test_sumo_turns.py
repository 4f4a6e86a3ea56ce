"""Turns of a net of SUMO as links, by hand: greens that are protected and permitted, gaps, what is forbidden, a program
that is broken."""
import csv
import math
import unittest
from fractions import Fraction

import commands
from support import digest
from support_turns import ARMS, NET, PROGRAM, ROUTES, WAYS, WORDS, YIELDS
from support_sumo import SumoTest, way

from ltm_tools.case.roads import Roads
from ltm_tools.case.source import Source, approaches_of, path_named
from ltm_tools.network.crossings import gaps
from ltm_tools.network.crossings.options import GapAcceptance


class Turns(SumoTest):
    PLAIN = ("--entries", "none", "--carry", "0")

    def rows(self) -> dict[str, dict[str, str]]:
        with open(self.folder / "case" / "turns.csv", newline="", encoding="utf-8") as file:
            return {row["link"]: row for row in csv.DictReader(file)}

    def test_a_left_turn_that_is_permitted_and_then_protected(self) -> None:
        case = self.made(*WORDS, net=NET, routes=ROUTES)
        row = self.rows()["nc__ce"]
        self.assertEqual(
            [row[name] for name in ("cycle", "offset", "greens", "permitted", "opposing", "lanes")],
            ["60", "0", "25-35", "0-20", "sc", "1"],
        )
        # a lane lets pass 1914.894 an hour, s = 0.5319 a second. Of q = 57 / 600 = 0.095 a second 40 s of red make a
        # queue that drives off in 8.697 s; then 0.3285 a second find a gap of 4.5 and 2.2 s, and one goes at the end:
        # 11.303 * 0.3285 + 1 = 4.713 of 20 * s = 10.638. Of 0.1 a second it is 10.739 * 0.3229 + 1 = 4.467, of 0.005
        # 19.620 * 0.4469 + 1 = 9.768
        self.assertEqual(
            (row["saturation"], row["opposing_saturation"], row["factors"]),
            ("1914.894", "1914.894", "0.443 0.420 0.918"),
        )
        # between 10 and 20 minutes a cycle is 4 slots of 0.420 and 2 whole ones
        capacity = next(link for link in case.links if link.name == "nc__ce").capacity(5000)
        limits = [limit for limit in case.signals if limit.link == "nc__ce" and 120 <= limit.from_slot < 132]
        green = [limit for limit in limits if limit.units]
        self.assertEqual(
            [(limit.from_slot, limit.to_slot) for limit in limits if not limit.units], [(124, 125), (127, 132)]
        )
        self.assertEqual(
            sum((limit.to_slot - limit.from_slot) * limit.units for limit in green), 4 * capacity * 420 // 1000
        )

    def test_turns_that_yield_at_a_sign(self) -> None:
        minor = [
            way(start, "ce", 0, f'via=":c_{number}_0"').replace('"M"', '"m"')
            for start, number in (("nc", 1), ("wc", 3))
        ]
        net = (
            ARMS
            + way("nc", "cs", 0, 'via=":c_0_0"')
            + way("sc", "cn", 0, 'via=":c_2_0"')
            + "".join(minor)
            # the letter of n to s is a large one: it goes first, whatever the numbers say
            + YIELDS.replace("traffic_light", "priority")
            .replace('"0" response="0000"', '"0" response="0100"')
            .replace('"3" response="0000"', '"3" response="0100"')
        )
        case = self.made("--turns", "all", *WORDS[2:], net=net, routes=ROUTES)
        rows = self.rows()
        # of 0.095, 0.1 and 0.005 a second 0.3412, 0.3361 and 0.4478 find a gap of 4.1 and 2.2 s, as a left turn from a
        # way with priority wants, and 0.1811, 0.1768 and 0.2790 one of 6.5 and 3.5; a lane lets 0.5319 pass. Nobody
        # goes at the end of a green
        self.assertEqual(
            [(rows[name]["opposing"], rows[name]["permissive"], rows[name]["factors"]) for name in ("nc__ce", "wc")],
            [("sc", "4.1 2.2 0", "0.641 0.632 0.842"), ("sc", "6.5 3.5 0", "0.340 0.332 0.525")],
        )
        self.assertEqual([rows[name]["permitted"] for name in ("nc__cs", "sc")], ["", ""])
        # one limit for each 10 minutes
        capacity = next(link for link in case.links if link.name == "nc__ce").capacity(5000)
        self.assertEqual(
            [(limit.from_slot, limit.to_slot, limit.units) for limit in case.signals if limit.link == "nc__ce"],
            [(0, 120, capacity * 641 // 1000), (120, 240, capacity * 632 // 1000), (240, 360, capacity * 842 // 1000)],
        )

    def test_shares_and_free(self) -> None:
        for how, factors in (("0.5", {"0.500"}), ("free", {"1.000"})):
            self.made(*WORDS, "--permissive", how, net=NET, routes=ROUTES)
            self.assertEqual(set(self.rows()["nc__ce"]["factors"].split()), factors)
        self.assertIn("--gap goes with --permissive gaps", self.refused_new("--permissive", "0.5", "--gap", "4,2,1"))

    def refused_new(self, *words: str) -> str:
        status, _, err = self.make(*WORDS, *words, net=NET, routes=ROUTES)
        self.assertEqual((status, err.count("\n")), (1, 1))
        return err

    def test_a_lane_lets_through_no_more_than_the_saturation(self) -> None:
        # a lane carries 1914.894 an hour, and lets through 1800 at a signal: on the turns by their own capacity, on the
        # two approaches with one exit, 300 m of road, by 0.94 of each green
        case = self.made(*WORDS[:-2], net=NET, routes=ROUTES)
        self.assertIn("a lane lets through 1,800 vehicles an hour at stop lines in the mean, 1,800 to 1,800", self.out)
        rows, links = self.rows(), {link.name: link for link in case.links}
        self.assertEqual({row["saturation"] for row in rows.values()}, {"1800"})
        self.assertEqual(
            [rows[name]["greens"] for name in ("nc__cs", "sc", "wc")], ["0-20", "0-20*47/50", "35-60*47/50"]
        )
        for name, rate in (("nc__cs", 1800), ("nc__ce", 1800), ("nc", 1914.9), ("sc", 1914.9)):
            self.assertAlmostEqual(links[name].capacity(5000) * 720 / 1000, rate, delta=0.02 * rate)
        # in a green of 20 s 10 vehicles pass, where the road's capacity is 10.6
        green = [limit for limit in case.signals if limit.link == "sc" and limit.to_slot <= 12 and limit.units]
        passed = sum((limit.to_slot - limit.from_slot) * limit.units for limit in green)
        self.assertAlmostEqual(passed, 0.94 * 4 * links["sc"].capacity(5000), delta=1)
        # 2000 is more than the road carries, and changes nothing
        self.made(*WORDS[:-1], "2000", net=NET, routes=ROUTES)
        more = digest(self.folder / "case")
        self.made(*WORDS, net=NET, routes=ROUTES)
        self.assertEqual(digest(self.folder / "case"), more)
        self.assertIn("is no number above 0", self.make(*WORDS[:-1], "0", net=NET, routes=ROUTES)[2])

    def test_a_whole_link_lets_through_no_more_than_the_saturation(self) -> None:
        words = ("--turns", "none", *WORDS[2:-1])
        greens = []
        for saturation in ("957.447", "road"):
            case = self.made(*words, saturation, net=NET, routes=ROUTES)
            greens.append(sum(limit.units * (limit.to_slot - limit.from_slot) for limit in case.signals))
            self.assertEqual({limit.link for limit in case.signals}, {"nc", "sc", "wc"})
        # half of what a lane carries; without it whole greens have no record
        self.assertGreater(greens[0], 4 * greens[1])

    def test_what_an_edge_has_become(self) -> None:
        case = self.made(*WORDS, net=NET, routes=ROUTES)
        roads = Roads.of(case.links)
        source = Source.read(self.folder / "case", roads)
        self.assertEqual(source.links["nc"].all_links, ("nc", "nc__cs", "nc__ce"))
        self.assertEqual(source.links["sc"].all_links, ("sc",))
        self.assertEqual(approaches_of(self.folder / "case", case.links), {"nc": ("nc", "nc__cs", "nc__ce")})
        self.assertEqual(path_named(self.folder / "case", case.links, ["nc", "ce"]), ["nc", "nc__ce", "ce"])
        self.assertEqual(source.route(["nc", "ce"], roads), ("nc", "nc__ce", "ce"))
        self.assertEqual(source.route(["sc", "cn"], roads), ("sc", "cn"))
        with self.assertRaisesRegex(Exception, "no way leads from node sc_E|no way leads from node cn_E"):
            source.route(["sc", "ce"], roads)

    def test_vehicles_that_take_a_forbidden_turn_are_left_out(self) -> None:
        case = self.made(*WORDS, net=NET, routes=ROUTES + '<vehicle id="b" depart="0"><route edges="wc cn"/></vehicle>')
        self.assertIn("1 vehicles are left out: that take a turn which is forbidden, 0.81 % of all (give", self.out)
        self.assertEqual(sum(row.units for row in case.demand), 123_000)

    def test_trips_that_end_at_the_crossing_do_not_wait(self) -> None:
        case = self.made(*WORDS, net=NET, routes=ROUTES + '<vehicle id="e" depart="0"><route edges="nc"/></vehicle>')
        stop = next(link for link in case.links if link.name == "nc_stop")
        self.assertEqual((stop.tail, stop.head, stop.length_m), ("nc_A", "nc_end", 98))
        self.assertNotIn("nc_stop", {limit.link for limit in case.signals})
        self.assertEqual({link.name for link in case.links if link.name.endswith("_stop")}, {"nc_stop"})
        # where trips end at c by whichever way, each way to it has such a link
        ends = '<vehicle id="e" depart="0"><route edges="nc"/></vehicle>'
        case = self.made(*WORDS, "--ends", "node", net=NET, routes=ROUTES + ends)
        self.assertEqual({link.name for link in case.links if link.head == "c"}, {"nc_stop", "sc_stop", "wc_stop"})

    def test_a_broken_program(self) -> None:
        broken = PROGRAM.replace("rGrr", "rGr")
        self.assertIn(
            "its phases have 3 and 4 letters", self.refused(*WORDS, net=ARMS + WAYS + YIELDS + broken, routes=ROUTES)
        )
        # a turn that is never green is held all the time, and so is a link
        never = ARMS + WAYS + YIELDS + PROGRAM.replace("rrrG", "rrrr")
        for words in (WORDS, ("--turns", "none", *WORDS[2:])):
            case = self.made(*words, net=never, routes=ROUTES)
            self.assertEqual(
                [(limit.from_slot, limit.to_slot, limit.units) for limit in case.signals if limit.link == "wc"],
                [(0, 360, 0)],
            )
        # a way without a number among those of its junction is taken as one that does not yield
        net = ARMS + WAYS.replace('via=":c_1_0"', "") + YIELDS + PROGRAM
        self.made(*WORDS, net=net, routes=ROUTES)
        self.assertEqual(self.rows()["nc__ce"]["permitted"], "")
        # a way onto an edge that does not begin there is none
        self.made(*WORDS, net=NET + way("nc", "wc"), routes=ROUTES)
        self.assertNotIn("nc__wc", self.rows())

    def test_volumes_are_counted_anew(self) -> None:
        routes = '<route id="r" edges="sc cn"/>' + ROUTES.replace('from="sc" to="cn"/>', 'route="r"/>')
        other = routes.replace('number="120"', 'number="60"')
        self.made(*WORDS, net=NET, routes=routes)
        folder = self.folder / "case"
        files = {name: (folder / name).read_bytes() for name in ("signals.csv", "turns.csv", "links.csv", "demand.csv")}
        (self.folder / "other.xml").write_text(f"<routes>{other}</routes>")
        status, out, err = commands.run("turns", str(folder), str(self.folder / "other.xml"))
        self.assertEqual((status, err), (0, ""), out)
        # every 20 s, 30 s after they set out: 29 and 30 in 10 minutes
        self.assertEqual((self.rows()["sc"]["vehicles"], self.rows()["nc__ce"]["factors"][:5]), ("60", "0.674"))
        same = {name for name, data in files.items() if (folder / name).read_bytes() == data}
        self.assertEqual(same, {"links.csv", "demand.csv"})
        (self.folder / "counted.csv").write_text(
            "depart,links\n" + "".join(f"{10 * k},sc cn\n" for k in range(120)) + "0,nc ce\n0,nc cs\n0,wc ce\n"
        )
        for path in ("routes.rou.xml", "counted.csv"):
            status, out, err = commands.run("turns", str(folder), str(self.folder / path))
            self.assertEqual((status, err), (0, ""))
            self.assertEqual({name: (folder / name).read_bytes() for name in files}, files)
        self.made("--turns", "none", *WORDS[2:], net=NET, routes=routes)
        self.assertIn("turns.csv: there is none", commands.run("turns", str(folder), str(self.folder / "other.xml"))[2])

    def test_other_vehicles_count_at_import(self) -> None:
        (self.folder / "other.xml").write_text(
            '<routes><flow id="s" begin="0" end="1200" number="120" from="sc" to="cn"/></routes>'
        )
        quiet = ROUTES.replace('number="120"', 'number="1"')
        self.made(*WORDS, "--volumes", str(self.folder / "other.xml"), net=NET, routes=quiet)
        self.assertEqual(self.rows()["nc__ce"]["factors"], "0.443 0.420 0.918")

    def test_lanes_by_counts(self) -> None:
        # n and s have one lane for both ways; of 30 vehicles of n 20 go on and 10 to the left, so that, with 0.9 for
        # each way beside them, they have 20.9 / 31.8 and 10.9 / 31.8 of its lane where the left turn is free
        routes = (
            "".join(
                f'<vehicle id="{k}" depart="0"><route edges="nc {"ce" if k % 3 else "cs"}"/></vehicle>'
                for k in range(30)
            )
            .replace("nc ce", "x")
            .replace("nc cs", "nc ce")
            .replace("x", "nc cs")
        )
        self.made(*WORDS, "--lanes", "counted", "--permissive", "free", net=NET, routes=routes)
        self.assertEqual([self.rows()[name]["lanes"] for name in ("nc__cs", "nc__ce")], ["0.657", "0.343"])
        self.assertIn("take --lanes full", self.out)

    def test_shared_lanes_leave_room_for_other_routes(self) -> None:
        # of 30 vehicles of n 27 go on and 3 to the left, so that, with 0.9 beside them, they take 27.9 and 3.9 of 31.8
        # parts of its lane; the left turn has half of it all the same
        routes = "".join(
            f'<vehicle id="{k}" depart="0"><route edges="nc {"cs" if k % 10 else "ce"}"/></vehicle>' for k in range(30)
        )
        words = (*WORDS, "--permissive", "free")
        self.made(*words, "--lanes", "shared", net=NET, routes=routes)
        self.assertEqual([self.rows()[name]["lanes"] for name in ("nc__cs", "nc__ce")], ["0.877", "0.5"])
        self.assertIn("and at least an even part", self.out)
        self.made(*words, net=NET, routes=routes)
        self.assertEqual([self.rows()[name]["lanes"] for name in ("nc__cs", "nc__ce")], ["1", "1"])

    def test_none_leaves_no_trace_of_turns(self) -> None:
        self.made(*WORDS, net=NET, routes=ROUTES)
        case = self.made("--turns", "none", *WORDS[2:], net=NET, routes=ROUTES)
        self.assertEqual([link.name for link in case.links], ["nc", "sc", "wc", "cn", "cs", "ce"])
        # the case that was made of these files when there were no turns yet, by commit 564d1b81
        self.assertEqual(
            digest(self.folder / "case"), "95cdc545f3a2187bb6c34ed6a036f7d8626bc8082688c13dda2740eac8f06412"
        )


class Gaps(unittest.TestCase):
    def test_the_manual_s_formula(self) -> None:
        # the capacity of a turn against 500 vehicles an hour with gaps of 4.1 and 2.2 s
        flow = 500 / 3600
        self.assertAlmostEqual(
            gaps.capacity(flow, GapAcceptance(Fraction("4.1"), Fraction("2.2"))) * 3600,
            500 * math.exp(-500 * 4.1 / 3600) / (1 - math.exp(-500 * 2.2 / 3600)),
        )
        self.assertAlmostEqual(gaps.capacity(0.0, GapAcceptance()) * 3600, 3600 / 2.2)
        self.assertAlmostEqual(gaps.capacity(1e-12, GapAcceptance()) * 3600, 3600 / 2.2, 5)

    def test_a_turn_is_never_shut_and_never_more_than_free(self) -> None:
        # the traffic with priority fills the green: what goes at its end is left, 1 of 42 * 0.6, which is 0.040
        self.assertEqual(gaps.factor(2.0, 1.2, 42, 90, 0.6, GapAcceptance()), Fraction(40, 1000))
        self.assertEqual(gaps.factor(2.0, 1.2, 42, 90, 0.6, GapAcceptance(at_end=Fraction(0))), gaps.LEAST_FACTOR)
        self.assertEqual(gaps.factor(0.0, 1.2, 42, 90, 0.3, GapAcceptance()), 1)


if __name__ == "__main__":
    unittest.main()
