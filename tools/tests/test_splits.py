"""Splits of counted routes, of turning counts: no destination has a circle, and what was cut is told."""
import unittest
from dataclasses import replace
from collections.abc import Sequence
from pathlib import Path

import commands
from support import FolderTest

from ltm_tools.case import Case, Demand, Link, Setup, Split
from ltm_tools.case.leading import strong_parts
from ltm_tools.case.roads import Roads
from ltm_tools.demand.passages import Passages
from ltm_tools.demand.route_splits import Route, by_links, circles, from_routes, whole_weights
from ltm_tools.demand.turn_counts import TurnCount, from_turn_counts

STEP = 1000


def link(name: str, tail: str, head: str, metres: int = 100) -> Link:
    """At 36 km/h ten metres take a second."""
    return Link(name, tail, head, metres, 36, 18, 150)


# a square u v w x, driven both ways round, from which a road leads to z at w
SQUARE = (
    link("uv", "u", "v"),
    link("vu", "v", "u"),
    link("vw", "v", "w"),
    link("wv", "w", "v"),
    link("wx", "w", "x"),
    link("xw", "x", "w"),
    link("xu", "x", "u"),
    link("ux", "u", "x"),
    link("in", "o", "u"),
    link("out", "w", "z"),
)


def splits(
    routes: list[tuple[str, int, int]],
    links: Sequence[Link] = SQUARE,
    demand: list[Demand] | None = None,
    slice_slots: int = 60,
    slots: int = 600,
) -> tuple[dict[tuple[str, str, int], dict[str, int]], str]:
    """The rows of routes, each as links, when it sets out (s) and vehicles; and what is told."""
    rows, cuts = from_routes(
        links,
        [Route(tuple(names.split()), at * 1000, 1000 * vehicles) for names, at, vehicles in routes],
        demand or [],
        step_ms=STEP,
        slots=slots,
        slice_slots=slice_slots,
    )
    return {(row.node, row.destination, row.from_slot): row.weights for row in rows}, "\n".join(cuts.lines())


class Parts(unittest.TestCase):
    def test_a_node_alone_is_none(self) -> None:
        self.assertEqual(strong_parts("abcd", {"a": "b", "b": "c", "c": "d"}), [])
        self.assertEqual(
            strong_parts("abcde", {"a": "b", "b": "ac", "c": "d", "d": "e", "e": "c"}), [{"c", "d", "e"}, {"a", "b"}]
        )


class Together(unittest.TestCase):
    def test_who_drives_the_same_counts_in_the_slice_in_which_each_comes(self) -> None:
        # half a minute later: 29.999 s is the last moment of the first minute, 30 s the first of the second
        routes = [
            Route(("in",), depart, units) for depart, units in ((30_000, 2), (29_999, 1), (90_000, 4), (500_000, 8))
        ]
        for last, counted in ((None, {0: 101, 1: 2, 2: 4, 8: 8}), (1, {0: 101, 1: 14})):
            counts = {0: 100}
            by_links(routes)["in",].add_to(counts, 30_000, 60_000, last)
            self.assertEqual(counts, counted)


class Circles(unittest.TestCase):
    # three drive o u v w z; one drives o u v, back to u, and by x
    WANDERER = [("in uv vw out", 0, 3), ("in uv vu ux xw out", 0, 1)]

    def test_a_circle_of_two_routes_is_cut_where_it_leads_away(self) -> None:
        rows, told = splits(self.WANDERER)
        # v to u leads away from z, and 1 of the 4 * 3 + 6 = 18 passages goes by it
        self.assertEqual(
            rows,
            {
                ("o", "z", 0): {"in": 1},
                ("u", "z", 0): {"uv": 4, "ux": 1},
                ("v", "z", 0): {"vw": 1},
                ("w", "z", 0): {"out": 1},
                ("x", "z", 0): {"xw": 1},
            },
        )
        self.assertIn("5.56 % of all passages are cut", told)

    def test_what_is_cut_in_hours_and_kilometres(self) -> None:
        """One of 18 passages, but that of a road of 3 km, which takes 300 s at 36 km/h: 1 / 12 of an hour."""
        links = [replace(one, length_m=3000, free_kmh=36) if one.name == "vu" else one for one in SQUARE]
        told = splits(self.WANDERER, links)[1]
        self.assertIn("what is cut is 0.08 vehicle hours on empty roads", told)
        self.assertIn(" and 3.0 km", told)

    def test_without_the_cut_there_is_a_circle(self) -> None:
        self.assertEqual(
            circles(SQUARE, [Split("u", "z", 0, {"uv": 4, "ux": 1}), Split("v", "z", 0, {"vw": 3, "vu": 1})]),
            {"z": [{"u", "v"}]},
        )
        self.assertEqual(
            circles(SQUARE, [Split("u", "z", 0, {"uv": 4, "ux": 1}), Split("v", "z", 0, {"vw": 3, "vu": 0})]), {}
        )

    def test_a_circle_over_two_slices_is_one(self) -> None:
        rows, _ = splits([("in uv vw out", 0, 3), ("vu ux xw out", 300, 1)])
        self.assertEqual(
            circles(SQUARE, [Split(node, end, slot, weights) for (node, end, slot), weights in rows.items()]), {}
        )
        self.assertNotIn("vu", {name for weights in rows.values() for name in weights})

    def test_a_detour_that_closes_no_circle_stays(self) -> None:
        rows, told = splits([("in ux xw out", 0, 1), ("vu ux xw out", 0, 2)])
        # v to u leads away from z, but nobody drives from u to v
        self.assertEqual(rows["v", "z", 0], {"vu": 1})
        self.assertIn("0.00 % of all passages are cut", told)

    def test_a_node_that_loses_all_its_passages_goes_by_the_least_time(self) -> None:
        rows, told = splits([("in uv vu ux xw out", 0, 1)])
        self.assertEqual(rows["v", "z", 0], {"vw": 1})
        self.assertIn("at 1 nodes, by destination, nothing was counted", told)

    def test_the_heavier_of_two_links_that_lead_away_stays(self) -> None:
        # a ring a b c d toward z at c: from b it leads away to a, from d it leads away to a as well
        ring = [
            link("ab", "a", "b"),
            link("ba", "b", "a"),
            link("ad", "a", "d"),
            link("da", "d", "a"),
            link("bc", "b", "c"),
            link("dc", "d", "c"),
            link("cz", "c", "z"),
        ]
        passages = Passages(Roads.of(ring), "z", {"ab": 5, "ba": 2, "ad": 5, "da": 9, "bc": 9, "dc": 9, "cz": 9}, [])
        left = passages.without_circles()
        self.assertEqual(passages.cut, {"ba": 2, "da": 9})
        self.assertEqual(left["ab"], 5)

    def test_of_two_that_lead_away_in_one_circle_the_lightest_is_cut(self) -> None:
        # to z: a takes 10 s, b 20 s, c 40 s; so ab and bc lead away, and one of them has to go
        links = [
            link("az", "a", "z", 100),
            link("bz", "b", "z", 200),
            link("ab", "a", "b"),
            link("bc", "b", "c"),
            link("ca", "c", "a", 300),
        ]
        passages = Passages(Roads.of(links), "z", {"az": 7, "bz": 3, "ab": 5, "bc": 2, "ca": 7}, [])
        passages.without_circles()
        self.assertEqual(passages.cut, {"bc": 2})

    def test_a_route_ends_where_it_first_comes_to_its_destination(self) -> None:
        rows, _ = splits([("in uv vw wx xw", 0, 1)])
        self.assertEqual({key[0] for key in rows if key[1] == "w"}, {"o", "u", "v"})

    def test_many_wild_routes_have_no_circle_and_lead_on(self) -> None:
        routes, state = [], 7
        by_tail: dict[str, list[Link]] = {}
        for one in SQUARE:
            by_tail.setdefault(one.tail, []).append(one)
        for number in range(400):
            node, names = "o", []
            while node != "z" and len(names) < 60:
                state = (state * 1103515245 + 12345) % 2**31
                one = by_tail[node][state // 65536 % len(by_tail[node])]
                names.append(one.name)
                node = one.head
            routes.append((" ".join(names), number, 1))
        rows, _ = splits(routes)
        self.assertEqual(
            circles(SQUARE, [Split(node, end, slot, weights) for (node, end, slot), weights in rows.items()]), {}
        )
        heads = {one.name: one.head for one in SQUARE}
        at_start = {(node, end) for node, end, slot in rows if slot == 0}
        for (node, end, _), weights in rows.items():
            self.assertLessEqual(len(weights), 4)
            for name in weights:
                self.assertTrue(heads[name] == end or (heads[name], end) in at_start, (node, end, name))

    def test_strong_parts_of_a_long_chain_without_recursion(self) -> None:
        chain = {str(number): [str(number + 1)] for number in range(20_000)}
        chain["19999"] = ["0"]
        self.assertEqual([len(part) for part in strong_parts(chain, chain)], [20_000])


class Slices(unittest.TestCase):
    def test_vehicles_count_when_they_come_to_the_node(self) -> None:
        # a second a metre of ten: u is 10 s from o, so who sets out at 55 comes to u in the second minute
        rows, _ = splits([("in uv vw out", 0, 3), ("in ux xw out", 55, 1)])
        self.assertEqual((rows["u", "z", 0], rows["u", "z", 60]), ({"uv": 1}, {"ux": 1}))
        self.assertEqual([slot for node, _, slot in rows if node == "o"], [0])

    def test_what_is_counted_late_holds_from_the_start(self) -> None:
        # the first vehicle sets out in the sixth minute, and the program wants a row at slot 0
        rows, _ = splits([("in uv vw out", 300, 3), ("in ux xw out", 400, 1)])
        self.assertEqual(
            [(slot, weights) for (node, _, slot), weights in rows.items() if node == "u"],
            [(0, {"uv": 1}), (360, {"ux": 1})],
        )

    def test_shares_as_whole_numbers_without_what_all_have_in_common(self) -> None:
        self.assertEqual(whole_weights({"a": 3000, "b": 1500}), {"a": 2, "b": 1})
        big = whole_weights({"a": 2**40 + 1, "b": 2**39})
        self.assertTrue(all(0 < weight < 2**32 for weight in big.values()))
        self.assertAlmostEqual(big["a"] / big["b"], 2, places=6)

    def test_demand_without_a_counted_route_goes_by_the_least_time(self) -> None:
        rows, _ = splits(
            [("in uv vw out", 0, 1)], demand=[Demand("x", "z", 0, 10, 1000), Demand("o", "z", 0, 10, 1000)]
        )
        self.assertEqual(rows["x", "z", 0], {"xw": 1})


class Turning(unittest.TestCase):
    # from o by u over v or x to w, and from w to z or y
    LINKS = [
        link("in", "o", "u"),
        link("uv", "u", "v"),
        link("ux", "u", "x"),
        link("vw", "v", "w"),
        link("xw", "x", "w"),
        link("wz", "w", "z"),
        link("wy", "w", "y"),
    ]

    def test_shares_become_those_that_were_counted(self) -> None:
        fitted = from_turn_counts(
            self.LINKS,
            [Demand("o", "z", 0, 60, 60_000), Demand("o", "y", 0, 60, 40_000)],
            [TurnCount("in", "uv", 30), TurnCount("in", "ux", 10)],
        )
        rows = {(row.node, row.destination): row.weights for row in fitted.splits}
        for end in "zy":
            weights = rows["u", end]
            self.assertAlmostEqual(weights["uv"] / sum(weights.values()), 0.75, places=5)
        self.assertLess(fitted.off, 1e-5)
        self.assertEqual(circles(self.LINKS, fitted.splits), {})

    def test_counts_tell_destinations_apart_by_the_link_they_come_by(self) -> None:
        # who comes by a wants z alone, who comes by b wants y alone; a's turns are counted, and say nothing of b's
        links = [link("a", "p", "u"), link("b", "q", "u"), *self.LINKS[1:]]
        fitted = from_turn_counts(
            links,
            [Demand("p", "z", 0, 60, 60_000), Demand("q", "y", 0, 60, 60_000)],
            [TurnCount("a", "uv", 9), TurnCount("a", "ux", 1), TurnCount("b", "uv", 2), TurnCount("b", "ux", 8)],
        )
        rows = {(row.node, row.destination): row.weights for row in fitted.splits}
        self.assertAlmostEqual(rows["u", "z"]["uv"] / sum(rows["u", "z"].values()), 0.9, places=4)
        self.assertAlmostEqual(rows["u", "y"]["uv"] / sum(rows["u", "y"].values()), 0.2, places=4)

    def test_what_cannot_be_met_is_told(self) -> None:
        # all want z, so none turns to y, though 1 of 4 was counted to
        fitted = from_turn_counts(
            self.LINKS, [Demand("o", "z", 0, 60, 60_000)], [TurnCount("vw", "wz", 3), TurnCount("vw", "wy", 1)]
        )
        self.assertAlmostEqual(fitted.off, (3 * 0.25 + 1 * 0.25) / 4)


class Command(FolderTest):
    def square(self, **files: str) -> Path:
        """The square as a case in a folder."""
        folder = self.folder / "case"
        Case(Setup(STEP, 3600, 1000), [*SQUARE], [Demand("o", "z", 0, 60, 4000)]).write(folder)
        for name, text in files.items():
            (self.folder / f"{name}.csv").write_text(text)
        return folder

    def test_routes_by_links_or_nodes_and_their_demand(self) -> None:
        for text in (
            "depart,vehicles,links\n7:00,3,in uv vw out\n7:00:30,1,in;uv;vu;ux;xw;out\n",
            "node_sequence,volume,departure_time\no;u;v;w;z,3,25200\no;u;v;u;x;w;z,1,25230\n",
        ):
            folder = self.square(routes=text)
            status, out, err = commands.run(
                "splits", str(folder), "--routes", str(self.folder / "routes.csv"), "--demand"
            )
            self.assertEqual((status, err), (0, ""))
            self.assertIn("5.56 % of all passages are cut", out)
            self.assertIn("slot 0 begins at 7:00", out)
            case = Case.read(folder)
            self.assertEqual(
                [(row.origin, row.destination, row.from_slot, row.to_slot, row.units) for row in case.demand],
                [("o", "z", 0, 900, 4000)],
            )
            self.assertEqual(circles(case.links, case.splits or []), {})

    def test_faults_are_one_line_each(self) -> None:
        for text, told in (
            ("depart,links\n7:00,in uv nowhere\n", "nowhere is no link"),
            ("depart,links\n7:00,in vw\n", "link vw does not begin where link in ends"),
            ("depart,vehicles\n7:00,1\n", "no field links or nodes"),
            ("depart,links\nnoon,in uv\n", "depart"),
            ("", "empty"),
            ("vehicles,links\n-1,in uv\n", "vehicles"),
        ):
            folder = self.square(routes=text)
            status, out, err = commands.run("splits", str(folder), "--routes", str(self.folder / "routes.csv"))
            self.assertEqual((status, out, err.count("\n")), (1, "", 1), err)
            self.assertIn(told, err)
            self.assertFalse((folder / "splits.csv").exists())

    def test_rows_that_the_setup_allows(self) -> None:
        """6 rows, one for each of 5 nodes that vehicles come by, and one more where they go on by another link
        later."""
        for rows, status in ((6, 0), (5, 1)):
            folder = self.square(routes="depart,links\n7:00,in uv vw out\n7:30,in ux xw out\n")
            case = Case.read(folder)
            case.setup.rows = rows
            case.write(folder)
            told = commands.run("splits", str(folder), "--routes", str(self.folder / "routes.csv"))
            self.assertEqual((told[0], "6 rows of splits, and at most 5 may be" in told[2]), (status, rows == 5), told)

    def test_turning_counts(self) -> None:
        folder = self.square(counts="from_link,to_link,vehicles\nin,uv,30\nin,ux,10\n")
        status, out, err = commands.run("splits", str(folder), "--turns", str(self.folder / "counts.csv"))
        self.assertEqual((status, err), (0, ""))
        self.assertIn("counted shares are met within 0.00 %", out)
        folder = self.square(counts="from_link,to_link,vehicles\nin,vw,30\n")
        status, out, err = commands.run("splits", str(folder), "--turns", str(self.folder / "counts.csv"))
        self.assertEqual((status, err.count("\n")), (1, 1))
        self.assertIn("link vw does not begin where link in ends", err)

    def test_least_routes_by_the_program(self) -> None:
        folder = self.square()
        program = self.program("print('node,destination,from_slot,weights')\nprint('o,z,0,in=1')")
        status, out, err = commands.run("splits", str(folder), "--least", "--program", str(program))
        self.assertEqual((status, out, err), (0, "1 row of splits, of least routes by free-flow time\n", ""))
        self.assertEqual((folder / "splits.csv").read_text(), "node,destination,from_slot,weights\no,z,0,in=1\n")


class EquallyFar(unittest.TestCase):
    def test_a_circle_of_two_nodes(self) -> None:
        """Both of its links lead no nearer, and the lighter one is cut."""
        ends = {"uv": "uv", "vu": "vu", "ud": "ud", "vd": "vd"}
        roads = Roads.of([Link(name, tail, head, 100, 36, 18, 150) for name, (tail, head) in ends.items()])
        made = Passages(roads, "d", {"uv": 5, "vu": 3, "ud": 1, "vd": 2}, ["u"])
        self.assertEqual([name for name in ends if made.leads_away(name)], ["uv", "vu"])
        self.assertEqual((made.without_circles(), made.cut), ({"uv": 5, "ud": 1, "vd": 2}, {"vu": 3}))


if __name__ == "__main__":
    unittest.main()
