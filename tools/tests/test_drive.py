"""Vehicles of SUMO that are sent by the shares of a case, by hand: `ltm-tools drive`."""
import re
import subprocess
import unittest
from collections import Counter
from pathlib import Path

import commands
from support import BUILT, EXAMPLES, needs_program
from support_assign import LINKS
from support_sumo import SumoTest, edge, way

# `in`, 20 s from O to A, has turns to `up` and to `down`, which lead to D. Until 0:30 all go up at A, then one of four.
FORK = {
    "setup": "step_ms,slots,origin_capacity\n1000,300,32\n",
    "links": LINKS + "in,O_start,A,200,36,18,300\nin__up,A,U,100,36,18,300\nin__down,A,W,100,36,18,300\n"
    "up,U,D,200,36,18,300\ndown,W,D,200,36,18,300\n",
    "demand": "origin,destination,from_slot,to_slot,vehicles\nO_start,D,0,210,104\n",
    "splits": "node,destination,from_slot,weights\nO_start,D,0,in=1\nA,D,0,in__up=1\nA,D,30,in__up=1 in__down=3\n"
    "U,D,0,up=1\nW,D,0,down=1\n",
    "source_links": "source,from,to,link\nin,O,A,in\nin,O,A,in__up\nin,O,A,in__down\nup,A,D,up\ndown,A,D,down\n",
    "source_nodes": "source,node\nO,O_start\nD,D\n",
}
SCRIPTS = (
    *(f"from_sumo/{name}.py" for name in "assigned closed compare junctions make measure methods plans".split()),
    "assign/make.py",
)
# four are at A by 0:29, and a hundred from 0:30 on
DEPARTS = [6, 7, 8, 9, *(10 + 2 * number for number in range(100))]
# from s over a short edge `ab`, a road whose first part `bc#0` is short, and a short `de` to f; from x others come to b
NET = (
    edge("sa", "s", "a")
    + edge("ab", "a", "b", metres="4.00")
    + edge("wa", "w", "a")
    + edge("bc#0", "b", "m", metres="30.00")
    + edge("bc#1", "m", "c")
    + edge("cd", "c", "d")
    + edge("de", "d", "e", metres="4.00")
    + edge("ef", "e", "f")
    + edge("eg", "e", "g")
    + edge("xb", "x", "b")
    + edge("dy", "d", "y")
)
TURNS = "".join(
    way(*pair)
    for pair in (
        *(("sa", "ab"), ("ab", "bc#0"), ("xb", "bc#0"), ("bc#0", "bc#1"), ("bc#1", "cd"), ("cd", "de"), ("de", "ef")),
        *(("cd", "dy"), ("wa", "ab"), ("de", "eg")),
    )
)
WHOLE = "sa ab bc#0 bc#1 cd de ef"


@needs_program
class Drive(SumoTest):
    def driven(self, *elements: str) -> "list[str]":
        """The routes of these vehicles."""
        (self.folder / "trips.xml").write_text(f"<routes>{''.join(elements)}</routes>")
        status, self.told, err = self.drive()
        self.assertEqual((status, err), (0, ""))
        self.text = Path(self.folder, "made.xml").read_text()
        return re.findall('edges="([^"]*)"', self.text)

    def drive(self) -> "tuple[int, str, str]":
        words = [str(self.folder / name) for name in ("case", "trips.xml", "made.xml")]
        return commands.run("drive", *words[:2], "-o", words[2], "--program", str(BUILT))

    def test_by_the_shares_of_the_time(self) -> None:
        """By the shares when they are at a node, as near as whole vehicles come to them; a turn is no edge."""
        self.case(**FORK)
        routes = self.driven(
            *(
                f'<trip id="{number}" depart="{depart}" fromJunction="O" toJunction="D"/>'
                for number, depart in enumerate(DEPARTS)
            )
        )
        self.assertEqual((routes[:4], set(routes)), (4 * ["in up"], {"in up", "in down"}))
        self.assertAlmostEqual(Counter(routes[4:])["in up"], 25, delta=1)
        for one in '<vehicle id="{}" depart="{}"><route edges="in down"/></vehicle>', '<trip id="{}" depart="{}" {}/>':
            ends = 'from="in" to="up"'
            self.assertEqual(routes, self.driven(*(one.format(*it, ends) for it in enumerate(DEPARTS))))

    def test_edges_that_were_merged_and_contracted(self) -> None:
        """They stand on the route, also where it begins or ends on one of them."""
        own = WHOLE, "de eg", "sa ab", "xb bc#0 bc#1 cd dy"
        vehicles = [
            f'<vehicle id="{number}" depart="{number}"><route edges="{edges}"/></vehicle>'
            for number, edges in enumerate(own)
        ]
        self.made("--fit", "5s", "--horizon", "10", net=NET + TURNS, routes="".join(vehicles))
        links = (self.folder / "case" / "source_links.csv").read_text()
        for contracted in ("ab,a,b,\n", "de,d,e,\n"):
            self.assertIn(contracted, links)
        self.assertEqual(len(set(re.findall(r"bc#.,.,.,(\w+)", links))), 1)  # merged
        self.assertEqual(self.driven(*vehicles), [*own])
        trips = (
            f'<trip id="{number}" depart="{number}" from="{edges.split()[0]}" to="{edges.split()[-1]}"/>'
            for number, edges in enumerate(own)
        )
        self.assertEqual(self.driven(*trips), [*own])

    def test_ends_of_their_own(self) -> None:
        """An edge with an end of its own is one edge, and so is one that begins at an entry."""
        routes = "".join(
            f'<vehicle id="{number}" depart="{number}"><route edges="{edges}"/></vehicle>'
            for number, edges in enumerate((WHOLE, "xb bc#0 bc#1 cd", "sa ab bc#0 bc#1 cd dy", "xb bc#0"))
        )
        self.PLAIN = ("--ends", "edge")
        net = NET + edge("zd", "z", "d", metres="300.00") + TURNS + way("zd", "de")
        self.made("--fit", "2s", "--horizon", "10", net=net, routes=routes)
        self.assertIn("cd_stop", (self.folder / "case" / "links.csv").read_text())
        self.assertEqual(self.driven(routes), re.findall('edges="([^"]*)"', routes))

    def test_what_a_vehicle_says_stays(self) -> None:
        """Types too; a vehicle for which the case has no way keeps its route, and a flow is told."""
        self.case(**FORK)
        routes = self.driven(
            '<vType id="bus" vClass="bus"/><route id="own" edges="in down"/>',
            '<vehicle id="b" type="bus" depart="40" departLane="best" route="own"/>',
            '<vehicle id="a" depart="3"><route edges="elsewhere"/></vehicle>',
            '<flow id="f" begin="0" end="9" number="2"/>',
        )
        self.assertEqual(routes[0], "elsewhere")
        self.assertIn('<vType id="bus" vClass="bus" />', self.text)
        self.assertRegex(self.text, '<vehicle id="b" type="bus" depart="40" departLane="best"><route edges="in ')
        self.assertIn("1 of them keep the route of the file", self.told)
        self.assertIn("1 elements of other kinds left out", self.told)

    def test_the_words_of_each_script(self) -> None:
        """The scripts beside the command that make networks, and set loadings and assignments beside SUMO."""
        for name in SCRIPTS:
            done = subprocess.run([str(EXAMPLES / name), "--help"], capture_output=True, text=True)
            self.assertEqual((done.returncode, done.stderr), (0, ""), name)

    def test_faults(self) -> None:
        self.case(**FORK)
        for text, told in (
            ("", "no vehicles with routes, and no trips between edges or junctions"),
            ('<trip id="t" depart="soon" from="in" to="up"/>', "trip t: depart 'soon' is no time in seconds"),
            ('<trip id="t" depart="1e999" from="in" to="up"/>', "depart '1e999' is no time in seconds"),
            ('<trip id="t" depart="0" from="in" to="gone"/>', "vehicle t: edge gone is none of the case"),
        ):
            (self.folder / "trips.xml").write_text(f"<routes>{text}</routes>")
            status, out, err = self.drive()
            self.assertEqual((status, out, err.count("\n")), (1, "", 1), err)
            self.assertIn(told, err)


if __name__ == "__main__":
    unittest.main()
