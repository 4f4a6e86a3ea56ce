"""Nodes whose turns fall apart become several, by hand: so nobody turns back where no turn leads back."""
import subprocess
import unittest
from fractions import Fraction

import commands
from ltm_tools.case import Case
from ltm_tools.network.crossings.apart import Group, groups_of
from ltm_tools.network.crossings.chosen import chosen
from ltm_tools.network.crossings.expand import cut_as_they_are, expand
from ltm_tools.network.crossings.movements import Movement, Movements, Pair, movements_of
from ltm_tools.network.network import Network, Node, road_of
from support import BUILT, EXAMPLES, FolderTest, digest, needs, needs_program
from support_crossings import crossing, form, turns
from support_gmns import GmnsTest
from support_sumo import SumoTest, edge, way

# w and e lie on both sides of b, and a way leads from each to D. Half of the vehicles set out at w for D by way of e,
# half at e by way of w
NET = "".join(edge(name, name[0], name[1], metres="100.00") for name in ("wb", "be", "eb", "bw", "eD", "wD"))
WAYS = way("wb", "be") + way("eb", "bw") + way("be", "eD") + way("bw", "wD")
ROUTES = "".join(
    f'<vehicle id="{number}" depart="{number}.00"><route edges="{edges}"/></vehicle>'
    for number, edges in enumerate(20 * ["wb be eD", "eb bw wD"])
)


def star(*names: str) -> Network:
    """Roads of 300 m between nodes whose names are letters."""
    made = Network()
    for name in names:
        for node in name:
            if node not in made.nodes:
                made.add_node(Node(node))
        road = road_of(name, *name, metres=Fraction(300), kmh=Fraction(36), jam=Fraction(150), capacity=Fraction(1800))
        made.add(road)
    return made


def allowed(*pairs: Pair) -> Movements:
    """These turns, which nothing holds."""
    return movements_of([Movement(*pair) for pair in pairs], {})


def with_more(movements: Movements, *more: Movement) -> Movements:
    """The same turns, and more of them."""
    return movements_of([*movements.turns.values(), *more], movements.lanes)


class Groups(unittest.TestCase):
    def test_a_link_that_joins_two_groups(self) -> None:
        network = star("ax", "bx", "cx", "xd", "xe", "xf")
        found = allowed(("ax", "xd"), ("bx", "xe"), ("cx", "xd"), ("cx", "xe")).turns
        self.assertEqual(groups_of(network, found, "x"), [Group(("ax", "bx", "cx"), ("xd", "xe")), Group((), ("xf",))])

    def test_links_that_lead_nowhere_and_those_to_which_none_leads(self) -> None:
        network = star("ax", "bx", "cx", "xa", "xb", "xd")
        self.assertEqual(
            groups_of(network, allowed(("bx", "xa")).turns, "x"),
            [Group(("bx",), ("xa",)), Group(("ax", "cx"), ()), Group((), ("xb", "xd"))],
        )

    def test_two_roads_that_meet_become_two_nodes_where_nothing_holds_them(self) -> None:
        network, movements = crossing("we"), turns("we", held=None)
        picked = chosen(network, movements, (), "signals")
        self.assertEqual((picked.crossings, picked.dead_ends, picked.apart), ((), ("e", "w"), ("c",)))
        made = expand(network, movements, picked, form())
        ends = {name: (road.tail, road.head) for name, road in network.roads.items()}
        self.assertEqual((ends["wc"][1], ends["ce"][0], ends["ec"][1], ends["cw"][0]), ("c", "c", "c_2", "c_2"))
        self.assertEqual((made.parted, made.apart, network.nodes["c_2"].place), (2, 1, (0.0, 0.0)))
        self.assertEqual([made.route(pair) for pair in (("wc", "ce"), ("wc", "cw"))], [("wc", "ce"), None])

    def test_without_the_word_dead_ends_part_alone(self) -> None:
        for words in ({"apart": False}, {}):
            with self.subTest(words=words):
                picked = chosen(crossing("we"), turns("we", held=None), (), "signals", **words)
                self.assertEqual(picked.parted, ("e", "w") if words else ("e", "w", "c"))
        self.assertEqual(chosen(crossing("we"), turns("we", held=None), (), "none").parted, ())
        self.assertEqual(chosen(crossing("we"), turns("we", held=None), (), ("w",)).parted, ("w",))

    def test_a_turn_back_that_alone_joins_two_roads_is_a_link(self) -> None:
        """At c those from w may turn back, and those from e may not: so the turns of w are links, and who comes from e
        goes on to w. Where both may, or neither, or those roads lead on to a third, nothing changes."""
        network, back = crossing("we"), [Movement("wc", "cw", (0,)), Movement("ec", "ce", (0,))]
        one, both = (with_more(turns("we", held=None), *some) for some in (back[:1], back))
        picked = chosen(network, one, (), "signals", joined=True)
        self.assertEqual((picked.crossings, picked.dead_ends, picked.apart), (("c",), ("e", "w"), ()))
        made = expand(network, one, picked, form())
        self.assertEqual(network.roads["ec"].head, network.roads["cw"].tail)
        self.assertEqual({name for name in network.roads if "__" in name}, {"wc__ce", "wc__cw"})
        self.assertEqual(made.route(("ec", "cw")), ("ec", "cw"))
        self.assertEqual((made.route(("wc", "cw")), made.route(("ec", "ce"))), (("wc", "wc__cw", "cw"), None))
        for allowed_turns, joined in ((one, False), (both, True)):
            self.assertEqual(chosen(crossing("we"), allowed_turns, (), "signals", joined=joined).crossings, ())
        three = with_more(turns("nwe", held=None), *back[:1])
        self.assertEqual(chosen(crossing("nwe"), three, (), "signals", joined=True).crossings, ())

    def test_where_trips_end_or_begin_on_both_sides_it_is_a_crossing(self) -> None:
        for ends, begins in (({"c"}, set()), (set(), {"c"})):
            network, movements = crossing("we"), turns("we", held=None)
            picked = chosen(network, movements, ends, "signals", begins=begins)
            self.assertEqual((picked.crossings, picked.parted), (("c",), ("e", "w")))
            expand(network, movements, picked, form(ends=ends, begins=begins))
            self.assertEqual([network.roads[name].tail for name in ("cw", "ce")], ["cw_E", "ce_E"])

    def test_a_crossing_that_cannot_be_cut_parts_in_its_place(self) -> None:
        # a to b and c to d, of which no turn leads from one to the other
        network, movements = star("ax", "xb", "cx", "xd"), allowed(("ax", "xb"), ("cx", "xd"))
        picked = chosen(network, movements, (), "signals")
        self.assertEqual((picked.crossings, picked.parted), (("x",), ()))
        cut = cut_as_they_are(network, picked, 60_000)
        self.assertEqual((cut.crossings, cut.parted), ((), ("x",)))
        expand(network, movements, cut, form())
        self.assertEqual([network.roads[name].tail for name in ("xb", "xd")], ["x", "x_2"])


class OfSumo(SumoTest):
    WORDS = ("--turns", "signals", "--step", "5000", "--horizon", "30")

    def leads(self, *words: str, more: str = "") -> list[tuple[str, tuple[str, ...]]]:
        """Where the shares of the nodes at b and w lead, and the links that begin at w."""
        case = self.made(*self.WORDS, *words, net=NET + WAYS + more, routes=ROUTES)
        rows = {(row.node, tuple(sorted(row.weights))) for row in case.splits or () if row.node[0] in "bw"}
        return sorted(rows)

    def test_nobody_turns_back_where_two_roads_meet(self) -> None:
        self.assertEqual(self.leads(), [("b", ("be",)), ("b_2", ("bw",)), ("w", ("wD",)), ("w_start", ("wb",))])
        self.assertIn("3 nodes with a node for each group of links that turns join", self.out)

    def test_nobody_turns_back_where_only_the_others_may(self) -> None:
        """Those who come from w may turn back at b, and those from e may not."""
        words = ("--step", "2000", "--apart")
        found = self.leads(*words, "turns", more=way("wb", "bw"))
        begin = [("w", ("wD",)), ("w_start", ("wb",))]
        self.assertEqual(found, [("be_E", ("be",)), ("bw_E", ("bw",)), *begin, ("wb_A", ("wb__be",))])
        self.assertEqual(self.leads(*words, "groups", more=way("wb", "bw"))[0], ("b", ("be", "bw")))

    def test_the_word_for_the_import_of_before(self) -> None:
        # at b half of those who come from e turn back, and those who begin on wb would go in a loop, which is cut
        self.assertEqual(self.leads("--apart", "ends"), [("b", ("be", "bw")), ("w", ("wD",))])
        self.assertNotIn("group", self.out)

    @needs_program
    def test_vehicles_from_a_junction_begin_at_the_node_from_which_a_way_leads(self) -> None:
        """All begin at `b_2`, and the node `b` has no shares."""
        self.made(*self.WORDS, net=NET + WAYS, routes='<vehicle id="a" depart="0"><route edges="bw wD"/></vehicle>')
        (self.folder / "trips.xml").write_text(
            '<routes><trip id="t" depart="0" fromJunction="b" toJunction="D"/></routes>'
        )
        words = [str(self.folder / name) for name in ("case", "trips.xml", "driven.xml")]
        self.assertEqual(commands.run("drive", *words[:2], "-o", words[2], "--program", str(BUILT))[0::2], (0, ""))
        self.assertIn('edges="bw wD"', (self.folder / "driven.xml").read_text())


class OfGmns(GmnsTest):
    LINKS = "link_id,from_node_id,to_node_id,length,lanes,free_speed,capacity\n" + "".join(
        f"{name.lower()},{name[0]},{name[1]},300,1,36,1800\n" for name in ("WC", "CW", "CE", "EC")
    )
    MOVEMENTS = "mvmt_id,node_id,ib_link_id,ob_link_id,type\n1,C,wc,ce,thru\n2,C,ec,cw,thru\n"
    ROWS = {"W": "W,0,0,W", "C": "C,300,0,", "E": "E,600,0,E"}

    def nodes(self, *words: str, **rows: str) -> dict[str, tuple[str, str]]:
        """The ends of the links."""
        nodes = "node_id,x_coord,y_coord,zone_id\n" + "\n".join({**self.ROWS, **rows}.values()) + "\n"
        zone = "C" if rows else "E"
        demand = f"o_zone_id,d_zone_id,volume\nW,{zone},60\nE,W,60\n"
        self.net(self.LINKS, nodes, demand, movement=self.MOVEMENTS)
        return {link.name: (link.tail, link.head) for link in self.made("--step", "5000", *words).links}

    def test_two_roads_that_meet(self) -> None:
        ends = self.nodes()
        self.assertEqual((ends["wc"][1], ends["ce"][0], ends["ec"][1], ends["cw"][0]), ("C", "C", "C_2", "C_2"))
        self.assertEqual({ends[name][side] for name, side in (("ec", 1), ("cw", 0))}, {"C_2"})
        before = self.nodes("--apart", "ends")
        self.assertEqual({before[name][side] for name, side in (("ec", 1), ("cw", 0), ("wc", 1))}, {"C"})

    def test_where_a_zone_lies_there_the_turns_are_links(self) -> None:
        ends = self.nodes(C="C,300,0,C")
        self.assertEqual((ends["wc_stop"][1], ends["ec_stop"][1]), ("C", "C"))
        self.assertEqual([name for name in ends if "__" in name], ["wc__ce", "ec__cw"])


class Town(FolderTest):
    @needs("sumo")
    def test_the_town_where_nothing_falls_apart_stays_the_same(self) -> None:
        made = EXAMPLES / "from_sumo" / "make.py"
        subprocess.run([made, "town", self.folder, "--share", "0.1"], check=True, capture_output=True)
        files = [str(self.folder / f"town.{kind}.xml") for kind in ("net", "rou", "add")]
        sums = []
        for word in ("groups", "ends"):
            case = self.folder / word
            told = commands.run("from-sumo", *files, str(case), "--fit", "5s", "--horizon", "75", "--apart", word)
            self.assertEqual((told[0], told[2]), (0, ""))
            sums.append((digest(case), told[1].replace(str(case), "")))
        self.assertEqual(*sums)
        self.assertGreater(len(Case.read(self.folder / "ends").links), 700)


if __name__ == "__main__":
    unittest.main()
