"""Crossings by hand: their turns as links, what is forbidden, five arms, an approach too short, trips that end, one-way
streets."""
import unittest
from collections.abc import Collection
from dataclasses import replace
from fractions import Fraction

from ltm_tools.network.crossings.chosen import Chosen, chosen
from ltm_tools.network.crossings.expand import Expanded, cut_as_they_are, expand
from ltm_tools.network.crossings.movements import Movement, Movements, movements_of
from ltm_tools.network.crossings.options import MINOR_GAP
from ltm_tools.network.crossings.sizes import links_told
from ltm_tools.network.fit import FittedNetwork
from ltm_tools.network.network import Network, Node
from support_crossings import HELD, PLACES, crossing, form, turns


def made(network: Network, movements: Movements, **words: object) -> Expanded:
    return expand(network, movements, Chosen(("c",), ()), form(**words))


class Four(unittest.TestCase):
    def test_each_turn_is_a_link_of_its_own(self) -> None:
        network = crossing()
        expanded = made(network, turns())
        self.assertEqual(len(network.roads), 8 + 12)
        roads = network.roads
        self.assertEqual(
            [(roads[name].tail, roads[name].head) for name in ("nc", "nc__cs", "cs")],
            [("n", "nc_A"), ("nc_A", "cs_E"), ("cs_E", "s")],
        )
        # 300 m: 98 for the turn, 202 before it; straight on has both lanes, to the left one of the two
        self.assertEqual(
            [(road.length, road.storage, road.capacity) for road in (roads["nc"], roads["nc__cs"], roads["nc__ce"])],
            [
                (202, Fraction(202 * 300, 1000), 3600),
                (98, Fraction(98 * 300, 1000), 3600),
                (98, Fraction(98 * 150, 1000), 1800),
            ],
        )
        self.assertEqual({road.kmh for road in roads.values()}, {36})
        self.assertNotIn("c", network.nodes)
        self.assertEqual(expanded.own["nc"], ["nc__ce", "nc__cs", "nc__cw"])
        self.assertEqual((expanded.short, expanded.stops), (0, {}))

    def test_a_turn_that_is_forbidden_is_not_there(self) -> None:
        network = crossing()
        expanded = made(network, turns(without=[("nc", "ce")]))
        self.assertEqual([name for name in network.roads if name.startswith("nc_")], ["nc__cs", "nc__cw"])
        self.assertIsNone(expanded.route(("nc", "ce")))
        self.assertEqual(expanded.route(("nc", "cw")), ("nc", "nc__cw", "cw"))

    def test_an_approach_with_one_exit_leads_to_it_as_it_is(self) -> None:
        network = crossing()
        expanded = made(network, turns(without=[("nc", "ce"), ("nc", "cw")]))
        self.assertEqual((network.roads["nc"].head, network.roads["nc"].length), ("cs_E", 300))
        self.assertEqual(expanded.links["nc", "cs"], "nc")
        self.assertEqual(expanded.route(("nc", "cs")), ("nc", "cs"))

    def test_trips_that_end_take_a_link_that_no_signal_holds(self) -> None:
        network = crossing()
        expanded = made(network, turns(), ends={"c"})
        stop = network.roads["nc_stop"]
        self.assertEqual((stop.tail, stop.head, stop.length, stop.capacity), ("nc_A", "c", 98, 3600))
        self.assertEqual(network.outs["c"], [])
        self.assertEqual(expanded.route(("nc",)), ("nc", "nc_stop"))

    def test_trips_that_begin_at_the_node_may_take_each_exit_and_none_leads_through(self) -> None:
        network = crossing()
        expanded = made(network, turns(), ends={"c"}, begins={"c"})
        self.assertEqual(expanded.origins, {"c": "c_start"})
        self.assertEqual((network.ins["c_start"], len(network.outs["c_start"])), ([], 4))
        # 51 m: what the step asks for
        self.assertEqual((network.roads["cn_start"].head, network.roads["cn_start"].length), ("cn_E", 51))
        self.assertEqual(expanded.route(("cn",)), ("cn_start", "cn"))

    def test_where_it_lies(self) -> None:
        network = crossing()
        made(network, turns())
        self.assertEqual(network.nodes["nc_A"].place, (0.0, 98.0))
        self.assertEqual(network.nodes["cs_E"].place, (0.0, -14.0))
        # southbound: right is west, so the three turns lie from west to east by where they go, 3.2 m apart
        across = [network.roads[f"nc__c{arm}"].shape[0][0] for arm in "wse"]
        for found, wanted in zip(across, (-8.0, -4.8, -1.6)):
            self.assertAlmostEqual(found, wanted)


class Forms(unittest.TestCase):
    def test_five_arms(self) -> None:
        PLACES["x"] = (200.0, 200.0)
        self.addCleanup(PLACES.pop, "x")
        network = crossing("neswx")
        made(network, turns("neswx"), ends={"c"})
        self.assertEqual(len(network.outs["nc_A"]), 5)
        self.assertEqual(max(len(names) for node, names in network.ins.items() if node != "c"), 4)
        fit = FittedNetwork(network, 5000)
        fitted = fit.run()
        self.assertEqual(max(len(names) for side in (fitted.ins, fitted.outs) for names in side.values()), 4)
        self.assertEqual({change.kind for change in fit.changes}, {"node split"})

    def test_an_approach_too_short(self) -> None:
        # 60 m are less than two of 51: the turn has 51, 9 are left, and a fit gives these to the turns
        network = crossing(metres=60)
        self.assertEqual(made(network, turns()).short, 4)
        self.assertEqual((network.roads["nc"].length, network.roads["nc__cs"].length), (9, 51))
        network.ends = {"n", "e", "s", "w"}
        fitted = FittedNetwork(network, 5000).run()
        self.assertNotIn("nc", fitted.roads)
        self.assertEqual((fitted.roads["nc__cs"].tail, fitted.roads["nc__cs"].length), ("n", 60))

    def test_those_that_can_be_cut_as_they_are(self) -> None:
        picked = Chosen(("c",), ())
        self.assertEqual(cut_as_they_are(crossing(metres=60), picked, 5000).crossings, ())
        # 110 m are enough: 51 before the turn and 59 for it
        network = crossing(metres=110)
        self.assertEqual(cut_as_they_are(network, picked, 5000).crossings, ("c",))
        made(network, turns())
        self.assertEqual((network.roads["nc"].length, network.roads["nc__cs"].length), (51, 59))

    def test_one_way_streets(self) -> None:
        # from n and w, to s and e: four turns and no more
        network = crossing()
        for name in ("cn", "cw", "sc", "ec"):
            network.remove(name)
        movements = movements_of([Movement(one, other, (0, 1)) for one in ("nc", "wc") for other in ("cs", "ce")], {})
        self.assertEqual(chosen(network, movements, (), "all").crossings, ("c",))
        made(network, movements)
        self.assertEqual([name for name in network.roads if "__" in name], ["nc__cs", "nc__ce", "wc__cs", "wc__ce"])
        self.assertEqual(network.roads["nc__cs"].capacity, 3600)

    def test_names_that_are_taken(self) -> None:
        network = crossing()
        network.add(replace(network.roads["nc"], name="nc__cs", tail="n", head="e"))
        network.add_node(Node("nc_A"))
        network.add(replace(network.roads["nc"], name="x", tail="n", head="nc_A"))
        expanded = made(network, turns())
        self.assertEqual(expanded.links["nc", "cs"], "nc__cs_2")
        self.assertEqual(network.roads["nc"].head, "nc_A_2")


class Sizes(unittest.TestCase):
    def test_the_crossings_that_fit(self) -> None:
        network = crossing()
        expanded = made(network, turns(), ends={"c"})
        self.assertEqual(expanded.added, {"c": 12 + 4})
        # 4010 links, 35 of them of turns: of the 25 that are left b takes 20, a has no room for 10, and c takes 5
        expanded = Expanded({}, added={"a": 10, "b": 20, "c": 5})
        vehicles = {"a": 2, "b": 3, "c": 1}
        self.assertEqual(links_told(expanded, 4010, vehicles)[0].rpartition("--turns ")[2], "b,c")
        self.assertEqual(links_told(expanded, 4000, vehicles), [])
        self.assertEqual(links_told(expanded, 4036, vehicles), [])
        self.assertEqual(links_told(expanded, 16_010, vehicles, True)[0].rpartition("--turns ")[2], "b,c")


class Choice(unittest.TestCase):
    def picked(self, movements: Movements, asked: str | tuple[str, ...], ends: Collection[str] = ()) -> list[str]:
        return list(chosen(crossing(), movements, ends, asked).crossings)

    def test_by_signals_or_all(self) -> None:
        self.assertEqual(self.picked(turns(), "signals"), ["c"])
        self.assertEqual(self.picked(turns(held=None), "signals"), [])
        sign = replace(HELD, sign=MINOR_GAP)
        self.assertEqual([self.picked(turns(held=sign), asked) for asked in ("signals", "all")], [[], ["c"]])
        self.assertEqual(self.picked(turns(held=None), "all"), ["c"])
        self.assertEqual(self.picked(turns(), "none"), [])
        self.assertEqual(self.picked(turns(held=None), ("c",)), ["c"])

    def test_a_turn_that_is_forbidden_asks_for_it_and_one_back_does_not(self) -> None:
        self.assertEqual(self.picked(turns(held=None, without=[("nc", "ce")]), "signals"), ["c"])
        self.assertNotIn(("nc", "cn"), turns().turns)

    def test_a_signal_before_one_exit_asks_for_it_where_trips_end(self) -> None:
        network = crossing("ns")
        movements = turns("ns")
        self.assertEqual(chosen(network, movements, (), "signals").crossings, ())
        self.assertEqual(chosen(network, movements, {"c"}, "signals").crossings, ("c",))

    def test_a_dead_end_is_parted_so_that_none_turns_back(self) -> None:
        network = crossing()
        picked = chosen(network, turns(), (), "signals")
        self.assertEqual(picked.parted, ("n", "e", "s", "w"))
        expanded = expand(network, turns(), picked, form())
        self.assertEqual((network.roads["cn"].head, network.roads["nc"].tail), ("n", "n_start"))
        self.assertEqual((expanded.parted, expanded.origins), (4, {arm: f"{arm}_start" for arm in "nesw"}))

    def test_a_name_that_is_no_node(self) -> None:
        with self.assertRaisesRegex(Exception, "--turns: d is no node of the network"):
            self.picked(turns(), ("d",))


if __name__ == "__main__":
    unittest.main()
