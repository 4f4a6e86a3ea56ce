"""A raw network is fitted to a step, and all that changes adds up. Speeds are 36 km/h, so that ten metres take a
second."""
import unittest
from fractions import Fraction

from support_roads import network, road
from ltm_tools.case.roads import Roads
from ltm_tools.demand.volumes import Volumes
from ltm_tools.network.fit import FittedNetwork
from ltm_tools.network.importing import source_of
from ltm_tools.network.od_nodes import fewer_ends
from ltm_tools.network.names import names_for
from ltm_tools.network.network import Network, diagram_of, least_times, road_of, road_totals


def time_over(fit: FittedNetwork, *names: str) -> Fraction:
    """The free-flow time in ms of a route over roads of the source."""
    links = names_for(fit.network.roads, False)
    source = source_of(fit.raw, fit.network, fit, links, names_for(fit.network.used_nodes(), False))
    roads = Roads.of([diagram_of(one, fit.step) for one in fit.network.roads.values()])
    return sum((fit.network.roads[name].time for name in source.route(names, roads)), Fraction(0))


class Merged(unittest.TestCase):
    def test_a_short_link_adds_up_with_its_neighbour(self) -> None:
        # b takes 2 s of a step of 5 s; it is like c, which has as many lanes, and not like a
        fit = FittedNetwork(
            network(
                road("a", "n1", "n2", 100, 3600, 300),
                road("b", "n2", "n3", 20),
                road("c", "n3", "n4", 60),
                ends="n1 n4",
            ),
            5000,
        )
        made = fit.run()
        self.assertEqual(sorted(made.roads), ["a", "c"])
        both = made.roads["c"]
        self.assertEqual((both.tail, both.head, both.length, both.time, both.storage), ("n2", "n4", 80, 8000, 12))
        self.assertEqual(both.parts, ("b", "c"))
        self.assertEqual(fit.link_of(), {"a": "a", "b": "c", "c": "c"})
        self.assertEqual([(change.kind, change.name) for change in fit.changes], [("merged", "b")])

    def test_the_lesser_capacity_and_all_storage_stay(self) -> None:
        fit = FittedNetwork(
            network(road("a", "n1", "n2", 100, 3600, 300), road("b", "n2", "n3", 20), ends="n1 n3"), 5000
        )
        both = fit.run().roads["a"]
        self.assertEqual((both.length, both.time, both.storage, both.capacity), (120, 12_000, 30 + 3, 1800))

    def test_both_directions_are_merged_at_once(self) -> None:
        fit = FittedNetwork(
            network(
                road("a", "n1", "n2", 100),
                road("b", "n2", "n3", 20),
                road("ra", "n2", "n1", 100),
                road("rb", "n3", "n2", 20),
                ends="n1 n3",
            ),
            5000,
        )
        made = fit.run()
        self.assertEqual(
            {name: (one.tail, one.head, one.parts) for name, one in made.roads.items()},
            {"a": ("n1", "n3", ("a", "b")), "ra": ("n3", "n1", ("rb", "ra"))},
        )

    def test_nothing_is_merged_over_a_node_where_trips_begin(self) -> None:
        fit = FittedNetwork(network(road("a", "n1", "n2", 100), road("b", "n2", "n3", 20), ends="n1 n2 n3"), 5000)
        self.assertIn("b", fit.run().roads)

    def test_nothing_is_merged_past_a_signal(self) -> None:
        raw = network(road("a", "n1", "n2", 20), road("b", "n2", "n3", 100), ends="n1 n3")
        raw.signals = {"a"}
        fit = FittedNetwork(raw, 5000)
        self.assertEqual(fit.run().ins["n2"], ["a"])


class Contracted(unittest.TestCase):
    def test_length_time_and_storage_go_to_the_links_before_it(self) -> None:
        fit = FittedNetwork(
            network(
                road("a1", "m1", "u", 100),
                road("a2", "m2", "u", 100),
                road("b", "u", "v", 20),
                road("c1", "v", "w1", 100),
                road("c2", "v", "w2", 100),
                ends="m1 m2 w1 w2",
            ),
            5000,
        )
        made = fit.run()
        self.assertEqual(sorted(made.roads), ["a1", "a2", "c1", "c2"])
        self.assertEqual(
            [(made.roads[name].length, made.roads[name].time, made.roads[name].storage) for name in ("a1", "a2", "c1")],
            [(120, 12_000, Fraction(33, 2)), (120, 12_000, Fraction(33, 2)), (100, 10_000, 15)],
        )
        self.assertEqual(time_over(fit, "a1", "b", "c2"), 22_000)
        self.assertEqual(fit.link_of()["b"], None)
        self.assertEqual(fit.node_of("v"), "u")

    def test_no_way_is_opened_that_was_not_there(self) -> None:
        # u has another way out and v another way in: as one node, x would lead to y
        raw = network(
            road("a", "m", "u", 100),
            road("b", "u", "v", 20),
            road("y", "u", "w", 70),
            road("x", "k", "v", 70),
            road("c", "v", "z", 70),
            ends="m k w z",
        )
        fit = FittedNetwork(raw, 5000)
        made = fit.run()
        self.assertNotIn("k", least_times(made, "w"))

    def test_a_short_street_of_two_ways_is_one_node(self) -> None:
        raw = network(
            road("b", "u", "v", 10),
            road("rb", "v", "u", 10),
            *(
                road(f"{side}{number}", *ends, 100)
                for side, node in (("l", "u"), ("r", "v"))
                for number, other in enumerate(("p", "q"))
                for ends in [(f"{side}{other}", node)]
            ),
            *(road(f"o{side}", node, f"o{side}", 100) for side, node in (("l", "u"), ("r", "v"))),
            ends="lp lq rp rq ol or",
        )
        fit = FittedNetwork(raw, 5000)
        made = fit.run()
        self.assertNotIn("b", made.roads)
        self.assertEqual(len(made.ins[fit.node_of("v")]), 4)
        self.assertEqual(sum(change.metres for change in fit.changes), -20)


class Shifted(unittest.TestCase):
    def test_one_end_is_moved_and_each_route_keeps_its_time(self) -> None:
        raw = network(
            road("a", "m", "u", 100),
            road("b", "u", "v", 20),
            road("y", "u", "w", 100),
            road("x", "k", "v", 100),
            road("c1", "v", "z1", 100),
            road("c2", "v", "z2", 100),
            ends="m k w z1 z2",
        )
        fit = FittedNetwork(raw, 5000)
        made = fit.run()
        self.assertEqual([change.kind for change in fit.changes], ["shifted"])
        self.assertEqual([made.roads[name].time for name in ("b", "x", "c1", "c2")], [5000, 13_000, 7000, 7000])
        self.assertEqual(
            [time_over(fit, *names) for names in (("a", "b", "c1"), ("x", "c2"), ("a", "y"))], [22_000, 20_000, 20_000]
        )


class Lengthened(unittest.TestCase):
    def test_a_link_between_two_ends_is_as_long_as_a_step(self) -> None:
        fit = FittedNetwork(network(road("a", "n1", "n2", 20), ends="n1 n2"), 5000)
        made = fit.run().roads["a"]
        # at 36 km/h a step of 5 s asks for 50 m; the wave of 18 km/h takes 10 s
        self.assertEqual((made.length, made.time, made.storage), (50, 5000, Fraction(15, 2)))
        self.assertEqual((fit.changes[0].kind, fit.changes[0].metres, fit.changes[0].time), ("lengthened", 30, 3000))

    def test_the_capacity_is_kept_to_what_a_slot_takes(self) -> None:
        fit = FittedNetwork(network(road("a", "n1", "n2", 1000, 20_000, 1500), ends="n1 n2"), 10_000)
        made = fit.run().roads["a"]
        self.assertLessEqual(diagram_of(made, 10_000).capacity(10_000), 32_000)
        self.assertEqual([change.kind for change in fit.changes], ["capacity lowered"])


class Split(unittest.TestCase):
    def arms(self, count: int, metres: int) -> Network:
        return network(
            *(road(f"i{number}", f"a{number}", "n", metres) for number in range(count)),
            *(road(f"o{number}", "n", f"a{number}", metres) for number in range(count)),
            ends=" ".join(f"a{number}" for number in range(count)),
        )

    def test_a_node_of_six_arms_keeps_every_way_and_its_time(self) -> None:
        fit = FittedNetwork(self.arms(6, 200), 5000)
        made = fit.run()
        for node in made.nodes:
            self.assertLessEqual(max(len(made.ins[node]), len(made.outs[node])), 4)
        for start in range(6):
            for end in range(6):
                if start != end:
                    self.assertEqual(time_over(fit, f"i{start}", f"o{end}"), 40_000)

    def test_short_arms_become_longer_and_it_is_told(self) -> None:
        fit = FittedNetwork(self.arms(6, 60), 5000)
        fit.run()
        self.assertEqual(time_over(fit, "i0", "o1"), 6000 + 6000 + 2 * 5000)
        self.assertIn("become longer", fit.changes[0].note)

    def test_five_arms_in_and_three_out(self) -> None:
        raw = network(
            *(road(f"i{number}", f"a{number}", "n", 300) for number in range(5)),
            *(road(f"o{number}", "n", f"b{number}", 300) for number in range(3)),
            ends="a0 a1 a2 a3 a4 b0 b1 b2",
        )
        made = FittedNetwork(raw, 5000).run()
        self.assertEqual((len(made.ins["n"]), len(made.outs["n"]), len(made.roads)), (4, 3, 9))

    def test_thirty_arms(self) -> None:
        made = FittedNetwork(self.arms(30, 900), 5000).run()
        self.assertTrue(all(max(len(made.ins[node]), len(made.outs[node])) <= 4 for node in made.nodes))


class Told(unittest.TestCase):
    def test_the_changes_add_up_to_what_the_network_became(self) -> None:
        roads = []
        for number in range(60):
            tail, head = f"n{number % 12}", f"n{(number * 7 + 3) % 12}"
            if tail != head:
                roads.append(road(f"r{number}", tail, head, 3 + 17 * number % 160))
        for step in (1000, 3000, 5000, 20_000):
            fit = FittedNetwork(network(*roads, ends="n0 n5"), step)
            made = fit.run()
            before, after = road_totals(fit.raw.roads.values()), road_totals(made.roads.values())
            self.assertEqual(sum(change.metres for change in fit.changes), after[0] - before[0])
            self.assertEqual(sum(change.time for change in fit.changes), after[1] - before[1])
            self.assertEqual(fit.too_short(), [])

    def test_a_network_that_fits_is_left_as_it_is(self) -> None:
        raw = network(road("a", "n1", "n2", 100), road("b", "n2", "n3", 100), ends="n1 n3")
        fit = FittedNetwork(raw, 5000)
        self.assertEqual(fit.run().roads, raw.roads)
        self.assertEqual(fit.changes, [])


class Diagram(unittest.TestCase):
    def test_whole_numbers_by_hand(self) -> None:
        # 50 km/h and 150 vehicles/km with 900 an hour: 900 * 50 / (7500 - 900) = 6.8, and 7 km/h gives a top of 921
        link = diagram_of(
            road_of(
                "a", "u", "v", metres=Fraction(8004, 10), kmh=Fraction(50), jam=Fraction(150), capacity=Fraction(900)
            )
        )
        self.assertEqual((link.length_m, link.free_kmh, link.wave_kmh, link.jam_per_km), (800, 50, 7, 150))


class Ends(unittest.TestCase):
    def test_fewer(self) -> None:
        """Of two destinations the one with more trips stays, 50 km or 5,000 seconds before the other."""
        raw, notes = network(road("a", "s", "near", 360), road("b", "near", "far", 50_000)), list[str]()
        volumes = Volumes.of({("s", "near"): Fraction(3), ("s", "far"): Fraction(2)})
        self.assertEqual(fewer_ends(raw, volumes, 1, notes), {("s", "near"): Fraction(5)})
        told = "40.0 % of the vehicles end at another node, in the mean 5000 s away, and 0 vehicles have no way left"
        self.assertEqual(notes, [f"1 of 2 destinations are kept; {told} and are left out"])


if __name__ == "__main__":
    unittest.main()
