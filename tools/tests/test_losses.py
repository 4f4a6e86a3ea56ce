"""What an import loses: more than one vehicle in a hundred stops it, and turns that never let anybody pass are
reported."""
import shutil
import unittest

from support_sumo import SumoTest
from support_turns import NET, ROUTES, WORDS

GOOD = "".join(f'<trip id="{number}" depart="{number}" from="in" to="on"/>' for number in range(99))
LOST = '<trip id="x{}" depart="5" from="in" to="far"/>'


class Vehicles(SumoTest):
    def test_one_in_a_hundred_may_be_lost(self) -> None:
        """99 vehicles come in; of 100 one is lost, of 101 two."""
        case = self.made(routes=GOOD + LOST.format(1))
        self.assertEqual(sum(row.units for row in case.demand), 99_000)
        self.assertIn(
            "1 vehicles are left out: over edges that are not in the net, or not for cars, 1 % of all (look at"
            " --vehicle-class, or give routes over edges that cars may use)\n",
            self.out,
        )

    def test_more_stop_it_unless_a_word_allows_it(self) -> None:
        routes = GOOD + LOST.format(1) + LOST.format(2)
        self.assertIn(
            "from-sumo: 2 of 101 vehicles would be lost, more than 1 %: 2 (2.0 %) over edges that are not in the net,"
            " or not for cars (look at --vehicle-class, or give routes over edges that cars may use); --allow-losses"
            " leaves them out all the same\n",
            self.refused(routes=routes),
        )
        self.assertEqual(sum(row.units for row in self.made("--allow-losses", routes=routes).demand), 99_000)

    def test_who_is_not_on_the_roads_or_was_not_asked_for_is_no_loss(self) -> None:
        walker = (
            '<vType id="w" vClass="pedestrian"/>' + '<vehicle id="p" type="w" depart="0"><route edges="in"/></vehicle>'
        )
        self.made("--end", "90", routes=walker + GOOD)
        self.assertIn("9 vehicles are left out: that set out after --end\n", self.out)

    def test_who_sets_out_past_the_horizon(self) -> None:
        """Of 99, one each second, 60 set out within a minute."""
        case = self.made("--horizon", "1", routes=GOOD)
        self.assertEqual(sum(row.units for row in case.demand), 60_000)
        self.assertIn("39 vehicles (39 % of all) set out past the horizon and are left out (give a longer", self.out)

    def test_none_that_is_left(self) -> None:
        """Trips between zones without the file of zones, and a begin behind all of them."""
        zones = '<trip id="1" depart="5" fromTaz="a" toTaz="b"/>'
        self.assertIn(
            "no vehicle is left: 1 (100.0 %) between zones or junctions (give the file of zones, TAZ, with it)\n",
            self.refused("--allow-losses", routes=zones),
        )
        self.assertIn(
            "no vehicle is left: 99 (100.0 %) that set out before --begin", self.refused("--begin", "7:00", routes=GOOD)
        )


RED = NET.replace("GgGr", "GrGr").replace("rGrr", "rrrr")  # the left turn, from nc to ce, never has green


class Turns(SumoTest):
    def test_a_turn_without_any_green(self) -> None:
        """One of 123 vehicles takes it, and one more of 124, which is more than one in a hundred."""
        self.made(*WORDS, net=RED, routes=ROUTES)
        self.assertIn(
            "1 turn without any green, before which 1 vehicles (0.81 % of all) wait for ever: nc to ce 1; look at the"
            " programs of their signals, or give the vehicles other routes\n",
            self.out,
        )
        routes = ROUTES + '<vehicle id="x" depart="1"><route edges="nc ce"/></vehicle>'
        self.assertIn(
            "more than 1 % of the vehicles would never arrive: 1 turn without any green, before which 2 vehicles (1.6 %"
            " of all) wait for ever: nc to ce 2; look at the programs of their signals, or give the vehicles other"
            " routes; --allow-losses makes the case all the same\n",
            self.refused_as_nothing_was(*WORDS, net=RED, routes=routes),
        )
        self.made(*WORDS, "--allow-losses", net=RED, routes=routes)
        self.assertIn("before which 2 vehicles (1.6 % of all) wait", self.out)

    def test_a_link_without_any_green(self) -> None:
        """The same vehicle where a signal holds links as a whole: nobody from w gets through."""
        net = NET.replace('state="rrrG"', 'state="rrrr"')
        self.made(*WORDS, "--turns", "none", net=net, routes=ROUTES)
        self.assertIn("1 link without any green, before which 1 vehicles (0.81 % of all) wait for ever: wc 1", self.out)

    def test_who_takes_a_forbidden_turn(self) -> None:
        """Two of 125 do, and these are too many."""
        lost = "".join(f'<vehicle id="b{place}" depart="0"><route edges="wc cn"/></vehicle>' for place in (1, 2))
        said = self.refused(*WORDS, net=NET, routes=ROUTES + lost)
        self.assertIn("2 of 125 vehicles would be lost, more than 1 %: 2 (1.6 %) that take a turn which is", said)

    def refused_as_nothing_was(self, *words: str, **files: str) -> str:
        """What is said where an import is refused after one that was not: the case of that one is taken out first."""
        shutil.rmtree(self.folder / "case")
        return self.refused(*words, **files)


if __name__ == "__main__":
    unittest.main()
