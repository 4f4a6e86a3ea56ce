"""A fitted network is evened out, so that used routes keep their free-flow times. Ten metres take a second."""
import unittest
from fractions import Fraction

from support_roads import network, road

from ltm_tools.network.balance import MOST_SHARE, Used, balance
from ltm_tools.network.fit import FittedNetwork


def fitted(*metres: int, step: int = 5000) -> FittedNetwork:
    """A row of roads r0, r1, .. in which trips end at each node, so that nothing is merged, fitted to a step."""
    roads = [road(f"r{number}", f"n{number}", f"n{number + 1}", length) for number, length in enumerate(metres)]
    fit = FittedNetwork(network(*roads, ends=" ".join(f"n{number}" for number in range(len(metres) + 1))), step)
    fit.run()
    return fit


def used(fit: FittedNetwork, names: str, units: int = 1000) -> Used:
    """A route, with the time that it took before the fit."""
    return Used(tuple(names.split()), tuple(fit.raw.roads[name].time for name in names.split()), units)


def off(fit: FittedNetwork, route: Used) -> Fraction:
    """By how many ms a route takes longer than it took."""
    return sum((fit.network.roads[name].time for name in route.roads), Fraction(0)) - route.time


class Balance(unittest.TestCase):
    def test_long_roads_give_what_a_short_one_needs(self) -> None:
        fit = fitted(300, 20, 300)
        route = used(fit, "r0 r1 r2")
        self.assertEqual(off(fit, route), 3000)
        balance(fit, [route])
        # both long roads take 30 s, the route took 62: with e = 3 + 2 d the least of (e/62)^2 + 0.002 * 2 (d/30)^2 is
        # at d = -1.4936, e = 0.013
        self.assertAlmostEqual(float(off(fit, route)), 13, delta=8)
        self.assertEqual(fit.network.roads["r1"].time, 5000)
        self.assertEqual([change.kind for change in fit.changes], ["lengthened", "evened out", "evened out"])

    def test_none_becomes_too_short_and_none_gives_more_than_its_share(self) -> None:
        fit = fitted(52, 20, 20, 20, 60)
        before = {name: one.time for name, one in fit.network.roads.items()}
        balance(fit, [used(fit, "r0 r1 r2 r3 r4")])
        self.assertEqual(fit.too_short(), [])
        for name, one in fit.network.roads.items():
            self.assertLessEqual(abs(one.time - before[name]), Fraction(MOST_SHARE) * before[name] + 1)

    def test_the_route_that_more_drive_counts_more(self) -> None:
        # one drives over the short r1 as well, one over r0 alone; what the first would have of r0 the other does not
        # want
        for units in (9000, 1000):
            fit = fitted(300, 20)
            long, short = used(fit, "r0 r1", units), used(fit, "r0", 10_000 - units)
            balance(fit, [long, short])
            many, few = (long, short) if units > 5000 else (short, long)
            self.assertLess(abs(off(fit, many)) * 2, abs(off(fit, few)))

    def test_density_and_speed_stay(self) -> None:
        fit = fitted(300, 20, 300)
        balance(fit, [used(fit, "r0 r1 r2")])
        one = fit.network.roads["r0"]
        self.assertNotEqual(one.length, 300)
        self.assertEqual((one.kmh, one.jam), (36, 150))

    def test_a_route_that_nobody_drives_changes_nothing(self) -> None:
        fit = fitted(300, 20, 300)
        balance(fit, [used(fit, "r0 r1 r2", 0)])
        self.assertEqual([change.kind for change in fit.changes], ["lengthened"])

    def test_where_nothing_is_off_nothing_changes(self) -> None:
        fit = fitted(300, 100, 300)
        balance(fit, [used(fit, "r0 r1 r2")])
        self.assertEqual(fit.changes, [])


if __name__ == "__main__":
    unittest.main()
