"""What is told of the turns of crossings, and where they are drawn: by hand."""
import unittest
from fractions import Fraction

from ltm_tools.case import Link, Setup
from ltm_tools.demand.cycles import Green
from ltm_tools.network.crossings.drawing import corner, turn_line
from ltm_tools.network.crossings.told import turns_told
from ltm_tools.network.crossings.turn import Turn
from ltm_tools.network.crossings.volumes import Volumes


class Overfull(unittest.TestCase):
    def test_turns_with_more_vehicles_than_pass(self) -> None:
        """At 36 and 18 km/h 150 vehicles/km pass 1800 an hour, in the half of each cycle 150 in ten minutes."""
        link, setup = Link("l", "n1", "n2", 100, 36, 18, 150), Setup(1000, 600, 32_000)
        turn = Turn(
            approach="a",
            exit="b",
            link="l",
            lanes=Fraction(1),
            saturation=Fraction(1800),
            protected=(Green(60_000, 0, 30_000),),
        )
        for vehicles, told in ((150, []), (225, ["1 turn with more vehicles than pass: l 1.50"])):
            volumes = Volumes(600_000, {"l": {0: vehicles * 1000}})
            self.assertEqual(turns_told([turn], volumes, {"l": link}, setup), told)


class Drawn(unittest.TestCase):
    def test_a_corner(self) -> None:
        """A parabola from (0, 0) to (8, 8) that is drawn towards (8, 0), at a quarter, a half and three quarters."""
        self.assertEqual(corner((0, 0), (8, 0), (8, 8)), ((3.5, 0.5), (6.0, 2.0), (7.5, 4.5)))

    def test_a_turn(self) -> None:
        """To the east for 100 m, a lane to the right, which is to the south; then to the north from 14 m behind the
        node."""
        line = turn_line(((0, 0), (100, 0)), 100, (100, 0), (100, 14), 1)
        for point, other in zip((line[0], line[1], line[2], line[-1]), ((0, 0), (0, -3.2), (86, -3.2), (100, 14))):
            for number, wanted in zip(point, other):
                self.assertAlmostEqual(number, wanted)


if __name__ == "__main__":
    unittest.main()
