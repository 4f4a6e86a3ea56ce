"""Projections undone, against published places; lines cut and joined."""
import math
import unittest
import xml.etree.ElementTree as ElementTree
from fractions import Fraction
from pathlib import Path

from support import needs
from ltm_tools.network.lines import cut_at, joined, towards
from ltm_tools.network.projection import GRS80, TransverseMercator, projection_of
from ltm_tools.sumo.net import read_net

AIRY, CLARKE = (6_377_563.396, 1 / 299.3249646), (6_378_206.4, 1 / 294.9786982)
RACING = Path("/usr/share/sumo/tools/game/racing")  # a net of OpenStreetMap in Debian's package sumo-tools


def degrees(whole: int, minutes: int, seconds: float) -> float:
    return whole + minutes / 60 + seconds / 3600


def along_meridian(ellipsoid: tuple[float, float], latitude: float) -> float:
    """The metres of a meridian from the equator on, by Simpson's rule."""
    axis, flattening = ellipsoid
    square, count, end = flattening * (2 - flattening), 20_000, math.radians(latitude)
    bent = [axis * (1 - square) / (1 - square * math.sin(end * k / count) ** 2) ** 1.5 for k in range(count + 1)]
    return end / count / 3 * (bent[0] + bent[-1] + 4 * sum(bent[1:-1:2]) + 2 * sum(bent[2:-1:2]))


class Published(unittest.TestCase):
    def near(self, found: tuple[float, float], wanted: tuple[float, float], metres: float) -> None:
        """Whether two places in degrees are no farther apart than so many metres, by a degree of 111 km."""
        self.assertLess(abs(found[0] - wanted[0]) * 111_320 * math.cos(math.radians(wanted[1])), metres)
        self.assertLess(abs(found[1] - wanted[1]) * 111_700, metres)

    def test_sweden(self) -> None:
        """Lantmateriet's worked example of the Gauss conformal projection: SWEREF 99 on GRS 80, told to the
        micrometre."""
        projection = TransverseMercator(GRS80, degrees(13, 35, 7.692), 1.00000254, 84_182.879, -6_226_307.864)
        self.near(projection.degrees((555_304.016555, 1_135_809.413803)), (24.0, 66.0), 0.000_002)

    def test_britain(self) -> None:
        """The Ordnance Survey's worked example, told to the millimetre, and that of EPSG's guidance note 7-2, to the
        centimetre."""
        projection = TransverseMercator(
            AIRY, -2.0, 0.9996012717, 400_000.0, -100_000 - 0.9996012717 * along_meridian(AIRY, 49)
        )
        self.near(
            projection.degrees((651_409.903, 313_177.270)), (degrees(1, 43, 4.5177), degrees(52, 39, 27.2531)), 0.002
        )
        self.near(projection.degrees((577_274.99, 69_740.50)), (0.5, 50.5), 0.01)

    def test_utm(self) -> None:
        """Snyder's worked example on Clarke's ellipsoid of 1866, told to 0.1 m; and the CN Tower, to a metre."""
        self.near(
            TransverseMercator(CLARKE, -75.0, 0.9996, 500_000.0, 0.0).degrees((627_106.5, 4_484_124.4)),
            (-73.5, 40.5),
            0.1,
        )
        toronto = projection_of("+proj=utm +zone=17 +ellps=WGS84 +datum=WGS84 +units=m +no_defs")
        assert toronto is not None
        self.near(toronto.degrees((630_084, 4_833_438)), (-degrees(79, 23, 13.7), degrees(43, 38, 33.24)), 1)

    def test_the_equator_and_the_south(self) -> None:
        north, south = (projection_of(f"+proj=utm +zone=31 +datum=WGS84{more}") for more in ("", " +south"))
        assert north is not None and south is not None
        self.assertEqual(north.degrees((500_000, 0)), (3.0, 0.0))
        self.assertEqual(south.degrees((500_000, 10_000_000)), (3.0, 0.0))
        (east, up), (also, down) = north.degrees((712_345.6, 4_321_000)), south.degrees((712_345.6, 5_679_000))
        self.assertAlmostEqual(east, also, 12)
        self.assertAlmostEqual(up, -down, 12)

    def test_what_is_no_utm(self) -> None:
        for text in (
            "!",
            "",
            "-",
            "+proj=tmerc +lat_0=0 +lon_0=9 +ellps=WGS84",
            "+proj=utm +zone=32 +ellps=intl",
            "+proj=utm +zone=61 +ellps=WGS84",
            "+proj=utm +ellps=WGS84",
            "+proj=utm +zone=32 +ellps=GRS80 +towgs84=1,0,0",
            "+proj=utm +zone=32 +ellps=WGS84 +units=us-ft",
        ):
            self.assertIsNone(projection_of(text), text)
        self.assertIsNotNone(projection_of("+proj=utm +zone=32 +ellps=GRS80 +towgs84=0,0,0,0,0,0,0 +units=m +no_defs"))

    @needs("sumo-tools")
    def test_a_net_of_openstreetmap(self) -> None:
        """Nodes of a net keep their numbers, and lie where the file lies that the net was made of, to the centimetres
        of a net."""
        told = {
            node.get("id"): (float(node.get("lon", "")), float(node.get("lat", "")))
            for node in ElementTree.parse(RACING / "spreewaldring.osm").iter("node")
        }
        net = read_net(RACING / "spreewaldring.net.xml", vehicle_class="vip", headway=Fraction(1), spacing=Fraction(7))
        same = [node for node in net.network.nodes.values() if node.name in told and node.place is not None]
        self.assertGreater(len(same), 5)
        for node in same:
            assert node.place is not None
            self.near(net.drawn.place(node.place), told[node.name], 0.02)


class Lines(unittest.TestCase):
    def test_joined(self) -> None:
        self.assertEqual(
            joined([[(0, 0), (1, 0)], [], [(1, 0), (1, 0), (2, 0)], [(0, 0)]]), ((0, 0), (1, 0), (2, 0), (0, 0))
        )

    def test_cut(self) -> None:
        line = ((0.0, 0.0), (3.0, 4.0), (3.0, 9.0))  # 5 and 5 long
        self.assertEqual(cut_at(line, 0.25), (((0, 0), (1.5, 2)), ((1.5, 2), (3, 4), (3, 9))))
        self.assertEqual(cut_at(line, 0.5), (((0, 0), (3, 4)), ((3, 4), (3, 9))))
        self.assertEqual(cut_at(line, 0.9), (((0, 0), (3, 4), (3, 8)), ((3, 8), (3, 9))))
        self.assertEqual(cut_at(((1.0, 1.0), (1.0, 1.0)), 0.5), (((1, 1),), ((1, 1),)))

    def test_towards(self) -> None:
        line = ((0.0, 0.0), (5.0, 1.0), (9.0, 0.0))
        self.assertEqual(towards(line, (0, 1), (9, 1)), line)
        self.assertEqual(towards(line, (9, 1), (0, 1)), line[::-1])
        self.assertEqual(towards(line, None, (0, 1)), line)


if __name__ == "__main__":
    unittest.main()
