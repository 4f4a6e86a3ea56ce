"""What a map in a browser is told of where a network lies: the metres of a unit, and what lies behind it."""
import math
import unittest

from support import FolderTest
from ltm_tools.case import Case
from ltm_tools.case.background import Background, Shape, write_background
from ltm_tools.show.network import placed_networks, told_network

DEGREE = 2 * math.pi * 6_371_008.8 / 360  # metres of latitude


class Told(FolderTest):
    def told(self, nodes: str | None) -> dict[str, object]:
        folder = self.case(nodes=nodes) if nodes else self.case()
        case = Case.read(folder)
        (places,), bent = placed_networks([str(folder)], [case])
        return told_network(str(folder), case, places, bent)

    def test_metres(self) -> None:
        """Of degrees as on a sphere, of a projection as they are; of other units by how long the road of 20 m is drawn;
        a network that was laid out lies nowhere."""
        for nodes, metres in (
            ("name,x,y,crs\nn1,13,52,EPSG:4326\nn2,13.1,52,EPSG:4326\n", DEGREE),
            ("name,x,y,crs\nn1,13,52,EPSG:25832\nn2,23,52,EPSG:25832\n", 1),
            ("name,x,y\nn1,13,52\nn2,17,55\n", 4),
            ("name,x,y\nn1,13,52\nn2,13,52\n", None),
        ):
            found = self.told(nodes)["metres"]
            self.assertEqual(found is None, metres is None)
            if metres is not None:
                self.assertAlmostEqual(found, metres, places=6)  # type: ignore[arg-type]

    def test_a_network_that_was_laid_out(self) -> None:
        self.assertIsNone(self.told(None)["metres"])

    def test_background(self) -> None:
        """Degrees to the east are as much shorter as those of the nodes, by the cosine of the latitude in their
        middle."""
        shapes = (Shape("water", ((13.0, 52.0), (13.1, 52.1))), Shape("road", ((13.0, 52.0), (13.2, 52.0))))
        write_background(self.folder / self.case().name, Background(shapes, "EPSG:4326", "who made it"))
        found = self.told("name,x,y,crs\nn1,13,50,EPSG:4326\nn2,13.1,70,EPSG:4326\n")["background"]
        self.assertEqual(
            found,
            {
                "attribution": "who made it",
                "shapes": {"water": [[6.5, 52.0, 6.55, 52.1]], "road": [[6.5, 52, 6.6, 52]]},
            },
        )


if __name__ == "__main__":
    unittest.main()
