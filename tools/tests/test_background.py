"""What an import keeps for a map: edges that carry nothing and polygons, simplified, with whom a map has to name."""
import unittest

from support import FolderTest
from support_sumo import EDGES, WAYS, SumoTest, edge

from ltm_tools.case.background import Shape, read_background
from ltm_tools.errors import Fault
from ltm_tools.sumo.background import simplified

LOCATION = '<!-- <osm-files value="town.osm"/> --><location netOffset="10,20" projParameter="!"/>'
WALK = edge("walk", "A", "C", more='shape="10,20 60,21 110,20"', lane='allow="pedestrian"')
TRAM = edge("tram", "A", "C", more='shape="10,20 60,70 110,20" type="railway.tram"', lane='allow="tram"')
LAKE = '<poly id="1" type="natural.water" shape="10,20 20,20 20,40"/><poly id="2" type="x" shape="10,20 20,20"/>'


class Kept(SumoTest):
    def test_edges_that_carry_nothing_and_polygons(self) -> None:
        """A point 1 m off a line of 100 m is left out, one 50 m off is kept; the net's offset is taken off."""
        self.made(net=LOCATION + EDGES + WALK + TRAM + WAYS, more=LAKE)
        made = read_background(self.folder / "case")
        assert made is not None
        self.assertEqual(
            made.shapes,
            (
                Shape("road", ((0, 0), (100, 0))),
                Shape("rail", ((0, 0), (50, 50), (100, 0))),
                Shape("water", ((0, 0), (10, 0), (10, 20))),
                Shape("other", ((0, 0), (10, 0))),
            ),
        )
        self.assertEqual(made.attribution, "© OpenStreetMap contributors")

    def test_none_where_there_is_nothing(self) -> None:
        self.made(net=LOCATION + EDGES + WALK + WAYS)
        self.made(net=EDGES + WAYS)
        self.assertIsNone(read_background(self.folder / "case"))


class Read(FolderTest):
    def test_a_file_that_is_none(self) -> None:
        for text in ("[]", "{", '{"attribution":"","crs":null,"shapes":[{"kind":"sea","points":[[0,0],[1,1]]}]}'):
            (self.folder / "background.json").write_text(text)
            with self.assertRaisesRegex(Fault, "background.json: "):
                read_background(self.folder)

    def test_a_line_with_a_loop(self) -> None:
        self.assertEqual(simplified(((0, 0), (9, 0), (0, 9), (0, 0))), ((0, 0), (9, 0), (0, 9), (0, 0)))


if __name__ == "__main__":
    unittest.main()
