"""Who enters a road that others drive on: by a link of their own with what the road carries, alike at every step."""
import unittest

import commands
from support import BUILT, FolderTest, needs_program
from support_sumo import SumoTest, edge, way

from ltm_tools.formats import UNITS
from ltm_tools.loading.loaded import loaded

# a road of one lane, 1,914.9 vehicles an hour, by a node b where trips begin too
NET = edge("ab", "a", "b", metres="600.00") + edge("bc", "b", "c", metres="600.00") + way("ab", "bc")
MINUTES = 30


def flows(side: int, main: int = 3000) -> str:
    """Vehicles of so many an hour over the whole road, and from b on."""
    return "".join(
        f'<flow id="{name}" begin="0" end="{60 * MINUTES}" number="{rate * MINUTES // 60}">'
        f'<route edges="{edges}"/></flow>'
        for name, rate, edges in (("main", main, "ab bc"), ("side", side, "bc"))
    )


class Entries(SumoTest):
    PLAIN = ()

    def entered(self, step: int, side: int, *words: str) -> float:
        """The vehicles an hour that set out from b from minute 10 to minute 25, while the road is full."""
        case = self.made("--fit", f"{step}s", "--horizon", "40", *words, net=NET, routes=flows(side))
        curves = loaded(self.folder / "case", None, str(BUILT)).curves
        first, last = (minute * 60 // step for minute in (10, 25))
        own = {link.name for link in case.links}
        if "b_entry" in own:
            counts = curves.down("b_entry")
            return (counts[last] - counts[first]) / UNITS * 4
        through, main = curves.up("bc"), curves.down("ab")
        return (through[last] - through[first] - main[last] + main[first]) / UNITS * 4

    @needs_program
    def test_a_side_street_takes_its_lane_and_no_more_at_every_step(self) -> None:
        for step in (1, 2, 5, 10):
            with self.subTest(step=step):
                # 300 an hour are less than half of the road's 1,915, and all enter; of 3,000 no more than half do
                self.assertAlmostEqual(self.entered(step, 300), 300, delta=6)
                self.assertAlmostEqual(self.entered(step, 3000), 957, delta=15)
        # without an entry those at b push in by 32 vehicles a step, and hardly anybody is left room
        self.assertGreater(self.entered(1, 3000, "--entries", "none"), 1800)

    def test_an_entry_carries_what_its_road_does(self) -> None:
        case = self.made("--fit", "2s", "--horizon", "40", net=NET, routes=flows(300))
        links = {link.name: link for link in case.links}
        entry = links["b_entry"]
        self.assertEqual((entry.tail, entry.head), ("b_origin", "b"))
        self.assertEqual({row.origin for row in case.demand}, {"a", "b_origin"})
        self.assertAlmostEqual(entry.capacity(2000), links["bc"].capacity(2000), delta=10)
        self.assertIn("1 origin at nodes that others drive over with a link of their own", self.out)
        self.assertNotIn("b_entry", (self.folder / "case" / "source_links.csv").read_text())
        self.assertNotIn("b_origin", (self.folder / "case" / "source_nodes.csv").read_text())

    def test_nobody_drives_over_an_end(self) -> None:
        # at a, and at c, links meet that lead back alone
        net = NET + edge("ba", "b", "a") + edge("cb", "c", "b") + way("cb", "ba") + way("ab", "bc")
        routes = '<vehicle id="1" depart="0"><route edges="ab bc"/></vehicle>'
        case = self.made("--fit", "2s", "--horizon", "40", net=net, routes=routes)
        self.assertEqual({link.name for link in case.links}, {"ab", "bc", "ba", "cb"})


class Inspected(FolderTest):
    LINKS = (
        "link,from,to,length_m,free_kmh,wave_kmh,jam_per_km\nin,a,b,100,36,18,150\nout,b,c,100,36,18,150\n"
        "back,b,a,100,36,18,150\n"
    )
    DEMAND = "origin,destination,from_slot,to_slot,vehicles\na,c,0,10,1\nb,c,0,10,1\n"
    SPLITS = "node,destination,from_slot,weights\na,c,0,in=1\nb,c,0,out=1\n"

    def told(self, capacity: str) -> str:
        for name, text in (("links", self.LINKS), ("demand", self.DEMAND), ("splits", self.SPLITS)):
            (self.folder / f"{name}.csv").write_text(text)
        (self.folder / "setup.csv").write_text(f"step_ms,slots,origin_capacity\n1000,60,{capacity}\n")
        status, out, err = commands.run("inspect", str(self.folder))
        self.assertEqual((status, err), (0, ""))
        return out

    def test_an_origin_that_pushes_in_is_warned_of(self) -> None:
        # the links out of b take 0.5 vehicles each in a second, 1,800 an hour, and its origin may send 2
        self.assertIn("b: 7,200 vehicles an hour may set out, and its links out carry 3,600", self.told("2"))
        self.assertNotIn("push in", self.told("1"))


if __name__ == "__main__":
    unittest.main()
