"""Approaches of GMNS networks that yield at signs: who does, by movement.csv or node.csv, and what they let pass."""
import math
import unittest

from support_gmns import GmnsTest

LINKS = "link_id,from_node_id,to_node_id,length,lanes,free_speed,capacity\n" + "".join(
    f"{name},{tail},{head},500,1,36,{capacity}\n"
    for name, tail, head, capacity in (
        ("main", "W", "C", 1800),
        ("out", "C", "E", 1800),
        ("side", "S", "C", 900),
    )
)
NODES = "node_id,x_coord,y_coord,ctrl_type\nC,0,0,{}\nW,-500,0,\nE,500,0,\nS,0,-500,\n"
MOVEMENTS = "mvmt_id,node_id,ib_link_id,ob_link_id,type,ctrl_type\n1,C,main,out,thru,\n2,C,side,out,right,{}\n"
DEMAND = "o_zone_id,d_zone_id,volume\nW,E,600\nS,E,100\n"
WORDS = ("--step", "5000", "--horizon", "90", "--saturation", "1800")


def gap_capacity(flow: float) -> float:
    """The manual's capacity of a minor road, in vehicles an hour."""
    return flow * math.exp(-flow * 6.5 / 3600) / (1 - math.exp(-flow * 3.5 / 3600))


class Yielding(GmnsTest):
    def limits(self, *words: str, node: str = "", turn: "str | None" = None, links: str = LINKS) -> dict[str, set[int]]:
        """The limits of links in the second quarter of the hour, in thousandths of a vehicle a slot."""
        (self.folder / "net" / "movement.csv").unlink(missing_ok=True)
        more = {} if turn is None else {"movement": MOVEMENTS.format(turn)}
        self.net(links, NODES.format(node), DEMAND, **more)
        case = self.made(*WORDS, *words)
        self.times = {link.name: link.free_ms for link in case.links}
        found: dict[str, set[int]] = {}
        for row in case.signals:
            if row.from_slot >= 240:
                found.setdefault(row.link, set()).add(row.units)
        return found

    def assert_side_yields(self, found: dict[str, set[int]], flow: float = 600) -> None:
        self.assertEqual(set(found), {"side"})
        for units in found["side"]:
            self.assertAlmostEqual(units * 0.72, gap_capacity(flow), delta=4)
        self.assertIn("vehicles on 1 link yield at junctions without lights, by gaps in the counted traffic", self.out)
        self.assertGreater(self.times["side"], 50_000 + 5_000)
        self.assertEqual(self.times["main"], 50_000)

    def test_by_a_sign_of_a_turn(self) -> None:
        for sign in ("stop", "yield"):
            self.assert_side_yields(self.limits(turn=sign))
        self.assertEqual(self.limits(turn=""), {})
        self.assertNotIn("without lights", self.out)

    def test_by_a_sign_of_a_node(self) -> None:
        """The road with less capacity yields. Where movement.csv lists the turns, their own signs count."""
        self.assert_side_yields(self.limits(node="stop"))
        for control in ("signal", "none", ""):
            self.assertEqual(self.limits(node=control), {}, control)
        self.assertEqual(self.limits(node="yield", links=LINKS.replace("900", "1800")), {})
        self.assertIn("1 node with a sign where all links have the same capacity, so that nobody yields", self.out)

    def test_none_is_as_before(self) -> None:
        self.assertEqual(self.limits("--yielding", "none", node="stop", turn="stop"), {})
        self.assertEqual(self.times["side"], 50_000)
        self.assertEqual(self.limits("--turns", "none", turn="stop"), {})

    def test_traffic_by_the_time_of_day(self) -> None:
        """Three times as much in the first half of the hour: then there are fewer gaps."""
        (self.folder / "profile.csv").write_text("from,to,share\n0:00,0:30,0.75\n0:30,1:00,0.25\n")
        words = ("--profile", str(self.folder / "profile.csv"))
        self.net(LINKS, NODES.format(""), DEMAND, movement=MOVEMENTS.format("stop"))
        case = self.made(*WORDS, *words)
        for first, last, flow in ((240, 360, 900), (480, 600, 300)):
            rows = [row for row in case.signals if row.from_slot < last and row.to_slot > first]
            self.assertTrue(rows)
            for row in rows:
                self.assertAlmostEqual(row.units * 0.72, gap_capacity(flow), delta=6)


if __name__ == "__main__":
    unittest.main()
