"""The scripts that set assigned routes and closures beside SUMO, on what SUMO and `closures` write, made by hand."""
import importlib
import sys
import unittest
import xml.etree.ElementTree as ElementTree
from fractions import Fraction
from typing import Any
from unittest.mock import patch

from support import EXAMPLES, FolderTest

from ltm_tools.errors import Fault
from ltm_tools.sumo.net import read_net

# two edges in a line, and one back from the middle, with the one turn that goes on
NET = (
    "<net>"
    + "".join(
        f'<edge id="{name}" from="{tail}" to="{head}"><lane id="{name}_0" index="0" speed="10" length="200"/></edge>'
        for name, tail, head in (("in", "A", "B"), ("on", "B", "C"), ("back", "B", "A"))
    )
    + '<connection from="in" to="on" fromLane="0" toLane="0" dir="s" state="M"/></net>'
)
ROUTES = '<routes><vType id="car"/>{}</routes>'
VEHICLE = '<vehicle id="{}" depart="0"><route edges="{}"/></vehicle>'
ASSIGNED = """\
7 links, 1 destinations, 5 periods of 5 minutes
           hours   relative gap    exact gap   not arrived     step  seconds
  0     1,021.60         7.41 %       7.36 %         0.000    3.000     0.17
  1        20.30         1.46 %                      0.000    3.090     0.19
round 2: turns that yield get their part of the green by the traffic of the best iteration
 12        20.00         0.00 %      -0.05 %         0.000    3.183     0.14
/tmp/assigned: iteration 12, 20.00 vehicle hours, relative gap 0.00 %
in the last 3 iterations hours rose by 1.50 % at most
"""
TABLE = """\
link  vehicles  nobody  routes   late  moment  routes   late    half  routes   late    all  routes   late
x      246.902  217.06    0.00  3.000    5.25    5.25  0.000  102.35    4.10  0.500  -4.01   -4.01  0.000
"""


def script(name: str) -> Any:
    """A script of the example as a module."""
    with patch.object(sys, "path", [str(EXAMPLES / "from_sumo"), *sys.path]):
        return importlib.import_module(name)


class Beside(FolderTest):
    def test_turns_that_the_net_does_not_have(self) -> None:
        """Of two vehicles one turns back, and keeps the route that it came with."""
        (self.folder / "n.net.xml").write_text(NET)
        for name, route in (("own", "in on"), ("made", "in back")):
            lines = VEHICLE.format("1", "in on") + VEHICLE.format("2", route)
            (self.folder / f"{name}.xml").write_text(ROUTES.format(lines))
        net = read_net(
            self.folder / "n.net.xml", vehicle_class="passenger", headway=Fraction(113, 100), spacing=Fraction(15, 2)
        )
        made, own, to = (self.folder / name for name in ("made.xml", "own.xml", "to.xml"))
        self.assertEqual(script("assigned").connected(net, made, own, to), 1)
        found = ElementTree.parse(to).getroot()
        self.assertEqual([one.tag for one in found], ["vType", "vehicle", "vehicle"])
        self.assertEqual([one.get("edges") for one in found.iter("route")], ["in on", "in on"])

    def test_the_effects_of_a_closure(self) -> None:
        """Hours and who is late are the first and the last of three columns of each response."""
        closed = script("closed")
        found = closed.effects_of(TABLE, ["x"])["x"]
        self.assertEqual(found["nobody"].text(), "217.06, 3 late")
        self.assertEqual([found[name].text() for name in ("half", "all")], ["102.35", "-4.01"])
        tree = ElementTree.fromstring(closed.rerouter(["a", "b"], "b", 0.5))
        rerouter = tree[0]
        self.assertEqual((rerouter.get("edges"), rerouter.get("probability")), ("a b", "0.5"))
        self.assertEqual([one.get("id") for one in rerouter.iter("closingReroute")], ["b"])

    def test_what_assign_says_of_a_way(self) -> None:
        """The hours and the gap of the best iteration, the rise of the last ones, and the hours of all."""
        methods = script("methods")
        self.assertEqual(methods.told(ASSIGNED), ("20.00", "0.00", "1.50", ["1,021.60", "20.30", "20.00"]))
        with self.assertRaisesRegex(Fault, "which iteration is the best"):
            methods.told("stopped")

    def test_a_way_that_is_done_is_kept(self) -> None:
        """It is worked out once, also by a second run, and told with its other draws."""
        methods, calls = script("methods"), []
        found = methods.Result("20.00", "0.10", "1.50", ["30.00", "31.00", "32.00"], "", ["21.00", "20.00"])
        for _ in range(2):
            town = methods.Town.__new__(methods.Town)
            town.folder, town._assigned = self.folder, lambda name: calls.append(name) or found
            self.assertEqual(town.result("rounds"), found)
        self.assertEqual(calls, ["rounds"])
        row = "| `--rounds 3`, 10 each | 20.00 | 0.10 | 1.50 | 30.00; other draws 31.00 and 32.00 |  |"
        self.assertEqual(methods.table({"rounds": found})[1], row)


if __name__ == "__main__":
    unittest.main()
