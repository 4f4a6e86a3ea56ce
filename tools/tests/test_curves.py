"""Curve files."""
import unittest

from support import FolderTest
from support_loadings import LOADING
from ltm_tools.errors import Fault
from ltm_tools.loading.curves import Curves, Summed


class CurveFiles(FolderTest):
    def test_counts(self) -> None:
        curves = Curves.of_case(self.case(curves=LOADING))
        self.assertEqual((curves.step_ms, curves.boundaries), (1000, 5))
        self.assertEqual((curves.links, curves.nodes, curves.destinations), (["a"], ["n1", "n2"], ["n2"]))
        self.assertEqual(list(curves.up("a")), [0, 500, 1000, 1000, 1000])
        self.assertEqual(list(curves.down("a", "n2")), [0, 0, 0, 500, 1000])
        self.assertEqual(list(curves.on_link("a")), [0, 500, 1000, 500, 0])
        self.assertEqual(list(curves.departed("n2")), [0, 0, 0, 0, 0])
        self.assertEqual(list(curves.arrived("n2")), [0, 0, 0, 500, 1000])

    def test_sums_over_destinations(self) -> None:
        more = LOADING.replace("down,a,n2", "up,a,n3,0 1 2 3 4\ndown,a,n2")
        curves = Curves.of_case(self.case(curves=more))
        self.assertEqual(list(curves.up("a")), [0, 501, 1002, 1003, 1004])
        summed = Summed(curves)
        for kind, name in (("up", "a"), ("down", "a"), ("dep", "n1"), ("dep", "n2"), ("up", "a")):
            self.assertEqual(list(summed.counts(kind, name)), list(curves.counts(kind, name)))
        self.assertIs(summed.up("a"), summed.up("a"))
        self.assertEqual(list(summed.up("a", "n3")), [0, 1, 2, 3, 4])
        self.assertRaisesRegex(Fault, "no `up` of b", summed.up, "b")

    def test_faults(self) -> None:
        for text, fault in (
            ("", "does not begin with kind,name"),
            (
                LOADING.replace("500 1000 1000 1000\nd", "500 1000 1000\nd", 1),
                "row 2: it has 4 counts, and the case has 5 boundaries",
            ),
            (LOADING.replace("up,a,n2,0 500", "up,a,n2,0 x"), "a count that is no number"),
            (LOADING.replace("up,a", "up,b"), "no `up` of a"),
            (LOADING.replace("up,a", "xx,a"), "row 2: it is no record"),
        ):
            with self.assertRaisesRegex(Fault, fault):
                Curves.of_case(self.case(curves=text)).up("a")

    def test_no_destination(self) -> None:
        curves = Curves.of_case(self.case(curves="kind,name,destination,counts\n"))
        self.assertEqual(list(curves.up("a")), [0, 0, 0, 0, 0])


if __name__ == "__main__":
    unittest.main()
