"""Curve files read fast: by numpy and without, strictly, and as tables of pandas."""
import unittest
from unittest import mock

from support import FolderTest, needs
from support_loadings import LOADING
from ltm_tools.errors import Fault
from ltm_tools.loading import counts as module
from ltm_tools.loading.curves import Curves

MORE = LOADING.replace("down,a,n2", "up,a,n3,0 1 2 3 4\ndown,a,n2")


class Reading(FolderTest):
    def both_ways(self, text: str | bytes) -> list[int]:
        """What `up` of `a` counts, with numpy where it is there and without."""
        folder = self.case(curves=text)
        found = list(Curves.of_case(folder).up("a"))
        with mock.patch.object(module, "numpy", None):
            self.assertEqual(Curves.of_case(folder).up("a"), found)
        return found

    def test_line_ends_and_quotes(self) -> None:
        for text in (
            MORE,
            MORE.replace("\n", "\r\n"),
            MORE.replace("\n", "\r"),
            MORE.rstrip("\n"),
            MORE.replace("up,a,", 'up,"a",'),
            MORE.replace("up,a,n2,0 500 1000 1000 1000", 'up,a,n2,"0 500 1000 1000 1000"'),
            b"\xef\xbb\xbf" + MORE.encode(),
            MORE.replace("\n", "\n\n"),
        ):
            with self.subTest(text):
                self.assertEqual(self.both_ways(text), [0, 501, 1002, 1003, 1004])

    def test_counts_that_are_none(self) -> None:
        for counts in (
            "0 500  1000 1000",
            "0 500 1000 1000 ",
            " 0 500 1000 1000",
            "0 500 1000 -1000 5",
            "0 500 1000 1e3 5",
            "0 500 1000 1000.0 5",
            "0 1 2 3 281474976710657",
            "0 1 2 3 99999999999999999999",
            "0 1 2 3 +4",
            "0 1 2 3 4\t",
        ):
            with self.subTest(counts), self.assertRaises(Fault):
                self.both_ways(LOADING.replace("0 500 1000 1000 1000", counts, 1))
        self.assertEqual(
            self.both_ways(LOADING.replace("0 500 1000 1000 1000", "0 1 2 3 281474976710656", 1))[4],
            281_474_976_710_656,
        )

    def test_a_record_twice(self) -> None:
        with self.assertRaisesRegex(Fault, "row 3: `up` of a for n2 stands there twice"):
            self.both_ways(LOADING.replace("down,a", "up,a"))

    @needs("python3-pandas")
    def test_pandas(self) -> None:
        curves = Curves.of_case(self.case(curves=MORE))
        frame = curves.to_pandas(["up", "arr"])
        self.assertEqual(list(frame.columns), [("up", "a"), ("arr", "n2")])
        self.assertEqual(list(frame.index), [0, 1000, 2000, 3000, 4000])
        self.assertEqual(frame["up", "a"].tolist(), [0, 501, 1002, 1003, 1004])
        self.assertEqual(curves.to_pandas(by_destination=True)["up", "a", "n3"].tolist(), [0, 1, 2, 3, 4])


if __name__ == "__main__":
    unittest.main()
