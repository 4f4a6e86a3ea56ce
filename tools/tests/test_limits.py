"""Tests of tools/limits: that all places of each limit agree, and that it sees where one does not, or is not listed."""
import shutil
import unittest
from pathlib import Path

from support import CLONE, FolderTest, script

limits = script("limits")


class Limits(FolderTest):
    def setUp(self) -> None:
        super().setUp()
        files = {limits.BOUNDS, limits.FORMATS, *(file for places in limits.LIMITS.values() for file, _ in places)}
        for file in files:
            (self.folder / file).parent.mkdir(parents=True, exist_ok=True)
            shutil.copy(CLONE / file, self.folder / file)

    def change(self, file: str, old: str, new: str) -> None:
        path = self.folder / file
        text = path.read_text(encoding="utf-8")
        self.assertIn(old, text)
        path.write_text(text.replace(old, new), encoding="utf-8")

    def test_all_places_agree(self) -> None:
        self.assertEqual(limits.faults(CLONE), [])
        self.assertEqual(limits.faults(self.folder), [])

    def test_one_that_differs(self) -> None:
        self.change(limits.FORMATS, "MOST_LINKS_NO_HISTORY = 40_000", "MOST_LINKS_NO_HISTORY = 32_000")
        line = next(
            number
            for number, text in enumerate((self.folder / limits.FORMATS).read_text().splitlines(), 1)
            if "LINKS_NO_HISTORY" in text
        )
        self.assertEqual(
            limits.faults(self.folder),
            [f"most_links is 40000 in {limits.BOUNDS}, and 32000 in {limits.FORMATS} line {line}"],
        )
        self.change("crates/ltm_session/src/script.rt", "LONGEST_LINE: u32 = 65_536", "LONGEST_LINE: u32 = 65_537")
        self.assertIn(
            f"longest_line is 65537 in crates/ltm_session/src/script.rt, and 65536 in {limits.FORMATS} line",
            "\n".join(limits.faults(self.folder)),
        )

    def test_what_follows_from_one(self) -> None:
        self.change(limits.BOUNDS, "most_nodes = 80000", "most_nodes = 80001")
        self.assertEqual(limits.faults(self.folder), ["most_nodes is 80001, and 2 * most_links is 80000"])
        self.assertIn("  most_nodes, which is 2 * most_links", limits.told_of(CLONE, "most_links"))

    def test_what_is_not_listed(self) -> None:
        self.change(
            limits.BOUNDS, "most_links = 40000", "most_links = 40000\n\nabbrev pub most_lanes : N\nmost_lanes = 9"
        )
        self.change(
            "crates/ltm_scenario/src/batch.rt", "const MOST_EDITS", "const MOST_SHIFTS: u8 = 7;\nconst MOST_EDITS"
        )
        self.change(limits.FORMATS, "MOST_WORKERS =", "MOST_TURNS = 12\nMOST_WORKERS =")
        self.assertEqual(
            limits.faults(self.folder),
            [
                f"{one} is no limit that tools/limits lists: give it a line there"
                for one in (
                    f"{limits.BOUNDS}: most_lanes",
                    "crates/ltm_scenario/src/batch.rt: MOST_SHIFTS",
                    f"{limits.FORMATS}: MOST_TURNS",
                )
            ],
        )

    def test_a_place_that_is_gone(self) -> None:
        self.change("docs/FORMATS.md", "A script has at most", "A script may have")
        self.assertRaisesRegex(
            limits.Fault, "docs/FORMATS.md: no such place: A script has at most #", limits.faults, self.folder
        )

    def test_what_is_told(self) -> None:
        told = limits.told_of(CLONE, "longest_file")
        self.assertEqual(
            told[:2],
            ["longest_file is 16,777,216", f"  {limits.BOUNDS} line {limits.bounds(CLONE)['longest_file'].line}"],
        )
        self.assertIn("  crates/ltm_casefile/src/fetch.rt", told)
        self.assertRaisesRegex(limits.Fault, "there is no limit most_lanes", limits.told_of, CLONE, "most_lanes")
        self.assertEqual(len(limits.table(CLONE)), 1 + len(limits.rooms(CLONE)))
        self.assertFalse(any(Path(file).is_absolute() for places in limits.LIMITS.values() for file, _ in places))


if __name__ == "__main__":
    unittest.main()
