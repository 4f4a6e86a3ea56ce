"""No number that was measured stands in two documents, where one of them would go stale.

Held here are decimals of four digits and more, and those of three digits with a unit behind them, without the zeros
around them; shorter ones meet by chance. A number within an output that a test runs cannot go stale, nor can the words
of the same document about it; so two documents may show the same output."""
import re
import unittest
from collections import defaultdict
from collections.abc import Iterator, Mapping
from pathlib import Path

import support_documents as documents
from support import CLONE
from support_documents import DOCUMENTS

DECIMAL = re.compile(
    r"(?<![\w.,/:#-])(\d[\d,]*\.\d+)(?![\w.]*\.\d|\w)(?: (vehicle hours|vehicle seconds|hours|h|s|ms|MB)(?!\w))?"
)
HISTORY = {"CHANGELOG.md", "DECISIONS.md"}
"""What was measured then, and when, is said there."""
EXCEPT = {
    "215.56": "the town's hours with links as a whole, with which the table of ASSIGN begins",
    "226.80": "SUMO's hours of the town, with which tables of several pages compare",
    "293.86": "the same, microscopic",
    "208.13": "the town's hours by the default import, likewise",
    "710.21": "SUMO's hours of Bologna with the vehicles of a case, likewise",
    "831.96": "the same, microscopic",
    "217.06": "what closing a road of the town costs, which the tutorial prints and a table of ASSIGN begins with",
    "50.007": "two roads of two examples have the same density",
}


def numbers(text: str) -> set[str]:
    """The numbers of a text that are held here, without commas."""
    found = set()
    for number, unit in DECIMAL.findall(text):
        digits = len(re.sub(r"[,.]", "", number).strip("0"))
        if digits >= (3 if unit else 4):
            found.add(number.replace(",", ""))
    return found


def parts(text: str) -> tuple[set[str], set[str]]:
    """The numbers of a document that may go stale, and those within outputs that a test runs."""
    lines = text.splitlines()
    run = set()
    for block in documents.blocks(text):
        if not block.reason:
            run |= numbers("\n".join(block.lines))
            lines[block.line - 1 : block.line - 1 + len(block.lines)] = [""] * len(block.lines)
    return numbers("\n".join(lines)) - run, run


def twice(texts: Mapping[str, str]) -> Iterator[tuple[str, list[str]]]:
    """The numbers that may go stale in one document and stand in another, with all documents that have them."""
    stale, any_of = defaultdict(set), defaultdict(set)
    for name, text in texts.items():
        own, run = parts(text)
        for number in own:
            stale[number].add(name)
        for number in own | run:
            any_of[number].add(name)
    for number in sorted(stale, key=float):
        if len(any_of[number]) > 1:
            yield number, sorted(any_of[number])


class Numbers(unittest.TestCase):
    maxDiff = None

    def test_none_stands_in_two_documents(self) -> None:
        texts = {str(path.relative_to(CLONE)): path.read_text(encoding="utf-8") for path in read()}
        found = dict(twice(texts))
        self.assertEqual({number: names for number, names in found.items() if number not in EXCEPT}, {})
        self.assertEqual(set(EXCEPT) - set(found), set(), "no longer needed")

    def test_what_is_found(self) -> None:
        one = "It takes 1,215.56 hours, 3.25 s and 0.50 s.\n\n    $ ltm load\n    arrived 17.125\n\nSo 17.125 arrive.\n"
        self.assertEqual(parts(one), ({"1215.56", "3.25"}, {"17.125"}))
        for other, found in (
            ("    $ ltm load\n    arrived 17.125\n", []),
            ("So 17.125 arrive, and 3.25.\n", ["17.125"]),
            ("<!-- not run: it takes minutes -->\n\n    $ ltm load\n    arrived 17.125\n", ["17.125"]),
            ("    $ ltm delay\n    spent 1215.56\n", ["1215.56"]),
        ):
            self.assertEqual([number for number, _ in twice({"one": one, "other": other})], found, other)


def read() -> list[Path]:
    return [path for path in (*DOCUMENTS, CLONE / "CONTRIBUTING.md") if path.name not in HISTORY]


if __name__ == "__main__":
    unittest.main()
