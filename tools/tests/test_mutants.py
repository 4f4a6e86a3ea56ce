"""The files of a case of a city, changed at random: the setup with its columns, the matrix and its profile. The second
reader and the program refuse the same of them by the same line, and take the same.

A run of the gate asks about some hundreds; LTM_MUTANTS=20000 about as many more as are wanted.
"""
import os
import random
import unittest
from collections.abc import Sequence
from pathlib import Path

from mutate import mutated
from support import FolderTest, needs_program
from support_refused import due, told
from ltm_tools.formats import MATRIX, MOST_SHARE, PROFILE, SETUP, SETUP_MORE, SPLITS, short_vehicles

MUTANTS = int(os.environ.get("LTM_MUTANTS", "600"))  # how many changed cases the program is asked about
BASE = Path(__file__).resolve().parent / "data" / "delay" / "base"
SLOTS = 12
PAIRS = (("n1", "n3"), ("n1", "n4"), ("n2", "n3"), ("n2", "n4"), ("n2", "n5"), ("n4", "n5"))  # the last has no route
LINKS = (BASE / "links.csv").read_bytes() + b"e,n2,n5,20,36,18,150\n"
FILES = ("setup", "demand", "profile")  # that are changed


def text(header: Sequence[str], rows: Sequence[Sequence[object]]) -> bytes:
    """A file with this header and these records."""
    return "".join(",".join(map(str, row)) + "\n" for row in (header, *rows)).encode()


def setup_at_random(pick: random.Random) -> bytes:
    """A setup with some of its columns, most of them those of a city; one in 25 of its bounds is about what the case
    has, or what none may ask for."""
    often = ("rows", "destinations", "history", "routes")
    columns = [column for column in SETUP_MORE if pick.random() < (0.7 if column in often else 0.2)]
    keeps_none = "history" in columns and pick.random() < 0.5
    asked = {
        "cells": ((54_000_000, 4_294_967_295), (1, 1479, 1480, 4_294_967_296)),
        "rows": ((100, 8_000_000 if keeps_none else 500_000), (4, 6, 12, 500_001, 8_000_001)),
        "links": ((5, 40_000 if keeps_none else 16_000), (3, 4, 16_001, 40_001)),
        "destinations": ((3, 2_000 if keeps_none else 256), (1, 2, 257, 2_001)),
        "history": ((0,) if keeps_none else (1,), (0, 1, 2)),
        "signals": ((0,), (2,)),
        "limits": ((0,), (2,)),
    }
    fields = [pick.choice(asked.get(name, ((0, 1), (2,)))[pick.random() < 0.04]) for name in columns]
    return text((*SETUP, *columns), [(1000, SLOTS, 1, *fields)])


def profile_at_random(pick: random.Random) -> bytes:
    """Slices in order and apart, most of them side by side; a few go past the horizon or have a share that none may."""
    ends = sorted(pick.sample(range(SLOTS + 1 + (pick.random() < 0.05)), pick.randrange(2, SLOTS + 1)))
    spans = [span for span in zip(ends, ends[1:]) if pick.random() < 0.9]
    shares = (1, 1, 2, 3, 7, 1000, MOST_SHARE) if pick.random() < 0.9 else (1, 1, 1, 0, MOST_SHARE + 1)
    return text(PROFILE, [(*span, pick.choice(shares)) for span in spans])


def matrix_at_random(pick: random.Random) -> bytes:
    """Records of a matrix, some of the same ends twice."""
    amounts = (0, 1, 2, 5, 999, 4000, 12_345)
    ends = PAIRS if pick.random() < 0.1 else PAIRS[:-1]
    pairs = [(*pick.choice(ends), short_vehicles(pick.choice(amounts))) for _ in range(pick.randrange(6))]
    return text(MATRIX, pairs)


def splits_at_random(pick: random.Random) -> bytes:
    """Splits of the base, or a header alone, which is enough where routes are asked for, or a row that leads astray."""
    rows = [[], [], [("n1", "n3", 0, "a=1"), ("n2", "n3", 0, "e=1 b=1")], [("n2", "n5", 0, "b=1 e=1")]]
    if pick.random() < 0.2:
        return text(SPLITS, pick.choice(rows))
    return (BASE / "splits.csv").read_bytes() + b"n2,n5,0,e=1\n"


@needs_program
class Mutants(FolderTest):
    def test_changed_at_random(self) -> None:
        """Of each case one file is changed, the setup, the matrix or the profile, and of one in ten two are."""
        pick, seen, differing, taken = random.Random(93), set(), 0, 0
        (self.folder / "links.csv").write_bytes(LINKS)
        for number in range(MUTANTS):
            made = {
                "setup": setup_at_random(pick),
                "demand": matrix_at_random(pick),
                "profile": profile_at_random(pick),
                "splits": splits_at_random(pick),
            }
            for file in pick.sample(FILES, 2 if pick.random() < 0.1 else 1):
                made[file] = mutated("", made[file], pick)
            for file, data in made.items():
                (self.folder / f"{file}.csv").write_bytes(data)
            word = pick.choice(("load", "load", "routes"))
            said = due(self.folder, word)
            answer = told(self.folder, word)
            with self.subTest(number, word=word, **made):
                self.assertEqual(answer, said)
            differing += answer != said
            taken += said[0] == 0
            words = said[1].split()
            seen.add((said[0], *words[2:3], *words[5:7]) if said[0] == 6 else said[:1])
        self.assertEqual(differing, 0)
        self.assertGreater(len(seen), 20, seen)
        self.assertGreater(taken, MUTANTS // 40)


if __name__ == "__main__":
    unittest.main()
