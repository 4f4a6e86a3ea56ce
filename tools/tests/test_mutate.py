"""A few runs over files that are changed at random, and that what does not end as it should is seen. The program
`mutate.py` makes as many more as are wanted."""
import time
import unittest
from pathlib import Path
from unittest import mock

import mutate
from stage import Run
from support import FolderTest
from ltm_tools.commands import demand
from ltm_tools.errors import Fault

SEED, RUNS = 7, 150
TABLE = Run("demand case --table table.csv", ("d3.min.js",), ("case/demand.csv",))  # that does not read what is changed


class Runs(FolderTest):
    def test_some(self) -> None:
        self.assertEqual(list(mutate.mutations(self.folder, SEED, 0, RUNS)), [], f"seed {SEED}")

    def test_a_run_again(self) -> None:
        one, other = (mutate.Mutations(self.folder / name, SEED) for name in ("one", "other"))
        self.assertEqual([one.plan(number) for number in range(9)], [other.plan(number) for number in range(9)])
        self.assertEqual(len({one.plan(number)[2] for number in range(9)}), 9)

    def seen(self, name: str, body: object) -> str:
        """What is told of two runs in which the demand is read so."""
        with (
            mock.patch.object(demand, "read_amounts", side_effect=body),
            mock.patch.object(mutate, "RUNS", [TABLE]),
            mock.patch.object(mutate, "MOST_SECONDS", 0.5),
        ):
            return "\n".join(bad.why for bad in mutate.mutations(self.folder / name, SEED, 0, 2))

    def test_what_does_not_end_well_is_seen(self) -> None:
        def loop(*_: object) -> None:
            while True:
                pass

        def leave(*_: object) -> None:
            Path("case", f"left{time.monotonic_ns()}").touch()
            raise Fault("it leaves a file")

        for name, body, told in (
            ("error", KeyError("k"), "KeyError: 'k'"),
            ("loop", loop, "it takes more than 0.5 seconds"),
            ("left", leave, "status 1, and it leaves case/left"),
            ("silent", SystemExit(1), "status 1, and 0 lines on the standard error"),
        ):
            self.assertEqual(self.seen(name, body).count(told), 2, name)


if __name__ == "__main__":
    unittest.main()
