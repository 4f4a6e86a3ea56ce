"""Sessions for whose next answer there is no memory: they end, with the answers that were written and a status of their
own."""
import json
import resource
import subprocess
import unittest

from support import BUILT, FolderTest, needs_program
from ltm_tools import edits
from ltm_tools.case import Case, Demand, Link, Setup, Split

LINKS = 250  # one behind another
SLOTS = 40
LONGER = 9_000  # slots that with these links take more memory than is left
LEFT = 64 << 20  # bytes of addresses that the program may have: enough to open the case beside two workers
NO_MEMORY = 9


def road() -> Case:
    links = [Link(f"a{k}", f"n{k}", f"n{k + 1}", 20, 36, 18, 150) for k in range(LINKS)]
    splits = [Split(f"n{k}", f"n{LINKS}", 0, {f"a{k}": 1}) for k in range(LINKS)]
    return Case(Setup(1000, SLOTS, 1000), links, [Demand("n0", f"n{LINKS}", 0, SLOTS // 2, 2_000)], splits)


def script() -> str:
    """A batch that is made and settled, so that workers stand ready, and one for which there is no memory."""
    shut = {"do": "edit", "edits": [edits.limit("a7", 0, SLOTS, 0)]}
    lines = [shut, {"do": "settle"}, {"do": "edit", "edits": [edits.horizon(LONGER)]}, {"do": "totals"}]
    return "".join(json.dumps(line) + "\n" for line in lines)


@needs_program
class Short(FolderTest):
    def served(self, workers: int, left: int | None = None) -> tuple[int, list[str]]:
        def shorten() -> None:
            if left is not None:
                resource.setrlimit(resource.RLIMIT_AS, (left, left))

        done = subprocess.run(
            [BUILT, "session", str(workers)],
            cwd=self.folder,
            input=script(),
            capture_output=True,
            text=True,
            timeout=60,
            preexec_fn=shorten,
        )
        return done.returncode, done.stdout.splitlines()

    def test_a_session_without_memory_ends_its_workers(self) -> None:
        road().write(self.folder)
        status, answers = self.served(0)
        self.assertEqual((status, answers[2]), (0, "accepted version 2"))
        for workers in (0, 1, 2):
            with self.subTest(workers=workers):
                self.assertEqual(self.served(workers, LEFT), (NO_MEMORY, answers[:2]))


if __name__ == "__main__":
    unittest.main()
