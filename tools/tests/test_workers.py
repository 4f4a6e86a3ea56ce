"""Sessions beside workers over a case of wide slots and rows, where a settle calls them: they answer as one without
workers."""
import json
import subprocess
import time
import unittest

from support import BUILT, FolderTest, needs_program
from ltm_tools import edits
from ltm_tools.case import Case, Demand, Link, Setup, Split

NODES = 64  # of a ring, each of them a destination
AHEAD = 3  # from each node a link leads to each of the next so many, so that its row has 904 numbers
SLOTS = 40
FAR = 20  # how many nodes ahead the traffic of each goes
SENT = 2_000  # what each node sends in all
SHUT = 12  # slots in which links are shut


def link(node: int, ahead: int) -> str:
    return f"a{node}_{ahead}"


def ring() -> Case:
    """Each node sends to one that is far ahead, and nobody passes it."""
    nodes, steps = range(NODES), range(1, AHEAD + 1)
    links = [Link(link(k, s), f"n{k}", f"n{(k + s) % NODES}", 20, 36, 18, 150) for k in nodes for s in steps]
    demand = [Demand(f"n{k}", f"n{(k + FAR) % NODES}", 0, SLOTS // 2, SENT) for k in nodes]
    splits = [
        Split(f"n{k}", f"n{(k + far) % NODES}", 0, {link(k, s): s for s in steps if s <= far})
        for k in nodes
        for far in range(1, NODES)
    ]
    return Case(Setup(1000, SLOTS, 1000), links, demand, splits)


def script() -> str:
    """Batches that shut links all around the ring and open them again, each settled; two of them settled at once."""
    settle = [{"do": "settle"}, {"do": "totals"}]
    batches = [
        {"do": "edit", "edits": [edits.limit(link(k, s), 0, SHUT, vehicles) for k in range(0, NODES, 4)]}
        for s in range(1, AHEAD + 1)
        for vehicles in (0, 1000)
    ]
    lines = [line for batch in batches for line in (batch, *settle)] + [batches[0], batches[2], *settle]
    return "".join(json.dumps(line) + "\n" for line in lines)


@needs_program
class Wide(FolderTest):
    def served(self, workers: int) -> list[str]:
        done = subprocess.run(
            [BUILT, "session", str(workers)],
            cwd=self.folder,
            input=script(),
            capture_output=True,
            text=True,
            timeout=120,
        )
        self.assertEqual(done.returncode, 0)
        return done.stdout.splitlines()

    def test_workers_change_no_answer(self) -> None:
        ring().write(self.folder)
        alone = self.served(0)
        self.assertIn("settled version 6", alone[16])
        for workers in (1, 2, 3, 8, 64):
            beside = self.served(workers)
            # where two batches are settled at once, workers may have repaired the first before the second came: more
            # pairs are counted
            self.assertEqual(beside[:20], alone[:20])
            self.assertEqual(beside[21:], alone[21:])

    def test_workers_repair_while_the_editor_waits(self) -> None:
        """Nobody settles: what a batch changes is shown because workers claimed its pairs, worked on them and committed
        them."""
        ring().write(self.folder)
        batch, _, totals = script().splitlines(keepends=True)[:3]
        repaired = self.served(0)[2]
        with subprocess.Popen(
            [BUILT, "session", "2"],
            cwd=self.folder,
            stdin=subprocess.PIPE,
            stdout=subprocess.PIPE,
            text=True,
            bufsize=1,
        ) as session:
            assert session.stdin and session.stdout
            self.addCleanup(session.kill)
            session.stdin.write(batch)
            self.assertEqual(session.stdout.readline(), "accepted version 1\n")
            until = time.monotonic() + 60
            answer = ""
            while answer[:10] != "version 1 " and time.monotonic() < until:
                time.sleep(0.05)
                session.stdin.write(totals)
                answer = session.stdout.readline()
            session.stdin.close()
        self.assertEqual(answer.rstrip(), repaired)


if __name__ == "__main__":
    unittest.main()
