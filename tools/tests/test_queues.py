"""The table of queues, on numbers worked by hand."""
import csv
import io
import json
import unittest
from contextlib import redirect_stdout
from unittest import mock

from support import FolderTest
from support_loadings import DATA, read
from ltm_tools import cli
from ltm_tools.case import Case
from ltm_tools.loading import counts as numbers, delay, queues as module
from ltm_tools.loading.queues import Queue, queues, queue_spans


def run(*words: str) -> str:
    with redirect_stdout(io.StringIO()) as written:
        status = cli.run(
            ["queues", str(DATA / "spillback"), "--curves", str(DATA / "spillback" / "curves.csv"), *words]
        )
    assert status == 0
    return written.getvalue()


class Spans(unittest.TestCase):
    def test_spans(self) -> None:
        for counts in (
            [0, 2, 5, 1, 3, 3],
            numbers.zeros(6) + [0, 2, 5, 1, 3, 3] if numbers.numpy else [0, 2, 5, 1, 3, 3],
        ):
            self.assertEqual(list(queue_spans(counts, 2)), [(1, 2), (4, 5)])
            self.assertEqual(list(queue_spans(counts, 6)), [])
            self.assertEqual(list(queue_spans(counts, 0)), [(0, 5)])


class Spillback(unittest.TestCase):
    """On `a` the queue is 300 at boundary 3 and 600, 900 .. 1800 at 8, and from then on 1800; n1 waits from boundary 1
    on, 3200 at 10."""

    def test_all_queues(self) -> None:
        found = self.of_all()
        self.assertEqual(
            found,
            [
                Queue("link", "a", 3, 16, True, 1800, 8, 3000, 20_700_000),
                Queue("origin", "n1", 1, 16, True, 3200, 10, None, 29_000_000),
            ],
        )
        with mock.patch.object(numbers, "numpy", None), mock.patch.object(delay, "numpy", None), mock.patch.object(
            module, "numpy", None
        ):
            self.assertEqual(self.of_all(), found)

    def of_all(self) -> list[Queue]:
        case, found = read("spillback")
        return queues(found, case, 1)

    def test_least(self) -> None:
        # 1000 and more wait at n1 from boundary 5 on: 29.0 less 0.2 + 0.4 + 0.6 + 0.8 = 27.0 vehicle seconds
        case, found = read("spillback")
        self.assertEqual(queues(found, case, 1000)[1], Queue("origin", "n1", 5, 16, True, 3200, 10, None, 27_000_000))
        self.assertEqual([queue.name for queue in queues(found, case, 1801)], ["n1"])

    def test_a_link_with_its_turns(self) -> None:
        # b stores 20 m of 60 vehicles/km, and has no queue of its own
        case, found = read("spillback")
        self.assertEqual(
            queues(found, case, 1, {"x": ("a", "b"), "y": ("none",)})[0],
            Queue("link", "x", 3, 16, True, 1800, 8, 3000 + 1200, 20_700_000),
        )
        self.assertEqual(queues(found, case, 1, {"a": ("b", "a")})[0].storage, 4200)

    def test_text(self) -> None:
        lines = run("--least", "0.001", "--start", "7:00").splitlines()
        self.assertEqual(lines[2].split(), ["origin", "n1", "7:00:01", "...", "3.200", "7:00:10", "29.00"])
        self.assertEqual(lines[3].split(), ["link", "a", "7:00:03", "...", "1.800", "7:00:08", "60.0", "%", "20.70"])
        self.assertEqual(lines[4], "delay of these 49.70, of all 49.70: 20.70 in queues of links, 29.00 at origins")

    def test_csv_and_json(self) -> None:
        rows = list(csv.DictReader(io.StringIO(run("--least", "0.001", "--format", "csv", "--start", "7:00"))))
        self.assertEqual(
            rows[1],
            {
                "kind": "link",
                "name": "a",
                "from_ms": "25203000",
                "to_ms": "25216000",
                "lasts": "1",
                "worst": "1.800",
                "worst_ms": "25208000",
                "storage": "3.000",
                "delay": "20.700000",
            },
        )
        told = json.loads(run("--least", "0.001", "--format", "json"))
        self.assertEqual(
            [(row["name"], row["delay"], row["storage"]) for row in told], [("n1", 29.0, None), ("a", 20.7, 3.0)]
        )


class Dissolved(FolderTest):
    """Road `a` takes a second to drive: its queue is 0, 0.7, 1.1, 0.3 and 0 vehicles at boundaries 1 to 5, and 0.4 wait
    at n1 at 1 alone."""

    step_ms, boundaries = 1000, 6

    def up(self, link: str) -> list[int]:
        return [0, 1000, 2000, 2000, 2000, 2000]

    def down(self, link: str) -> list[int]:
        return [0, 0, 300, 900, 1700, 2000]

    def departed(self, node: str) -> list[int]:
        return [0, 600, 2000, 2000, 2000, 2000] if node == "n1" else [0] * 6

    def test_what_is_below_the_least_is_no_part_of_a_queue(self) -> None:
        case = Case.read(
            self.case(
                links="link,from,to,length_m,free_kmh,wave_kmh,jam_per_km\na,n1,n2,10,36,18,150\n",
                setup="step_ms,slots,origin_capacity\n1000,5,1\n",
                demand="origin,destination,from_slot,to_slot,vehicles\nn1,n2,0,2,2\n",
            )
        )
        self.assertEqual(queues(self, case, 500), [Queue("link", "a", 2, 3, False, 1100, 3, 1500, 1_800_000)])
        self.assertEqual(
            [(queue.kind, queue.first, queue.last, queue.delay) for queue in queues(self, case, 1)],
            [("link", 2, 4, 2_100_000), ("origin", 1, 1, 400_000)],
        )


if __name__ == "__main__":
    unittest.main()
