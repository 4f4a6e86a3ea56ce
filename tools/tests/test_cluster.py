"""Sweeps on a cluster of Dask with a made session: the rows are those of one machine, whoever is lost; what goes wrong
is one line."""
import socket
import unittest

import commands
from made_session import row_of
from support import BUILT, EXAMPLES, needs_dask, needs_program
from support_cluster import ClusterTest
from support_sweep import random_scenarios
from ltm_tools import edits
from ltm_tools.case import Case
from ltm_tools.sweep.scenarios import result_header


@needs_dask
class Made(ClusterTest):
    def test_a_worker_is_lost(self) -> None:
        scenarios, rows = self.many(205)
        address, _, workers = self.cluster(2)
        process = self.start_sweep(*self.words(scenarios, address, self.session(0.02)))
        lost_at, status, told = self.kill_after(40, process, self.first_asker)
        self.assertEqual(status, 0, told[-500:])
        self.assertTrue(40 <= lost_at < 190, told)
        self.assertEqual(sorted(worker.poll() is None for worker in workers), [False, True])
        self.assertEqual(self.rows(), [result_header([]), *rows])
        self.assertGreater(told.count(" of 205"), 9)  # pieces are run in order
        self.assertTrue(told.endswith(" second \n") and told.rpartition("] ")[2].startswith("205 of 205,"), told)
        self.assertEqual(self.log().count("opened"), 2)  # each worker's, kept open

    def test_the_scheduler_is_lost(self) -> None:
        address, scheduler, _ = self.cluster(1)
        process = self.start_sweep(*self.words(self.many(205)[0], address, self.session(0.02)))
        _, status, told = self.kill_after(40, process, lambda: scheduler.pid)
        self.assertEqual(
            (status, told.rpartition("\r")[2].splitlines()[1:]),
            (1, [f"ltm-tools sweep: the scheduler {address} was lost, and with it what was not done"]),
        )
        self.assertFalse((self.folder / "rows.csv").exists())

    def test_no_scheduler(self) -> None:
        with socket.socket() as free:
            free.bind(("127.0.0.1", 0))
            closed = f"tcp://127.0.0.1:{free.getsockname()[1]}"
        for address in (closed, "nonsense", "tcp://nowhere.invalid:8786"):
            self.assertFault(
                f"the scheduler {address} does not answer: ", *self.words(self.scenarios([]), address, self.session())
            )

    def test_two_sweeps_at_once(self) -> None:
        """On one worker, of the same number of scenarios: each gets its own rows."""
        address, _, _ = self.cluster(1)
        program, made = self.session(0.01), [edits.exit_limit("a", 0, 1, 5)]
        scenarios, rows = self.many(45)
        started = [
            self.start_sweep(*self.words(path, address, program), "-o", str(self.folder / name))
            for path, name in ((scenarios, "one.csv"), (self.scenarios(*[[made]] * 45), "rows.csv"))
        ]
        for sweep in started:
            sweep.communicate()
            self.assertEqual(sweep.returncode, 0)
        self.assertEqual(self.rows("one.csv")[1:], rows)
        self.assertEqual(self.rows()[1:], [row_of(number, f"s, {number}", made) for number in range(1, 46)])

    def test_one_sweep_after_another(self) -> None:
        """On one worker: another program at the same place, what goes wrong there, and at last a scenario that kills
        it."""
        address, _, _ = self.cluster(1, DASK_DISTRIBUTED__SCHEDULER__ALLOWED_FAILURES="0")
        scenarios, rows = self.many(9)
        program = self.session()
        for more in (0, 0, 1):
            if more:
                program = self.session(more=more)
            self.assertEqual(commands.run(*self.words(scenarios, address, program)), (0, "", ""))
            self.assertEqual(
                [row[4] for row in self.rows()[1:]], [row[4] and f"{float(row[4]) + more / 1000:.3f}" for row in rows]
            )
        self.assertEqual(self.log(), ["opened", "closed", "opened"])
        self.assertEqual(commands.run(*self.words(scenarios, address, program), "--links", "a"), (0, "", ""))
        self.assertEqual(
            [row[8:] for row in self.rows()],
            [["in:a", "out:a"], *([row[4] and "1.000", row[4]] for row in self.rows()[1:])],
        )
        once = self.scenarios(*([[edits.limit(link, 0, 1, 1)]] for link in ("a", "once")))
        self.assertEqual(commands.run(*self.words(once, address, program)), (0, "", ""))
        ends = self.scenarios(*([[edits.limit(link, 0, 1, 1)]] for link in ("a", "end")))
        status, out, err = commands.run(*self.words(ends, address, program))
        self.assertEqual((status, out, err), (0, "", "ltm-tools sweep: 1 scenario of 2 failed: their rows say why\n"))
        self.assertRegex(self.rows()[2][2], "failed: .*: ltm session 0 ended with status 9: no answer")
        self.assertFault(
            "refused link UnknownName",
            *self.words(scenarios, address, self.session(refuses_links=True)),
            "--links",
            "a",
        )
        self.assertFault("the program ltm is not built", *self.words(scenarios, address, str(self.folder / "nowhere")))
        self.assertEqual(commands.run(*self.words(scenarios, address, self.session())), (0, "", ""))
        self.assertEqual(self.rows(), [result_header([]), *rows])
        self.assertFault(
            "too many workers were lost",
            *self.words(self.scenarios([[edits.limit("kill", 0, 1, 1)]]), address, program),
        )


@needs_program
@needs_dask
class Proved(ClusterTest):
    def test_a_worker_is_lost(self) -> None:
        """The rows are those of one machine."""
        case = EXAMPLES / "closures"
        path = str(random_scenarios(self.folder / "scenarios.jsonl", 1000, Case.read(case), 2))
        self.assertEqual(
            commands.run("sweep", str(case), path, "--program", str(BUILT), "-o", str(self.folder / "here.csv")),
            (0, "", ""),
        )
        address, _, workers = self.cluster(2)
        lost_at, status, told = self.kill_after(
            100, self.start_sweep(*self.words(path, address, str(BUILT), case)), lambda: workers[0].pid
        )
        self.assertEqual(status, 0, told[-500:])
        self.assertTrue(100 <= lost_at < 900, told)
        self.assertIsNone(workers[1].poll())
        self.assertEqual((self.folder / "rows.csv").read_bytes(), (self.folder / "here.csv").read_bytes())
        self.assertEqual([row[0] for row in self.rows()[1:]], [str(number) for number in range(1, 1001)])


if __name__ == "__main__":
    unittest.main()
