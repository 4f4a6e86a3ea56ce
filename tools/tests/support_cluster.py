"""A test that has a cluster of its own, with workers as processes."""
import csv
import json
import os
import signal
import subprocess
import sys
import time
from collections.abc import Callable
from pathlib import Path

from made_session import SweepTest
from support import TOOLS
import commands

START = (
    "import sys; from distributed.cli import dask_scheduler, dask_worker; sys.exit({'scheduler': dask_scheduler,"
    " 'worker': dask_worker}[sys.argv.pop(1)].main())"
)
Process = subprocess.Popen[bytes]
ROWS = "link,from_slot,to_slot,vehicles\na,0,4,32\n"  # limits that are none
WITH_LIMITS = {"setup": "step_ms,slots,origin_capacity,signals,limits\n1000,4,1,1,1\n", "signals": ROWS, "limits": ROWS}


class ClusterTest(SweepTest):
    """A test with a scheduler and workers of its own."""

    def start(self, *words: str, **more: str) -> Process:
        """A scheduler or a worker, which finds no program by itself."""
        env = {**os.environ, "LTM": "", "PATH": str(self.folder), **more}
        process = subprocess.Popen(
            [sys.executable, "-c", START, *words],
            stdout=subprocess.DEVNULL,
            stderr=subprocess.DEVNULL,
            cwd=self.folder,
            env=env,
        )
        self.addCleanup(process.wait)
        self.addCleanup(process.kill)
        return process

    def cluster(self, count: int, **env: str) -> "tuple[str, Process, list[Process]]":
        """The address of a scheduler, the scheduler, and so many workers."""
        file = self.folder / "scheduler.json"
        scheduler = self.start(
            "scheduler", "--port", "0", "--no-dashboard", "--scheduler-file", str(file), "--host", "127.0.0.1", **env
        )
        for _ in range(600):
            if file.exists() and file.read_text().strip().endswith("}"):
                break
            time.sleep(0.1)
        address = str(json.loads(file.read_text())["address"])
        workers = [
            self.start(
                "worker",
                address,
                "--no-nanny",
                "--nthreads",
                "1",
                "--no-dashboard",
                "--name",
                name,
                "--local-directory",
                str(self.folder / name),
            )
            for name in map("w{}".format, range(count))
        ]
        return address, scheduler, workers

    def words(self, scenarios: str, address: str, program: str, case: Path | None = None) -> list[str]:
        """The words of a sweep; its rows go to a file, of which an older one is taken away."""
        (self.folder / "rows.csv").unlink(missing_ok=True)
        return [
            "sweep",
            str(case or self.case(**WITH_LIMITS)),
            scenarios,
            "--scheduler",
            address,
            "--program",
            program,
            "-o",
            str(self.folder / "rows.csv"),
        ]

    def start_sweep(self, *words: str) -> Process:
        """A sweep that tells how far it is."""
        return subprocess.Popen(
            [sys.executable, str(TOOLS / "ltm-tools"), *words, "--progress"], stderr=subprocess.PIPE
        )

    def assertFault(self, part: str, *words: str) -> None:
        status, out, err = commands.run(*words)
        self.assertEqual((status, out, len(err.splitlines())), (1, "", 1), err)
        self.assertIn(part, err)
        self.assertFalse((self.folder / "rows.csv").exists())

    def rows(self, name: str = "rows.csv") -> "list[list[str]]":
        with open(self.folder / name, encoding="utf-8", newline="") as file:
            return list(csv.reader(file))

    def kill_after(self, count: int, process: Process, victim: "Callable[[], int]") -> "tuple[int, int, str]":
        """Kills a process where a sweep tells that so many scenarios are done: at how many that was, the status, and
        what it tells."""
        assert process.stderr is not None
        seen, lost_at = b"", -1
        while sign := process.stderr.read(1):
            seen += sign
            told = seen.rpartition(b"] ")[2].split(b" of ")
            if lost_at < 0 and len(told) == 2 and int(told[0]) >= count:
                os.kill(victim(), signal.SIGKILL)
                lost_at = int(told[0])
        process.stderr.close()
        return lost_at, process.wait(), seen.decode()
