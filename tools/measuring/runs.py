"""Running a command and reading what it cost: processor time, time by the clock, memory, output."""
import os
import re
import signal
import subprocess
import sys
import tempfile
import threading
import time
from collections.abc import Sequence
from dataclasses import dataclass
from pathlib import Path

from ltm_tools.errors import Fault
from ltm_tools.program import LARGE_PAGES

MEGABYTE = 1024.0  # of the kilobytes that the system tells
LOOK = 0.5  # seconds between two looks at what a run holds
# starts a run and writes its status, seconds by the clock, seconds of processor time and most memory: the system never
# tells less memory of a run than the process held that started it, and this one holds little
STARTING = """\
import os, sys, time
began = time.monotonic()
_, status, used = os.wait4(os.posix_spawnp(sys.argv[2], sys.argv[2:], os.environ), 0)
clock = time.monotonic() - began
with open(sys.argv[1], "w") as told:
    print(os.waitstatus_to_exitcode(status), clock, used.ru_utime + used.ru_stime, used.ru_maxrss, file=told)
"""


@dataclass(frozen=True)
class Cost:
    """What a run cost: seconds of processor time, its own and of all that it started and waited for; the most memory
    that one of these held, in MB; what it wrote; and seconds by the clock."""

    seconds: float
    memory: float
    output: bytes
    clock: float

    @property
    def milliseconds(self) -> float:
        """The processor time in milliseconds."""
        return self.seconds * 1000


@dataclass(frozen=True)
class Limits:
    """How long a run may take, in seconds by the clock, and how much memory it may hold together with all that it
    starts, in MB."""

    clock: float
    memory: float


class PassesLimit(Fault):
    """A run passed one of its limits and was ended."""


def cost_of(
    words: Sequence[str | Path], folder: Path | None = None, script: Path | None = None, limits: Limits | None = None
) -> Cost:
    """Runs a command in a folder, with a file as its standard input; a Fault where it does not end well. With limits
    PassesLimit where it passes one, and its memory is the most that it and all that it started held together, where
    that is more than what one of them held."""
    with (
        tempfile.TemporaryFile() as out,
        tempfile.TemporaryFile() as err,
        tempfile.NamedTemporaryFile() as told,
        open(script or os.devnull, "rb") as given,
    ):
        process = subprocess.Popen(
            [sys.executable, "-I", "-S", "-c", STARTING, told.name, *map(str, words)],
            cwd=folder,
            stdin=given,
            stdout=out,
            stderr=err,
            env={**LARGE_PAGES, **os.environ},
            start_new_session=True,
        )
        held_together = most_held(process, limits)
        out.seek(0)
        err.seek(0)
        status, *numbers = told.read().split() or [str(process.returncode).encode()]
        if int(status):
            said = err.read().decode("utf-8", "replace").strip().splitlines()
            raise Fault(f"{words[0]} ended with status {int(status)}" + (f": {said[-1]}" if said else ""))
        clock, seconds, memory = map(float, numbers)
        return Cost(seconds, max(memory / MEGABYTE, held_together), out.read(), clock)


def most_held(process: subprocess.Popen[bytes], limits: Limits | None) -> float:
    """Waits until a run has ended, and with limits looks at its memory meanwhile: the most that all that it started
    held together, in MB. It is ended, with all that it started, where it passes a limit or the wait is interrupted."""
    most, began = 0.0, time.monotonic()
    try:
        while limits is not None:
            try:
                process.wait(LOOK)
                return most
            except subprocess.TimeoutExpired:
                most = max(most, sum(held(one) for one in started_by(process.pid)[1:]) / MEGABYTE)
            if time.monotonic() - began > limits.clock:
                raise PassesLimit(f"over {limits.clock:,.0f} s")
            if most > limits.memory:
                raise PassesLimit(f"over {limits.memory / MEGABYTE:g} GB")
        process.wait()
        return most
    except BaseException:
        os.killpg(process.pid, signal.SIGKILL)
        process.wait()
        raise


def watched(words: Sequence[str | Path]) -> Cost:
    """Runs a command, shows what it writes on the standard error, and looks twice a second at the memory that it and
    all that it started hold together; a Fault where it does not end well."""
    began, ended, most, lines = time.monotonic(), threading.Event(), [0.0], []
    process = subprocess.Popen([str(word) for word in words], stdout=subprocess.PIPE, env={**LARGE_PAGES, **os.environ})

    def watch() -> None:
        while not ended.wait(LOOK):
            most[0] = max(most[0], sum(held(one) for one in started_by(process.pid)))

    watching = threading.Thread(target=watch)
    watching.start()
    assert process.stdout is not None, "it is piped"
    for line in process.stdout:
        lines.append(line)
        print(line.decode("utf-8", "replace"), end="", file=sys.stderr, flush=True)
    _, status, used = os.wait4(process.pid, 0)
    ended.set()
    watching.join()
    process.stdout.close()
    process.returncode = os.waitstatus_to_exitcode(status)
    if process.returncode:
        raise Fault(f"{words[0]} ended with status {process.returncode}")
    seconds = used.ru_utime + used.ru_stime
    return Cost(seconds, most[0] / MEGABYTE, b"".join(lines), time.monotonic() - began)


def started_by(process: int) -> list[int]:
    """A process, and all that it has started, those started by these too."""
    children: dict[int, list[int]] = {}
    for stat in Path("/proc").glob("[0-9]*/stat"):
        try:
            parent = int(stat.read_text(errors="replace").rpartition(")")[2].split()[1])
        except (OSError, IndexError):
            continue  # it has ended meanwhile
        children.setdefault(parent, []).append(int(stat.parent.name))
    found = [process]
    for one in found:
        found += children.get(one, [])
    return found


def held(process: int) -> float:
    """The memory that a process holds in kilobytes, of pages that several share its part; 0 where it has ended."""
    try:
        found = re.search(r"^Pss:\s+(\d+)", Path(f"/proc/{process}/smaps_rollup").read_text(), re.MULTILINE)
    except OSError:
        return 0.0
    return float(found[1]) if found else 0.0


def least(costs: Sequence[Cost]) -> Cost:
    """The run with the least processor time of several: other work on the machine only adds to it."""
    return min(costs, key=lambda cost: cost.seconds)


def in_turn(commands: Sequence[Sequence[str | Path]], folder: Path, script: Path | None, times: int) -> list[Cost]:
    """The cheapest run of each command, each run so many times and in turn, so that all meet the same machine."""
    rounds = [[cost_of(words, folder, script) for words in commands] for _ in range(times)]
    return [least(costs) for costs in zip(*rounds)]
