"""Scenarios on a cluster of Dask: each worker keeps a session of the case open, and a lost worker's scenarios run again
elsewhere."""
from __future__ import annotations

import asyncio
import concurrent.futures
import hashlib
import logging
import os
import tempfile
import threading
import zipfile
from collections.abc import Callable, Iterator, Sequence
from pathlib import Path
from typing import Any

from ..case import Case
from ..case.fields import fetch
from ..case.matrix import is_matrix
from ..errors import Fault
from ..program import find_program
from .here import Found, Kept
from .scenarios import Row, Runner, SweepScenario

PACKAGE = Path(__file__).resolve().parents[1]
# how often a piece is run again where it went wrong, as without memory; where its worker is lost the scheduler does so
TRIES = 3
QUIET = ("asyncio", "distributed.client")  # loggers

Place = tuple[str, str, int]  # a case with what is asked of it; the program, and when it was written

_kept: dict[int, tuple[Place, Any]] = {}  # in a worker: of each thread the one session that it keeps open
_folders: dict[str, "tempfile.TemporaryDirectory[str]"] = {}
_lock = threading.Lock()


def case_bytes(folder: str) -> dict[str, bytes]:
    """The files of a case."""
    setup = Case.read(folder).setup
    files = [
        "setup",
        "links",
        "demand",
        "splits",
        *(["signals"] if setup.signals else []),
        *(["limits"] if setup.limits else []),
    ]
    found = {file: fetch(folder, file) for file in files}
    return {**found, "profile": fetch(folder, "profile")} if is_matrix(found["demand"]) else found


def case_files(files: dict[str, bytes]) -> dict[str, bytes]:
    """The files of the case, as a worker gets them: a task, so that they are sent again where the worker that has them
    is lost."""
    return files


def run_piece(
    piece: Sequence[tuple[int, str, list[list[dict[str, object]]]]],
    files: dict[str, bytes],
    key: str,
    program: str,
    links: Sequence[str],
    delay: bool,
) -> list[Row]:
    """In a worker: the rows of results of a piece, by the session that is open there."""

    def work() -> list[Row]:
        runner = kept_of(files, key, program, lambda folder, path: Runner(folder, path, links, delay))
        return [runner.run(SweepScenario(*scenario)) for scenario in piece]

    return in_worker(work)


def in_worker(work: Callable[[], Found]) -> Found:
    """In a worker: what work gives. Whatever is wrong is a plain Fault, which can be sent; the session that is open is
    ended then, so that the next piece opens one anew."""
    try:
        return work()
    except BaseException as error:
        end_session()
        if not isinstance(error, Exception):
            raise
        raise Fault(
            str(error) if isinstance(error, Fault) else f"a worker failed: {type(error).__name__}: {error}"
        ) from None


def kept_of(files: dict[str, bytes], key: str, program: str, make: Callable[[str, Path], Kept]) -> Kept:
    """In a worker: what this thread keeps open for a case, a question of it and a program; for others it is ended."""
    path = worker_program(program)
    place = (key, str(path), path.stat().st_mtime_ns)
    kept = _kept.get(threading.get_ident())
    if kept is None or kept[0] != place:
        end_session()
        kept = _kept[threading.get_ident()] = place, make(folder_of(files, key), path)
    found: Kept = kept[1]
    return found


def worker_program(program: str) -> Path:
    """In a worker: the program, at the path that it has on the command's machine, or as this machine has it."""
    return Path(program) if os.access(program, os.X_OK) else find_program()


def end_session() -> None:
    """In a worker: ends the session of this thread, if there is one."""
    kept = _kept.pop(threading.get_ident(), None)
    if kept is not None:
        try:
            kept[1].close()
        except Fault:
            pass  # nobody asks it any more


def folder_of(files: dict[str, bytes], key: str) -> str:
    """In a worker: the folder of the case, written once."""
    with _lock:
        if key not in _folders:
            made = tempfile.TemporaryDirectory(prefix="ltm_sweep_")
            for file, data in files.items():
                (Path(made.name) / f"{file}.csv").write_bytes(data)
            _folders[key] = made
        return _folders[key].name


def package_zip(folder: str) -> str:
    """This package as a file that workers import."""
    path = os.path.join(folder, "ltm_tools_of_sweep.zip")
    with zipfile.ZipFile(path, "w") as file:
        for module in sorted(PACKAGE.rglob("*.py")):
            file.write(module, f"ltm_tools/{module.relative_to(PACKAGE).as_posix()}")
    return path


def there(
    address: str,
    folder: str,
    named: str | None,
    links: Sequence[str],
    delay: bool,
    pieces: Sequence[Sequence[SweepScenario]],
) -> Iterator[list[Row]]:
    """The rows of results of each piece, in order, by the workers of a cluster."""
    return spread(
        address,
        folder,
        named,
        run_piece,
        [[tuple(scenario) for scenario in piece] for piece in pieces],
        (list(links), delay),
    )


def spread(
    address: str, folder: str, named: str | None, run: Callable[..., Any], pieces: Sequence[Any], asked: tuple[Any, ...]
) -> Iterator[Any]:
    """What `run` gives of each piece, in order, by the workers of a cluster. It is called with the piece, the files of
    the case, their key, the program and what else is asked."""
    import distributed

    library: Any = distributed  # which has types for some of its calls alone
    files = case_bytes(folder)
    key = hashlib.sha256(repr((sorted(files.items()), asked)).encode()).hexdigest()
    with client_of(library, address) as client, tempfile.TemporaryDirectory() as made:
        client.upload_file(package_zip(made))
        held = client.submit(case_files, files, key=f"ltm-case-{key}", retries=TRIES)
        try:
            program = str(find_program(named))
        except Fault:
            program = named or ""
        futures = [
            client.submit(run, piece, held, key, program, *asked, pure=False, retries=TRIES, priority=-place)
            for place, piece in enumerate(pieces)
        ]
        for future in futures:
            try:
                found = future.result()
            except library.KilledWorker:
                raise Fault("too many workers were lost: a piece of the work was on each of them") from None
            except (OSError, asyncio.CancelledError, concurrent.futures.CancelledError):
                raise Fault(f"the scheduler {address} was lost, and with it what was not done") from None
            future.release()
            yield found


def client_of(library: Any, address: str) -> Any:
    """A client of the scheduler; a Fault where none answers. What the library would log of that is told by Faults."""
    for name in QUIET:
        logging.getLogger(name).setLevel(logging.CRITICAL)
    try:
        library.comm.resolve_address(address)
        return library.Client(address, timeout=10, set_as_default=False)
    except (OSError, ValueError, asyncio.TimeoutError) as error:
        why = (str(error).splitlines() or ["it took too long"])[0]
        raise Fault(f"the scheduler {address} does not answer: {why}") from None
