"""A session of the program over a pipe: a line to it, and a line back.

    with Session("examples/closures", workers=2) as session:
        session.edit(edits.limit("west_north", 60, 90, 0))
        version, recomputed = session.settle()
        print(vehicles_text(session.totals().arrived))

Amounts come back as whole thousandths of a vehicle, times as whole milliseconds.
"""
import json
import os
import subprocess
from collections.abc import Callable, Mapping
from types import TracebackType
from typing import TYPE_CHECKING, TypeVar, overload

from ..case import Case
from ..case.history import check_history_of
from ..case.refusals import why_refused
from ..errors import Fault
from ..files import shown
from ..formats import MOST_EDITS, MOST_LINE_BYTES, MOST_WORKERS, told_time, told_units, whole_of
from ..loading.answers import (
    AllDelays,
    Delays,
    Gap,
    LinkCurve,
    LinkQueue,
    LinkTime,
    Names,
    OriginCurve,
    OriginQueue,
    LinkTotals,
    Sampled,
    Settled,
    State,
    Totals,
    all_delays_of,
    gap_of,
    link_curve_of,
    origin_curve_of,
    sampled_of,
    state_of,
    totals_of,
)
from ..program import nothing_told, start
from .edits import Edit, Told, told_of

if TYPE_CHECKING:
    from ..loading.compare import Comparison

Answer = TypeVar("Answer")


class Refused(Fault):
    """The session refused a line. `cause` is its word for why, as `UnknownName`; `edit` is the first edit that is
    refused, counted from 1, and 0 where it is no edit; `reason` says it in words, where the case shows it."""

    def __init__(self, answer: str, cause: str, edit: int = 0, reason: str = "") -> None:
        self.cause, self.edit, self.reason = cause, edit, reason
        super().__init__(answer + (f": {reason}" if reason else ""))


class Ended(Fault):
    """The session has ended, where an answer was wanted."""


class Session:
    """A session of a case. It is a context manager; `close` ends it, and a Fault tells what went wrong."""

    def __init__(
        self, folder: str | os.PathLike[str], workers: int = 0, program: str | os.PathLike[str] | None = None
    ) -> None:
        if not 0 <= workers <= MOST_WORKERS:
            raise Fault(f"a session has 0 to {MOST_WORKERS} workers, and not {workers}")
        check_history_of(folder, "a session")
        self.folder, self.program = folder, program
        self.words = ["session", str(workers)]
        self.made: list[list[Told]] = []  # the accepted batches
        self.lines = 0  # that it was sent
        self.read: Names | None = None  # the names that the case has, once an answer asks for them
        self.process = start(folder, self.words, program, subprocess.PIPE)

    def __enter__(self) -> "Session":
        return self

    def __exit__(
        self, kind: type[BaseException] | None, error: BaseException | None, trace: TracebackType | None
    ) -> None:
        if kind is None:
            self.close()
            return
        if not issubclass(kind, Exception):  # an interrupt, which waits for no answer
            self.process.kill()
        self._let_go()

    @property
    def ended(self) -> bool:
        """Whether it has ended, as far as an answer or a call has shown."""
        return self.process.stdout is None or self.process.stdout.closed

    def kill(self) -> None:
        """Ends the session at once, whatever it does."""
        self.process.kill()
        self._let_go()

    def close(self) -> None:
        """Ends the session; a Fault where the program tells one. Nothing where it has ended."""
        assert self.process.stdin is not None and self.process.stdout is not None
        if self.process.stdout.closed:
            return
        try:
            self.process.stdin.close()
        except BrokenPipeError:
            pass
        rest = self.process.stdout.read().decode("utf-8", "backslashreplace").strip()
        status = self.process.wait()
        self._let_go()
        if status:
            raise Fault(
                f"{self.folder}: ltm {' '.join(self.words)} ended with status {status}" + (f": {rest}" if rest else "")
            )

    def _let_go(self) -> None:
        """Closes both pipes, at which the program ends, and waits for that."""
        for pipe in (self.process.stdin, self.process.stdout):
            if pipe is not None:
                try:
                    pipe.close()
                except OSError:
                    pass
        self.process.wait()

    def ask(self, **command: object) -> list[str]:
        """The words of the answer to a command of a script, as `ask(do="totals")`; Refused where it is refused."""
        return self.answer(**command).split()

    def answer(self, **command: object) -> str:
        """The answer to a command of a script, as `answer(do="totals")`; Refused where it is refused."""
        assert self.process.stdin is not None and self.process.stdout is not None
        if self.ended:
            raise Ended(f"{self.folder}: ltm {' '.join(self.words)} has ended")
        line = command_line(command)
        self.lines += 1
        try:
            self.process.stdin.write(line + b"\n")
            self.process.stdin.flush()
        except BrokenPipeError:
            pass  # it has ended, and its last line says why
        told = self.process.stdout.readline()
        answer = told.decode("utf-8", "backslashreplace").strip()
        words = answer.split(maxsplit=4)
        if not told.endswith(b"\n") or words[:2] in ([], ["bad", "case"], ["too", "long"], ["too", "many"]):
            self._let_go()
            status = self.process.returncode
            raise Ended(
                f"{self.folder}: ltm {' '.join(self.words)} ended with status {status}:"
                f" {answer or nothing_told(self.folder, status)}"
            )
        if words[0] == "refused":
            raise _refused(answer, answer.split(), self._reason(command, answer))
        return answer

    def _told(self, read: Callable[[list[str]], Answer], **command: object) -> Answer:
        """What is read of the answer to a command; a Fault where that is no such answer."""
        words = self.ask(**command)
        try:
            return read(words)
        except (Fault, IndexError, ValueError):
            raise Fault(
                f"{self.folder}: ltm {' '.join(self.words)} answers {shown(' '.join(words))} to"
                f" {command['do']}, which is no answer to it"
            ) from None

    def _reason(self, command: dict[str, object], answer: str) -> str:
        """Why the session refused a command, by the files of the case."""
        try:
            return why_refused(Case.read(self.folder), command, answer)
        except Fault:
            return ""

    def edit(self, *edits: Edit | Mapping[str, object]) -> int:
        """Makes a batch of edits, whole or not at all: the number of accepted batches. An edit is one of the module
        `edits`, or its object in a script."""
        if not 1 <= len(edits) <= MOST_EDITS:
            raise Fault(f"a batch has 1 to {MOST_EDITS} edits, and not {len(edits)}")
        batch = [told_of(edit) for edit in edits]
        version = self._told(lambda words: int(words[2]), do="edit", edits=batch)
        self.made.append(batch)
        return version

    def save(self, folder: str | os.PathLike[str], version: int | None = None) -> None:
        """Writes the case that all accepted batches leave, or the first `version` of them, in a folder: what `load`
        tells there the session shows once it has settled them, and the files `nodes.csv` and `shapes.csv` where the
        session's folder has them."""
        from .versions import write_version

        write_version(self.folder, self.made, folder, version)

    def compare(self, one: int = 0, other: int | None = None) -> "Comparison":
        """Two versions side by side, the last where `other` is not named: see the module `loading.compare`."""
        from .versions import side_by_side

        return side_by_side(self.folder, self.made, (one, other), self.program)

    def settle(self) -> Settled:
        """Works out anew what the edits change, and shows it."""
        return self._told(lambda words: Settled(int(words[2]), int(words[4])), do="settle")

    @overload
    def totals(self) -> Totals:
        ...

    @overload
    def totals(self, every: int) -> Sampled:
        ...

    def totals(self, every: int | None = None) -> Totals | Sampled:
        """The totals of the loading that is shown; with `every` what has entered and left each link, and left each
        origin, by every so many boundaries and by the last."""
        if every is None:
            return self._told(totals_of, do="totals")
        return sampled_of(self.ask(do="totals", every=every), self.names())

    def link(self, name: str) -> LinkTotals:
        """What has entered and left a link in the loading that is shown."""
        return self._told(
            lambda words: LinkTotals(int(words[1]), told_units(words[5]), told_units(words[7])), do="link", link=name
        )

    def time(self, name: str, slot: int) -> LinkTime:
        """How long a link takes whoever enters it in a slot, in the loading that is shown."""
        return self._told(
            lambda words: LinkTime(int(words[1]), None if words[7] == "none" else int(words[7])),
            do="time",
            link=name,
            slot=slot,
        )

    def delay(self) -> Delays:
        """The vehicle time of the loading that is shown, and the delay in it."""
        return self._told(
            lambda words: Delays(int(words[1]), *(told_time(words[place]) for place in (3, 5, 7))), do="delay"
        )

    def queue(self, name: str, slot: int) -> LinkQueue:
        """What has entered and left a link by the beginning of a slot, and its queue, in the loading that is shown. The
        slot may be the first behind the horizon."""
        return self._told(
            lambda words: LinkQueue(int(words[1]), *(told_units(words[place]) for place in (7, 9, 11))),
            do="queue",
            link=name,
            slot=slot,
        )

    def origin(self, name: str, slot: int) -> OriginQueue:
        """What the demand of a node has produced by the beginning of a slot, what has left it, and how many wait there,
        in the loading that is shown. The slot may be the first behind the horizon."""
        return self._told(
            lambda words: OriginQueue(int(words[1]), *(told_units(words[place]) for place in (7, 9, 11))),
            do="origin",
            node=name,
            slot=slot,
        )

    def state(self, slot: int) -> State:
        """What has entered and left each link by the beginning of a slot, its queue, and who waits at each node, in the
        loading that is shown. The slot may be the first behind the horizon."""
        return state_of(self.ask(do="state", slot=slot), self.names())

    def curve(self, name: str) -> LinkCurve:
        """What has entered and left a link by each boundary, in the loading that is shown."""
        return link_curve_of(self.ask(do="curve", link=name))

    def departures(self, name: str) -> OriginCurve:
        """What the demand of a node has produced by each boundary and what has left it, in the loading that is
        shown."""
        return origin_curve_of(self.ask(do="departures", node=name))

    def delays(self) -> AllDelays:
        """The vehicle time of the loading that is shown and the delay in it, of all and of each link and node, as `ltm
        delay` tells it."""
        return all_delays_of(self.ask(do="delays"), self.names())

    def gap(self) -> Gap:
        """What all spend in the loading that is shown against the least at its link times, as `ltm gap` tells it."""
        return self._told(gap_of, do="gap")

    def names(self) -> Names:
        """The links and nodes of the case, in the order in which answers tell of them."""
        if self.read is None:
            case = Case.read_network(self.folder)
            self.read = Names([link.name for link in case.links], case.nodes)
        return self.read


def command_line(command: dict[str, object]) -> bytes:
    """The line of a command, without its end; a Fault where a session takes none that is so long."""
    line = json.dumps(command).encode("ascii")
    if len(line) > MOST_LINE_BYTES:
        raise Fault(f"a line of {len(line)} bytes is too long for a session: at most {MOST_LINE_BYTES}")
    return line


def _refused(answer: str, words: list[str], reason: str) -> Refused:
    """`refused edit P CAUSE ..`, `refused link CAUSE`, `refused command NotCommand P` and the like."""
    number = next((number for word in words[2:4] if (number := whole_of(word)) is not None), 0)
    return Refused(answer, " ".join(words[3:] if words[1:2] == ["edit"] else words[2:3]), number, reason)
