"""An open case: a session of the program that has exactly the batches of edits that are wanted.

The session counts its lines and is renewed before they end; where the program ends it can be opened anew, with the same
batches. All that sweep, live and assign ask of a session, they ask of the one that an open case has.
"""
from __future__ import annotations

import os
from collections.abc import Callable, Iterable, Mapping, Sequence
from functools import cached_property
from types import TracebackType
from typing import TypeVar

from ..case import Case
from ..case.history import check_history_of
from ..errors import Fault
from ..formats import MOST_LINES
from ..loading.answers import Settled
from .back import taken_back
from .batches import in_batches
from .edits import Edit, edit_of
from .rows import OwnRows
from .session import Ended, Session

AnyBatch = Sequence[Edit | Mapping[str, object]]
"""A batch of edits, or of their objects in a script."""
Done = TypeVar("Done")
TRIES = 2  # sessions that are asked for work at which they end


class SessionLost(Fault):
    """The session ended at some work each time that it was tried."""


class OpenCase:
    """A case, and a session of it. It is a context manager that ends the session; that begins when it is first wanted.

    `spare` are lines that a session has left when it is opened anew. `again` gives the edits with which a fresh session
    begins, where they are fewer than all that were made.
    """

    def __init__(
        self,
        folder: str | os.PathLike[str],
        program: str | os.PathLike[str] | None = None,
        *,
        most_lines: int = MOST_LINES,
        spare: int = 0,
        again: Callable[[], Iterable[Edit]] | None = None,
    ) -> None:
        self.folder, self.program, self.again = os.fspath(folder), program, again
        self.last_line = most_lines - spare
        self.made: list[AnyBatch] = []  # in the session, in order
        self.opened = 0  # how many sessions there were
        self._session: Session | None = None
        self._settled = self._stopped = False

    def __enter__(self) -> "OpenCase":
        return self

    def __exit__(
        self, kind: type[BaseException] | None, error: BaseException | None, trace: TracebackType | None
    ) -> None:
        session, self._session = self._session, None
        if session is not None:
            session.__exit__(kind, error, trace)

    @cached_property
    def case(self) -> Case:
        """The case as its files have it."""
        check_history_of(self.folder, "a session")  # before the routes of a city are made
        return Case.read(self.folder)

    @cached_property
    def own(self) -> OwnRows:
        """The rows of the case itself."""
        return OwnRows(self.case)

    @property
    def session(self) -> Session:
        """The session, with room for a line; another in its place, with the same batches, where its lines are used."""
        if self._session is not None and not self.has_room(1):
            self.renew()
        return self._session or self._open()

    def has_room(self, lines: int) -> bool:
        """Whether the session takes so many lines more."""
        return self._session is not None and self._session.lines + lines <= self.last_line

    def settle(self) -> Settled:
        """Shows what the batches leave."""
        settled = self.session.settle()
        self._settled = True
        return settled

    def add(self, batch: AnyBatch) -> None:
        """Makes one more batch; Refused where it is refused, and nothing is changed."""
        self.session.edit(*batch)
        self._settled = False
        if self.again is None:
            self.made.append(batch)

    def have(self, batches: Sequence[AnyBatch], lines: int = 0) -> None:
        """Has exactly these batches, and room for so many lines more: adds those that lack where it has the first of
        them, else undoes those that it has by edits. Where no edits do that, or lines are short, or the session has
        ended, another is opened."""
        if self._session is None or self._session.ended:
            self.end()
        elif list(batches[: len(self.made)]) != self.made:
            self._undo(len(batches) + lines)
        elif not self.has_room(len(batches) - len(self.made) + lines):
            self.end()
        if self._session is None:
            self._open(again=False)
        for batch in batches[len(self.made) :]:
            self.add(batch)

    def _undo(self, lines: int) -> None:
        """Undoes all batches by edits, or ends the session where that cannot be."""
        session = self._session
        try:
            back = taken_back((edit_of(edit) for batch in self.made for edit in batch), self.own)
            batches = None if back is None else list(in_batches(back))
            if session is None or batches is None or not self.has_room(len(batches) + lines):
                self.end()
            else:
                for batch in batches:
                    session.edit(*batch)
        except Fault:
            self.end()
        self.made, self._settled = [], False

    def _open(self, again: bool = True) -> Session:
        """A fresh session; `again`, with the batches that were made, and settled if they were."""
        if self._stopped:
            raise Ended("the scenarios were stopped")
        if self.opened:
            self.unchanged()
        session, self.opened = Session(self.folder, 0, self.program), self.opened + 1
        self._session = session
        if not again:
            self.made, self._settled = [], False
        for batch in self.made if self.again is None else in_batches(self.again()):
            session.edit(*batch)
        if self._settled:
            session.settle()
        return session

    def revive(self) -> None:
        """Opens another session with the same batches, where there is none or it has ended."""
        if self._session is None or self._session.ended:
            self.renew()

    def renew(self) -> None:
        """Opens another session with the same batches, settled where they were."""
        self.end()
        self._open()

    def unchanged(self) -> None:
        """A Fault where the files of the case have changed since they were read."""
        if "case" in self.__dict__ and Case.read(self.folder) != self.case:
            raise Fault(f"the files of {self.folder} have changed since it was opened: open it anew to see them")

    def tried(self, work: Callable[[], Done], begin: Callable[[], object] | None = None) -> Done:
        """What work gives, done again in another session where the session ends meanwhile; SessionLost where it ends
        again. Each time it is begun by `begin`, or by opening a session that has ended anew."""
        for left in range(TRIES - 1, -1, -1):
            (begin or self.revive)()
            try:
                return work()
            except Ended as fault:
                self.end()
                if not left:
                    raise SessionLost(str(fault)) from None
        raise AssertionError("work is tried at least once")

    def end(self) -> None:
        """Ends the session, whatever the program says of that."""
        try:
            self.close()
        except Fault:
            pass  # nobody asks it any more

    def kill(self) -> None:
        """Ends the session at once, whatever it does."""
        session, self._session = self._session, None
        if session is not None:
            session.kill()

    def close(self) -> None:
        """Ends the session; a Fault where the program tells one."""
        session, self._session = self._session, None
        if session is not None:
            session.close()

    def stop(self) -> None:
        """Ends the session at once, whatever it does, and opens none again; another thread may be asking it."""
        self._stopped = True
        session, self._session = self._session, None
        if session is not None:
            session.process.kill()
