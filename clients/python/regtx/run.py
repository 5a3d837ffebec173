"""What answers lines: the program that runs on a store, or the server of one. What both have in common is here."""
from __future__ import annotations

import itertools
import os
import re
import threading
import uuid
import weakref
from typing import Callable, List, Optional, Sequence, Set, Tuple

from .errors import OtherProcess, RegtxError, RunEnded, refusal, shown
from .names import moment_now

# the greatest number that a line can carry
MOST_MOMENT = 0xffff_ffff_ffff_ffff
# how much is sent together: so many lines that their replies fit into the system's buffers, and nobody waits to write them
MOST_LINES, MOST_BYTES = 256, 65_536


def together(lines: Sequence[str]) -> List[List[str]]:
    """The lines in parts, each of which is sent at once."""
    parts: List[List[str]] = []
    size = MOST_BYTES
    for line in lines:
        if size + len(line) > MOST_BYTES or len(parts[-1]) == MOST_LINES:
            parts.append([])
            size = 0
        parts[-1].append(line)
        size += len(line)
    return parts


def held_by(line: str, reply: str) -> int:
    """How many more transactions have a place after a line that was answered so."""
    return {"begin": 1, "close": -1}.get(line.partition(" ")[0], 0) if reply == "ok" else 0


class Common:
    """What the sessions of one store have in common."""

    def __init__(self) -> None:
        self._lock = threading.Lock()
        # the last change that a reply told of
        self.number = 0
        # of later writes, if it was chosen
        self.moment: Optional[int] = None
        # units of work whose commit was sent, and may be there or not; and those that `once` is about to do
        self.unknown: Set[uuid.UUID] = set()
        self._units: Set[uuid.UUID] = set()

    def note(self, number: int) -> None:
        with self._lock:
            self.number = max(self.number, number)

    def take(self, unit: uuid.UUID) -> bool:
        """Whether nobody else is about to do this unit, which is the caller's then until `leave`."""
        with self._lock:
            is_free = unit not in self._units
            self._units.add(unit)
            return is_free

    def leave(self, unit: uuid.UUID) -> None:
        with self._lock:
            self._units.discard(unit)


class Run:
    """What answers lines. One thread at a time sends some, and reads their replies."""

    NUMBER = re.compile(r"(?:created [0-9]+ )?accepted ([0-9]+)|(?:opened|committed|flushed|folded|saved) ([0-9]+)")
    # what it is for its user
    TITLE = "run"

    def __init__(self, common: Optional[Common] = None):
        self._process = os.getpid()
        self.common = common or Common()
        # what is sent before a line for its sake belongs to it
        self.lock = threading.RLock()
        # the session and the moment that are known there; -1 if that isn't known
        self._session, self._moment = 0, 0
        # why no line can be sent any more
        self._over: Optional[str] = None
        self._was_refused = self._is_interrupted = self._is_closed = False
        # of sessions and of labels, none of which is used again
        self.numbers = itertools.count(1)
        self.opened_at = self.folds = 0
        # how many transactions have a place
        self.held = 0
        _RUNS.add(self)

    # what a program and a connection do each in a way of its own

    def _put(self, lines: bytes) -> None:
        """Sends lines. That nobody reads them is no failure yet, since replies may have come."""
        raise NotImplementedError

    def _get(self) -> str:
        """The next reply with its LF; what there is of it, if no more comes."""
        raise NotImplementedError

    def _ended(self, reply: str) -> Tuple[str, Optional[int]]:
        """Why no more comes, with what came in the place of a reply; and the status of a program."""
        raise NotImplementedError

    def _hinted(self, error: RegtxError) -> RegtxError:
        """The error with what else was told of it."""
        return error

    def leave(self) -> None:
        """After a fork: closes this process's copies of files."""
        raise NotImplementedError

    def fold(self) -> int:
        raise NotImplementedError

    def session(self) -> Tuple[Run, int]:
        """A new session: what answers its lines, and its number there."""
        raise NotImplementedError

    def end_session(self, number: int) -> None:
        raise NotImplementedError

    def ask_server(self, line: str) -> str:
        """The reply to a line that only a server takes."""
        raise NotImplementedError

    def close(self) -> None:
        """Ends it, once. In another process it does nothing, and all goes on."""
        raise NotImplementedError

    # what they do alike

    def _read_opened(self) -> Optional[str]:
        """Reads the line that says that the store is open; what came in its place, if it didn't come."""
        reply = self._get()
        if not reply.startswith("opened ") or not reply.endswith("\n"):
            return reply
        self._note(reply[:-1])
        self.opened_at = int(reply.split(" ")[1])
        return None

    def check_process(self) -> None:
        """Raises in another process than the one that began it: replies would go to whoever reads first."""
        if os.getpid() != self._process:
            raise OtherProcess()

    def ask(self, line: str, session: Optional[int] = None, check: Callable[[], None] = lambda: None, writes: bool = False) -> str:
        """The reply to a line, sent in this session if it needs one, at the moment of now if it writes. A refusal is raised."""
        return self.granted(self.ask_all([line], 0, session, check, writes)[0], line)

    def ask_all(self, lines: Sequence[str], main: int, session: Optional[int] = None, check: Callable[[], None] = lambda: None,
                writes: bool = False) -> List[str]:
        """The replies to lines that are sent together, refusals too: at least those up to the main line.

        If that wasn't answered, `RunEnded` has it, or no line if nothing was sent. The check raises if the session has ended, before
        anything is sent.
        """
        self.check_process()
        with self.lock:
            check()
            if session is not None:
                self.enter(session)
            moment = self._moment_of(writes)
            before = [] if moment == self._moment else [f"at {moment}"]
            replies = self._exchange([*before, *lines], len(before) + main)
            if before:
                if replies[0] != "ok":
                    self._over = f"the moment of a write was refused: {replies[0]}"
                    raise RunEnded(self._over, lines[main])
                self._moment = moment
            return replies[len(before):]

    def enter(self, session: int) -> None:
        """Makes a session the current one, and opens it if it isn't open."""
        if session != self._session:
            self._session = -1
            line = f"session {session}"
            self.granted(self._exchange([line], 0)[0], line)
            self._session = session

    def is_as_new(self) -> bool:
        """Whether it can be used, and nothing is left of whoever used it."""
        return os.getpid() == self._process and self._over is None and not self.held and self.common.moment is None

    def at(self, moment: Optional[int]) -> None:
        """Chooses the moment of later writes; None is the time of now."""
        if moment is not None and not 0 <= moment <= MOST_MOMENT:
            raise ValueError(f"a moment is a number of 64 bits, and not {moment}")
        self.check_process()
        self.common.moment = moment

    def _moment_of(self, writes: bool) -> int:
        if not writes:
            return self._moment
        return moment_now() if self.common.moment is None else self.common.moment

    def granted(self, reply: str, line: str) -> str:
        """The reply to a line; a refusal is raised."""
        refused = refusal(reply, line)
        if refused:
            raise self._hinted(refused)
        return reply

    def _exchange(self, lines: Sequence[str], main: int) -> List[str]:
        if self._over is not None:
            raise RunEnded(self._over)
        replies: List[str] = []
        try:
            self._put("".join(f"{line}\n" for line in lines).encode("ascii"))
            reply = self._get()
            while reply.endswith("\n") and not reply.startswith("line "):
                replies.append(reply[:-1])
                reply = self._get() if len(replies) < len(lines) else ""
        except BaseException:
            # such as KeyboardInterrupt: the reply would be taken for that to the next line
            self._is_interrupted, self._over = True, f"the {self.TITLE} was interrupted within a line: close it, and open the store again"
            raise
        for line, each in zip(lines, replies):
            self._was_refused |= refusal(each) is not None
            self._note(each)
            self.held += held_by(line, each)
        if len(replies) < len(lines):
            self._over, status = self._ended(reply)
            if len(replies) <= main:
                raise self._hinted(RunEnded(f"{self._over}, before it answered: {shown(lines[main])}", lines[main], status))
        return replies

    def _note(self, reply: str) -> None:
        told = self.NUMBER.fullmatch(reply)
        if told:
            self.common.note(int(told[1] or told[2]))


_RUNS: "weakref.WeakSet[Run]" = weakref.WeakSet()


def _leave_all() -> None:
    for run in list(_RUNS):
        run.leave()


os.register_at_fork(after_in_child=_leave_all)
