"""Those who follow a server's store: changes, and the numbers of those that meet a key, as they become durable."""
from __future__ import annotations

import re
import threading
import uuid
from dataclasses import dataclass
from typing import Generic, Iterator, List, Optional, Tuple, TypeVar

from .connection import Connection
from .errors import CannotFollow, RegtxError, RunEnded, refusal, shown

_CHANGE = re.compile(r"change ([0-9]+) ([0-9]+) ([0-9]+) (-|[0-9a-f-]{36})")
_NUMBERED = re.compile(r"(changed|followed|watching) ([0-9]+)")
_DISCARDED = re.compile(r"E2 NotFound after ([0-9]+)")
_Told = TypeVar("_Told")


@dataclass(frozen=True)
class Change:
    """A durable change.

    `moment` is in units of 100 ns since 1601, UTC. `unit` is the unit of work that it commits, None if it commits none. `lines` make
    it: each is `create`, `delete`, `set` or `unset`, as docs/SCRIPTS.md has them.
    """

    number: int
    moment: int
    unit: Optional[uuid.UUID]
    lines: List[str]


class _Follower(Generic[_Told]):
    """A connection of its own that tells of changes. It is iterated over once, by one thread; any thread may close it."""

    def __init__(self, connection: Connection, line: str):
        self._connection, self._line = connection, line
        # whether the line is to be answered; and whether the last line that came told the end of that
        self._is_asked, self._was_last, self._is_closed = False, False, False
        self._lock = threading.Lock()

    def _ask(self, line: str) -> None:
        self._line, self._is_asked = line, True
        self._connection.send_line(line)

    def _read(self) -> Optional[str]:
        """The next line; None if the server has ended the connection after it had told all, or this was closed. Its loss is raised."""
        reply = self._connection.read_reply()
        if reply is None and (self._is_closed or self._was_last or self._connection.is_closed):
            return None
        self._was_last = False
        if reply is not None:
            return reply
        raise RunEnded("the server ended the connection", self._line)

    def _numbered(self, line: str) -> Tuple[str, int]:
        """The word and the number of a line; a refusal is raised."""
        told = _NUMBERED.fullmatch(line)
        if told:
            self._was_last = told[1] == "followed"
            self._is_asked = not self._was_last
            return told[1], int(told[2])
        discarded = _DISCARDED.fullmatch(line)
        if discarded:
            raise CannotFollow(line, self._line, int(discarded[1]))
        raise refusal(line, self._line) or RunEnded(f"the server said what is no reply: {shown(line)}", self._line)

    def _next(self) -> Optional[_Told]:
        """The next thing told; None at the end."""
        raise NotImplementedError

    def __iter__(self) -> Iterator[_Told]:
        return self

    def __next__(self) -> _Told:
        self._connection.check_process()
        try:
            told = None if self._is_closed else self._next()
        except RegtxError:
            self.close()
            raise
        if told is None:
            self.close()
            raise StopIteration
        return told

    def close(self) -> None:
        """Ends it, also one that waits in another thread: the iteration ends there."""
        with self._lock:
            self._is_closed = True
        self._connection.cut()

    def __enter__(self) -> _Follower[_Told]:
        return self

    def __exit__(self, kind: object, error: Optional[BaseException], trace: object) -> None:
        self.close()


class Follower(_Follower[Change]):
    """The durable changes after a number, in order, each once, and later ones as they become durable: `Store.follow` answers one.

    `number` is up to where all were told. The iteration ends once the server has stopped in order, or after `close`.
    """

    def __init__(self, connection: Connection, after: int):
        super().__init__(connection, f"follow {after}")
        self.number = after

    def _next(self) -> Optional[Change]:
        while True:
            if not self._is_asked:
                # at first, and after a pause of the server
                self._ask(f"follow {self.number}")
            line = self._read()
            if line is None:
                return None
            told = _CHANGE.fullmatch(line)
            if told:
                return self._change(told)
            _, self.number = self._numbered(line)

    def _change(self, told: "re.Match[str]") -> Optional[Change]:
        lines = []
        for _ in range(int(told[3])):
            line = self._read()
            if line is None:
                return None
            lines.append(line)
        self.number = int(told[1])
        return Change(self.number, int(told[2]), None if told[4] == "-" else uuid.UUID(told[4]), lines)


class Watcher(_Follower[int]):
    """The numbers of the durable changes that meet a key or one below it, in order, as they become durable: `Store.watch` answers one.

    `number` is up to where all were told: at first that of the last change as it began. After a pause of the server the number of the
    last change is told too, if changes came meanwhile, whether or not they meet the key. The iteration ends once the server has
    stopped in order, or after `close`.
    """

    def __init__(self, connection: Connection, key: str):
        super().__init__(connection, f"watch {key}")
        self.number = -1
        self._ask(self._line)
        began = self._next()
        if began is None:
            raise RunEnded("the server ended the connection", self._line)

    def _next(self) -> Optional[int]:
        while True:
            if not self._is_asked:
                self._ask(self._line)
            line = self._read()
            if line is None:
                return None
            word, number = self._numbered(line)
            is_later, self.number = number > self.number, max(number, self.number)
            if is_later and word != "followed":
                return number
