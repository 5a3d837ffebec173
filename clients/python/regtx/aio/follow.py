"""Those who follow a server's store: changes, and the numbers of those that meet a key, as they become durable."""
from __future__ import annotations

import uuid
from typing import AsyncIterator, Generic, List, Optional, Tuple, TypeVar

from ..errors import CannotFollow, RegtxError, RunEnded, refusal, shown
from ..follow import _CHANGE, _DISCARDED, _NUMBERED, Change
from .connection import Connection

_Told = TypeVar("_Told")
_Self = TypeVar("_Self", bound="_Follower[object]")


class _Follower(Generic[_Told]):
    """A connection of its own that tells of changes. It is iterated over once, by one task; any task may close it."""

    def __init__(self, connection: Connection, line: str):
        self._connection, self._line = connection, line
        # whether the line is to be answered; and whether the last line that came told the end of that
        self._is_asked, self._was_last = False, False

    async def _ask(self, line: str) -> None:
        self._line, self._is_asked = line, True
        await self._connection.send([line])

    async def _read(self) -> Optional[str]:
        """The next line; None if the server has ended the connection after it had told all, or this was closed. Its loss is raised."""
        reply = await self._connection.read_line()
        if reply is None and (self._was_last or self._connection.is_closed):
            return None
        self._was_last = False
        if reply is not None:
            return reply
        raise RunEnded("the server ended the connection", self._line)

    def _numbered(self, line: str) -> Tuple[str, int]:
        """The word and the number of a line; a refusal is raised."""
        told = _NUMBERED.fullmatch(line)
        if told:
            self._was_last = told[1] == "followed"
            self._is_asked = not self._was_last
            return told[1], int(told[2])
        discarded = _DISCARDED.fullmatch(line)
        if discarded:
            raise CannotFollow(line, self._line, int(discarded[1]))
        raise refusal(line, self._line) or RunEnded(f"the server said what is no reply: {shown(line)}", self._line)

    async def _next(self) -> Optional[_Told]:
        """The next thing told; None at the end."""
        raise NotImplementedError

    def __aiter__(self) -> AsyncIterator[_Told]:
        return self

    async def __anext__(self) -> _Told:
        try:
            told = None if self._connection.is_closed else await self._next()
        except RegtxError:
            self.close()
            raise
        if told is None:
            self.close()
            raise StopAsyncIteration
        return told

    def close(self) -> None:
        """Ends it, also one that another task waits for: the iteration ends there."""
        self._connection.cut()

    async def __aenter__(self: _Self) -> _Self:
        return self

    async def __aexit__(self, kind: object, error: Optional[BaseException], trace: object) -> None:
        self.close()


class Follower(_Follower[Change]):
    """The durable changes after a number: `Store.follow` answers one. `number` is up to where all were told.

    A task that is cancelled as it waits loses nothing: the next one goes on. The iteration ends once the server has stopped in order,
    or after `close`.
    """

    def __init__(self, connection: Connection, after: int):
        super().__init__(connection, f"follow {after}")
        self.number = after
        # a change of which some lines have come
        self._begun: Optional[Change] = None
        self._missing = 0

    async def _next(self) -> Optional[Change]:
        while self._begun is None:
            if not self._is_asked:
                # at first, and after a pause of the server
                await self._ask(f"follow {self.number}")
            line = await self._read()
            if line is None:
                return None
            told = _CHANGE.fullmatch(line)
            if told:
                unit = None if told[4] == "-" else uuid.UUID(told[4])
                self._begun, self._missing = Change(int(told[1]), int(told[2]), unit, []), int(told[3])
            else:
                _, self.number = self._numbered(line)
        return await self._rest(self._begun)

    async def _rest(self, change: Change) -> Optional[Change]:
        lines: List[str] = change.lines
        while len(lines) < self._missing:
            line = await self._read()
            if line is None:
                return None
            lines.append(line)
        self._begun, self.number = None, change.number
        return change


class Watcher(_Follower[int]):
    """The numbers of the durable changes that meet a key or one below it: `Store.watch` answers one.

    After a pause of the server the number of the last change is told too, if changes came meanwhile, whether or not they meet the key.
    """

    def __init__(self, connection: Connection, key: str):
        super().__init__(connection, f"watch {key}")
        self.number = -1

    async def begin(self) -> Watcher:
        """Begins; answers itself."""
        try:
            if await self._next() is None:
                raise RunEnded("the server ended the connection", self._line)
        except BaseException:
            self.close()
            raise
        return self

    async def _next(self) -> Optional[int]:
        while True:
            if not self._is_asked:
                await self._ask(self._line)
            line = await self._read()
            if line is None:
                return None
            word, number = self._numbered(line)
            is_later, self.number = number > self.number, max(number, self.number)
            if is_later and word != "followed":
                return number
