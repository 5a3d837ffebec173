"""A connection to the server of a store, whose lines and replies don't block a loop of asyncio."""
from __future__ import annotations

import asyncio
import itertools
import os
import socket
import weakref
from typing import List, Optional, Sequence

from ..connection import MOST_LINE, PEER, Path
from ..errors import NotTrusted, RunEnded, TooLarge, last, refusal, shown
from ..names import moment_now
from ..replies import number_of
from ..run import MOST_MOMENT, Common, Run, held_by

# how much is read at once
MOST_READ = 1 << 16


class Connection:
    """A connection, which is one session of the store. One task at a time sends lines, and reads their replies."""

    def __init__(self, path: Path, server_uid: Optional[int], timeout: Optional[float], common: Optional[Common] = None):
        self._path, self._server_uid, self._timeout = os.fspath(path), server_uid, timeout
        self.common = common or Common()
        self.numbers = itertools.count(1)
        self.opened_at = self.held = self._moment = 0
        # why no line can be sent any more
        self._over: Optional[str] = None
        self._is_lost = self._is_closed = self._follows = False
        self._come = bytearray()
        self._lock = asyncio.Lock()
        self._others: "weakref.WeakSet[Connection]" = weakref.WeakSet()

    async def open(self) -> Connection:
        """Connects; answers itself."""
        self._reader, self._writer = await asyncio.open_unix_connection(os.fsdecode(self._path))
        try:
            self._check_server(self._writer.get_extra_info("socket"))
            said = await asyncio.wait_for(self.read_line(), self._timeout)
            if said is None or not said.startswith("opened "):
                raise refusal(said or "") or RunEnded(f"the server ended the connection{last(said or '')}, before it said that the store is open")
            self.opened_at = number_of(said)
            self.common.note(self.opened_at)
        except asyncio.TimeoutError:
            self._lose(f"the server took longer than {self._timeout} seconds")
            raise RunEnded(f"{self._over}, before it said that the store is open") from None
        except BaseException:
            self._lose("the connection didn't begin")
            raise
        return self

    def _check_server(self, ours: socket.socket) -> None:
        """Raises before anything is sent, and before anything that comes is believed."""
        _, user, _ = PEER.unpack(ours.getsockopt(socket.SOL_SOCKET, socket.SO_PEERCRED, PEER.size))
        if user not in (0, os.geteuid(), self._server_uid):
            raise NotTrusted(os.fsdecode(self._path), user)

    async def beside(self, follows: bool = False) -> Connection:
        """A further connection to the same server; or one whose lines are read one by one."""
        if self._over is not None:
            raise RunEnded(self._over)
        other = await Connection(self._path, self._server_uid, self._timeout, self.common).open()
        other._follows = follows
        self._others.add(other)
        return other

    async def read_line(self) -> Optional[str]:
        """The next line; None at the end, before which half a line may have come. A task that is cancelled loses none of it."""
        looked = 0
        while (end := self._come.find(b"\n", looked)) < 0:
            looked = len(self._come)
            try:
                more = await self._reader.read(MOST_READ)
            except ConnectionError:
                more = b""
            if not more:
                return None
            self._come += more
        line = self._come[:end].decode(errors="replace")
        del self._come[:end + 1]
        return line

    async def send(self, lines: Sequence[str]) -> None:
        """Sends lines. That nobody reads them is no failure yet, since replies may have come."""
        try:
            self._writer.write("".join(f"{line}\n" for line in lines).encode("ascii"))
            await self._writer.drain()
        except ConnectionError:
            pass

    def _lose(self, why: str) -> None:
        self._over, self._is_lost = self._over or why, True
        self._writer.transport.abort()

    async def ask(self, line: str, writes: bool = False) -> str:
        """The reply to a line, at the moment of now if it writes. A refusal is raised."""
        return self.granted((await self.ask_all([line], 0, writes))[0], line)

    async def ask_all(self, lines: Sequence[str], main: int, writes: bool = False) -> List[str]:
        """The replies to lines that are sent together, refusals too: at least those up to the main line."""
        async with self._lock:
            moment = self._moment_of(writes)
            before = [] if moment == self._moment else [f"at {moment}"]
            replies = await self._exchange([*before, *lines], len(before) + main)
            if before:
                if replies[0] != "ok":
                    self._lose(f"the moment of a write was refused: {replies[0]}")
                    raise RunEnded(self._over or "", lines[main])
                self._moment = moment
            return replies[len(before):]

    def at(self, moment: Optional[int]) -> None:
        """Chooses the moment of later writes; None is the time of now."""
        if moment is not None and not 0 <= moment <= MOST_MOMENT:
            raise ValueError(f"a moment is a number of 64 bits, and not {moment}")
        self.common.moment = moment

    def _moment_of(self, writes: bool) -> int:
        if not writes:
            return self._moment
        return moment_now() if self.common.moment is None else self.common.moment

    def granted(self, reply: str, line: str) -> str:
        """The reply to a line; a refusal is raised."""
        refused = refusal(reply, line)
        if refused:
            raise refused
        return reply

    async def _exchange(self, lines: Sequence[str], main: int) -> List[str]:
        if self._over is not None:
            raise RunEnded(self._over)
        for line in lines:
            if len(line) > MOST_LINE:
                raise TooLarge("E6 TooLarge", line)
        replies: List[str] = []
        try:
            await asyncio.wait_for(self._send_and_read(lines, replies), self._timeout)
        except asyncio.TimeoutError:
            self._lose(f"the server took longer than {self._timeout} seconds")
        except BaseException:
            # such as CancelledError: the reply would be taken for that to the next line
            self._lose("the connection was interrupted within a line: connect again")
            raise
        for line, reply in zip(lines, replies):
            self._note(reply)
            self.held += held_by(line, reply)
        if len(replies) < len(lines):
            self._lose("the server ended the connection")
            if len(replies) <= main:
                raise RunEnded(f"{self._over}, before it answered: {shown(lines[main])}", lines[main])
        return replies

    async def _send_and_read(self, lines: Sequence[str], replies: List[str]) -> None:
        await self.send(lines)
        while len(replies) < len(lines):
            reply = await self.read_line()
            # whoever doesn't understand a line ends
            if reply is None or reply.startswith("line "):
                return
            replies.append(reply)

    def _note(self, reply: str) -> None:
        told = Run.NUMBER.fullmatch(reply)
        if told:
            self.common.note(int(told[1] or told[2]))

    def is_as_new(self) -> bool:
        """Whether it can be used, and nothing is left of whoever used it. An end that has come is known to the loop."""
        return self._over is None and not self.held and self.common.moment is None and not self._come and not self._reader.at_eof()

    def cut(self) -> None:
        """Ends it at once, also under a task that waits for a line."""
        self._over, self._is_closed = self._over or "the connection was closed", True
        self._writer.transport.abort()
        # whoever waits for a line sees the end
        self._reader.feed_eof()

    @property
    def is_closed(self) -> bool:
        """Whether this side has closed it."""
        return self._is_closed

    async def close(self) -> None:
        """Ends the session and its others, and waits until their transactions are rolled back. Raises if it was lost before.

        A call that is under way in another task is answered first. One who follows is cut off.
        """
        if self._is_closed:
            return
        if self._follows:
            self.cut()
            return
        async with self._lock:
            await self._close()

    async def _close(self) -> None:
        if self._is_closed:
            # by another task, for which this one has waited
            return
        over, self._over, self._is_closed = self._over, "the store is closed", True
        for other in list(self._others):
            try:
                await other.close()
            except RunEnded:
                # whoever used that session was told
                pass
        if self._is_lost:
            raise RunEnded(over or "the server ended the connection")
        try:
            await asyncio.wait_for(self._hang_up(), self._timeout)
        except asyncio.TimeoutError:
            # the session ends all the same
            pass
        finally:
            self._writer.transport.abort()

    async def _hang_up(self) -> None:
        """The server answers what it was sent, ends the session, and then ends the connection."""
        try:
            self._writer.write_eof()
            while await self._reader.read(MOST_READ):
                pass
        except OSError:
            # it is gone
            pass
