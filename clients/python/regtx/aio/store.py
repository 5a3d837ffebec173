"""A store that a server has, its sessions and transactions, by calls that are awaited."""
from __future__ import annotations

import asyncio
import random
import uuid
from typing import Awaitable, Callable, List, Optional, Sequence, Tuple, TypeVar, Union

from ..connection import Path
from ..errors import CommitUnknown, Conflict, DiskFault, Faulted, NoMemory, NoSuchHandle, NotActive, NotFound, RegtxError, RunEnded, ScopeEnded
from ..names import KeyInfo, ServerStats, below, key_word, unit_word, value_name_word
from ..replies import created_of, info_of, names_of, number_of, stats_of, value_of
from ..requests import Writes, create_line, delete_line, set_line, unset_line
from ..run import together
from ..store import FIRST_PAUSE, LONGEST_PAUSE
from ..values import Value
from .connection import Connection
from .follow import Follower, Watcher

_Answer = TypeVar("_Answer")


async def _again(work: Callable[[], Awaitable[_Answer]], tries: int) -> _Answer:
    """What work answers. It is carried out again if another writer is in its way, so many times in all."""
    pause = FIRST_PAUSE
    for _ in range(1, tries):
        try:
            return await work()
        except (Conflict, NotActive, NoSuchHandle):
            await asyncio.sleep(pause * random.uniform(0.5, 1))
            pause = min(2 * pause, LONGEST_PAUSE)
    return await work()


class _Requests:
    """Reads and writes, alone or in a transaction; each as the one of `regtx.Store` of that name."""

    async def _ask(self, request: str, writes: bool = False) -> str:
        raise NotImplementedError

    async def create_key(self, key: str) -> int:
        """Creates the key, and the keys that are missing above it; answers how many were created, 0 if it is there."""
        return created_of(await self._ask(create_line(key), True))

    async def delete_key(self, key: str) -> None:
        """Deletes a key without subkeys."""
        await self._ask(delete_line(key), True)

    async def set_value(self, key: str, name: str, value: Value) -> None:
        """Writes a value. The name "" is the default value's."""
        await self._ask(set_line(key, name, value), True)

    async def delete_value(self, key: str, name: str) -> None:
        """Deletes a value."""
        await self._ask(unset_line(key, name), True)

    async def get_value(self, key: str, name: str = "") -> Value:
        """A value."""
        return value_of(await self._ask(f"get {key_word(key)} {value_name_word(name)}"))

    async def subkeys(self, key: str) -> List[str]:
        """The names of the key's subkeys, in the order of their upper-case units."""
        return names_of(await self._ask(f"keys {key_word(key)}"))

    async def value_names(self, key: str) -> List[str]:
        """The names of the key's values, in the same order."""
        return names_of(await self._ask(f"values {key_word(key)}"))

    async def items(self, key: str) -> List[Tuple[str, Value]]:
        """The key's values, each with its name before it, in the order of `value_names`."""
        return [(name, await self.get_value(key, name)) for name in await self.value_names(key)]

    async def walk(self, key: str) -> List[str]:
        """The key and all keys below it, each before those below it, siblings in the order of `subkeys`."""
        found, left = [], [key]
        while left:
            each = left.pop()
            found.append(each)
            left += below(each, await self.subkeys(each))
        return found

    async def delete_tree(self, key: str) -> int:
        """Deletes the key with all below it, in one transaction; answers how many keys were deleted.

        In a transaction that is begun already, a refusal may come after some of them: roll it back then.
        """
        keys = await self.walk(key)
        for each in reversed(keys):
            await self.delete_key(each)
        return len(keys)

    async def key_info(self, key: str) -> KeyInfo:
        """How many subkeys and values the key has, and when it was written last."""
        return info_of(await self._ask(f"info {key_word(key)}"))


class Session(_Requests):
    """A connection to a store: its first one is the `Store`. In an `async with` it is closed at the end."""

    def __init__(self, connection: Connection):
        self._connection = connection

    async def _ask(self, request: str, writes: bool = False) -> str:
        return await self._connection.ask(request, writes)

    def transaction(self, unit: Optional[uuid.UUID] = None) -> Transaction:
        """A transaction for this unit of work, or for a new one: `async with` begins it, and commits at its end, or rolls back."""
        return Transaction(self._connection, uuid.uuid4() if unit is None else unit)

    async def delete_tree(self, key: str) -> int:
        async with self.transaction() as t:
            return await t.delete_tree(key)

    async def transact(self, work: Work, unit: Optional[uuid.UUID] = None, tries: int = 10) -> int:
        """Carries out work in a transaction, and commits; answers the number of the change, 0 if there were no writes.

        Work is an `async` function that is called with the transaction; or `Writes`, whose lines are sent together. If another writer
        is in the way, all of it is rolled back and tried again, so many times in all, as `regtx.Store.transact` does.
        """
        return await _again(lambda: self._transact(work, unit), tries)

    async def _transact(self, work: Work, unit: Optional[uuid.UUID]) -> int:
        async with self.transaction(unit) as t:
            return await t.do(work)

    async def once(self, unit: uuid.UUID, work: Work, tries: int = 10) -> int:
        """Does a unit of work once: answers the number of the change that it made, now or before; 0 if it writes nothing.

        After `CommitUnknown`, `RunEnded` or a cancellation call it again, of a `Store` that was connected after that.
        """
        return await _again(lambda: self._once(unit, work), tries)

    async def _once(self, unit: uuid.UUID, work: Work) -> int:
        common, asked = self._connection.common, f"kept {unit_word(unit)}"
        if unit in common.unknown:
            raise CommitUnknown(unit)
        if not common.take(unit):
            # another task is about to do it, by another session of this store
            raise Conflict("E7 Conflict", asked)
        try:
            async with self.transaction(unit) as t:
                number = await self._number_kept(asked)
                if number is None:
                    return await t.do(work)
                await t.rollback()
            return number
        finally:
            common.leave(unit)

    async def _number_kept(self, asked: str) -> Optional[int]:
        try:
            return number_of(await self._connection.ask(asked))
        except NotFound:
            return None

    async def close(self) -> None:
        """Ends the connection, with its sessions. When it returns, their transactions are rolled back, and their places free."""
        await self._connection.close()

    async def __aenter__(self: _Session) -> _Session:
        return self

    async def __aexit__(self, kind: object, error: Optional[BaseException], trace: object) -> None:
        try:
            await self.close()
        except RegtxError:
            # whoever leaves by an error was told that the connection is lost
            if error is None:
                raise


_Session = TypeVar("_Session", bound=Session)


class Store(Session):
    """A store that a server has: `connect` answers one.

    Tasks may share it: each call waits for those of others. Give each task a transaction of its own, and a session of its own if it
    isn't to wait for others.
    """

    @property
    def opened_at(self) -> int:
        """The number of the store's last change when it was opened."""
        return self._connection.opened_at

    @property
    def number(self) -> int:
        """The number of the last change that a reply has told of."""
        return self._connection.common.number

    async def session(self) -> Session:
        """A further connection, with transactions of its own. `NoSeat`, if the server has no place."""
        return Session(await self._connection.beside())

    async def kept(self, unit: uuid.UUID) -> Optional[int]:
        """The number of the change that the unit of work committed; None if none is kept. `once` is the call that decides."""
        if unit in self._connection.common.unknown:
            raise CommitUnknown(unit)
        return await self._number_kept(f"kept {unit_word(unit)}")

    async def flush(self) -> int:
        """Makes all accepted changes durable; answers the number of the last one."""
        return number_of(await self._connection.ask("flush"))

    def at(self, moment: Optional[int]) -> None:
        """The moment of the writes and commits that follow, such as `regtx.moment_of` answers; None is the time of now, as at first."""
        self._connection.at(moment)

    async def backup(self, name: str) -> int:
        """Makes a copy of the store in a new folder of this name among the server's backups; answers the number at which that opens."""
        return number_of(await self._connection.ask(f"backup {value_name_word(name)}"))

    async def stats(self) -> ServerStats:
        """How full the store is, and who waits."""
        return stats_of(await self._connection.ask("stats"))

    async def follow(self, after: int) -> Follower:
        """The durable changes after this number, in order, each once, and later ones as they become durable: an asynchronous iterator
        with a connection of its own. `CannotFollow`, if they aren't kept."""
        return Follower(await self._connection.beside(follows=True), int(after))

    async def watch(self, key: str) -> Watcher:
        """The numbers of the durable changes that meet the key or one below it, from now on: an asynchronous iterator as `follow`."""
        return await Watcher(await self._connection.beside(follows=True), key_word(key)).begin()

    def is_as_new(self) -> bool:
        """Whether it can be used, and nothing is left of whoever used it: no transaction that is open, and no moment that was chosen."""
        return self._connection.is_as_new()


class Transaction(_Requests):
    """A transaction. In an `async with` it begins, commits at the end, and rolls back on an exception."""

    def __init__(self, connection: Connection, unit: uuid.UUID):
        self.unit = unit
        #: the number of its change once it has committed; 0 if it had no writes
        self.number: Optional[int] = None
        self._connection, self._is_active = connection, False
        self._label = f"t{next(connection.numbers)}"

    async def begin(self) -> None:
        """Begins it, for whoever doesn't use `async with`."""
        await self._connection.ask(f"begin {self._label} {unit_word(self.unit)}")
        self._is_active = True

    def _check(self) -> None:
        if not self._is_active:
            raise ScopeEnded(f"the transaction for {self.unit} hasn't begun, or has ended")

    async def _ask(self, request: str, writes: bool = False) -> str:
        self._check()
        return await self._connection.ask(f"tx {self._label} {request}", writes)

    async def write_all(self, writes: Writes) -> None:
        """Carries out writes, whose lines are sent together. A refusal may come after some of them: roll it back then."""
        self._check()
        for part in together([f"tx {self._label} {line}" for line in writes.lines]):
            for line, reply in zip(part, await self._connection.ask_all(part, len(part) - 1, True)):
                self._connection.granted(reply, line)

    async def do(self, work: Work) -> int:
        """Carries out work, and commits; answers the number of the change, 0 if there were no writes."""
        if isinstance(work, Writes):
            await self.write_all(work)
        else:
            await work(self)
        return await self.commit() if self._is_active else self.number or 0

    async def commit(self) -> int:
        """Commits; answers the number of the change, 0 if there were no writes. It is durable then.

        A refused commit rolls the transaction back, but for `CommitUnknown`. A commit that is cancelled is unknown as well.
        """
        self._check()
        self._is_active = False
        lines = [f"commit {self._label}", f"close {self._label}"]
        try:
            replies = await self._connection.ask_all(lines, 0, True)
            self._connection.granted(replies[0], lines[0])
        except (RunEnded, NoMemory, DiskFault, Faulted) as cause:
            # a commit that was not sent is not done
            if cause.line != lines[0]:
                raise
            self._connection.common.unknown.add(self.unit)
            raise CommitUnknown(self.unit) from cause
        except asyncio.CancelledError:
            self._connection.common.unknown.add(self.unit)
            raise
        self.number = number_of(replies[0])
        return self.number

    async def is_active(self) -> bool:
        """Whether it is active: a write alone that conflicts with it rolls it back."""
        self._check()
        return await self._connection.ask(f"outcome {self._label}") == "active"

    async def rollback(self) -> None:
        """Drops the transaction's writes."""
        self._check()
        self._is_active = False
        # `close` also frees its place, and is answered `ok` if a write alone has rolled it back before
        await self._connection.ask(f"close {self._label}")

    async def __aenter__(self) -> Transaction:
        await self.begin()
        return self

    async def __aexit__(self, kind: object, error: Optional[BaseException], trace: object) -> None:
        if not self._is_active:
            return
        if error is None:
            await self.commit()
            return
        try:
            await self.rollback()
        except RegtxError:
            # the connection has ended, which frees it, and the next line tells of that
            pass


# what `transact` and `once` carry out
Work = Union[Callable[[Transaction], Awaitable[object]], Writes]


async def connect(path: Path, server_uid: Optional[int] = None, timeout: Optional[float] = None) -> Store:
    """The store of the server that listens at a Unix socket; see `regtx.Store.connect`."""
    return Store(await Connection(path, server_uid, timeout).open())
