"""A store: its transactions and sessions, and the run or the connection that they are asked of."""
from __future__ import annotations

import os
import random
import time
import uuid
from typing import Callable, List, Optional, Sequence, Tuple, TypeVar, Union

from .connection import Connection, Path
from .errors import Conflict, CommitUnknown, DiskFault, Faulted, NoMemory, NoSuchHandle, NotActive, NotFound, RegtxError, RunEnded, ScopeEnded, Unsupported
from .follow import Follower, Watcher
from .names import KeyInfo, ServerStats, below, key_word, unit_word, value_name_word
from .program import Child, Folder, carry_out
from .requests import Writes, create_line, delete_line, set_line, unset_line
from .replies import created_of, info_of, names_of, number_of, stats_of, value_of
from .run import Run, together
from .values import Value

# how long it is waited for another writer, in seconds: at first, and at most
FIRST_PAUSE, LONGEST_PAUSE = 0.005, 1.0
_Answer = TypeVar("_Answer")


def _again(work: Callable[[], _Answer], tries: int) -> _Answer:
    """What work answers. It is carried out again if another writer is in its way, so many times in all."""
    pause = FIRST_PAUSE
    for _ in range(1, tries):
        try:
            return work()
        except (Conflict, NotActive, NoSuchHandle):
            # a part of it is by chance, so that two writers don't meet again and again
            time.sleep(pause * random.uniform(0.5, 1))
            pause = min(2 * pause, LONGEST_PAUSE)
    return work()


class _Requests:
    """Reads and writes, alone or in a transaction."""

    def _ask(self, request: str, writes: bool = False) -> str:
        raise NotImplementedError

    def create_key(self, key: str) -> int:
        """Creates the key, and the keys that are missing above it; answers how many were created, 0 if it is there."""
        return created_of(self._ask(create_line(key), True))

    def delete_key(self, key: str) -> None:
        """Deletes a key without subkeys."""
        self._ask(delete_line(key), True)

    def set_value(self, key: str, name: str, value: Value) -> None:
        """Writes a value. The name "" is the default value's."""
        self._ask(set_line(key, name, value), True)

    def delete_value(self, key: str, name: str) -> None:
        """Deletes a value."""
        self._ask(unset_line(key, name), True)

    def get_value(self, key: str, name: str = "") -> Value:
        """A value."""
        return value_of(self._ask(f"get {key_word(key)} {value_name_word(name)}"))

    def subkeys(self, key: str) -> List[str]:
        """The names of the key's subkeys, in the order of their upper-case units."""
        return names_of(self._ask(f"keys {key_word(key)}"))

    def value_names(self, key: str) -> List[str]:
        """The names of the key's values, in the same order."""
        return names_of(self._ask(f"values {key_word(key)}"))

    def items(self, key: str) -> List[Tuple[str, Value]]:
        """The key's values, each with its name before it, in the order of `value_names`."""
        return [(name, self.get_value(key, name)) for name in self.value_names(key)]

    def walk(self, key: str) -> List[str]:
        """The key and all keys below it, each before those below it, siblings in the order of `subkeys`."""
        found, left = [], [key]
        while left:
            each = left.pop()
            found.append(each)
            left += below(each, self.subkeys(each))
        return found

    def delete_tree(self, key: str) -> int:
        """Deletes the key with all below it, in one transaction; answers how many keys were deleted.

        In a transaction that is begun already, a refusal may come after some of them: roll it back then.
        """
        keys = self.walk(key)
        for each in reversed(keys):
            self.delete_key(each)
        return len(keys)

    def key_info(self, key: str) -> KeyInfo:
        """How many subkeys and values the key has, and when it was written last."""
        return info_of(self._ask(f"info {key_word(key)}"))


class _InSession(_Requests):
    """What a store and a session have in common: each is a session of the run."""

    def __init__(self, run: Run, number: int):
        self._run, self._number = run, number

    def _check(self) -> None:
        """Raises if the session has ended."""

    def _ask(self, request: str, writes: bool = False) -> str:
        return self._run.ask(request, self._number, self._check, writes)

    def _ask_all(self, lines: Sequence[str], main: int, writes: bool = False) -> List[str]:
        return self._run.ask_all(lines, main, self._number, self._check, writes)

    def transaction(self, unit: Optional[uuid.UUID] = None) -> Transaction:
        """Begins a transaction for this unit of work, or for a new one; a scope that commits at its end, or rolls back."""
        t = Transaction(self, uuid.uuid4() if unit is None else unit)
        t._begin()
        return t

    def delete_tree(self, key: str) -> int:
        with self.transaction() as t:
            return t.delete_tree(key)

    def transact(self, work: Work, unit: Optional[uuid.UUID] = None, tries: int = 10) -> int:
        """Carries out work in a transaction, and commits; answers the number of the change, 0 if there were no writes.

        Work is a function that is called with the transaction; or `Writes`, whose lines are sent together. If another writer is in
        the way (`Conflict`, `NotActive`), or the server ended the transaction (`NoSuchHandle`), all of it is rolled back and tried
        again, so many times in all. It waits up to 5 ms before the second time, and then twice as long each time, a second at most.
        """
        return _again(lambda: self._transact(work, unit), tries)

    def _transact(self, work: Work, unit: Optional[uuid.UUID]) -> int:
        if isinstance(work, Writes):
            return Transaction(self, uuid.uuid4() if unit is None else unit)._do_all(work)
        with self.transaction(unit) as t:
            work(t)
        return t.number or 0

    def once(self, unit: uuid.UUID, work: Work, tries: int = 10) -> int:
        """Does a unit of work once: answers the number of the change that it made, now or before; 0 if it writes nothing.

        It begins the transaction, asks what is kept of the unit, and carries out the work only if that is nothing. If another
        program, another session or a connection that was lost has the unit at hand, or another writer is in the way, it waits and
        tries again as `transact` does. After `CommitUnknown` or `RunEnded` call it again, of a `Store` that was opened after that.
        """
        return _again(lambda: self._once(unit, work), tries)

    def _once(self, unit: uuid.UUID, work: Work) -> int:
        self._check_known(unit)
        t, asked = Transaction(self, unit), f"kept {unit_word(unit)}"
        if not self._run.common.take(unit):
            # another thread is about to do it, by another session of this store
            raise Conflict("E7 Conflict", asked)
        try:
            told = t._begin(asked)
            with t:
                number = self._number_kept(told, asked)
                if number is None:
                    return t._do(work)
                t.rollback()
            return number
        finally:
            self._run.common.leave(unit)

    def _check_known(self, unit: uuid.UUID) -> None:
        if unit in self._run.common.unknown:
            raise CommitUnknown(unit)

    def _number_kept(self, reply: str, asked: str) -> Optional[int]:
        try:
            return int(self._run.granted(reply, asked).split(" ")[1])
        except NotFound:
            return None


class Transaction(_Requests):
    """A transaction. In a `with` it commits at the end, and rolls back on an exception.

    Its writes are seen in it alone until its commit. An exception that is caught inside the scope doesn't end it.
    """

    def __init__(self, session: _InSession, unit: uuid.UUID):
        self.unit = unit
        #: the number of its change once it has committed; 0 if it had no writes
        self.number: Optional[int] = None
        self._session, self._run = session, session._run
        self._label, self._fold, self._is_active = f"t{next(self._run.numbers)}", self._run.folds, True
        self._begin_line = f"begin {self._label} {unit_word(unit)}"

    def _begin(self, then: str = "") -> str:
        """Begins it; the reply to a line that is sent with that."""
        lines = [self._begin_line, then] if then else [self._begin_line]
        replies = self._session._ask_all(lines, len(lines) - 1)
        self._run.granted(replies[0], lines[0])
        return replies[-1]

    def _ask(self, request: str, writes: bool = False) -> str:
        self._check()
        return self._session._ask(f"tx {self._label} {request}", writes)

    def _check(self) -> None:
        if not self._is_active or self._fold != self._run.folds:
            raise ScopeEnded(f"the transaction for {self.unit} has ended")

    def write_all(self, writes: Writes) -> None:
        """Carries out writes, whose lines are sent together. A refusal may come after some of them: roll it back then."""
        self._check()
        self._send(self._lines_of(writes))

    def _lines_of(self, writes: Writes) -> List[str]:
        return [f"tx {self._label} {line}" for line in writes.lines]

    def _send(self, lines: Sequence[str]) -> None:
        for part in together(lines):
            for line, reply in zip(part, self._session._ask_all(part, len(part) - 1, True)):
                self._run.granted(reply, line)

    def _do(self, work: Work) -> int:
        """Carries out work, and commits."""
        if not isinstance(work, Writes):
            work(self)
        elif len(work) == 1:
            return self._commit(self._lines_of(work))
        else:
            self._send(self._lines_of(work))
        return self.commit() if self._is_active else self.number or 0

    def _do_all(self, writes: Writes) -> int:
        """Begins it, carries out writes, and commits."""
        lines = [self._begin_line, *self._lines_of(writes)]
        if len(writes) <= 1:
            return self._commit(lines)
        with self:
            self._send(lines)
        return self.number or 0

    def commit(self) -> int:
        """Commits; answers the number of the change, 0 if there were no writes. It is durable then.

        A refused commit rolls the transaction back, but for `CommitUnknown`.
        """
        self._check()
        return self._commit()

    def _commit(self, before: Sequence[str] = ()) -> int:
        """Commits and frees its place, by lines that are sent together.

        One write at most may be among the lines before these: a commit is carried out though a write was refused, and has nothing
        to do then. After two it would make one without the other.
        """
        self._is_active = False
        line = f"commit {self._label}"
        lines = [*before, line, f"close {self._label}"]
        try:
            replies = self._session._ask_all(lines, len(before), True)
            for each, reply in zip(lines, replies[:len(before) + 1]):
                self._run.granted(reply, each)
        except (RunEnded, NoMemory, DiskFault, Faulted) as cause:
            # a commit that was not sent is not done
            if cause.line != line:
                raise
            self._run.common.unknown.add(self.unit)
            raise CommitUnknown(self.unit) from cause
        self.number = int(replies[len(before)].split(" ")[1])
        return self.number

    def is_active(self) -> bool:
        """Whether it is active: a write alone that conflicts with it rolls it back."""
        self._check()
        return self._session._ask(f"outcome {self._label}") == "active"

    def rollback(self) -> None:
        """Drops the transaction's writes."""
        self._check()
        self._is_active = False
        # `close` also frees its place, and is answered `ok` if a write alone has rolled it back before
        self._session._ask(f"close {self._label}")

    def _free(self) -> None:
        """Frees the place of a transaction that has ended; one that is active is rolled back."""
        try:
            self._session._ask(f"close {self._label}")
        except RegtxError:
            # its session or the run has ended, which frees it, and the next line tells of that
            pass

    def __enter__(self) -> Transaction:
        self._check()
        return self

    def __exit__(self, kind: object, error: Optional[BaseException], trace: object) -> None:
        if not self._is_active:
            return
        if error is None:
            self.commit()
        elif self._fold == self._run.folds:
            self._is_active = False
            self._free()


# what `transact` and `once` carry out
Work = Union[Callable[[Transaction], object], Writes]


class Session(_InSession):
    """A session beside others of one store. Its transactions are rolled back at its end."""

    def __init__(self, of: Run):
        of.check_process()
        with of.lock:
            self._fold, self._is_open = of.folds, True
            super().__init__(*of.session())

    def _check(self) -> None:
        if not self._is_open or self._fold != self._run.folds:
            raise ScopeEnded("the session has ended")

    def end(self) -> None:
        """Ends the session."""
        self._check()
        self._is_open = False
        self._run.end_session(self._number)

    def __enter__(self) -> Session:
        self._check()
        return self

    def __exit__(self, kind: object, error: Optional[BaseException], trace: object) -> None:
        if self._is_open and self._fold == self._run.folds:
            try:
                self.end()
            except RunEnded:
                # which has ended the session too; what was raised inside says more
                if error is None:
                    raise


class Store(_InSession):
    """The store in a folder, and the run on it that begins here; or one that `connect` answers. In a `with` it is closed at the end.

    `program` is the path of `regtx`, or its name if it is on the PATH; `wait` for how many seconds to wait if another program has
    the store.

    A read sees what the run has accepted. A write that is not in a transaction is accepted at once, and durable after the next
    commit, `flush` or `close`.
    """

    def __init__(self, folder: Folder, program: Folder = "regtx", wait: int = 0):
        super().__init__(Child(program, folder, wait), 0)

    @classmethod
    def connect(cls, path: Path, server_uid: Optional[int] = None, timeout: Optional[float] = None) -> Store:
        """The store of the server that listens at a Unix socket, which other programs use at the same time.

        The server has to be one of root, of this process's user, or of the user `server_uid`: `NotTrusted`. `timeout` is how many
        seconds each of its replies may take, else as long as it takes: after that the connection has ended.

        Changes are numbered and seen by all who are connected. `session` opens another connection, `fold` is refused, and `close`
        ends the connection alone: writes alone are durable after a commit or a `flush`.
        """
        store = cls.__new__(cls)
        _InSession.__init__(store, Connection(path, server_uid, timeout), 0)
        return store

    @staticmethod
    def create(folder: Folder, store_id: uuid.UUID, hives: int = 1, program: Folder = "regtx") -> None:
        """Makes a store of empty hives, 1 to 16, in a folder."""
        carry_out(program, "new", os.path.abspath(folder), unit_word(store_id), str(int(hives)))

    @staticmethod
    def import_files(folder: Folder, store_id: uuid.UUID, files: Sequence[Folder], program: Folder = "regtx") -> None:
        """Makes a store of the clean hives in files: hive 0 is a copy of the first."""
        carry_out(program, "import", os.path.abspath(folder), unit_word(store_id), *(os.path.abspath(os.fspath(file)) for file in files))

    @staticmethod
    def upgrade(old: Folder, new: Folder, program: Folder = "regtx") -> None:
        """Copies a store that keeps no outcomes of commits to one that does."""
        carry_out(program, "upgrade", os.path.abspath(old), os.path.abspath(new))

    @property
    def opened_at(self) -> int:
        """The number of the store's last change when it was opened."""
        return self._run.opened_at

    @property
    def number(self) -> int:
        """The number of the last change that a reply has told of."""
        return self._run.common.number

    def kept(self, unit: uuid.UUID) -> Optional[int]:
        """The number of the change that the unit of work committed, now or in an earlier run; None if there is none.

        The store keeps the last 4,096 units. A commit of this run that ended in `CommitUnknown` raises that again: its outcome is
        for another run to tell. Of a server's store `once` is the call that decides, since a connection that was lost may have its
        commit still to come.
        """
        self._check_known(unit)
        asked = f"kept {unit_word(unit)}"
        return self._number_kept(self._run.ask_all([asked], 0)[0], asked)

    def flush(self) -> int:
        """Makes all accepted changes durable; answers the number of the last one."""
        return int(self._run.ask("flush").split(" ")[1])

    def at(self, moment: Optional[int]) -> None:
        """The moment of the writes and commits that follow, such as `moment_of` answers; None is the time of now, as at first."""
        self._run.at(moment)

    def fold(self) -> int:
        """Makes room for 1,048,576 changes more in this run; answers the last one's number. It ends all transactions and sessions.

        A server does so by itself: of its store this is `Unsupported`, and nothing is sent.
        """
        return self._run.fold()

    def session(self) -> Session:
        """Opens a session; a scope that ends it. At most 31 are open at once. Of a server's store it is a further connection."""
        return Session(self._run)

    def backup(self, name: str) -> int:
        """Makes a copy of a server's store in a new folder of this name among its backups; answers the number at which that opens.

        The name is 1 to 255 letters and digits of ASCII, `_`, `-` and full stops, and doesn't begin with one: `BadName`. `Conflict`, if
        something has that name; `Unsupported`, if the server has no folder of backups, or the store is no server's; `DiskFault`, if the
        folder's device failed, by which the store isn't faulted.
        """
        return number_of(self._run.ask_server(f"backup {value_name_word(name)}"))

    def stats(self) -> ServerStats:
        """How full a server's store is, and who waits. `Unsupported`, if the store is no server's."""
        return stats_of(self._run.ask_server("stats"))

    def follow(self, after: int) -> Follower:
        """The durable changes of a server's store after this number, in order, each once, and later ones as they become durable.

        It is iterated over, by a connection of its own. Only changes since the server opened the store are kept, and of these only
        those that some hive lacks yet: else `CannotFollow`, whose `after` tells after which number changes can be followed. It may come
        at any time, if the changes come faster than they are taken. Then read the store anew, and follow from there.
        """
        return Follower(self._beside(f"follow {int(after)}"), int(after))

    def watch(self, key: str) -> Watcher:
        """The numbers of the durable changes of a server's store that meet the key or one below it, from now on.

        It is iterated over, by a connection of its own. The key needn't be there. `CannotFollow` as `follow`.
        """
        return Watcher(self._beside(f"watch {key_word(key)}"), key_word(key))

    def _beside(self, line: str) -> Connection:
        if not isinstance(self._run, Connection):
            self._run.check_process()
            raise Unsupported("E17 Unsupported", line)
        return self._run.beside()

    def is_as_new(self) -> bool:
        """Whether it can be used, and nothing is left of whoever used it: no transaction that is open, and no moment that was chosen."""
        return self._run.is_as_new()

    def close(self) -> None:
        """Ends the run: all accepted changes become durable and go into the hives. Raises what fails of that.

        Of a server's store it ends the connection and those of its sessions, and rolls back their transactions; it says nothing of
        the hives.
        """
        self._run.close()

    def __enter__(self) -> Store:
        return self

    def __exit__(self, kind: object, error: Optional[BaseException], trace: object) -> None:
        try:
            self.close()
        except RegtxError:
            # these have told already that the run failed
            if not isinstance(error, (RunEnded, CommitUnknown, DiskFault, Faulted)):
                raise
