"""What is raised by the client of regtx: `regtx` has all of it."""
from __future__ import annotations

import re
import uuid
from typing import Dict, Optional, Type

# how much of a line an error shows: the data of a value may have a million bytes
SHOWN = 120


def shown(text: str) -> str:
    return text if len(text) <= SHOWN else f"{text[:SHOWN]}.."


class RegtxError(Exception):
    """What goes wrong with a store, or with a run on it.

    `hints` is what the program told on standard error, such as why the system refused a file; "" if it told nothing.
    """

    hints = ""

    def __str__(self) -> str:
        return f"{self._text()} ({self.hints})" if self.hints else self._text()

    def _text(self) -> str:
        return super().__str__()


class Refused(RegtxError):
    """A line was refused; or the opening of a store, or the work at the end of a run, if `line` is None.

    `reply` is the whole refusal, such as `E15 HiveDamaged 0 BadRecord`, `code` is `E15`, and `name` is `HiveDamaged`.
    """

    def __init__(self, reply: str, line: Optional[str] = None):
        super().__init__(reply, line)
        self.reply, self.line = reply, line
        self.code, self.name = reply.split(" ")[:2]

    def _text(self) -> str:
        return self.reply if self.line is None else f"{self.reply}: {shown(self.line)}"


class NoMemory(Refused):
    """E1: the system gave no memory."""


class NotFound(Refused):
    """E2: there is no such hive, key or value."""


class CannotFollow(NotFound):
    """E2: the changes after a number can't be told: they aren't kept any more, or there is no such change yet. Those after `after` can."""

    def __init__(self, reply: str, line: Optional[str], after: int):
        super().__init__(reply, line)
        self.after = after


class HasSubkeys(Refused):
    """E3: a key with subkeys is to be deleted."""


class BadName(Refused):
    """E4: a name of the path is empty or too long, or a name isn't printable ASCII; or a backup can't have the name."""


class TooDeep(Refused):
    """E5: a path has more than 512 names, or one call would create more than 32 keys."""


class TooLarge(Refused):
    """E6: a value, a hive or a transaction passes its limit."""


class Conflict(Refused):
    """E7: another active transaction writes the same key, its values, or a key above or below it; or a backup has the name."""


class NotActive(Refused):
    """E8: the transaction was rolled back by a write alone, which conflicts with it."""


class NoSuchHandle(Refused):
    """E9: the transaction isn't there: a server ended it to make room for changes. Its writes are dropped."""


class NoSeat(Refused):
    """E10: no place is free for one more client, session or transaction."""


class JournalFull(Refused):
    """E11: the journal has no room for the change."""


class HistoryFull(Refused):
    """E12: the run has made 1,048,576 changes since it began, or since `Store.fold`."""


class DiskFault(Refused):
    """E13: the system refused to read, write or sync a file. Nothing more is written in this run."""


class Faulted(Refused):
    """E14: the same, earlier in this run."""


class HiveDamaged(Refused):
    """E15: a file isn't a clean hive, or isn't one of this store."""


class JournalDamaged(Refused):
    """E16: the folder has no store, or its journal is damaged."""


class Unsupported(Refused):
    """E17: the store keeps no outcomes (`Store.upgrade` makes one that does), a hive has what isn't read, or it isn't for this store."""


class Fixed(Refused):
    """E18: the root of a hive is to be deleted, or a key that is marked as not deletable."""


_REFUSALS: Dict[str, Type[Refused]] = {kind.__name__: kind for kind in Refused.__subclasses__()}
_REFUSAL = re.compile(r"E[0-9]+ ([A-Za-z]+)( .*)?")


def refusal(reply: str, line: Optional[str] = None) -> Optional[Refused]:
    """The error of a reply that is a refusal, else None."""
    told = _REFUSAL.fullmatch(reply)
    return _REFUSALS.get(told[1], Refused)(reply, line) if told else None


class CommandFailed(RegtxError):
    """The program did something else than it was asked. `printed` is what it printed, `status` its exit status."""

    def __init__(self, printed: str, status: int):
        super().__init__(printed, status)
        self.printed, self.status = printed, status

    def _text(self) -> str:
        return f"{shown(self.printed) or 'nothing was printed'} ({ending(self.status)})"


class CannotOpen(CommandFailed):
    """The store is in use by another program, or its folder can't be opened."""


class CannotMake(CommandFailed):
    """The folder has a store, is in use by another program, or can't be made."""


class CannotRead(CommandFailed):
    """A hive's file can't be read."""


class NotTrusted(RegtxError):
    """The server at a socket is one of a user who isn't trusted: `uid`. Nothing was sent, and nothing was read."""

    def __init__(self, path: str, uid: int):
        super().__init__(path, uid)
        self.path, self.uid = path, uid

    def _text(self) -> str:
        return f"the server at {self.path} belongs to user {self.uid}: server_uid={self.uid} trusts it"


class RunEnded(RegtxError):
    """The run has ended or the connection was lost, or it can't be used any more.

    `line` is the line that was sent and not answered, if there is one; `status` the exit status of the program, negative after a
    signal, or None if it isn't known.
    """

    def __init__(self, why: str, line: Optional[str] = None, status: Optional[int] = None):
        super().__init__(why, line, status)
        self.why, self.line, self.status = why, line, status

    def _text(self) -> str:
        return self.why


class CommitUnknown(RegtxError):
    """Whether a transaction has committed isn't known: call `once(unit, work)` of another `Store`, opened after this one is closed.

    Its `__cause__` says why: the run ended before the reply came, or a file couldn't be written.
    """

    def __init__(self, unit: uuid.UUID):
        super().__init__(unit)
        self.unit = unit

    def _text(self) -> str:
        return f"whether {self.unit} has committed isn't known: ask in another run"


class OtherProcess(RegtxError):
    """A store, or what is of it, was used in another process than the one that opened it, such as after a fork. Nothing was sent."""

    def _text(self) -> str:
        return "the store was opened in another process: open one here"


class ScopeEnded(RegtxError):
    """A transaction was used after its commit or its rollback, a session after its end, or one of them after a fold."""


class DecodeError(RegtxError, ValueError):
    """The bytes of a value aren't of its type."""


def ending(status: int) -> str:
    return f"signal {-status}" if status < 0 else f"status {status}"


def last(printed: str) -> str:
    lines = printed.splitlines()
    return f", and printed: {shown(lines[-1])}" if lines else ""


def failure(printed: str, status: int) -> RegtxError:
    """The error of what was printed beside replies, and of the status."""
    refused = refusal(printed.splitlines()[-1]) if printed else None
    if refused and status == 1:
        return refused
    if status < 0:
        return RunEnded(f"the program ended by {ending(status)}{last(printed)}", None, status)
    told = {"cannot open store": CannotOpen, "cannot make store": CannotMake, "cannot read file": CannotRead}
    return told.get(printed, CommandFailed)(printed, status)


def hinted(error: RegtxError, told: bytes) -> RegtxError:
    """The error with what was told on standard error."""
    error.hints = "; ".join(told.decode(errors="replace").split("\n")).strip("; ")
    return error
