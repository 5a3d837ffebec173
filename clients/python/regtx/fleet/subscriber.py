"""Keeps a replica up to date: applies each change that is published, in order and once."""
from __future__ import annotations

import os
import time
from typing import Callable, List, Optional

from ..errors import NotTrusted, RegtxError
from .errors import Behind, FleetError, Unavailable
from .log import Log
from .pauses import Ending, Pauses, say
from .records import Head, Published, Role, Snapshot, next_of
from .replica import ANEW, Replica


class Subscriber:
    """Applies published changes to a replica. `begin` makes it anew of a snapshot's folder, if it is given."""

    def __init__(self, replica: Replica, log: Log, ending: Ending, name: str, idle: float, report: float,
                 snapshots: Optional[str] = None, begin: Optional[Callable[[str], int]] = None, is_verbose: bool = False):
        self._replica, self._log, self._ending, self._name = replica, log, ending, name
        self._idle, self._report_seconds = idle, report
        self._snapshots, self._begin, self._is_verbose = snapshots, begin, is_verbose
        self._role: Optional[Role] = None
        self._reported_at, self._reported = -report, -1
        self._is_told = self._is_ahead = False
        # at which number it was told that the next change hasn't come
        self._gap = -1

    def run(self, is_once: bool = False) -> int:
        """Applies changes until it is told to end; once all that is published now, and answers up to which number."""
        pauses = Pauses(self._ending)
        try:
            while True:
                try:
                    if self._turn(is_once, pauses):
                        break
                except Behind as why:
                    self._begin_anew(why, pauses)
                except (FleetError, NotTrusted):
                    raise
                except Unavailable as why:
                    pauses.after(why)
                except (RegtxError, OSError) as why:
                    self._replica.drop()
                    pauses.after(why)
        except BaseException:
            self._replica.drop()
            raise
        self._replica.close()
        return self._replica.number

    def _open(self) -> Role:
        if self._role is None or not self._replica.is_open:
            with self._ending.waiting():
                self._role = self._replica.open()
            if not self._is_told:
                say(f"replica of store {self._role.store} at {self._replica.number}")
                self._is_told = True
        return self._role

    def _turn(self, is_once: bool, pauses: Pauses) -> bool:
        """Applies what is there, and then what comes until there is a reason to read again. Whether all is done once."""
        role = self._open()
        with self._ending.waiting():
            head, found = self._log.read(role.history, self._replica.number)
        last = self._check(role, head)
        pauses.over()
        if self._apply(role, found):
            return False
        if is_once and self._replica.number >= last:
            self._report(0)
            return True
        self._tell_gap(last)
        self._report(self._report_seconds)
        self._watch(role)
        return False

    def _tell_gap(self, last: int) -> None:
        """Says, once, that a change hasn't come: files of a folder may be copied in any order."""
        number = self._replica.number
        if number < last and number != self._gap:
            say(f"change {number + 1} of {last} isn't there yet: it waits")
            self._gap = number

    def _watch(self, role: Role) -> None:
        told = self._log.watch(role.history, self._replica.number, self._idle)
        while True:
            with self._ending.waiting():
                found = next(told, None)
            if found is None or self._apply(role, found) < len(found):
                return

    def _check(self, role: Role, head: Optional[Head]) -> int:
        """Up to which number there are changes, if those after the replica's number are there."""
        number = self._replica.number
        if head is None:
            raise Unavailable(f"nothing of store {role.store} is published there yet")
        if head.store != role.store:
            raise FleetError(f"what is published there is of store {head.store}, and this replica is of {role.store}")
        if head.history != role.history:
            raise Behind(f"the store was restored, and its numbers began anew. {ANEW}")
        if number < head.first:
            raise Behind(f"this replica is at {number}, and changes after {head.first} alone are published. {ANEW}")
        if number > head.last and not self._is_ahead:
            say(f"this replica is at {number}, and changes up to {head.last} are published: it waits")
        self._is_ahead = number > head.last
        return head.last

    def _apply(self, role: Role, found: List[Published]) -> int:
        """Applies those that follow; how many these were."""
        taken = next_of(self._replica.number, found)
        for each in taken:
            self._ending.check()
            self._replica.apply(role, each)
            if self._is_verbose:
                print(f"applied {each.number}", flush=True)
            self._report(self._report_seconds)
        return len(taken)

    def _report(self, seconds: float) -> None:
        """Tells its number, if it is another one and that was told so many seconds ago."""
        if not self._name or self._replica.number == self._reported or time.monotonic() - self._reported_at < seconds:
            return
        try:
            with self._ending.waiting():
                self._log.report(self._name, self._replica.number)
        except FleetError as why:
            say(f"its number isn't told: {why}")
            self._name = ""
        self._reported_at, self._reported = time.monotonic(), self._replica.number

    def _begin_anew(self, why: Behind, pauses: Pauses) -> None:
        """Begins anew from the snapshot that is published, if snapshots come to this machine."""
        if self._snapshots is None or self._begin is None:
            raise why
        self._replica.drop()
        try:
            with self._ending.waiting():
                path = self._usable(self._log.head(), self._log.snapshot())
            say(f"{why.args[0]}: beginning from {path}")
            say(f"replica anew at {self._begin(path)}")
        except FleetError:
            raise
        except (RegtxError, OSError) as failed:
            pauses.after(failed)

    def _usable(self, head: Optional[Head], snapshot: Optional[Snapshot]) -> str:
        """The folder of the snapshot, if changes go on after it."""
        assert self._snapshots is not None
        if head is None or snapshot is None or snapshot.history != head.history or snapshot.number < head.first:
            raise Unavailable("no snapshot is published after which the changes go on: make one by `regtx-replicate publish --snapshots`")
        path = os.path.join(self._snapshots, snapshot.name)
        if not os.path.exists(os.path.join(path, "journal")):
            raise Unavailable(f"the snapshot at {snapshot.number} hasn't come to {path} yet")
        return path
