"""The store whose changes are published: one that a server has, or one at rest."""
from __future__ import annotations

import os
import re
import stat
import subprocess
import threading
import uuid
from collections import deque
from typing import Deque, Iterable, Iterator, List, Optional

from ..errors import CannotFollow, RegtxError, RunEnded, refusal
from ..follow import Change
from ..program import Folder
from ..store import Store
from .errors import FleetError, Unavailable
from .records import Published, published

# how many bytes of changes wait in memory while they can't be published
MOST_WAITING = 67_108_864
# a reply of the server may wait for a flush of large hives
REPLY_SECONDS = 120
_CHANGE = re.compile(r"change ([0-9]+) ([0-9]+) ([0-9]+) (-|[0-9a-f-]{36})\n")


def store_id(folder: str) -> uuid.UUID:
    """The id of the store in a folder, as its journal has it. Whoever has the store open doesn't mind."""
    try:
        with open(os.path.join(folder, "journal"), "rb") as file:
            head = file.read(24)
    except OSError as why:
        raise FleetError(f"{folder} has no store that can be read: {why.strerror}") from why
    if head[:8] != b"KTMJRNL2" or len(head) != 24:
        raise FleetError(f"{folder} has no store that keeps outcomes of commits")
    return uuid.UUID(bytes=head[8:])


class Feed:
    """Changes that a follower is told, by a thread of its own. They wait here until they are taken."""

    def __init__(self, changes: Iterable[Change]):
        self._changes, self._bytes = changes, 0
        self._waiting: Deque[Published] = deque()
        self._is_over = False
        self._why: Optional[BaseException] = None
        self._turn = threading.Condition()
        self._thread = threading.Thread(target=self._work, daemon=True)
        self._thread.start()

    def _work(self) -> None:
        try:
            for change in self._changes:
                self._put(published(change))
        except BaseException as why:  # pylint: disable=broad-except
            self._why = why
        with self._turn:
            self._is_over = True
            self._turn.notify_all()

    def _put(self, change: Published) -> None:
        with self._turn:
            while self._bytes > MOST_WAITING and not self._is_over:
                self._turn.wait()
            self._waiting.append(change)
            self._bytes += len(change.text)
            self._turn.notify_all()

    def take(self, most: int) -> List[Published]:
        """The changes that wait, up to so many; it waits for one. None at the end, whose reason is raised if it is a failure."""
        with self._turn:
            while not self._waiting and not self._is_over:
                # a signal is taken between two waits
                self._turn.wait(1)
            taken = [self._waiting.popleft() for _ in range(min(most, len(self._waiting)))]
            self._bytes -= sum(len(change.text) for change in taken)
            self._turn.notify_all()
        if not taken and self._why is not None:
            raise self._why
        return taken

    def close(self) -> None:
        with self._turn:
            self._is_over = True
            self._turn.notify_all()


class Source:
    """The store of a publisher, by its folder, or by the socket of its server."""

    def __init__(self, path: str, told_id: Optional[uuid.UUID], program: Folder, server_uid: Optional[int] = None):
        self._path, self._program, self._server_uid = path, program, server_uid
        self._is_folder = os.path.isdir(path)
        if not self._is_folder and told_id is None:
            raise FleetError(f"{path} is no folder of a store: of a socket alone the store's id is to be told, by --id")
        found = store_id(path) if self._is_folder else told_id
        assert found is not None
        if told_id not in (None, found):
            raise FleetError(f"{path} has store {found}, and not {told_id}")
        self.id = found

    def _socket(self) -> Optional[str]:
        """Where a server has it, as far as that is known."""
        if not self._is_folder:
            return self._path
        try:
            with open(os.path.join(self._path, "served"), encoding="utf-8", errors="surrogateescape") as file:
                return file.read().rstrip("\n")
        except OSError:
            return None

    def connect(self) -> Optional[Store]:
        """A connection to the server that has it; None if nobody serves it, and it is known by its folder."""
        path = self._socket()
        try:
            if path is not None and stat.S_ISSOCK(os.stat(path).st_mode):
                return Store.connect(path, self._server_uid, REPLY_SECONDS)
            why: Exception = FileNotFoundError("nobody serves it")
        except (OSError, RunEnded) as failed:
            why = failed
        if self._is_folder:
            return None
        raise Unavailable(f"{self._path}: {why}")

    def at_rest(self, after: int) -> Iterator[Change]:
        """The changes after a number that the journal of a store at rest holds."""
        words = [os.fspath(self._program), "wait", "10", "follow", os.path.abspath(self._path), str(after)]
        with subprocess.Popen(words, stdin=subprocess.DEVNULL, stdout=subprocess.PIPE) as child:
            assert child.stdout is not None
            try:
                yield from _told_changes(iter(child.stdout), after)
            finally:
                child.kill()


def _told_changes(lines: Iterator[bytes], after: int) -> Iterator[Change]:
    number = after
    for line in lines:
        text = line.decode(errors="replace")
        told = _CHANGE.fullmatch(text)
        if not told:
            _check_end(text.rstrip("\n"), number)
            return
        rest = [next(lines, b"").decode(errors="replace") for _ in range(int(told[3]))]
        if any(not each.endswith("\n") for each in rest):
            break
        number = int(told[1])
        yield Change(number, int(told[2]), None if told[4] == "-" else uuid.UUID(told[4]), [each[:-1] for each in rest])
    raise Unavailable("regtx follow ended early")


def _check_end(line: str, number: int) -> None:
    """The last line of `regtx follow`."""
    discarded = re.fullmatch(r"E2 NotFound after ([0-9]+)", line)
    if discarded:
        raise CannotFollow(line, f"follow {number}", int(discarded[1]))
    if not re.fullmatch(r"followed [0-9]+", line):
        error: RegtxError = refusal(line) or Unavailable(f"regtx follow: {line or 'nothing was printed'}")
        raise error
