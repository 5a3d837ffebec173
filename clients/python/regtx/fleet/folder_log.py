"""Changes that are published in a folder, for rsync, S3 or git.

    STORE/head                   the head of the present history
    STORE/HISTORY/N.change       each change, whole
    STORE/snapshot               where a snapshot is

Each file is written under another name, synced and renamed, the head after the changes. So whoever copies the folder gets whole files.
A copy may have them in another order: who reads a head waits for the changes up to it.
"""
from __future__ import annotations

import fcntl
import os
import shutil
import time
import uuid
from contextlib import contextmanager
from typing import Iterator, List, Optional, Sequence, Tuple

from .errors import Unavailable
from .log import MOST_AT_ONCE, MOST_BYTES, Log
from .records import Head, Published, Snapshot

FIRST_LOOK, LONGEST_LOOK = 0.02, 1.0


def sync_folder(path: str) -> None:
    folder = os.open(path, os.O_RDONLY | os.O_DIRECTORY)
    try:
        os.fsync(folder)
    finally:
        os.close(folder)


def write_whole(path: str, text: str) -> None:
    """Puts a file into the place of another one, which is whole at any moment. The folder is to be synced after it."""
    part = f"{path}.part"
    with open(part, "w", encoding="ascii") as file:
        file.write(text)
        file.flush()
        os.fsync(file.fileno())
    os.replace(part, path)


def read_whole(path: str) -> Optional[str]:
    """A file's text; None if there is none."""
    try:
        with open(path, encoding="ascii", errors="replace") as file:
            return file.read()
    except FileNotFoundError:
        return None


class FolderLog(Log):
    """Changes in a folder."""

    def __init__(self, folder: str, store: uuid.UUID):
        super().__init__(store)
        self._home = os.path.join(os.path.abspath(folder), str(store))

    def _at(self, *names: str) -> str:
        return os.path.join(self._home, *names)

    def _change_path(self, history: uuid.UUID, number: int) -> str:
        return self._at(str(history), f"{number:020}.change")

    @contextmanager
    def _system(self) -> Iterator[None]:
        """What the system refuses may be mended: a full disk, a share that is away."""
        try:
            yield
        except OSError as why:
            raise Unavailable(f"{why.filename or self._home}: {why.strerror or why}") from why

    @contextmanager
    def _alone(self, before: Optional[Head]) -> Iterator[bool]:
        """Whether the head is the present one, while no other publisher writes here."""
        with self._system():
            # the folder above it has to be there: a share that is away isn't written below its mount point
            if not os.path.isdir(self._home):
                os.mkdir(self._home)
            lock = os.open(self._at("lock"), os.O_RDWR | os.O_CREAT, 0o644)
            try:
                fcntl.flock(lock, fcntl.LOCK_EX)
                yield self.head() == before
            finally:
                os.close(lock)

    def head(self) -> Optional[Head]:
        with self._system():
            text = read_whole(self._at("head"))
        if text is not None and not text.endswith("\n"):
            raise Unavailable(f"{self._at('head')} isn't whole yet")
        return None if text is None else Head.read(text)

    def _put_head(self, head: Head) -> None:
        write_whole(self._at("head"), head.text())
        sync_folder(self._home)

    def begin(self, before: Optional[Head], head: Head, snapshot: Optional[Snapshot] = None) -> bool:
        with self._alone(before) as is_present:
            if is_present:
                os.makedirs(self._at(str(head.history)), exist_ok=True)
                if snapshot is not None:
                    write_whole(self._at("snapshot"), snapshot.text())
                self._put_head(head)
                sync_folder(os.path.dirname(self._home))
                if before is not None and before.history != head.history:
                    shutil.rmtree(self._at(str(before.history)))
        return is_present

    def append(self, head: Head, changes: Sequence[Published]) -> bool:
        with self._alone(head) as is_present:
            if is_present:
                for each in changes:
                    write_whole(self._change_path(head.history, each.number), each.text)
                sync_folder(self._at(str(head.history)))
                self._put_head(head.to(changes[-1].number))
        return is_present

    def trim(self, head: Head, first: int) -> bool:
        with self._alone(head) as is_present:
            if is_present:
                self._put_head(head.since(first))
                for name in os.listdir(self._at(str(head.history))):
                    digits, _, ending = name.partition(".")
                    if ending == "change" and digits.isdigit() and int(digits) <= first:
                        os.remove(self._at(str(head.history), name))
        return is_present

    def read(self, history: uuid.UUID, after: int) -> Tuple[Optional[Head], List[Published]]:
        head = self.head()
        found: List[Published] = []
        last = min(head.last, after + MOST_AT_ONCE) if head and head.history == history else after
        with self._system():
            for number in range(after + 1, last + 1):
                text = read_whole(self._change_path(history, number))
                if text is None:
                    break
                each = Published(number, text)
                if not each.is_whole():
                    if not found:
                        raise Unavailable(f"{self._change_path(history, number)} isn't whole yet")
                    break
                found.append(each)
                if sum(len(other.text) for other in found) >= MOST_BYTES:
                    break
        return head, found

    def watch(self, history: uuid.UUID, after: int, seconds: float) -> Iterator[List[Published]]:
        end, look = time.monotonic() + seconds, FIRST_LOOK
        while (left := end - time.monotonic()) > 0:
            time.sleep(min(look, left))
            look = min(2 * look, LONGEST_LOOK)
            head, found = self.read(history, after)
            # another history, or a gap, is for the caller to see
            if found or head is None or head.history != history or head.first > after:
                return
        yield from ()

    def snapshot(self) -> Optional[Snapshot]:
        with self._system():
            text = read_whole(self._at("snapshot"))
        return None if text is None else Snapshot.read(text)

    def put_snapshot(self, snapshot: Snapshot) -> None:
        with self._system():
            write_whole(self._at("snapshot"), snapshot.text())
            sync_folder(self._home)
