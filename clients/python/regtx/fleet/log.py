"""Where changes of a store are published: what is the same in etcd and in a folder."""
from __future__ import annotations

import uuid
from typing import Dict, Iterator, List, Optional, Sequence, Tuple

from .records import Head, Published, Snapshot

# how many changes are read, or written, at once
MOST_AT_ONCE = 64
# after how many bytes no more changes are read at once
MOST_BYTES = 16_777_216


class Log:
    """The published changes of one store. `Unavailable` is raised if it can't be reached just now."""

    def __init__(self, store: uuid.UUID):
        self.store = store

    def head(self) -> Optional[Head]:
        """Which changes are there; None if nothing of the store is published."""
        raise NotImplementedError

    def begin(self, before: Optional[Head], head: Head, snapshot: Optional[Snapshot] = None) -> bool:
        """Makes a head the present one, with its snapshot, if the one before it is; whether it was."""
        raise NotImplementedError

    def append(self, head: Head, changes: Sequence[Published]) -> bool:
        """Publishes changes that follow on a head, if it is the present one; whether it was."""
        raise NotImplementedError

    def trim(self, head: Head, first: int) -> bool:
        """Removes changes up to a number, if the head is the present one; whether it was."""
        raise NotImplementedError

    def read(self, history: uuid.UUID, after: int) -> Tuple[Optional[Head], List[Published]]:
        """The head, and the first changes after a number that are there, as of one moment."""
        raise NotImplementedError

    def watch(self, history: uuid.UUID, after: int, seconds: float) -> Iterator[List[Published]]:
        """Changes after a number that came since `read`, as they come. It ends if nothing came for so long, or if `read` may have more."""
        raise NotImplementedError

    def snapshot(self) -> Optional[Snapshot]:
        raise NotImplementedError

    def put_snapshot(self, snapshot: Snapshot) -> None:
        raise NotImplementedError

    def report(self, name: str, number: int) -> None:
        """Says that a replica has all changes up to a number."""

    def reports(self) -> Dict[str, int]:
        """Which number each replica has told last."""
        return {}

    def close(self) -> None:
        """Ends its connections."""
