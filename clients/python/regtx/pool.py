"""Connections to a server that threads take and give back."""
from __future__ import annotations

import threading
from contextlib import contextmanager, suppress
from typing import Iterator, List, Optional

from .connection import Path
from .errors import RegtxError
from .store import Store


class Pool:
    """At most so many connections to the server of a store, one at least, of which each thread takes one for as long as it works.

        pool = regtx.Pool("/run/regtx/app.sock", most=8)
        with pool.store() as store:
            store.transact(work)

    A connection is given back at the end of the `with`. But it is closed if an exception leaves that, if it was lost, if a transaction
    of it is left open, or if a moment was chosen. Nothing is connected before the first `store`.
    """

    def __init__(self, path: Path, most: int = 8, server_uid: Optional[int] = None, timeout: Optional[float] = None):
        if most < 1:
            raise ValueError(f"a pool has one connection at least, and not {most}")
        self._path, self._server_uid, self._timeout = path, server_uid, timeout
        self._places, self._lock = threading.BoundedSemaphore(most), threading.Lock()
        self._idle: List[Store] = []

    @contextmanager
    def store(self) -> Iterator[Store]:
        """A connection: one that was given back, or a new one. If so many are taken, it waits for one. Raises as `Store.connect`."""
        with self._places:
            store = self._taken() or Store.connect(self._path, self._server_uid, self._timeout)
            try:
                yield store
            except BaseException:
                # such as RunEnded, which has been raised already
                with suppress(RegtxError):
                    store.close()
                raise
            self._give_back(store)

    def _taken(self) -> Optional[Store]:
        """A connection that nobody has. The server may have ended those."""
        while True:
            with self._lock:
                store = self._idle.pop() if self._idle else None
            if store is None or store.is_as_new():
                return store
            with suppress(RegtxError):
                store.close()

    def _give_back(self, store: Store) -> None:
        if store.is_as_new():
            with self._lock:
                self._idle.append(store)
        else:
            with suppress(RegtxError):
                store.close()

    def close(self) -> None:
        """Closes the connections that nobody has. The pool can be used further."""
        while True:
            with self._lock:
                if not self._idle:
                    return
                store = self._idle.pop()
            with suppress(RegtxError):
                store.close()

    def __enter__(self) -> Pool:
        return self

    def __exit__(self, kind: object, error: Optional[BaseException], trace: object) -> None:
        self.close()
