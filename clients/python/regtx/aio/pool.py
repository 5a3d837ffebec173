"""Connections to a server that tasks take and give back."""
from __future__ import annotations

import asyncio
from contextlib import asynccontextmanager, suppress
from typing import AsyncIterator, List, Optional

from ..connection import Path
from ..errors import RegtxError
from .store import Store, connect


class Pool:
    """At most so many connections to the server of a store, one at least, of which each task takes one for as long as it works.

        async with regtx.aio.Pool("/run/regtx/app.sock", most=8) as pool:
            async with pool.store() as store:
                await store.transact(work)

    A connection is given back at the end of the inner `async with`. But it is closed if an exception leaves that, if it was lost, if a
    transaction of it is left open, or if a moment was chosen. Make a pool within the loop that uses it.
    """

    def __init__(self, path: Path, most: int = 8, server_uid: Optional[int] = None, timeout: Optional[float] = None):
        if most < 1:
            raise ValueError(f"a pool has one connection at least, and not {most}")
        self._path, self._server_uid, self._timeout = path, server_uid, timeout
        self._places = asyncio.Semaphore(most)
        self._idle: List[Store] = []

    @asynccontextmanager
    async def store(self) -> AsyncIterator[Store]:
        """A connection: one that was given back, or a new one. If so many are taken, it waits for one. Raises as `connect`."""
        async with self._places:
            store = await self._taken() or await connect(self._path, self._server_uid, self._timeout)
            try:
                yield store
            except BaseException:
                # such as RunEnded, which has been raised already
                await self._close(store)
                raise
            if store.is_as_new():
                self._idle.append(store)
            else:
                await self._close(store)

    async def _taken(self) -> Optional[Store]:
        """A connection that nobody has. The server may have ended those."""
        while self._idle:
            store = self._idle.pop()
            if store.is_as_new():
                return store
            await self._close(store)
        return None

    @staticmethod
    async def _close(store: Store) -> None:
        with suppress(RegtxError):
            await store.close()

    async def close(self) -> None:
        """Closes the connections that nobody has. The pool can be used further."""
        while self._idle:
            await self._close(self._idle.pop())

    async def __aenter__(self) -> Pool:
        return self

    async def __aexit__(self, kind: object, error: Optional[BaseException], trace: object) -> None:
        await self.close()
