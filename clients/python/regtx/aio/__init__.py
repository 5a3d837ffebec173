r"""Stores that a server has, for programs with asyncio.

    async with await regtx.aio.connect("/run/regtx/app.sock") as store:
        async with store.transaction() as t:
            await t.create_key(r"0:Software\Vendor")
        async for change in await store.follow(store.opened_at):
            print(change.number)

Keys, names, values, `Writes` and errors are those of `regtx`. Calls are as those of `regtx.Store`, and are awaited. One that is cancelled
within a line ends its connection, since the reply would be taken for that to the next line.
"""
from .follow import Follower, Watcher
from .pool import Pool
from .store import Session, Store, Transaction, Work, connect

__all__ = ["Follower", "Pool", "Session", "Store", "Transaction", "Watcher", "Work", "connect"]
# whichever file has it, a user knows it by this module
for _name in __all__:
    if isinstance(globals()[_name], type):
        globals()[_name].__module__ = __name__
