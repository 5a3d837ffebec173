"""Pools of connections, of threads and of tasks."""
import asyncio
import gc
import threading

import regtx
from ours import expect_error
from regtx import Pool, Store, Value, aio
from scratch import expect
from served_store import broker_in, served
from tasks import count as count_later
from tasks import raised as raised_later

THREADS, TURNS, MOST, MOMENT = 6, 3, 3, 133_536_834_155_000_000


def count(t):
    t.set_value("0:A", "turn", Value.dword(0))
    t.set_value("0:A", "count", Value.dword(t.get_value("0:A", "count").value + 1))


def begin(store):
    store.create_key("0:A")
    store.set_value("0:A", "count", Value.dword(0))


def of_threads(program):
    """A pool has so many connections at most, whoever asks."""
    with served(program, broker_in(program), "pool", "-n", str(MOST)) as it, Pool(it.path, MOST, timeout=60) as pool:
        with pool.store() as store:
            begin(store)
        errors = []

        def work():
            try:
                for _ in range(TURNS):
                    with pool.store() as store:
                        store.transact(count, tries=1_000)
            except Exception as error:  # noqa: BLE001
                errors.append(error)
        threads = [threading.Thread(target=work) for _ in range(THREADS)]
        for each in threads:
            each.start()
        for each in threads:
            each.join(100)
        yield expect("errors", errors, [])
        with pool.store() as store:
            yield expect("counted", store.get_value("0:A", "count").value, THREADS * TURNS)
        pool.close()
        # all places are free then
        stores = [Store.connect(it.path) for _ in range(MOST)]
        for each in stores:
            each.close()
        yield expect("places", len(stores), MOST)


def given_back(program):
    """Who takes a connection finds nothing of whoever had it."""
    with served(program, broker_in(program), "given-back", "-n", "1") as it, Pool(it.path, 1) as pool:
        with pool.store() as store:
            begin(store)
            first = store
        with pool.store() as store:
            yield expect("the same again", store is first, True)
            store.at(MOMENT)
        with pool.store() as store:
            yield expect("a moment was chosen", store is first, False)
            left = store.transaction()
            left.set_value("0:A", "count", Value.dword(7))
        with pool.store() as store:
            store.transact(count, tries=1)
            yield expect("one is left open", (store.get_value("0:A", "count").value, store.key_info("0:A").written != MOMENT), (1, True))
            second = store

        def leave():
            with pool.store() as store:
                store.create_key("0:B")
                raise KeyError("left")
        yield expect_error("an error leaves it", leave, KeyError)
        with pool.store() as store:
            yield expect("another one", (store is second, store.subkeys("0:")), (False, ["A", "B"]))


def lost(program):
    """A pool outlives the server, and gives places back that have no connection."""
    with Pool(program.at("no-socket"), 1) as pool:
        for _ in range(2):
            yield expect_error("no server", lambda: pool.store().__enter__(), FileNotFoundError)
            gc.collect()
    yield expect_error("none at all", lambda: Pool("socket", 0), ValueError)
    with served(program, broker_in(program), "pool-lost") as it, Pool(it.path, 1) as pool:
        with pool.store() as store:
            begin(store)
        it.end()
        yield expect("again", it.start(), "ready\n")
        with pool.store() as store:
            yield expect("the server has begun anew", store.subkeys("0:"), ["A"])
        it.kill_program()
        yield expect("and again", it.start(), "ready\n")
        with pool.store() as store:
            yield expect("after a kill", store.subkeys("0:"), ["A"])


async def _of_tasks(it):
    found = []
    async with aio.Pool(it.path, MOST, timeout=60) as pool:
        async with pool.store() as store:
            await store.create_key("0:A")
            await store.set_value("0:A", "count", Value.dword(0))

        async def work():
            for _ in range(TURNS):
                async with pool.store() as store:
                    await store.transact(count_later, tries=1_000)
        await asyncio.gather(*(work() for _ in range(THREADS)))
        async with pool.store() as store:
            found.append(expect("tasks counted", (await store.get_value("0:A", "count")).value, THREADS * TURNS))
            await store.transaction().begin()
            first = store
        async with pool.store() as store:
            found.append(expect("one was left open", store is first, False))
            second = store

        async def cancelled():
            async with pool.store() as store:
                await store.create_key("0:C")
                await asyncio.sleep(100)
        found.append(expect("cancelled", type(await raised_later(asyncio.wait_for(cancelled(), 0.2))), asyncio.TimeoutError))
        async with pool.store() as store:
            found.append(expect("its place is free", (store is second, await store.subkeys("0:")), (False, ["A", "C"])))
        await asyncio.get_running_loop().run_in_executor(None, it.end)
        found.append(expect("again", await asyncio.get_running_loop().run_in_executor(None, it.start), "ready\n"))
        async with pool.store() as store:
            found.append(expect("the server has begun anew", await store.subkeys("0:"), ["A", "C"]))
    found.append(expect("none at all", type(await raised_later(_later())), ValueError))
    return found


async def _later():
    return aio.Pool("socket", 0)


def of_tasks(program):
    with served(program, broker_in(program), "pool-tasks", "-n", str(MOST)) as it:
        yield from asyncio.run(_of_tasks(it))


def pools(program):
    """Pools of threads, and one of tasks."""
    yield expect("exported", regtx.Pool is Pool, True)
    for part in (of_threads, given_back, lost, of_tasks):
        yield from part(program)
