"""Stores that tasks of asyncio use: calls, work that is tried again, connections that end, and those who follow."""
import asyncio
import os
import uuid

import regtx
from broker_client import Server
from lost import FIRST, saying
from ours import ID
from regtx import Change, Kind, Store, Value, Writes, aio
from scratch import expect
from served_store import broker_in, served

TASKS, TURNS = 4, 3
UNIT = uuid.uuid5(ID, "by a task")
MOMENT = 133_536_834_155_000_000


async def raised(call):
    """What an awaited call raises."""
    try:
        await call
    except Exception as error:  # noqa: BLE001
        return error
    return None


async def expect_error(title, call, kind, text=None):
    error = await raised(call)
    return expect(title, (type(error), str(error)[:len(text)] if text else None), (kind, text))


async def end(server):
    """Waits for the end of a server, while the loop closes its side."""
    return await asyncio.get_running_loop().run_in_executor(None, server.end)


async def count(t):
    """Counts one on. From its first write on no other transaction writes values of the key."""
    await t.set_value("0:A", "turn", Value.dword(0))
    number = (await t.get_value("0:A", "count")).value
    await t.set_value("0:A", "count", Value.dword(number + 1))


async def calls(it):
    """Each call, beside what a client that isn't asynchronous sees."""
    found = []
    async with await aio.connect(it.path, timeout=60) as store:
        with Store.connect(it.path) as other:
            store.at(MOMENT)
            found.append(expect("create_key", (await store.create_key("0:A\\B"), await store.create_key("0:A")), (2, 0)))
            await store.set_value("0:A", "v w", Value.sz("1.0"))
            await store.set_value("0:A", "", Value.multi_sz(["a", "b"]))
            found.append(expect("get_value", await store.get_value("0:A", "v w"), Value(Kind.REG_SZ, "1.0\0".encode("utf-16-le"))))
            for name in ("subkeys", "value_names", "items", "walk", "key_info"):
                found.append(expect(name, await getattr(store, name)("0:A"), getattr(other, name)("0:A")))
            found.append(expect("its moment", (await store.key_info("0:A")).written, MOMENT))
            store.at(None)
            await store.delete_value("0:A", "v w")
            await store.delete_key("0:A\\B")
            found.append(expect("what is left", (other.value_names("0:A"), other.subkeys("0:A")), ([""], [])))
            found.append(expect("flush", (await store.flush(), store.number), (5, 5)))
            await store.create_key("0:T\\U\\V")
            found.append(expect("delete_tree", (await store.delete_tree("0:T"), other.subkeys("0:")), (3, ["A"])))
            found.append(expect("stats", (await store.stats()).clients, 2))
            found.append(expect("backup", (await store.backup("copy"), os.path.exists(os.path.join(it.backups, "copy", "journal"))), (store.number, True)))
            found.append(await expect_error("a refusal", store.get_value("0:A", "none"), regtx.NotFound, "E2 NotFound: get 0:A none"))
            found.append(await expect_error("no name", store.get_value("0:A", 7), TypeError))
            found.append(await expect_error("no moment", _later(store.at, -1), ValueError))
    return found


async def _later(call, *words):
    return call(*words)


async def transactions(it):
    """Scopes that commit, that roll back, and that are used after their end."""
    found = []
    async with await aio.connect(it.path) as store:
        async with store.transaction(UNIT) as t:
            await t.create_key("0:C")
            found.append(expect("seen outside", await store.subkeys("0:"), ["A"]))
            # a refusal that is caught doesn't end it
            found.append(await expect_error("a refusal within", t.get_value("0:C", "v"), regtx.NotFound))
            found.append(expect("active", await t.is_active(), True))
        found.append(expect("committed", (t.number, await store.kept(UNIT), await store.subkeys("0:")), (store.number, store.number, ["A", "C"])))
        found.append(await expect_error("after its end", t.create_key("0:D"), regtx.ScopeEnded))
        found.append(await expect_error("not begun", store.transaction().create_key("0:D"), regtx.ScopeEnded))

        async def left():
            async with store.transaction() as t:
                await t.create_key("0:D")
                raise KeyError("left")
        found.append(await expect_error("left by an error", left(), KeyError))
        async with store.transaction() as t:
            await t.create_key("0:D")
            await t.rollback()
        found.append(expect("rolled back", await store.subkeys("0:"), ["A", "C"]))
        writes = Writes()
        for at in range(600):
            writes.set_value("0:C", f"v{at}", Value.dword(at))
        found.append(expect("writes", (await store.transact(writes), len(await store.value_names("0:C"))), (store.number, 600)))
        writes.delete_key("0:None")
        found.append(await expect_error("a write is refused", store.transact(writes), regtx.NotFound))
        found.append(expect("nothing is held", store.is_as_new(), True))
    return found


async def together(it):
    """Tasks that count at once, each once, and each unit once."""
    async with await aio.connect(it.path) as store:
        await store.set_value("0:A", "count", Value.dword(0))
        sessions = [await store.session() for _ in range(TASKS)]

        async def work(session):
            for turn in range(TURNS):
                await session.transact(count, tries=1_000)
            return await session.once(uuid.uuid5(ID, "once"), count, tries=1_000)
        numbers = await asyncio.gather(*map(work, sessions))
        # in one session, too, tasks take turns
        shared = await asyncio.gather(*(store.transact(count, tries=1_000) for _ in range(TASKS)))
        counted = (await store.get_value("0:A", "count")).value
        return [expect("once", len(set(numbers)), 1), expect("numbers", len(set(shared)), TASKS),
                expect("counted", counted, TASKS * TURNS + 1 + TASKS)]


async def followers(it):
    """Changes in order and each once, though whoever waits for them is cancelled again and again."""
    found = []
    store = await aio.connect(it.path)
    begin = await store.flush()
    follower, watcher = await store.follow(begin), await store.watch("0:W")
    told = []

    async def follow():
        while len(told) < 40:
            try:
                told.append(await asyncio.wait_for(follower.__anext__(), 0.002))
            except asyncio.TimeoutError:
                pass
    task = asyncio.create_task(follow())
    for at in range(20):
        await store.set_value("0:A", "f", Value.dword(at))
        await store.create_key(f"0:W\\{at}")
        await store.flush()
    await asyncio.wait_for(task, 60)
    found.append(expect("numbers", [change.number for change in told], list(range(begin + 1, begin + 41))))
    found.append(expect("lines", told[1].lines, ["create 0:W\\0"]))
    found.append(expect("of a change", told[0], Change(begin + 1, told[0].moment, None, ["set 0:A f 4 00000000"])))
    found.append(expect("watched", [await watcher.__anext__() for _ in range(20)], list(range(begin + 2, begin + 41, 2))))
    waiting = asyncio.create_task(watcher.__anext__())
    await asyncio.sleep(0.02)
    watcher.close()
    found.append(await expect_error("closed as one waits", asyncio.wait_for(waiting, 60), StopAsyncIteration))
    ahead = await store.follow(begin + 1_000)
    error = await raised(ahead.__anext__())
    found.append(expect("ahead", (type(error), getattr(error, "after", None)), (regtx.CannotFollow, begin + 40)))
    last = asyncio.create_task(raised(follower.__anext__()))
    await asyncio.sleep(0.02)
    await asyncio.get_running_loop().run_in_executor(None, it.end)
    found.append(expect("at the server's end", type(await asyncio.wait_for(last, 60)), StopAsyncIteration))
    found.append(await expect_error("after that", store.flush(), regtx.RunEnded))
    found.append(await expect_error("close", store.close(), regtx.RunEnded))
    return found


async def closed(it):
    """A store is closed as others use it: a call is answered first, and those who follow are cut off."""
    store = await aio.connect(it.path)
    follower = await store.follow(await store.flush())
    waiting, asked = asyncio.create_task(follower.__anext__()), [asyncio.create_task(store.subkeys("0:")) for _ in range(3)]
    await asyncio.sleep(0)
    await asyncio.wait_for(asyncio.gather(store.close(), store.close()), 60)
    found = [await expect_error("one who follows", asyncio.wait_for(waiting, 60), StopAsyncIteration)]
    found.append(expect("calls", [await each for each in asked], [["A", "C"]] * 3))
    found.append(await expect_error("after that", store.flush(), regtx.RunEnded))
    return found


async def refused(program):
    """What is raised if no connection begins."""
    found, path = [], program.at("fake")
    found.append(await expect_error("no socket", aio.connect(program.at("no-socket")), FileNotFoundError))
    for said, kind, _ in FIRST:
        server = Server(path, lambda client, said=said: client.sendall(said))
        found.append(await expect_error(f"{said}", aio.connect(path), kind))
        await end(server)
    return found


async def ended(program):
    """A call that takes too long or is cancelled ends its connection; a commit without a reply is unknown."""
    found, path = [], program.at("fake")
    server = Server(path, saying(b"opened 5\n", b"ok\n", b""))
    store = await aio.connect(path)
    t = store.transaction(UNIT)
    await t.begin()
    found.append(await expect_error("a commit", t.commit(), regtx.CommitUnknown))
    found.append(await expect_error("once", store.once(UNIT, count), regtx.CommitUnknown))
    found.append(await expect_error("kept", store.kept(UNIT), regtx.CommitUnknown))
    found.append(await expect_error("close", store.close(), regtx.RunEnded))
    await end(server)
    for title, kind in (("takes too long", regtx.RunEnded), ("cancelled", asyncio.TimeoutError)):
        server = Server(path, lambda client: client.sendall(b"opened 5\n") or client.recv(1 << 16) and client.recv(1 << 16))
        store = await aio.connect(path, timeout=0.05 if kind is regtx.RunEnded else None)
        call = store.flush()
        found.append(await expect_error(title, call if kind is regtx.RunEnded else asyncio.wait_for(call, 0.05), kind))
        found.append(await expect_error(f"{title}: the next", store.flush(), regtx.RunEnded))
        found.append(expect(f"{title}: as new", store.is_as_new(), False))
        found.append(await expect_error(f"{title}: close", store.close(), regtx.RunEnded))
        await end(server)
    return found


async def not_blocked(program):
    """Other tasks go on while a call waits for its reply."""
    path, ticks = program.at("fake"), []
    server = Server(path, lambda client: client.sendall(b"opened 5\n") or client.recv(100) and client.recv(100))
    store = await aio.connect(path)
    call = asyncio.create_task(raised(store.flush()))
    for at in range(5):
        await asyncio.sleep(0.01)
        ticks.append(call.done())
    call.cancel()
    await asyncio.gather(call, return_exceptions=True)
    await end(server)
    return [expect("others go on", ticks, [False] * 5)]


def tasks(program):
    """All of it, over a store that is served and over servers that say what a test wants."""
    folder = program.at("copies")
    os.mkdir(folder)
    with served(program, broker_in(program), "tasks", backups=folder) as it:
        for part in (calls, transactions, closed, together, followers):
            yield from asyncio.run(part(it))
    for part in (refused, ended, not_blocked):
        yield from asyncio.run(part(program))
