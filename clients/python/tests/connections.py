"""Stores that a server has: what several connections see, what is sent together, and work that is done once."""
import os
import threading
import uuid

import regtx
from broker_client import Server
from ours import ID, expect_error, store_of
from regtx import Store, Value, Writes
from scratch import expect
from served_store import broker_in, served

THREADS, TURNS = 4, 10
# a value of so many bytes makes a longer line than a server takes
TOO_LONG = 2_100_000
MOMENT = 133_536_834_155_000_000


def unit(name):
    return uuid.uuid5(ID, name)


def connections(program):
    """Several connections to one store: what each sees, and what it may not do."""
    with served(program, broker_in(program), "connections", "-n", "4", hives=2) as it:
        with Store.connect(it.path) as one, Store.connect(it.path, timeout=60) as two:
            yield expect("opened", (one.opened_at, one.number), (0, 0))
            yield expect("a key", (one.create_key("0:A\\B"), two.subkeys("0:"), one.number, two.number), (2, ["A"], 1, 0))
            with two.transaction(unit("t")) as t:
                t.set_value("0:A", "v", Value.dword(7))
                yield expect_error("another's write", lambda: one.get_value("0:A", "v"), regtx.NotFound)
                with one.transaction() as other:
                    yield expect_error("its conflict", lambda: other.set_value("0:A", "v", Value.dword(8)), regtx.Conflict, "E7 Conflict: tx ")
                    other.create_key("1:B")
            yield expect("both committed", (t.number, one.get_value("0:A", "v").value, one.kept(unit("t")), one.flush()), (3, 7, 3, 3))
            yield expect_error("a fold", one.fold, regtx.Unsupported, "E17 Unsupported: fold")
            yield from sessions_of(one, two)
            yield expect_error("a long line", lambda: one.set_value("0:A", "v", Value.binary(bytes(TOO_LONG))), regtx.TooLarge)
            yield expect("it goes on", one.subkeys("0:"), ["A"])
            with Store.connect(it.path) as late:
                yield expect("opened later", late.opened_at, one.number)
        yield from places(it)
        yield expect("the end", it.end(), (0, "", ""))
    yield expect("what is there", it.replies("keys 0:", "get 0:A v", "keys 1:"), ["opened 5", "keys 1 A", "value 4 07000000", "keys 1 B"])


def sessions_of(one, two):
    """A session is another connection, whose writes have the moment that the store chose."""
    one.at(MOMENT)
    with one.session() as session:
        session.create_key("0:A\\Timed")
        yield expect("the moment of a session", two.key_info("0:A\\Timed").written, MOMENT)
        session.delete_key("0:A\\Timed")
        t = session.transaction()
        t.set_value("0:A", "v", Value.dword(9))
        yield expect_error("in a session's way", lambda: two.transact(lambda x: x.set_value("0:A", "v", Value.dword(1)), tries=1),
                           regtx.Conflict)
    yield expect_error("after its end", lambda: session.subkeys("0:"), regtx.ScopeEnded)
    yield expect_error("its transaction", t.commit, regtx.ScopeEnded)
    # it was rolled back before `end` returned
    with two.transaction() as again:
        again.set_value("0:A", "v", Value.dword(9))
        again.rollback()
    one.at(None)
    yield expect("the numbers of both", (one.number, two.number), (5, 3))


def places(it):
    """A client more than there are places for; and a place that is free as soon as `close` has returned."""
    stores = [Store.connect(it.path) for _ in range(4)]
    yield expect_error("one more", lambda: Store.connect(it.path), regtx.NoSeat, "E10 NoSeat")
    yield expect_error("a session more", stores[0].session, regtx.NoSeat)
    for turn in range(10):
        stores[turn % 4].close()
        stores[turn % 4] = Store.connect(it.path)
    stores[0].close()
    session = stores[1].session()
    yield expect("a session in its place", session.subkeys("0:"), ["A"])
    stores[1].close()
    yield expect_error("a store and its session", lambda: session.subkeys("0:"), regtx.RunEnded, "the store is closed")
    yield expect_error("closed", stores[0].flush, regtx.RunEnded, "the store is closed")
    for store in [*stores, Store.connect(it.path), Store.connect(it.path)]:
        store.close()


def gathered(program):
    """Writes that are sent together, alike over a run and over a connection."""
    with served(program, broker_in(program), "gathered") as it:
        with store_of(program, "gathered/run") as run, Store.connect(it.path) as connection:
            for name, store in (("a run", run), ("a connection", connection)):
                for result in gathered_in(store):
                    yield result and f"{name}: {result}"


def gathered_in(store):
    writes = Writes()
    writes.create_key("0:K\\L")
    writes.set_value("0:K", "v", Value.dword(1))
    writes.set_value("0:K", "gone", Value.dword(1))
    writes.delete_value("0:K", "gone")
    writes.create_key("0:K\\M")
    writes.delete_key("0:K\\M")
    yield expect("many", (store.transact(writes, unit("many")), store.subkeys("0:K"), store.items("0:K")), (1, ["L"], [("v", Value.dword(1))]))
    one = Writes()
    one.set_value("0:K", "v", Value.dword(2))
    yield expect("one", (store.transact(one), store.get_value("0:K", "v").value, len(one)), (2, 2, 1))
    yield expect("none", store.transact(Writes(), unit("none")), 0)
    wrong = Writes()
    wrong.create_key("0:Wrong")
    wrong.delete_key("0:None")
    wrong.create_key("0:Later")
    yield expect_error("the second is refused", lambda: store.transact(wrong), regtx.NotFound, "E2 NotFound: tx ")
    yield expect("nothing of it", (store.subkeys("0:"), store.number), (["K"], 2))
    alone = Writes()
    alone.delete_key("0:None")
    yield expect_error("one is refused", lambda: store.transact(alone, unit("alone")), regtx.NotFound, "E2 NotFound: tx ")
    yield expect("nothing of that", (store.kept(unit("alone")), store.number), (None, 2))
    with store.transaction() as t:
        t.write_all(writes)
        t.create_key("0:K\\N")
    yield expect("within a transaction", (t.number, store.subkeys("0:K")), (3, ["L", "N"]))
    large = Writes()
    for number in range(1_500):
        large.set_value("0:K\\L", f"v{number}", Value.binary(bytes(100)))
    large.set_value("0:K\\L", "w", Value.binary(bytes(1_000_000)))
    yield expect("very many", (store.transact(large), len(store.value_names("0:K\\L"))), (4, 1_501))
    for call, kind in ((lambda: one.create_key("K"), ValueError), (lambda: one.set_value("0:", "v", "text"), TypeError)):
        yield expect_error("what is none", call, kind)
    yield expect("it is as before", len(one), 1)


def exchanges(program):
    """What is sent together, by how often a client waits for the server."""
    def serve(client):
        """Answers all that has come each time; the lines of each such moment."""
        client.sendall(b"opened 0\n")
        moments, answers = [], {"begin": "ok", "kept": "E2 NotFound", "commit": "committed 1", "tx": "ok", "set": "accepted 1"}
        while got := client.recv(1 << 18):
            lines = got.decode().splitlines()
            moments.append([line.partition(" ")[0] for line in lines])
            client.sendall("".join(f"{answers.get(line.partition(' ')[0], 'ok')}\n" for line in lines).encode())
        return moments

    one, two = Writes(), Writes()
    for writes in (one, two, two):
        writes.delete_key("0:K")

    def work(t):
        t.delete_key("0:K")

    for title, call, wanted in [
            ("a write alone", lambda store: store.set_value("0:", "v", Value.none()), [["set"]]),
            ("a transaction", lambda store: store.transact(work), [["begin"], ["tx"], ["commit", "close"]]),
            ("one write", lambda store: store.transact(one), [["begin", "tx", "commit", "close"]]),
            ("two writes", lambda store: store.transact(two), [["begin", "tx", "tx"], ["commit", "close"]]),
            ("once", lambda store: store.once(ID, work), [["begin", "kept"], ["tx"], ["commit", "close"]]),
            ("once, one write", lambda store: store.once(ID, one), [["begin", "kept"], ["tx", "commit", "close"]]),
            ("once, two writes", lambda store: store.once(ID, two), [["begin", "kept"], ["tx", "tx"], ["commit", "close"]])]:
        server = Server(program.at("fake"), serve)
        with Store.connect(server.path) as store:
            call(store)
        # the moment of a write goes with it, unless it is as before
        found = [[word for word in moment if word != "at"] for moment in server.end()]
        yield expect(title, found, wanted)


def once_of_both(program):
    """Work that is done once, alike over a run and over a connection."""
    with served(program, broker_in(program), "once") as it:
        with store_of(program, "once/run") as run, Store.connect(it.path) as connection:
            for name, store in (("a run", run), ("a connection", connection)):
                for result in once_in(store):
                    yield result and f"{name}: {result}"
        yield from once_elsewhere(it)


def once_in(store):
    times = []

    def work(t):
        times.append(t)
        t.create_key(f"0:Once\\{len(times)}")

    yield expect("twice", (store.once(unit("twice"), work), store.once(unit("twice"), work), len(times)), (1, 1, 1))
    writes = Writes()
    writes.create_key("0:Once\\W")
    yield expect("one write", [store.once(unit("w"), writes) for _ in range(2)], [2, 2])
    writes.create_key("0:Once\\X")
    yield expect("two writes", [store.once(unit("x"), writes) for _ in range(2)], [3, 3])
    yield expect("no writes", store.once(unit("none"), lambda t: None), 0)
    yield expect_error("an error of its own", lambda: store.once(unit("error"), lambda t: t.create_key("0:E") and {}["x"]), KeyError)
    yield expect_error("a refusal", lambda: store.once(unit("refusal"), lambda t: t.delete_key("0:Once")), regtx.HasSubkeys)
    yield expect("neither is kept", (store.kept(unit("error")), store.kept(unit("refusal")), store.subkeys("0:")), (None, None, ["Once"]))
    with store.session() as session:
        yield expect("in a session", (session.once(unit("twice"), work), session.once(unit("s"), work)), (1, 4))
    # threads of one store, each by a session of its own
    done = []

    def thread():
        with store.session() as mine:
            done.append(mine.once(unit("threads"), work, tries=40))

    run_all([thread] * THREADS)
    yield expect("threads", (done, len(times)), (THREADS * [5], 3))


def run_all(works):
    threads = [threading.Thread(target=work) for work in works]
    for thread in threads:
        thread.start()
    for thread in threads:
        thread.join()


def once_elsewhere(it):
    """A unit that another connection has at hand is waited for; and threads count by connections of their own."""
    with Store.connect(it.path) as store, Store.connect(it.path) as other:
        held = other.transaction(unit("held"))
        held.create_key("0:Held")
        yield expect_error("at hand elsewhere", lambda: store.once(unit("held"), lambda t: None, tries=2), regtx.Conflict, "E7 Conflict: begin ")
        timer = threading.Timer(0.05, held.commit)
        timer.start()
        number = store.once(unit("held"), lambda t: t.create_key("0:Twice"), tries=20)
        timer.join()
        yield expect("done by the other", (number, held.number, "Twice" in store.subkeys("0:")), (held.number, held.number, False))

    def count(t):
        try:
            number = t.get_value("0:Once", "count").value
        except regtx.NotFound:
            number = 0
        t.set_value("0:Once", "count", Value.dword(number + 1))

    def thread():
        with Store.connect(it.path) as store:
            for _ in range(TURNS):
                store.transact(claimed, tries=1_000)

    def claimed(t):
        # from this on no other transaction writes values of the key, so that what is read stays
        t.set_value("0:Once", "turn", Value.dword(0))
        count(t)

    run_all([thread] * THREADS)
    with Store.connect(it.path) as store:
        yield expect("counted by threads", store.get_value("0:Once", "count").value, THREADS * TURNS)
