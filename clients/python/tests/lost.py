"""Connections that don't begin, that are lost, or that belong to another process; and servers that answer wrongly."""
import gc
import os
import signal
import subprocess
import sys
import threading
import uuid

import regtx
from broker_bench import as_other
from broker_client import Server
from lives import CLIENT, forked
from ours import ID, expect_error, leave, raised
from regtx import Store, Value, Writes
from scratch import NOBODY, expect
from served_store import broker_in, served, until

KILLS = 12
# what a server says first, and what is raised
FIRST = [(b"E10 NoSeat\n", regtx.NoSeat, "E10 NoSeat"), (b"E14 Faulted\n", regtx.Faulted, "E14 Faulted"),
         (b"", regtx.RunEnded, "the server ended the connection, before it said"),
         (b"opened 5", regtx.RunEnded, "the server ended the connection, and printed: opened 5, before it said"),
         (b"hello\n", regtx.RunEnded, "the server ended the connection, and printed: hello, before it said")]
# what it replies to a read and then ends the connection, and what is raised
REPLIES = [(b"", "the server ended the connection, before it answered: get 0: v"),
           (b"value 4 0100", "the server ended the connection, and printed: value 4 0100, before it answered: get 0: v"),
           (b"line 1: not understood\n", "the server ended the connection, and printed: line 1: not understood, before it answered")]


def saying(*parts):
    """Says the first part at once, and each other one after something came; then it ends the connection."""
    def serve(client):
        client.sendall(parts[0])
        for part in parts[1:]:
            if not client.recv(1 << 18):
                return
            client.sendall(part)
    return serve


def refused_connections(program):
    """What is raised if no connection begins."""
    path = program.at("fake")
    yield expect_error("no socket", lambda: Store.connect(program.at("no-socket")), FileNotFoundError)
    program.put("file", b"")
    yield expect_error("a file", lambda: Store.connect(program.at("file")), ConnectionRefusedError)
    yield expect_error("a long path", lambda: Store.connect("s" * 108), OSError)
    for said, kind, text in FIRST:
        server = Server(path, lambda client: client.sendall(said))
        yield expect_error(f"{said}", lambda: Store.connect(path), kind, text)
        server.end()
    server = Server(path, saying(b"opened 7\n"))
    with Store.connect(path, timeout=60) as store:
        yield expect("opened", (store.opened_at, store.number), (7, 7))
    server.end()
    yield from peers(program, path)


def peers(program, path):
    """Nothing is sent to another user's server, unless it is named."""
    if os.geteuid() != 0:
        return
    os.mkdir(program.at("theirs"))
    os.chown(program.at("theirs"), NOBODY, NOBODY)
    theirs = program.at("theirs", "socket")
    for given, kind in [(None, regtx.NotTrusted), (1, regtx.NotTrusted), (NOBODY, type(None))]:
        said = b"" if kind is regtx.NotTrusted else b"opened 0\n"
        with as_other():
            server = Server(theirs, lambda client: said and client.sendall(said) or client.recv(100))
        error = raised(lambda: Store.connect(theirs, server_uid=given).close())
        yield expect(f"trusted: {given}", (type(error), getattr(error, "uid", NOBODY), server.end()), (kind, NOBODY, b""))
    yield expect("its text", str(raised(lambda: (_server(theirs), Store.connect(theirs)))),
                 f"the server at {theirs} belongs to user {NOBODY}: server_uid={NOBODY} trusts it")
    for given in (None, 12_345):
        server = Server(path, saying(b"opened 0\n"))
        Store.connect(path, server_uid=given).close()
        yield expect(f"root's, and {given} is named", server.end(), None)


def _server(path):
    with as_other():
        Server(path, lambda client: client.recv(1))


def lost_connections(program):
    """What is raised of a connection that is lost, and of one whose server answers too late."""
    path = program.at("fake")
    for said, text in REPLIES:
        server = Server(path, saying(b"opened 0\n", said))
        store = Store.connect(path)
        yield expect_error(f"{said}", lambda: store.get_value("0:", "v"), regtx.RunEnded, text)
        yield expect_error("used after it", lambda: store.subkeys("0:"), regtx.RunEnded, "the server ended the connection")
        yield expect_error("a session of it", store.session, regtx.RunEnded, "the server ended the connection")
        yield expect_error("closed", store.close, regtx.RunEnded, "the server ended the connection")
        yield expect("closed again", store.close(), None)
        server.end()
    writes = Writes()
    writes.delete_key("0:A")
    writes.delete_key("0:B")
    # what comes of two writes and a commit that are sent at two moments; is the outcome open?
    for last, kind in [((b"ok\nok\nok\n", b""), regtx.CommitUnknown), ((b"ok\nok\nok\n", b"committed 1\n"), type(None)),
                       ((b"ok\nok\nok\n", b"committed"), regtx.CommitUnknown), ((b"ok\nok\n",), regtx.RunEnded),
                       ((b"ok\nok\nok\n", b"E14 Faulted\nok\n"), regtx.CommitUnknown),
                       ((b"ok\nok\nok\n", b"E12 HistoryFull\nok\n"), regtx.HistoryFull)]:
        server = Server(path, saying(b"opened 0\n", b"ok\n" + last[0], *last[1:]))
        store = Store.connect(path)
        # the first of these replies is to the moment, which is told once
        store.at(5)
        error = raised(lambda: store.transact(writes, ID, tries=1))
        yield expect(f"{last}", (type(error), getattr(error, "unit", ID)), (kind, ID))
        if kind is regtx.CommitUnknown:
            yield expect_error("asked here", lambda: store.kept(ID), regtx.CommitUnknown)
            yield expect_error("done here", lambda: store.once(ID, writes), regtx.CommitUnknown)
        raised(store.close)
        server.end()
    server = Server(path, lambda client: client.sendall(b"opened 0\n") or [client.recv(100), client.recv(100)])
    store = Store.connect(path, timeout=0.2)
    yield expect_error("too late", store.flush, regtx.RunEnded, "the server took longer than 0.2 seconds, before it answered: flush")
    yield expect_error("closed after it", store.close, regtx.RunEnded, "the server took longer than 0.2 seconds")
    yield expect("the server sees its end", server.end(), [b"flush\n", b""])


def ended_transactions(program):
    """A transaction that the server ended is begun again, by `transact` and by `once`."""
    def serve(client):
        """Answers each line; the first line in a transaction, and the line that ends it, by E9."""
        client.sendall(b"opened 0\n")
        words = []
        while got := client.recv(1 << 18):
            for line in got.decode().splitlines():
                word = line.partition(" ")[0]
                words += [] if word == "at" else [word]
                is_lost = words.count("tx") == 1 and word in ("tx", "close")
                client.sendall(b"E9 NoSuchHandle\n" if is_lost else {"commit": b"committed 1\n", "kept": b"E2 NotFound\n"}.get(word, b"ok\n"))
        return words

    for title, call, begin in [("transact", lambda store: store.transact(lambda t: t.delete_key("0:K")), ["begin"]),
                               ("once", lambda store: store.once(ID, lambda t: t.delete_key("0:K")), ["begin", "kept"])]:
        server = Server(program.at("fake"), serve)
        with Store.connect(server.path) as store:
            yield expect(title, call(store), 1)
        yield expect(f"the lines of {title}", server.end(), [*begin, "tx", "close", *begin, "tx", "commit", "close"])


class Alarm(Exception):
    """Interrupts a call, as Ctrl-C does."""


def interrupted_connections(program):
    """A call that is interrupted: its reply is never taken for another one's."""
    def alarm(number, frame):
        raise Alarm

    went = threading.Event()

    def serve(client):
        client.sendall(b"opened 0\n")
        client.recv(100)
        went.wait(60)
        client.sendall(b"value 4 01000000\n")
        return client.recv(100)

    before = signal.signal(signal.SIGALRM, alarm)
    server = Server(program.at("fake"), serve)
    with Store.connect(server.path) as store:
        signal.setitimer(signal.ITIMER_REAL, 0.1)
        error = raised(lambda: store.get_value("0:", "one"))
        went.set()
        yield expect("interrupted", type(error), Alarm)
        yield expect_error("used after it", lambda: store.get_value("0:", "two"), regtx.RunEnded, "the connection was interrupted within a line")
    yield expect("nothing was sent after it", server.end(), b"")
    signal.signal(signal.SIGALRM, before)


def forks_of_connections(program):
    """Processes that are forked: each call is refused there, nothing is sent, and the maker goes on."""
    with served(program, broker_in(program), "forked") as it:
        store = Store.connect(it.path)
        store.set_value("0:", "v", Value.dword(7))
        session, t = store.session(), store.transaction()
        t.create_key("0:Mine")
        uses = [lambda: store.get_value("0:", "v"), lambda: store.create_key("0:X"), lambda: store.transaction(), lambda: store.session(),
                store.flush, store.fold, lambda: store.kept(ID), lambda: store.once(ID, lambda _: None), lambda: store.transact(Writes()),
                lambda: session.subkeys("0:"), t.commit, session.end, lambda: store.at(None)]

        def child():
            wrong = [number for number, use in enumerate(uses) if type(raised(use)) is not regtx.OtherProcess]
            wrong += [None] * (store.close() is not None) + [None] * (raised(lambda: leave(store, KeyError())) is None)
            with Store.connect(it.path) as own:
                return len(wrong) + (own.get_value("0:", "v").value != 7)

        ready, go = os.pipe(), os.pipe()
        pids = [forked(child, ready, go) for _ in range(5)]
        os.close(ready[1])
        found = [store.get_value("0:", "v").value for _ in range(100)]
        yield expect("the maker reads", found, 100 * [7])
        with os.fdopen(ready[0], "rb") as file:
            yield expect("what went wrong in each", file.read(5), bytes(5))
        # the copies of the others are closed, or this would wait for them
        yield expect("the maker goes on", (t.commit(), session.subkeys("0:"), store.close()), (2, ["Mine"], None))
        os.close(go[1])
        yield expect("their ends", [os.waitpid(pid, 0)[1] for pid in pids], 5 * [0])
        yield from dropped_connections(it)


def dropped_connections(it):
    """A connection that nobody closes ends when it is dropped, or with its process; and so does its transaction."""
    def hold():
        t = Store.connect(it.path).transaction()
        t.set_value("0:Mine", "v", Value.dword(1))
        return t

    t = hold()
    yield expect("a transaction holds it", t.get_value("0:Mine", "v").value, 1)
    del t
    gc.collect()
    with Store.connect(it.path) as store:
        write = Writes()
        write.set_value("0:Mine", "v", Value.dword(2))
        yield expect("after it was dropped", store.transact(write, tries=20), 3)
        ran = subprocess.run([sys.executable, "-W", "error", "-c", f"""
import regtx
t = regtx.Store.connect({it.path!r}).transaction()
t.set_value("0:Mine", "v", regtx.Value.dword(1))
"""], env=dict(os.environ, PYTHONPATH=CLIENT, PYTHONDONTWRITEBYTECODE="1"), capture_output=True, timeout=60)
        yield expect("at the interpreter's end", (ran.returncode, ran.stderr), (0, b""))
        yield expect("after a process", store.transact(write, tries=20), 4)


def killed_servers(program):
    """The program is killed under a series of units of work, and the broker once; what was told is there, and each unit once."""
    with served(program, broker_in(program), "killed") as it:
        done, told = 0, {}
        for kill in range(KILLS):
            victim = it.server if kill % 3 else it.process.pid
            store = Store.connect(it.path)
            os.kill(victim, signal.SIGKILL) if kill % 2 else None
            error = raised(lambda: [told.update({n: store.once(unit_of(n), counting(n))}) for n in range(done + 1, done + 6)])
            if error is None:
                os.kill(victim, signal.SIGKILL)
                error = raised(lambda: until(lambda: store.flush() and False))
            yield expect("the error", isinstance(error, (regtx.RunEnded, regtx.CommitUnknown)), True) and f"{error!r}"
            it.wait()
            done = max(told, default=0)
            raised(store.close)
            yield expect("it starts again", it.start(), "ready\n")
        with Store.connect(it.path) as store:
            count = done + 3
            numbers = [store.once(unit_of(n), counting(n)) for n in range(1, count + 1)]
            yield expect("what was told", {n: numbers[n - 1] for n in told}, told)
            yield expect("each once", (store.get_value("0:Units", "count").value, len(store.subkeys("0:Units"))), (count, count))
            yield expect("the numbers", numbers, list(range(1, count + 1)))


def unit_of(number):
    return uuid.uuid5(ID, f"killed {number}")


def counting(number):
    def work(t):
        t.create_key(f"0:Units\\{number}")
        try:
            count = t.get_value("0:Units", "count").value
        except regtx.NotFound:
            count = 0
        t.set_value("0:Units", "count", Value.dword(count + 1))
    return work
