"""Stores that are used after a fork, stores that nobody closes, times of writes, and what programs tell on standard error."""
import gc
import os
import subprocess
import sys
from datetime import datetime, timedelta, timezone

import regtx
from ours import ID, expect_error, leave, raised, script, store_of, wrapper
from regtx import Store, Value
from scratch import expect

CLIENT = os.path.dirname(os.path.dirname(regtx.__file__))


def dropped(program):
    """A store that is dropped without a close is free at once, and its process is gone; also if a session alone is left of it."""
    def hold():
        store = Store(program.at("dropped"), program.path)
        store.create_key("0:Held")
        return store.session()

    Store.create(program.at("dropped"), ID, 1, program.path)
    session = hold()
    yield expect("a session holds the run", session.subkeys("0:"), ["Held"])
    yield expect_error("which is in use", lambda: Store(program.at("dropped"), program.path), regtx.CannotOpen)
    del session
    gc.collect()
    yield expect_error("no process is left", lambda: os.waitpid(-1, os.WNOHANG), ChildProcessError)
    with Store(program.at("dropped"), program.path) as store:
        yield expect("what was accepted", store.subkeys("0:"), ["Held"])
    ran = subprocess.run([sys.executable, "-c", f"import regtx; s = regtx.Store('dropped', {program.path!r}); s.create_key('0:Last')"],
                         cwd=program.home, env=dict(os.environ, PYTHONPATH=CLIENT, PYTHONDONTWRITEBYTECODE="1"), capture_output=True, timeout=60)
    yield expect("at the interpreter's end", (ran.returncode, ran.stderr), (0, b""))
    yield expect("what it left", script(program, "dropped", "keys 0:"), ["opened 2", "keys 2 Held Last"])


def forks(program):
    """Ten processes that are forked use what the maker opened: each call is refused, nothing is sent, and the maker goes on."""
    store = Store.create(program.at("forks"), ID, 1, program.path) or Store(program.at("forks"), program.path)
    store.set_value("0:", "v", Value.dword(7))
    session, t = store.session(), store.transaction()
    t.create_key("0:Mine")
    uses = [lambda: store.get_value("0:", "v"), lambda: store.create_key("0:X"), lambda: store.transaction(), lambda: store.session(),
            store.flush, store.fold, lambda: store.kept(ID), lambda: session.subkeys("0:"), lambda: t.get_value("0:", "v"), t.commit, session.end]

    def child():
        wrong = [number for number, use in enumerate(uses) if type(raised(use)) is not regtx.OtherProcess]
        return len(wrong) + (store.close() is not None) + (raised(lambda: leave(store, KeyError())) is None)

    # they stay until the maker has closed the store
    ready, go = os.pipe(), os.pipe()
    pids = [forked(child, ready, go) for _ in range(10)]
    os.close(ready[1])
    found = [store.get_value("0:", "v").value for _ in range(500)]
    yield expect("the maker reads", found, 500 * [7])
    with os.fdopen(ready[0], "rb") as file:
        yield expect("what went wrong in each", file.read(10), bytes(10))
    yield expect("the maker goes on", (t.commit(), session.subkeys("0:"), store.close()), (2, ["Mine"], None))
    os.close(go[1])
    yield expect("their ends", [os.waitpid(pid, 0)[1] for pid in pids], 10 * [0])
    yield expect("what is there", script(program, "forks", "keys 0:", "values 0:"), ["opened 2", "keys 1 Mine", "values 1 v"])


def forked(work, ready, go):
    """A process that writes how much went wrong in it, and ends once nobody can write to `go`."""
    pid = os.fork()
    if not pid:
        try:
            os.close(go[1])
            os.write(ready[1], bytes([work()]))
            os.read(go[0], 1)
        finally:
            os._exit(0)
    return pid


def times(program):
    """The time of a write is that of now, or the one that was chosen."""
    def written():
        store.create_key("0:K")
        store.delete_key("0:K")
        store.create_key("0:K")
        return store.key_info("0:K")

    with store_of(program, "times") as store:
        for _ in range(2):
            before = datetime.now(timezone.utc) - timedelta(milliseconds=1)
            found = written().written_at
            yield expect("now", before <= found <= datetime.now(timezone.utc), True)
            chosen = datetime(2024, 2, 29, 12, 30, 15, 500_001, tzinfo=timezone.utc)
            store.at(regtx.moment_of(chosen))
            yield expect("chosen", (written().written_at, store.key_info("0:K").written), (chosen, 133_536_834_155_000_010))
            with store.transaction() as t:
                t.create_key("0:T")
            yield expect("a commit's", store.key_info("0:T").written_at, chosen)
            store.delete_key("0:T")
            store.at(None)
        store.at(0)
        yield expect("the first", str(written().written_at), "1601-01-01 00:00:00+00:00")
        for moment in (-1, 1 << 64):
            yield expect_error(f"the moment {moment}", lambda: store.at(moment), ValueError)
        with store.transaction() as t:
            t.set_value("0:K", "v", Value.dword(1))
            store.at(None)
        yield expect("a commit has a time of its own", store.key_info("0:K").written_at > before, True)


def hints(program):
    """What a program tells on standard error, once it is asked to, is in the errors; each of it in one."""
    def told(text):
        return wrapper(program, "telling", f'tell() {{ test "$REGTX_HINTS" = 1 && echo "regtx: $1" >&2; }}\n{text}')

    path = told("tell one; tell two; echo cannot open store; exit 1")
    yield expect_error("not opened", lambda: Store("x", path), regtx.CannotOpen, "cannot open store (status 1) (regtx: one; regtx: two)")
    path = told("tell why; echo cannot make store; exit 1")
    error = raised(lambda: Store.create("x", ID, 1, path))
    yield expect("not made", (type(error), error.hints), (regtx.CannotMake, "regtx: why"))
    path = told("echo opened 0; read line; tell full; echo E13 DiskFault; read line; echo E14 Faulted; read line; tell end; exit 3")
    store = Store("x", path)
    for kind, wanted in [(regtx.DiskFault, "regtx: full"), (regtx.Faulted, ""), (regtx.RunEnded, "regtx: end")]:
        error = raised(store.flush)
        yield expect(wanted, (type(error), error.hints), (kind, wanted))
    path = told("echo opened 0; read line; tell late; echo E13 DiskFault; exit 1")
    yield expect_error("at the end", Store("x", path).close, regtx.DiskFault, "E13 DiskFault (regtx: late)")
    with store_of(program, "hints") as store:
        yield expect("nothing", raised(lambda: store.subkeys("0:None")).hints, "")
