#!/usr/bin/env python3
"""Uses stores by clients/python/regtx and a built program:

    tests/python_client.py PROGRAM [SEED]

- values: makers of each type beside the bytes that the registry's rules give; a script reads what was written. Bytes that are not of
  their type.
- names: keys and values by names with blanks, line ends, quotes and other letters; the lines that were sent are counted and compared.
- refusals: the error of each, with its code, name and reply.
- scopes: transactions that commit, are rolled back, are refused and are used after their end; and how a store is closed.
- sessions: conflicts of transactions, a fold, and threads that share a store.
- trees: what is below a key, read and deleted.
- conflicts: work that is tried again.
- dropped: a store that nobody closes.
- forks: processes that are forked use a store that isn't theirs.
- times: what a key's last write was at.
- hints: what programs tell on standard error.
- connections, gathered, exchanges, once_of_both: connections to a store that is served, what is sent together, and work done once.
- refused_connections, lost_connections, ended_transactions, interrupted_connections, forks_of_connections, killed_servers: how
  connections don't begin, and how they and their transactions end.
- backups, followers, followed_ends: copies of a store that is served, and clients that are told of its changes.
- commands: stores that are made, imported and upgraded.
- ends: programs that end early, that add a line or a status at their end, or that are interrupted; a full disk, a store in use.
- calls: a run with one commit is ended at each of its calls on files in turn, and another run says whether it is done.
- kills: a series of units of work, whose runs are ended by SIGKILL; `kept` decides what is done again, and each is done once.
- pages: what the page's examples print.

The seed is printed. The last line is 'N passed, N failed'; status 0 if none failed. What isn't over after 240 seconds ends with status 1.
"""
import faulthandler
import gzip
import os
import random
import re
import select
import signal
import subprocess
import sys
import textwrap
import threading
import uuid
from datetime import datetime, timezone

TOP = os.path.dirname(os.path.dirname(os.path.abspath(__file__)))
CLIENT = os.path.join(TOP, "clients", "python")
sys.dont_write_bytecode = True
sys.path[:0] = [os.path.join(TOP, "tests"), CLIENT, os.path.join(CLIENT, "tests")]
import regtx  # noqa: E402
from connections import connections, exchanges, gathered, once_of_both  # noqa: E402
from following import backups, followed_ends, followers  # noqa: E402
from lives import dropped, forks, hints, times  # noqa: E402
from lost import (  # noqa: E402
    ended_transactions, forks_of_connections, interrupted_connections, killed_servers, lost_connections, refused_connections)
from ours import ID, expect_error, leave, raised, script, store_of, wrapper  # noqa: E402
from regtx import Kind, Store, Value  # noqa: E402
from served_store import broker_in, served, short_folder  # noqa: E402
from trees import conflicts, trees  # noqa: E402
from scratch import expect, finish, memory, noting_library, program_at, tell  # noqa: E402

KILLS, MOST_CALLS, LARGE, MOST_SECONDS = 30, 100, 1_048_576, 240

# a maker's value, the number of its type, its bytes, and what they stand for
MADE = [
    (Value.none(), 0, "", b""),
    (Value.none(b"\7"), 0, "07", b"\7"),
    (Value.sz(""), 1, "0000", ""),
    (Value.sz("1.0"), 1, "31002e0030000000", "1.0"),
    (Value.sz("a b\n\"%"), 1, "6100200062000a00220025000000", "a b\n\"%"),
    (Value.sz("ä€\U0001d11e"), 1, "e400ac2034d81edd0000", "ä€\U0001d11e"),
    (Value.expand_sz("%A%"), 2, "2500410025000000", "%A%"),
    (Value.binary(b""), 3, "", b""),
    (Value.binary(bytes(range(256))), 3, bytes(range(256)).hex(), bytes(range(256))),
    (Value.dword(0), 4, "00000000", 0),
    (Value.dword(42), 4, "2a000000", 42),
    (Value.dword(0xffffffff), 4, "ffffffff", 0xffffffff),
    (Value.dword_big_endian(42), 5, "0000002a", 42),
    (Value.link("\\Registry\\A"), 6, "5c00520065006700690073007400720079005c004100", "\\Registry\\A"),
    (Value.link(""), 6, "", ""),
    (Value.multi_sz([]), 7, "0000", []),
    (Value.multi_sz(["a", "b c"]), 7, "61000000620020006300000000" + "00", ["a", "b c"]),
    (Value.multi_sz([""]), 7, "00000000", [""]),
    (Value.multi_sz(["", "a"]), 7, "0000610000000000", ["", "a"]),
    (Value.qword(1 << 63), 11, "0000000000000080", 1 << 63),
    (Value.qword(0x0123456789abcdef), 11, "efcdab8967452301", 0x0123456789abcdef),
    (Value(8, b"\1"), 8, "01", b"\1"),
    (Value(0xffff0012, bytearray(b"\xab\xcd")), 0xffff0012, "abcd", b"\xab\xcd"),
    (Value(Kind.REG_BINARY, memoryview(b"\xff" * LARGE)), 3, "ff" * LARGE, b"\xff" * LARGE),
]

# a type and bytes that no maker makes, and how Windows reads them as a text, or None
SPOILED = [
    (1, "", ""), (1, "6100", "a"), (1, "610000", "a"), (1, "61", ""), (1, "6100000062000000", "a"), (1, "34d80000", "\ud834"),
    (2, "1edd34d80000", "\udd1e\ud834"), (6, "61000000", "a"), (2, "00000000", ""),
    (4, "", None), (4, "2a0000", None), (4, "2a00000000", None), (5, "2a", None), (11, "2a000000", None),
    (7, "", []), (7, "6100", ["a"]), (7, "61000000", ["a"]), (7, "6100000062000000", ["a", "b"]), (7, "610000000000ff", ["a"]),
    (7, "34d800000000", ["\ud834"]),
]

# what can't be a value, with its error
NO_VALUES = [
    (lambda: Value.dword(-1), ValueError), (lambda: Value.dword(1 << 32), ValueError), (lambda: Value.qword(1 << 64), ValueError),
    (lambda: Value.dword_big_endian(1 << 32), ValueError), (lambda: Value.sz("a\0b"), ValueError), (lambda: Value.sz("\ud834"), ValueError),
    (lambda: Value.multi_sz("ab"), TypeError), (lambda: Value.multi_sz(["a\0"]), ValueError), (lambda: Value(-1, b""), ValueError),
    (lambda: Value(1 << 32, b""), ValueError), (lambda: Value("1", b""), ValueError), (lambda: Value(3, "text"), TypeError),
    (lambda: Value(3, 5), TypeError),
    (lambda: Value.dword(7).text, regtx.DecodeError), (lambda: Value.sz("a").texts, regtx.DecodeError),
]

# names of keys and values that are legal, as lines have them
NAMES = [("A B", "A%0020B"), ("50%", "50%0025"), ("%0041", "%00250041"), ("\"x\" 'y'", "\"x\"%0020'y'"), ("#;$(ls)", "#;$(ls)"), (" ", "%0020"),
         ("0:a", "0:a"), ("a/b", "a/b"), ("@@", "@@"), ("-", "-"), ("~", "~")]
# and names that the program refuses, whatever they look like
NO_NAMES = ["a\nflush", "a\ncommit t1", "\n", "a\r\n", "a\0b", "a\tb", "\x7f", "ä", "\U0001d11e", "\ud834", "a\x85b", "a\u2028b"]


def values(program):
    """Each value is written by the client, read by a script and by the client, and decoded."""
    with store_of(program, "values") as store:
        for number, (value, *_) in enumerate(MADE):
            store.set_value("0:", f"v{number}", value)
        for number, (value, kind, data, wanted) in enumerate(MADE):
            found = store.get_value("0:", f"v{number}")
            yield expect(f"value {number}", (found, int(found.kind), found.value), (value, kind, wanted))
            yield expect(f"the type of value {number}", isinstance(found.kind, Kind), kind in [0, 1, 2, 3, 4, 5, 6, 7, 11])
    replies = script(program, "values", *(f"get 0: v{number}" for number in range(len(MADE))))
    for (_, kind, data, _), reply in zip(MADE, replies[1:]):
        yield expect("the bytes", reply, f"value {kind} {data or '-'}")
    yield expect("how many", len(replies), len(MADE) + 1)
    for kind, data, text in SPOILED:
        value = Value(kind, bytes.fromhex(data))
        yield expect_error(f"{kind} {data}", lambda: value.value, regtx.DecodeError)
        yield None if text is None else expect(f"{kind} {data} as Windows", value.texts if kind == 7 else value.text, text)
    for number, (call, kind) in enumerate(NO_VALUES):
        yield expect_error(f"no value {number}", call, kind)


def names(program):
    """What lines are sent for names, and what the store then has."""
    # each line that is sent is kept, and passed on
    path = wrapper(program, "recorder", 'tee "$home/lines" | "$program" "$@"')
    wanted = ["at 7"]
    with store_of(program, "names", path=path) as store:
        store.at(7)
        for name, spelled in NAMES:
            key = regtx.key_path(0, "K", name)
            store.create_key(key)
            store.set_value(key, name, Value.dword(1))
            wanted += [f"create 0:K\\{spelled}", f"set 0:K\\{spelled} {spelled} 4 01000000"]
        for name in ("", "@"):
            store.set_value("0:K", name, Value.sz(name))
            yield expect(f"the value {name!r}", store.get_value("0:K", name).value, name)
        wanted += ["set 0:K @ 1 0000", "get 0:K @", "set 0:K %0040 1 40000000", "get 0:K %0040"]
        yield expect("the keys", sorted(store.subkeys("0:K")), sorted(name for name, _ in NAMES))
        yield expect("the values", store.value_names("0:K"), ["", "@"])
        wanted += ["keys 0:K", "values 0:K"]
        for name in NO_NAMES:
            yield expect_error(f"the key {name!r}", lambda: store.create_key(f"0:{name}"), regtx.BadName)
            yield expect_error(f"the value name {name!r}", lambda: store.get_value("0:K", name), regtx.BadName)
            wanted += [spelled_by_rule("create 0:", name), spelled_by_rule("get 0:K ", name)]
        yield from unsent(store)
    with open(program.at("lines"), encoding="ascii") as file:
        yield expect("the lines", file.read().split("\n"), [*wanted, ""])
    yield expect("the keys by a script", sorted(script(program, "names", "keys 0:K")[1].split(" ")[2:]), sorted(spelled for _, spelled in NAMES))
    yield expect("the root", script(program, "names", "keys 0:", "values 0:")[1:], ["keys 1 K", "values 0"])
    with gzip.open(os.path.join(TOP, "runs", "hives", "hivex.hive.gz")) as file:
        program.put("hivex.hive", file.read())
    Store.import_files(program.at("imported"), ID, [program.at("hivex.hive")], program.path)
    with Store(program.at("imported"), program.path) as store:
        yield expect("a name past ASCII", "Größe" in store.subkeys("0:"), True)
    # a program that knows one reply: two surrogates that make a letter, two that make none, and two names of ASCII
    path = wrapper(program, "replying", "echo opened 0; read line; echo 'keys 4 %d834%dd1e %dd1e%d834 %0040 a%0020b'; read line; exit 0")
    with Store(program.at("names"), path) as store:
        yield expect("names that are read", store.subkeys("0:"), ["\U0001d11e", "\udd1e\ud834", "@", "a b"])


def spelled_by_rule(line, name):
    """A line behind which stands a name: the units 0x21 to 0x7e but `%` as they are."""
    data = name.encode("utf-16-be", "surrogatepass")
    units = [int.from_bytes(data[at:at + 2], "big") for at in range(0, len(data), 2)]
    return line + "".join(chr(unit) if 0x21 <= unit <= 0x7e and unit != 0x25 else f"%{unit:04x}" for unit in units)


def unsent(store):
    """What is no key, name, value, unit or moment is refused before a line is sent."""
    for key in ("", "K", ":K", "256:K", "1000:K", "-1:K", "+0:K", " 0:K", "٣:K", "\n0:K", "0\n:K"):
        yield expect_error(f"the key {key!r}", lambda: store.create_key(key), ValueError)
    for call in (lambda: store.create_key(0), lambda: store.get_value("0:", 7), lambda: store.get_value("0:", b"a"),
                 lambda: store.set_value("0:", "a", "text"), lambda: store.kept(str(ID)), lambda: store.transaction("x\nflush")):
        yield expect_error("a wrong type", call, TypeError)
    for name in ("", "a\\b", "\\"):
        yield expect_error(f"the name {name!r}", lambda: regtx.key_path(0, "a", name), ValueError)


def refusals(program):
    """Refusals by their errors."""
    with store_of(program, "refusals") as store:
        store.create_key("0:A\\B")
        sent = [
            (lambda: store.get_value("0:A", "v"), regtx.NotFound, "E2 NotFound", "get 0:A v"),
            (lambda: store.subkeys("1:"), regtx.NotFound, "E2 NotFound", "keys 1:"),
            (lambda: store.delete_value("0:A", "v"), regtx.NotFound, "E2 NotFound", "unset 0:A v"),
            (lambda: store.delete_key("0:A"), regtx.HasSubkeys, "E3 HasSubkeys", "delete 0:A"),
            (lambda: store.create_key("0:A\\\\B"), regtx.BadName, "E4 BadName", "create 0:A\\\\B"),
            (lambda: store.key_info("0:A\\"), regtx.BadName, "E4 BadName", "info 0:A\\"),
            (lambda: store.create_key("0:" + "\\".join(33 * "b")), regtx.TooDeep, "E5 TooDeep", "create 0:" + "\\".join(33 * "b")),
            (lambda: store.delete_key("0:"), regtx.Fixed, "E18 Fixed", "delete 0:"),
        ]
        for call, kind, reply, line in sent:
            error = raised(call)
            found = type(error), getattr(error, "reply", None), getattr(error, "line", None)
            yield expect(line, found, (kind, reply, line)) or expect(line, f"{error.code} {error.name}", reply)
        error = raised(lambda: store.set_value("0:", "v", Value.binary(bytes(LARGE + 1))))
        yield expect("a large value", (type(error), len(str(error)) < 300), (regtx.TooLarge, True))
        sessions = [store.session() for _ in range(31)]
        yield expect_error("a session more", store.session, regtx.NoSeat, "E10 NoSeat: session ")
        yield expect("behind it", (store.subkeys("0:"), sessions[30].subkeys("0:")), (["A"], ["A"]))
    program.put("none", b"")
    yield expect_error("no folder", lambda: Store(program.at("nowhere"), program.path), regtx.JournalDamaged, "E16 JournalDamaged")
    yield expect_error("a file", lambda: Store(program.at("none"), program.path), regtx.CannotOpen, "cannot open store")
    damage = regtx.HiveDamaged, "E15 HiveDamaged 0 Truncated"
    yield expect_error("no hive", lambda: Store.import_files(program.at("new"), ID, [program.at("none")], program.path), *damage)


def scopes(program):
    """How transactions end."""
    with store_of(program, "scopes", 2) as store:
        store.at(regtx.moment_of(datetime(2020, 1, 1, tzinfo=timezone.utc)))
        with store.transaction() as t:
            yield expect("levels", (t.create_key("0:A\\B"), t.create_key("1:A"), t.create_key("1:A")), (2, 1, 0))
            t.set_value("0:A", "v", Value.dword(7))
            yield expect("its own write", t.get_value("0:A", "v").value, 7)
            yield expect_error("not yet", lambda: store.get_value("0:A", "v"), regtx.NotFound)
            yield expect_error("caught", lambda: t.delete_key("0:A"), regtx.HasSubkeys)
        yield expect("committed", (t.number, store.number, store.kept(t.unit)), (1, 1, 1))
        info = store.key_info("0:A")
        yield expect("the info", (info.subkeys, info.values, info.written, str(info.written_at)),
                     (1, 1, 132_223_104_000_000_000, "2020-01-01 00:00:00+00:00"))
        yield expect_error("an error", lambda: leave(store, KeyError("x")), KeyError, "'x'")
        yield expect_error("a refusal", lambda: leave(store, None), regtx.NotFound, "E2 NotFound: tx ")
        yield expect_error("both were rolled back", lambda: store.key_info("0:Left"), regtx.NotFound)
        for end in ("commit", "rollback"):
            t = store.transaction(uuid.uuid5(ID, end))
            t.create_key(f"0:{end}")
            getattr(t, end)()
            for title, call in {"commit": t.commit, "rollback": t.rollback, "read": lambda: t.subkeys("0:"),
                                "write": lambda: t.create_key("0:X"), "scope": t.__enter__}.items():
                yield expect_error(f"{title} after {end}", call, regtx.ScopeEnded)
            yield expect(f"kept by {end}", store.kept(t.unit), 2 if end == "commit" else None)
        with store.transaction() as t:
            pass
        yield expect("no writes", (t.number, store.kept(t.unit)), (0, None))
        yield expect("the units differ", store.transaction().unit != store.transaction().unit, True)
        with store.transaction() as t:
            t.create_key("0:Twice")
            t.rollback()
        store.set_value("0:A", "w", Value.sz("x"))
        yield expect("flushed", (store.flush(), store.number), (3, 3))
        store.transaction().create_key("0:Open")
    yield expect("the end", script(program, "scopes", "keys 0:", "values 0:A"), ["opened 3", "keys 2 A commit", "values 2 v w"])
    yield expect("closed again", store.close(), None)
    yield expect_error("used after it", store.flush, regtx.RunEnded, "the store is closed")
    yield expect_error("an error and a good end", lambda: in_store(program, "scopes", KeyError("y")), KeyError, "'y'")


def in_store(program, folder, error=None, path=None, line=None):
    """A run that sends a line, and is left by an error."""
    with Store(program.at(folder), path or program.path) as store:
        if line:
            line(store)
        if error:
            raise error


def sessions(program):
    """Transactions of two sessions that write one key."""
    with store_of(program, "sessions") as store:
        store.create_key("0:K")
        with store.session() as one, store.session() as two:
            first, second = one.transaction(), two.transaction()
            first.set_value("0:K", "v", Value.dword(1))
            yield expect_error("one key's values", lambda: second.set_value("0:K", "w", Value.dword(2)), regtx.Conflict, "E7 Conflict: tx ")
            yield expect_error("the key above", lambda: second.delete_key("0:K"), regtx.Conflict)
            yield expect("the later one goes on", (second.create_key("0:L"), second.commit()), (1, 2))
            yield expect("the first commits", (first.commit(), store.get_value("0:K", "v").value), (3, 1))
            third = two.transaction()
            third.set_value("0:K", "v", Value.dword(3))
            one.set_value("0:K", "v", Value.dword(4))
            yield expect_error("a write alone wins", third.commit, regtx.NotActive, "E8 NotActive: commit ")
            yield expect("its value", (two.get_value("0:K", "v").value, store.kept(third.unit)), (4, None))
            open_one = two.transaction()
            open_one.create_key("0:M")
        with store.transaction() as t:
            yield expect("its end rolls back", (t.subkeys("0:"), t.create_key("0:M")), (["K", "L"], 1))
            t.rollback()
        for _ in range(40):
            store.session().end()
        for title, call in {"a session": lambda: two.subkeys("0:"), "its transaction": open_one.commit, "its end": two.end,
                            "its scope": two.__enter__}.items():
            yield expect_error(f"{title} after its end", call, regtx.ScopeEnded)
        one, t = store.session(), store.transaction()
        t.create_key("0:N")
        store.fold()
        for title, call in {"a session": lambda: one.subkeys("0:"), "a transaction": lambda: t.subkeys("0:"), "a commit": t.commit}.items():
            yield expect_error(f"{title} after a fold", call, regtx.ScopeEnded)
        yield expect("the store goes on", (store.create_key("0:O"), store.session().subkeys("0:")), (1, ["K", "L", "O"]))
        yield expect_error("left by an error", lambda: leave_session(store), KeyError)
    yield from threads(program)


def leave_session(store):
    """A session that ends before its transaction's scope, which is left by an error."""
    with store.session() as session, session.transaction() as t:
        t.create_key("0:P")
        session.end()
        raise KeyError


def threads(program):
    """Four threads count, each in a session of its own, and all of them in one more value by turns."""
    failed, turn = [], threading.Lock()

    def count(store, name):
        try:
            with store.session() as session:
                for number in range(50):
                    with session.transaction() as t:
                        t.set_value(f"0:{name}", "n", Value.dword(number))
                    with turn:
                        with session.transaction() as t:
                            t.set_value("0:", "all", Value.dword(t.get_value("0:", "all").value + 1))
        except regtx.RegtxError as error:
            failed.append(error)

    with store_of(program, "threads") as store:
        store.set_value("0:", "all", Value.dword(0))
        for name in "ABCD":
            store.create_key(f"0:{name}")
        workers = [threading.Thread(target=count, args=(store, name)) for name in "ABCD"]
        for worker in workers:
            worker.start()
        for worker in workers:
            worker.join()
        found = [store.get_value("0:", "all").value, *(store.get_value(f"0:{name}", "n").value for name in "ABCD"), store.number]
        yield expect("threads", (failed, found), ([], [200, 49, 49, 49, 49, 405]))


def commands(program):
    """Stores are made, imported and upgraded."""
    with store_of(program, "made", 2) as store:
        store.create_key("1:A")
    for title, folder, hives, text in [("made again", "made", 1, "cannot make store (status 1)"), ("17 hives", "x", 17, "wrong words (status 2)")]:
        kind = regtx.CannotMake if folder == "made" else regtx.CommandFailed
        yield expect_error(title, lambda: Store.create(program.at(folder), ID, hives, program.path), kind, text)
    none = program.at("made", "none")
    yield expect_error("no file", lambda: Store.import_files(program.at("x"), ID, [none], program.path), regtx.CannotRead, "cannot read file")
    yield expect_error("no UUID", lambda: Store.create(program.at("x"), "1", 1, program.path), TypeError)
    Store.import_files(program.at("copy"), ID, [program.at("made", "hive01.dat"), program.at("made", "hive00.dat")], program.path)
    with Store(program.at("copy"), program.path) as store:
        yield expect("imported", (store.subkeys("0:"), store.subkeys("1:")), (["A"], []))
    upgraded = program.at("made"), program.at("new"), program.path
    yield expect_error("upgraded though new", lambda: Store.upgrade(*upgraded), regtx.Unsupported, "E17 Unsupported")
    # a store of the first layout: its journal says so, and it has no hive of outcomes
    with open(program.at("made", "journal"), "r+b") as file:
        file.write(b"KTMJRNL1")
    os.remove(program.at("made", "hive02.dat"))
    with Store(program.at("made"), program.path) as store:
        yield expect_error("kept", lambda: store.kept(ID), regtx.Unsupported, "E17 Unsupported: kept ")
    Store.upgrade(*upgraded)
    with Store(program.at("new"), program.path) as store:
        yield expect("upgraded", (store.subkeys("1:"), store.kept(ID)), (["A"], None))


def ends(program):
    """Runs that end in other ways than the client wants."""
    Store.create(program.at("ends"), ID, 1, program.path)
    yield expect_error("no program", lambda: Store(program.at("ends"), program.at("nothing")), FileNotFoundError)
    yield expect_error("no program that makes", lambda: Store.create(program.at("x"), ID, 1, program.at("nothing")), FileNotFoundError)
    for title, text, kind, begin in [
            ("another program", "exit 0", regtx.CommandFailed, "nothing was printed (status 0)"),
            ("a status alone", "exit 7", regtx.CommandFailed, "nothing was printed (status 7)"),
            ("another text", "echo hello; exit 3", regtx.CommandFailed, "hello (status 3)"),
            ("a signal", "kill -9 $$", regtx.RunEnded, "the program ended by signal 9")]:
        yield expect_error(title, lambda: Store(program.at("ends"), wrapper(program, "wrong", text)), kind, begin)
    find, find_nothing = (lambda store: store.subkeys("0:")), (lambda store: raised(lambda: store.subkeys("0:Nothing")))
    for title, text, line, kind, begin in [
            ("a good end", "", find, type(None), "None"),
            ("a refusal, and status 1", "exit $?", find_nothing, type(None), "None"),
            ("a refusal, and status 0", "exit 0", find_nothing, regtx.CommandFailed, "nothing was printed (status 0)"),
            ("status 1 alone", "exit 1", find, regtx.CommandFailed, "nothing was printed (status 1)"),
            ("status 3", "exit 3", find, regtx.CommandFailed, "nothing was printed (status 3)"),
            ("a signal at the end", "kill -9 $$", find, regtx.RunEnded, "the program ended by signal 9"),
            ("a fault at the end", "echo E13 DiskFault; exit 1", find, regtx.DiskFault, "E13 DiskFault"),
            ("the same after a refusal", "echo E13 DiskFault; exit 1", find_nothing, regtx.DiskFault, "E13 DiskFault"),
            ("a line at the end", "echo more; exit 0", find, regtx.CommandFailed, "more (status 0)")]:
        path = wrapper(program, "ending", f'"$program" "$@"\n{text}')
        yield expect_error(title, lambda: in_store(program, "ends", None, path, line), kind, begin)
        error = raised(lambda: in_store(program, "ends", KeyError("mine"), path, line))
        yield expect(f"{title}, beside another error", type(error), KeyError if kind is type(None) else kind)
    path = wrapper(program, "early", 'head -n 1 | "$program" "$@"')
    yield from early(program, path)


def early(program, path):
    """A program that ends after one line; a run that is interrupted; a store in use; a full disk."""
    store = Store(program.at("ends"), path)
    store.at(0)
    t = store.transaction()
    error = raised(lambda: t.create_key("0:A"))
    yield expect("ended early", (type(error), error.status, error.line[:3]), (regtx.RunEnded, 0, "tx "))
    yield expect_error("a commit that isn't sent", t.commit, regtx.RunEnded, "the run ended by status 0")
    yield expect("in a with", type(raised(lambda: in_store(program, "ends", None, path, lambda it: (it.flush(), it.flush())))), regtx.RunEnded)
    yield expect_error("closed", store.close, regtx.RunEnded, "the run ended by status 0")
    store = Store(program.at("ends"), path)
    yield expect_error("a session's scope", lambda: leave_session(store), regtx.RunEnded, "the run ended by status 0, before it answered: begin ")
    yield expect_error("closed after it", store.close, regtx.RunEnded)
    with Store(program.at("ends"), program.path) as store:
        yield expect_error("in use", lambda: Store(program.at("ends"), program.path), regtx.CannotOpen, "cannot open store")
        yield expect_error("in use for a second", lambda: Store(program.at("ends"), program.path, wait=1), regtx.CannotOpen)
        other = threading.Timer(0.5, store.close)
        other.start()
        with Store(program.at("ends"), program.path, wait=60) as later:
            yield expect("waited", later.subkeys("0:"), [])
        other.join()
    for wait in (-1, 1.5, 86_401, "1"):
        yield expect_error(f"wait {wait}", lambda: Store(program.at("ends"), program.path, wait=wait), ValueError)
    yield from interrupted(program)
    yield from flushed(program)
    yield from full(program)


class Alarm(Exception):
    """Interrupts a call, as Ctrl-C does."""


def interrupted(program):
    """A call that is interrupted while the program is stopped: its reply is never taken for another one's."""
    def alarm(number, frame):
        raise Alarm

    path = wrapper(program, "noting", 'echo $$ > "$home/pid"\nexec "$program" "$@"')
    before = signal.signal(signal.SIGALRM, alarm)
    with Store(program.at("ends"), path) as store:
        store.create_key("0:Alone")
        with open(program.at("pid"), encoding="ascii") as file:
            pid = int(file.read())
        os.kill(pid, signal.SIGSTOP)
        signal.setitimer(signal.ITIMER_REAL, 1)
        error = raised(lambda: store.get_value("0:Nothing"))
        os.kill(pid, signal.SIGCONT)
        yield expect("interrupted", type(error), Alarm)
        yield expect_error("used after it", lambda: store.subkeys("0:"), regtx.RunEnded, "the run was interrupted within a line")
    signal.signal(signal.SIGALRM, before)
    yield expect("what was accepted", script(program, "ends", "keys 0:")[1], "keys 1 Alone")


def flushed(program):
    """A write alone that was flushed is there after a kill, and the store's end tells of that."""
    store = Store(program.at("ends"), program.at("noting"))
    store.create_key("0:Flushed")
    yield expect("flushed", store.flush(), store.number)
    with open(program.at("pid"), encoding="ascii") as file:
        os.kill(int(file.read()), signal.SIGKILL)
    error = raised(store.close)
    yield expect("killed", (type(error), getattr(error, "status", None)), (regtx.RunEnded, -signal.SIGKILL))
    yield expect("what was flushed", script(program, "ends", "keys 0:")[1], "keys 2 Alone Flushed")


def full(program):
    """A commit that doesn't fit the size of a file; the shell counts blocks of 512 bytes."""
    path = wrapper(program, "limited", "trap '' XFSZ\nulimit -f 20\nexec \"$program\" \"$@\"")
    unit = uuid.uuid5(ID, "full")

    def fill(store):
        with store.transaction(unit) as t:
            t.set_value("0:", "big", Value.binary(bytes(100_000)))

    def fill_and_ask(store):
        error = raised(lambda: fill(store))
        found.extend([type(error), type(error.__cause__), error.unit, type(raised(lambda: store.kept(unit)))])
        found.append(type(raised(lambda: store.create_key("0:B"))))

    found = []
    yield expect_error("full", lambda: in_store(program, "ends", None, path, fill), regtx.CommitUnknown, f"whether {unit} has committed")
    yield expect("at its end", type(raised(lambda: in_store(program, "ends", None, path, fill_and_ask))), regtx.Faulted)
    yield expect("its errors", found, [regtx.CommitUnknown, regtx.DiskFault, unit, regtx.CommitUnknown, regtx.Faulted])
    with Store(program.at("ends"), program.path) as store:
        is_there = raised(lambda: store.get_value("0:", "big")) is None
        yield expect("what another run tells", store.kept(unit) is not None, is_there)


def calls(program, library):
    """One commit, whose run is ended at each of its calls in turn: what was raised, and whether it is done."""
    seen = set()
    for number in range(1, MOST_CALLS):
        folder, unit = f"calls{number}", uuid.uuid5(ID, str(number))
        Store.create(program.at(folder), ID, 2, program.path)
        path = wrapper(program, "ending", f"export LD_PRELOAD='{library}' CALLS_END_AT={number}\nexec \"$program\" \"$@\"")
        error = raised(lambda: in_store(program, folder, None, path, lambda store: work(store, unit, 1)))
        with Store(program.at(folder), program.path) as store:
            done, value = store.kept(unit), raised(lambda: store.get_value("0:", "count")) is None
        seen.add((type(error).__name__, done))
        if (done is not None) != value or isinstance(error, regtx.CommitUnknown) and error.unit != unit:
            yield f"call {number}: {error!r}, kept {done}, the value is there: {value}"
        if error is None:
            break
    # the commit was in vain, or done and not answered, or answered; and at last the run ended well
    wanted = {("CommitUnknown", None), ("CommitUnknown", 1), ("RunEnded", 1), ("NoneType", 1)}
    yield expect("what was seen", seen - {("RunEnded", None)}, wanted)


def work(store, unit, number):
    """One unit of work: a key of its own, and one more in a count of each hive. Its number is the change's."""
    with store.transaction(unit) as t:
        t.create_key(f"0:Done\\{number}")
        for hive in range(2):
            try:
                count = t.get_value(f"{hive}:", "count").value
            except regtx.NotFound:
                count = 0
            t.set_value(f"{hive}:", "count", Value.dword(count + 1))
    return t.number


class Series:
    """Units of work, which are done in one run after another."""

    def __init__(self, program, folder, path):
        self.program, self.folder, self.path = program, program.at(folder), path
        # the numbers that were answered, by unit of work; and how many units no reply told of
        self.answered, self.unknown, self.count = {}, 0, 0
        Store.create(self.folder, ID, 2, program.path)

    def unit(self, number):
        return uuid.uuid5(ID, f"unit {number}")

    def life(self, count, moment=None):
        """A run that does what is left of so many units; it is ended after so many seconds, if they are given. Answers what failed."""
        self.count = max(self.count, count)
        timer = None
        try:
            with Store(self.folder, self.path) as store:
                if moment is not None:
                    with open(self.program.at("pid"), encoding="ascii") as file:
                        timer = threading.Timer(moment, os.kill, [int(file.read()), signal.SIGKILL])
                    timer.start()
                try:
                    self.do_all(store)
                finally:
                    # the process isn't waited for before it was ended, or won't be: its number is no other's
                    if timer:
                        timer.cancel()
                        timer.join()
        except regtx.CommitUnknown as error:
            self.unknown += 1
            return error
        except regtx.RunEnded as error:
            return error
        return None

    def do_all(self, store):
        for number in range(1, self.count + 1):
            kept = store.kept(self.unit(number))
            if kept != self.answered.get(number, kept):
                raise AssertionError(f"unit {number} was answered {self.answered[number]}, and {kept} is kept")
            self.answered[number] = work(store, self.unit(number), number) if kept is None else kept

    def wrong(self):
        """What is wrong with the store in the end, by a script."""
        numbers = range(1, self.count + 1)
        opened, keys, one, two, *kept = script(self.program, self.folder, "keys 0:Done", "get 0: count", "get 1: count",
                                               *(f"kept {self.unit(number)}" for number in numbers))
        count = self.count.to_bytes(4, "little").hex()
        yield expect("changes", opened, f"opened {self.count}")
        yield expect("keys", sorted(keys.split(" ")[2:]), sorted(map(str, numbers)))
        yield expect("counts", (one, two), (f"value 4 {count}", f"value 4 {count}"))
        yield expect("kept", kept, [f"committed {self.answered[number]}" for number in numbers])


def kills(program, library, chance):
    """A series whose runs are ended by SIGKILL at any moment, and one whose runs are ended at a call on files."""
    at_moment = wrapper(program, "noting", 'echo $$ > "$home/pid"\nexec "$program" "$@"')
    at_call = wrapper(program, "ending", f"export LD_PRELOAD='{library}' CALLS_END_AT=\"$(cat \"$home/end_at\")\"\nexec \"$program\" \"$@\"")
    for path in (at_moment, at_call):
        series, killed, lives = Series(program, f"series-{os.path.basename(path)}", path), 0, 0
        while killed < KILLS and lives < 50 * KILLS:
            lives += 1
            program.put("end_at", str(chance.randint(1, 60)).encode())
            try:
                error = series.life(series.count + chance.randint(1, 4), chance.random() * 0.03 if path == at_moment else None)
            except Exception as other:  # noqa: BLE001
                yield f"life {lives}: {other!r}"
                return
            if error:
                killed += 1
                yield None
        program.put("end_at", b"0")
        yield expect("the kills", killed, KILLS)
        yield expect("the last life", series.life(series.count), None)
        yield from series.wrong()
    # at random moments of a fast disk that may be none
    yield expect("replies to commits were lost", series.unknown > 0, True)


def pages(program):
    """The examples of the page print what it shows."""
    with open(os.path.join(CLIENT, "README.md"), encoding="utf-8") as file:
        page = file.read()
    first, connecting, gathering, following, pooled, later, once = re.findall(r"^```python\n(.*?)^```$", page, re.MULTILINE | re.DOTALL)
    session = re.search(r"^\$ clients/python/example.py \S+ \S+\n(.*?)^```$", page, re.MULTILINE | re.DOTALL)[1]
    printed = re.search(r"^It prints `(.*?)`", page, re.MULTILINE)[1]
    environment = dict(os.environ, PATH=f"{program.home}:{os.environ['PATH']}", PYTHONPATH=CLIENT, PYTHONDONTWRITEBYTECODE="1")
    example = os.path.join(CLIENT, "example.py")
    # the unit of work is done once: to create its key again would answer 0
    twice = f"import regtx, uuid\n{once}\nfor _ in range(2): once(uuid.UUID(int=5), lambda t: print(t.create_key('0:Once')))"
    gathering = f"import regtx\nwith regtx.Store('store') as store:\n{textwrap.indent(gathering, '    ')}"
    again = "was installed by change 1\n" + session.partition("\n")[2]
    with served(program, broker_in(program), "page", hives=2) as it:
        connecting, following, pooled, later = (each.replace("/run/regtx/app.sock", it.path) for each in (connecting, following, pooled, later))
        for title, words, wanted in [
                ("the first example", ["-c", first], f"{printed}\n"), ("once", ["-c", twice], "1\n"), ("together", ["-c", gathering], ""),
                ("connecting", ["-c", connecting], "1\n"), ("connecting again", ["-c", connecting], "1\n"),
                ("a pool", ["-c", f"import regtx\n{pooled}"], ""), ("asyncio", ["-c", later], "0\n"),
                ("the example", [example, "shop", program.path], session), ("the same again", [example, "shop"], again)]:
            ran = subprocess.run([sys.executable, *words], cwd=program.home, env=environment, capture_output=True, text=True, timeout=60)
            yield expect(title, (ran.stdout, ran.stderr, ran.returncode), (wanted, "", 0))
        yield from following_results(it, [sys.executable, "-u", "-c", f"import regtx\n{following}"], environment)


def following_results(it, words, environment):
    """The example of one who follows prints changes as they come, and ends as the server does."""
    with subprocess.Popen(words, env=environment, stdout=subprocess.PIPE, stderr=subprocess.PIPE, text=True) as follower, it.lines() as client:
        for number in range(1_000):
            client.ask(f"create 0:F{number}", "flush")
            if select.select([follower.stdout], [], [], 0.05)[0]:
                break
        told = re.fullmatch(r"[0-9]+ None \['create 0:F([0-9]+)'\]\n", follower.stdout.readline())
        yield expect("following", told is not None and int(told[1]) <= number, True)
        yield expect("the server's end", it.end()[0], 0)
        _, why = follower.communicate(timeout=60)
        yield expect("the end of following", (why, follower.returncode), ("", 0))


def caught(results):
    """The results of a part; an error that is none of its own is one that failed."""
    try:
        yield from results
    except Exception as error:  # noqa: BLE001
        yield f"{type(error).__name__}: {error}"


def main():
    if len(sys.argv) not in (2, 3):
        sys.exit(__doc__)
    faulthandler.dump_traceback_later(MOST_SECONDS, exit=True)
    seed = int(sys.argv[2]) if len(sys.argv) == 3 else 20_260
    print(f"seed {seed}")
    with program_at(sys.argv[1], "python-client-", short_folder(memory())) as program:
        library = noting_library(program)
        parts = {part.__name__: part(program) for part in (
            values, names, refusals, scopes, sessions, trees, conflicts, dropped, forks, times, hints, connections, gathered, exchanges,
            once_of_both, refused_connections, lost_connections, ended_transactions, interrupted_connections, forks_of_connections,
            killed_servers, backups, followers, followed_ends, commands, ends, pages)}
        parts |= {"calls": calls(program, library), "kills": kills(program, library, random.Random(seed))}
        finish([tell(part, list(caught(results))) for part, results in parts.items()])


main()
