"""Those who follow or watch a server's store, and backups: over the broker, and over servers that say what a test wants."""
import os
import socket
import threading
import uuid

import regtx
from ours import ID, expect_error, store_of
from regtx import Change, Store, Value
from scratch import SECONDS, expect
from served_store import broker_in, replies_of, served

UNIT = uuid.uuid5(ID, "followed")


def backups(program):
    """Copies of a served store: their numbers, what is there, and names that are refused."""
    folder = program.at("backups")
    os.mkdir(folder)
    with served(program, broker_in(program), "saved", hives=2, backups=folder) as it, Store.connect(it.path) as store:
        store.create_key("0:A")
        yield expect("its number", (store.backup("one"), store.number), (1, 1))
        store.create_key("1:B")
        yield expect("another", store.backup("two"), 2)
        stats = store.stats()
        yield expect("stats", (stats, stats.room > 65), (regtx.ServerStats(2, 2, stats.room, 1, 0), True))
        yield expect_error("the same again", lambda: store.backup("two"), regtx.Conflict, "E7 Conflict: backup two")
        for name in ("", ".a", "a b", "a/b", "ä", "@", "a\nb", "a" * 256):
            yield expect_error(f"{name[:20]!r}", lambda name=name: store.backup(name), regtx.BadName, "E4 BadName: ")
        yield expect_error("no text", lambda: store.backup(1), TypeError)
        yield expect("it goes on", store.subkeys("1:"), ["B"])
    for name, wanted in (("one", ["opened 1", "keys 1 A", "keys 0"]), ("two", ["opened 2", "keys 1 A", "keys 1 B"])):
        yield expect(name, replies_of(program, os.path.join(folder, name), "keys 0:", "keys 1:"), wanted)
    with served(program, broker_in(program), "unsaved") as it, Store.connect(it.path) as store:
        yield expect_error("no folder", lambda: store.backup("one"), regtx.Unsupported, "E17 Unsupported: backup one")
    with store_of(program, "run") as store:
        for call, line in ((lambda: store.backup("one"), "backup one"), (lambda: store.follow(0), "follow 0"),
                           (lambda: store.watch("0:A"), "watch 0:A"), (store.stats, "stats")):
            yield expect_error("a run", call, regtx.Unsupported, f"E17 Unsupported: {line}")
        yield expect("it goes on, too", store.create_key("0:A"), 1)


def followers(program):
    """Changes of a served store as they come, and what ends that."""
    with served(program, broker_in(program), "followed", hives=2) as it, Store.connect(it.path, timeout=60) as store:
        store.at(7)
        store.create_key("0:A\\B c")
        with store.transaction(UNIT) as t:
            t.set_value("0:A", "", Value.dword(1))
            t.delete_key("0:A\\B c")
            t.create_key("1:D")
        store.flush()
        follower, watcher = store.follow(0), store.watch("0:A\\B")
        found = [next(follower), next(follower)]
        wanted = [Change(1, 7, None, ["create 0:A\\B%0020c"]),
                  Change(2, 7, UNIT, ["set 0:A @ 4 01000000", "delete 0:A\\B%0020c", "create 1:D"])]
        yield expect("what was before", (found, follower.number), (wanted, 2))
        yield expect("the watcher begins", watcher.number, 2)
        came = []
        threads = [threading.Thread(target=lambda each=each: came.append(list(each))) for each in (follower, watcher)]
        for each in threads:
            each.start()
        for key in ("0:A\\B", "0:A\\C", "0:A\\C\\D"):
            store.create_key(key)
        store.flush()
        follower_beside = store.follow(store.number)
        yield expect_error("too far", lambda: next(store.follow(99)), regtx.CannotFollow, f"E2 NotFound after {store.number}: follow 99")
        yield expect("after which", caught(lambda: next(store.follow(99))).after, store.number)
        yield expect_error("no key", lambda: store.watch("A"), ValueError)
        yield expect_error("a key that is none", lambda: store.watch("0:A\\\\B"), regtx.BadName)
        follower_beside.close()
        yield expect("closed", list(follower_beside), [])
        yield expect("the stop", it.end(), (0, "", ""))
        for each in threads:
            each.join(SECONDS)
        yield expect("what came", sorted(([change.number if isinstance(change, Change) else change for change in each] for each in came), key=len),
                     [[3], [3, 4, 5]])
        yield expect("up to where", (follower.number, watcher.number, next(follower, None)), (5, 5, None))


def caught(call):
    try:
        return call()
    except regtx.RegtxError as error:
        return error


def saying(path, *talks):
    """A server that says the lines of a talk to each client: the first ones at once, and others after a line each."""
    listener = socket.socket(socket.AF_UNIX)
    listener.bind(path)
    listener.listen()
    came = []

    def talk(client, first, *others):
        with client, client.makefile("rb") as lines:
            client.sendall(first)
            for said in others:
                line = lines.readline().decode()
                if not line:
                    return
                came.append(line)
                client.sendall(said)

    def serve():
        with listener:
            for each in talks:
                threading.Thread(target=talk, args=(listener.accept()[0], *each), daemon=True).start()

    threading.Thread(target=serve, daemon=True).start()
    return came


def followed_ends(program):
    """What a server may say to those who follow: pauses, changes that aren't kept, a loss amid a change, and what is none."""
    path, opened = program.at("saying"), b"opened 3\n"
    change = b"change 4 5 1 -\ncreate 0:A\n"

    def connected(*talks):
        if os.path.exists(path):
            os.remove(path)
        came = saying(path, (opened, b""), *talks)
        return Store.connect(path), came

    store, came = connected((opened, change + b"followed 4\n", b"change 5 5 0 -\nfollowed 5\n"))
    follower = store.follow(3)
    yield expect("over a pause", ([each.number for each in follower], follower.number, came), ([4, 5], 5, ["follow 3\n", "follow 4\n"]))
    store, came = connected((opened, b"watching 3\nchanged 5\nfollowed 6\n", b"watching 8\nchanged 9\nE2 NotFound after 12\n"))
    watcher, found = store.watch("0:A"), []
    yield expect_error("and then not kept", lambda: found.extend(iter(watcher.__next__, None)), regtx.CannotFollow, "E2 NotFound after 12: watch 0:A")
    yield expect("what was told before", (watcher.number, came), (9, ["watch 0:A\n", "watch 0:A\n"]))
    for title, said, number in [("a loss", b"", 3), ("a loss amid a change", b"change 4 5 2 -\ncreate 0:A\n", 3),
                                ("amid a line", change[:-4], 3), ("after a change", change, 4)]:
        store, _ = connected((opened, said))
        follower = store.follow(3)
        error = caught(lambda: [None for _ in follower])
        yield expect(title, (type(error), follower.number, list(follower)), (regtx.RunEnded, number, []))
    for said, kind in [(b"E1 NoMemory\n", regtx.NoMemory), (b"E17 Unsupported\n", regtx.Unsupported), (b"what\n", regtx.RunEnded)]:
        store, _ = connected((opened, said))
        yield expect_error(f"{said}", lambda: next(store.follow(3)), kind)
        store, _ = connected((opened, said))
        yield expect_error(f"{said} to a watcher", lambda: store.watch("0:"), kind)
    store, _ = connected((b"E10 NoSeat\n",))
    yield expect_error("no place", lambda: store.follow(3), regtx.NoSeat)
