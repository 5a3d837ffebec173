"""Clients of a served store, which come, go, die and don't read: parts of tests/served.py."""
import os
import random
import signal
import socket
import statistics
import subprocess
import sys
import threading
import time

from broker_bench import as_other
from broker_build import built
from scratch import TOP, expect
from served_store import SECONDS, Lines, dword, number_of, transaction, unit, until

COMMITS, CLIENTS = 300, 31
# how long a sync takes at least where work is to be unread meanwhile, in microseconds
SYNC_TAKES = 200
MEBIBYTE, MOST_LINE, MOST_OPEN = 1_048_576, 4_194_304, 33
# what a served session may take of memory beside what it has, in kB
MOST_MEMORY = 24_576
UNIT = unit("words")
# words of a shell's lines, one after another, and the status and the reply to each
WORDS = [
    (["get", "0:A", "v"], 1, "E2 NotFound\n"),
    (["create", "0:A"], 0, "created 1 accepted 1\n"),
    (["set", "0:A", "v", "1", "3100"], 0, "accepted 2\n"),
    (["get", "0:A", "v"], 0, "value 1 3100\n"),
    (["create", "0:Some Vendor"], 0, "created 1 accepted 3\n"),
    (["set", "0:Some%0020Vendor", "a b", "3", "-"], 0, "accepted 4\n"),
    (["set", "0:Some Vendor", "-v", "4", "01000000"], 0, "accepted 5\n"),
    (["set", "0:Some Vendor", "--", "4", "02000000"], 0, "accepted 6\n"),
    (["values", "0:Some Vendor"], 0, "values 3 -- -v a%0020b\n"),
    (["get", "0:Some Vendor", "-v"], 0, "value 4 01000000\n"),
    (["get", "0:Some Vendor", "--"], 0, "value 4 02000000\n"),
    (["set", "0:A", "", "3", "00"], 2, "line 1: not understood\n"),
    (["keys"], 2, "line 1: not understood\n"),
    (["keys 0:"], 2, "line 1: not understood\n"),
    (["--"], 2, "line 1: not understood\n"),
    (["-u", "root"], 2, "line 1: not understood\n"),
    ([""], 2, "line 1: not understood\n"),
    (["delete", "0:A\ncreate 0:B"], 2, ""),
    # a transaction ends with its connection
    (["begin", "t", UNIT], 0, "ok\n"),
    (["tx", "t", "create", "0:B"], 1, "E9 NoSuchHandle\n"),
    (["begin", "u", UNIT], 0, "ok\n"),
    (["flush"], 0, "flushed 6\n"),
    (["keys", "0:"], 0, "keys 2 A Some%0020Vendor\n"),
]
# a program that commits transactions over two hives, and tells their numbers
COMMITTER = """
import sys
sys.dont_write_bytecode = True
sys.path.insert(0, sys.argv[1])
import regtx
path, name, count = sys.argv[2], sys.argv[3], int(sys.argv[4])
with regtx.Store.connect(path) as store:
    print("connected", flush=True)
    sys.stdin.readline()
    for number in range(count):
        with store.transaction() as t:
            t.create_key(f"0:{name}\\\\{number}")
            t.create_key(f"1:{name}")
            t.set_value(f"1:{name}", "n", regtx.Value.dword(number))
        print(t.number)
"""


def two_processes(bench):
    """Two programs commit at once: all is there, each change has a number of its own."""
    with bench.served(hives=2) as it:
        words = [sys.executable, "-c", COMMITTER, os.path.join(TOP, "clients", "python"), it.path]
        programs = [subprocess.Popen([*words, name, str(COMMITS)], stdin=subprocess.PIPE, stdout=subprocess.PIPE) for name in "AB"]
        yield expect("both are connected", [each.stdout.readline() for each in programs], [b"connected\n"] * 2)
        for each in programs:
            each.stdin.write(b"\n")
            each.stdin.flush()
        printed = [each.communicate(timeout=SECONDS)[0] for each in programs]
        yield expect("their statuses", [each.returncode for each in programs], [0, 0])
        numbers = [list(map(int, each.split())) for each in printed]
        yield expect("each in its order", numbers, [sorted(each) for each in numbers])
        yield expect("all numbers", sorted(numbers[0] + numbers[1]), list(range(1, 2 * COMMITS + 1)))
        yield expect("the stop", it.end(), (0, "", ""))
    replies = it.replies("keys 0:A", "keys 0:B", "get 1:A n", "get 1:B n")
    yield expect("the number of changes", replies[0], f"opened {2 * COMMITS}")
    for keys in replies[1:3]:
        yield expect("the keys", sorted(keys.split(" ")[2:]), sorted(map(str, range(COMMITS))))
    yield expect("the last values", [number_of(reply) for reply in replies[3:]], [COMMITS - 1, COMMITS - 1])


def places(bench):
    """31 clients, and one more; a place is free again after one leaves."""
    with bench.served() as it:
        clients = [it.lines() for _ in range(CLIENTS)]
        yield expect("31 clients", {client.first for client in clients}, {"opened 0"})
        more = it.lines()
        yield expect("one more", (more.first, more.read()), ("E10 NoSeat", None))
        yield expect("they go on", {client.ask("keys 0:") for client in clients}, {"keys 0"})
        for leaves in (Lines.close, Lines.half_close):
            leaves(clients[7])
            came = []
            yield expect("its place is free", until(lambda: came.append(it.lines()) or came[-1].first == "opened 0"), True)
            clients[7] = came[-1]
        for client in clients:
            client.close()
        yield expect("the stop", it.end()[0], 0)
    if os.geteuid() == 0:
        yield from place_of_operator(bench)


def place_of_operator(bench):
    """The last place is for the broker's own user."""
    with bench.served("-m", "0666") as it:
        with as_other():
            clients = [it.lines() for _ in range(CLIENTS - 1)]
            more = it.lines()
        yield expect("30 clients of another user", {client.first for client in clients}, {"opened 0"})
        yield expect("one more of it", (more.first, more.read()), ("E10 NoSeat", None))
        operator = it.lines()
        yield expect("the broker's user", operator.first, "opened 0")
        yield expect("and no more", it.lines().first, "E10 NoSeat")
        for client in [operator, *clients]:
            client.close()


def killed_clients(bench):
    """A client is killed in the midst of a line, in a transaction, or between its commit and the reply."""
    chance, done = random.Random(20_261), {}
    with bench.served() as it, it.lines() as other:
        yield expect("the key", other.ask("create 0:K"), "created 1 accepted 1")
        for turn in range(bench.times(60, 200)):
            kind = ("midst", "transaction", "commit")[turn % 3]
            kill(it.path, turn, kind, chance.random() * 0.002)
            replies = asked_after(other, turn)
            if isinstance(replies, str):
                yield f"turn {turn}: {replies}"
                return
            kept, key, value = replies
            whole = kept.startswith("committed "), key.startswith("info "), number_of(value) == turn
            done.setdefault(kind, []).append(whole[0])
            yield expect(f"{kind} {turn}: whole or not at all", len(set(whole)), 1)
        yield expect("half a line, and no commit at all", any(done["midst"] + done["transaction"]), False)
        yield expect("some commits were done", any(done["commit"]), True)
        yield expect("the stop", it.end()[0], 0)


def kill(path, turn, kind, seconds):
    """Has a process write in a transaction, and kills it some moments later."""
    ready, told = os.pipe()
    child = os.fork()
    if child == 0:
        try:
            mine = Lines(path)
            begin, *requests, commit, _ = transaction(unit("kill", turn), f"create 0:K\\{turn}", f"set 0:K v 4 {dword(turn)}")
            mine.ask(begin, *requests)
            mine.push({"midst": b"commit t", "transaction": b"", "commit": f"{commit}\n".encode()}[kind])
            os.write(told, b".")
            signal.pause()
        finally:
            os._exit(1)
    os.close(told)
    with os.fdopen(ready, "rb") as file:
        file.read(1)
    time.sleep(seconds)
    os.kill(child, signal.SIGKILL)
    os.waitpid(child, 0)


def asked_after(other, turn):
    """What another client finds of a turn once the unit isn't at hand any more: its outcome, its key and its value."""
    number = unit("kill", turn)
    if not until(lambda: other.ask(f"begin u {number}") == "ok"):
        return "the unit of a client that was killed stays at hand"
    found = other.ask(f"kept {number}", f"info 0:K\\{turn}", "get 0:K v")
    claims = other.ask("tx u set 0:K w 4 00000000", "close u")
    return found if claims == ["ok", "ok"] else f"its claims stay: {claims}"


def unread(bench):
    """A client that reads nothing: memory stays, and others are as fast as without it."""
    with bench.served() as it, it.lines() as other:
        other.ask("create 0:K", f"set 0:K v 3 {'ab' * MEBIBYTE}")
        before = [it.memory(process) for process in (it.process.pid, it.server)]
        alone = pace(other, 100)
        silent = it.lines()
        asked = push_all(silent, b"get 0:K v\n")
        yield expect("lines that nobody takes", asked > 1_000, True)
        beside = []
        # few writes, since each stays in the history for a while
        for _ in range(bench.times(6, 120)):
            time.sleep(0.5)
            beside.append(pace(other, 20))
        after = [it.memory(process) for process in (it.process.pid, it.server)]
        yield expect("memory", [now - then < MOST_MEMORY for now, then in zip(after, before)], [True, True]) and f"{before} kB, then {after}"
        # a busy machine has its pauses, and no write waits for a client
        yield expect("others", min(beside) < 5 * alone + 0.002, True) and f"{min(beside) * 1e6:.0f} us a write beside it, {alone * 1e6:.0f} without"
        began = time.monotonic()
        yield expect("the stop", it.end()[0], 0)
        yield expect("its time", time.monotonic() - began < 30, True)


def pace(client, count):
    """How long a write takes, in the middle of so many."""
    took = []
    for number in range(count):
        began = time.perf_counter()
        client.ask(f"set 0:K n 4 {dword(number)}")
        took.append(time.perf_counter() - began)
    return statistics.median(took)


def push_all(client, line):
    """Sends a line until nobody takes more; how many were sent."""
    client.socket.settimeout(0.5)
    sent = 0
    try:
        while sent < 1 << 26:
            sent += client.socket.send(line * 1_000)
    except TimeoutError:
        pass
    client.socket.settimeout(SECONDS)
    return sent // len(line)


def long_lines(bench):
    """A line without an end is cut off, and what is longer than a line may be; the server goes on."""
    with bench.served() as it, it.lines() as other:
        for size, wanted in ((MOST_LINE, "line 1: not understood"), (MOST_LINE + 1, "E6 TooLarge")):
            with it.lines() as client:
                client.push(b"a" * size + b"\n")
                yield expect(f"a line of {size:,} bytes", (client.read(), client.read()), (wanted, None))
        # such a line may be one, too: of a name that is too long
        with it.lines() as client:
            client.push(b"get 0: " + b"a" * (MOST_LINE - 7) + b"\nkeys 0:\n")
            yield expect("a long name", (client.read(), client.read()), ("E4 BadName", "keys 0"))
        with it.lines() as client:
            sent = push_endless(client, bench.times(20, 100) * 1_000_000)
            yield expect("it is cut off early", MOST_LINE < sent < 4 * MOST_LINE, True) and f"{sent:,} bytes were taken"
            yield expect("and told", client.rest(), ["E6 TooLarge"])
        high = it.memory(it.server, "VmHWM")
        yield expect("the most memory", high < 6 * MOST_LINE // 1_024 + MOST_MEMORY, True) and f"{high:,} kB"
        with it.lines() as client:
            client.push(b"create 0:Whole\ncreate 0:Half")
            client.half_close()
            yield expect("a last line without its end", client.rest(), ["created 1 accepted 1"])
        yield expect("others", other.ask("keys 0:"), "keys 1 Whole")
        yield expect("the stop", it.end()[0], 0)


def push_endless(client, most):
    """Sends bytes without a line's end, until the connection ends; how many were sent."""
    sent = 0
    try:
        while sent < most:
            sent += client.socket.send(b"a" * 65_536)
    except (BrokenPipeError, ConnectionResetError):
        pass
    return sent


def lines(bench):
    """Each row of what a served session answers otherwise than a run."""
    with bench.served(hives=2) as it, it.lines() as one, it.lines() as two:
        yield expect("lines of a run alone", one.ask("session 1", "end 0", "fold", "keys 0:"), 3 * ["E17 Unsupported"] + ["keys 0"])
        for number, line in enumerate(["hives 1", "history 9", "step", "cut", "crash 1", "keys", " keys 0:", "at x", "kept x", ""]):
            with it.lines() as client:
                found = client.ask("at 7"), client.ask(line), client.read()
                yield expect(f"a line that is none, {number}", found, ("ok", "line 2: not understood", None))
        yield expect("moments", one.ask("at 70", "create 0:A", "info 0:A"), ["ok", "created 1 accepted 1", "info 0 0 70"])
        yield expect("of others", two.ask("create 0:B", "info 0:B"), ["created 1 accepted 2", "info 0 0 0"])
        yield expect("a flush", two.ask("flush", "flush"), ["flushed 2", "flushed 2"])
        yield expect("what is durable", it.lines().first, "opened 2")
        yield from units(it, one, two)
        yield from held(it)
        with it.lines() as client:
            client.send("keys 0:", "keys 1:")
            client.half_close()
            yield expect("a client that sends no more", client.rest(), ["keys 2 A B", "keys 0"])
        yield expect("the stop", it.end()[0], 0)


def by_words(bench):
    """Lines of a shell by their words, each on a connection of its own."""
    client = built("regtxc", bench.home)
    with bench.served() as it:
        for given, status, reply in WORDS:
            yield expect(" ".join(given), carried_out(client, it, given), (status, reply))
        yield expect("the stop", it.end()[0], 0)
    yield expect("afterwards", it.replies("keys 0:"), ["opened 6", "keys 2 A Some%0020Vendor"])
    yield expect("no service", carried_out(client, it, ["keys", "0:"]), (1, ""))
    with bench.served("-n", "1") as it, it.lines():
        yield expect("no place", carried_out(client, it, ["keys", "0:"]), (1, "E10 NoSeat\n"))


def carried_out(client, it, given):
    ran = subprocess.run([client, it.path, *given], input=b"create 0:Unread\n", capture_output=True, timeout=SECONDS)
    return ran.returncode, ran.stdout.decode()


def units(it, one, two):
    """A unit of work is at hand in one session at a time, until it is committed, rolled back or closed, or the session ends."""
    mine = unit("mine")
    for ending in ("commit t", "rollback t", "close t"):
        yield expect("begun", one.ask(f"begin t {mine}", "tx t create 1:K"), ["ok", "created 1"])
        yield expect("by another", two.ask(f"begin u {mine}", "tx u keys 1:", f"begin u {unit('other')}"), ["E7 Conflict", "E9 NoSuchHandle", "ok"])
        yield expect("in the same session", one.ask(f"begin s {mine}", "close s")[0], "ok")
        yield expect("its end", one.ask(ending, "delete 1:K")[0].split(" ")[0], "ok" if ending != "commit t" else "committed")
        yield expect(f"after {ending}", two.ask(f"begin u {mine}", "close u"), ["ok", "ok"])
        one.send("close t")
        one.read()
        two.ask(f"begin u {mine}", f"begin t {unit('other')}", "close t", "close u")
    with it.lines() as client:
        client.ask(f"begin t {mine}")
        client.half_close()
        yield expect("its session's end", client.rest(), [])
    yield expect("after its session's end", two.ask(f"begin u {mine}", "close u"), ["ok", "ok"])


def held(it):
    """33 transactions of a session may be there that aren't closed; ended ones count."""
    with it.lines() as client:
        replies = client.ask(*(f"begin t{number} {unit('held', number)}" for number in range(MOST_OPEN + 1)))
        yield expect("so many", replies, MOST_OPEN * ["ok"] + ["E10 NoSeat"])
        more = f"begin more {unit('more')}"
        yield expect("ended ones", client.ask("rollback t0", more, "close t0", more, more), ["ok", "E10 NoSeat", "ok", "ok", "E10 NoSeat"])


def once(bench):
    """A client goes with its work unread, and another does the same unit at once: it is never done twice."""
    turns, chance, again = bench.times(200, 1_000), random.Random(20_262), 0
    # a flush takes a while, so that the work is still to come when the client goes
    with bench.served(before=["env", f"LD_PRELOAD={bench.library}", f"SYNCS_TAKE={SYNC_TAKES}"]) as it, it.lines() as stays:
        for turn in range(turns):
            stays.ask(f"create 0:K{turn}")
            client = it.lines()
            before = [f"set 0:K{turn} x 1 00", "flush"] * chance.randint(0, 20)
            client.send(*before, *transaction(unit("once", turn), f"create 0:K{turn}\\first"))
            time.sleep(chance.random() * 0.005)
            client.close()
            # by a connection that comes after that, or by one that was there
            with it.lines() as other:
                again += do_once(other if turn % 3 else stays, turn)
        keys = [stays.ask(f"keys 0:K{turn}") for turn in range(turns)]
        yield expect("done once", [key for key in keys if key not in ("keys 1 first", "keys 1 again")], [])
        yield expect("by the one, and by the other", 0 < again < turns, True) and f"{again} of {turns} were done by the other"
        yield expect("the stop", it.end()[0], 0)
    yield expect("afterwards", it.replies(*(f"keys 0:K{turn}" for turn in range(turns)))[1:], keys)


def do_once(client, turn):
    """Does a unit of work as the libraries do; whether it wasn't done before."""
    number = unit("once", turn)
    begin, request, commit, close = transaction(number, f"create 0:K{turn}\\again")
    until(lambda: client.ask(begin) == "ok")
    if client.ask(f"kept {number}").startswith("committed "):
        client.ask(close)
        return False
    replies = client.ask(request, commit, close)
    if not replies[1].startswith("committed "):
        raise ValueError(f"turn {turn}: {replies}")
    return True


def idle(bench):
    """A client that does nothing is ended by -t, and its claims are free then."""
    with bench.served("-t", "1") as it, it.lines() as other:
        other.ask("create 0:K")
        client = it.lines()
        client.ask(f"begin t {unit('idle')}", "tx t set 0:K v 4 00000000")
        yield expect("meanwhile", other.ask(f"begin u {unit('u')}", "tx u set 0:K v 4 01000000"), ["ok", "E7 Conflict"])
        yield expect("then", until(lambda: other.ask("tx u set 0:K v 4 01000000") == "ok"), True)
        yield expect("it is told by its end", client.read(), None)
        yield expect("a commit after it", other.ask("commit u"), "committed 2")


def threads_of_lines(bench):
    """31 clients commit at once, each its own values: each reply is its own client's."""
    failed, turns = [], bench.times(20, 200)
    with bench.served(hives=2) as it:
        def work(number):
            try:
                with it.lines() as client:
                    for turn in range(turns):
                        told = client.ask(*transaction(unit(number, turn), f"create 0:C{number}", f"set 0:C{number} n 4 {dword(turn)}",
                                                       f"get 0:C{number} n"), f"get 0:C{number} n")
                        if (told[3], told[6]) != (f"value 4 {dword(turn)}",) * 2 or not told[4].startswith("committed "):
                            failed.append((number, turn, told))
            except (OSError, socket.timeout) as why:
                failed.append((number, why))

        threads = [threading.Thread(target=work, args=(number,)) for number in range(CLIENTS)]
        for each in threads:
            each.start()
        for each in threads:
            each.join()
        yield expect("what went wrong", failed, [])
        yield expect("the changes", it.lines().first, f"opened {CLIENTS * turns}")
        yield expect("the stop", it.end()[0], 0)
    found = it.replies(*(f"get 0:C{number} n" for number in range(CLIENTS)))[1:]
    yield expect("the last values", [number_of(reply) for reply in found], CLIENTS * [turns - 1])


PARTS = [two_processes, places, killed_clients, unread, long_lines, lines, by_words, once, idle, threads_of_lines]
