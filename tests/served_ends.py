"""The ends of a served store: of the program, of the broker, of its disk, and who gets in. Parts of tests/served.py."""
import os
import random
import re
import shutil
import signal
import socket
import subprocess
import threading
import time

from broker_bench import as_other
from broker_build import built
from scratch import NOBODY, TOP, expect, mounted, skip
from served_store import dword, number_of, transaction, unit, until

COMMITTERS = 8
EXAMPLE = re.compile(r"^```\n(\$ .*?)^```$", re.MULTILINE | re.DOTALL)
# a stop takes some moments; far more on a machine that does much else
STOP_SECONDS = 30
MEBIBYTE, DISK_BYTES = 1_048_576, 2_097_152
# how long a sync takes at least where one is to be seen under way, in microseconds
SYNC_TAKES = 3_000
# clients that ask at once what is kept
ASKERS = 20


class Committers:
    """Clients that commit over two hives until the connection ends; what each was acknowledged last."""

    def __init__(self, it, count, turn=0):
        self.it, self.turn, self.told, self.wrong = it, turn, {}, []
        self.threads = [threading.Thread(target=self.work, args=(number,)) for number in range(count)]
        for each in self.threads:
            each.start()

    def work(self, number):
        try:
            with self.it.lines() as client:
                for count in range(1, 1_000_000):
                    requests = [f"create {hive}:T{number}" for hive in (0, 1)]
                    requests += [f"set {hive}:T{number} n{self.turn} 4 {dword(count)}" for hive in (0, 1)]
                    begin, *writes, commit, close = transaction(unit("commit", self.turn, number, count), *requests)
                    client.send(begin, *writes, commit, close)
                    replies = [client.read() for _ in range(7)]
                    if not (replies[5] or "").startswith("committed "):
                        # whatever came instead, the connection has ended
                        if any(reply and reply.startswith("E") for reply in replies):
                            self.wrong.append(replies)
                        return
                    self.told[number] = count, int(replies[5].split(" ")[1])
        except OSError:
            pass

    def join(self):
        for each in self.threads:
            each.join()


def wrong_commits(client, committers, title):
    """What is wrong with what committers left: nothing acknowledged is lost, and one more may be there, whole in either case."""
    yield expect(f"{title}: refusals", committers.wrong, [])
    for number, (count, change) in committers.told.items():
        one, two, kept = client.ask(f"get 0:T{number} n{committers.turn}", f"get 1:T{number} n{committers.turn}",
                                    f"kept {unit('commit', committers.turn, number, count)}")
        found = number_of(one)
        yield expect(f"{title}: both hives", one, two)
        yield expect(f"{title}: acknowledged {count}", count <= found <= count + 1, True) and f"{title}: {found} is there, {count} was told"
        yield expect(f"{title}: kept", kept, f"committed {change}")


def killed_program(bench):
    """The program is killed under 8 committers, again and again."""
    chance, seen = random.Random(20_263), 0
    with bench.served(hives=2) as it:
        for turn in range(bench.times(20, 100)):
            committers = Committers(it, COMMITTERS, turn)
            time.sleep(0.02 + chance.random() * 0.15)
            yield expect("the broker's status", it.kill_program()[0], 1)
            committers.join()
            yield expect("the socket's file", os.path.exists(it.path), False)
            yield expect("it starts again", it.start(), "ready\n")
            with it.lines() as client:
                last = max((change for _, change in committers.told.values()), default=0)
                yield expect("opened", int(client.first.split(" ")[1]) >= last, True) and f"{client.first}, and {last} was told"
                yield from wrong_commits(client, committers, f"turn {turn}")
            seen += len(committers.told)
        yield expect("there were commits", seen > bench.times(20, 100), True) and f"{seen} committers were told of one"
        yield expect("the stop", it.end(), (0, "", ""))


def killed_broker(bench):
    """The broker is killed: the program ends by itself, transactions are rolled back, and a run opens the store."""
    with bench.served(hives=2) as it:
        for turn in range(bench.times(5, 30)):
            client = it.lines()
            client.ask(f"create 0:K{turn}", *transaction(unit("kept", turn), f"set 0:K{turn} kept 4 {dword(turn)}"))
            client.ask(f"begin t {unit('open', turn)}", f"tx t set 0:K{turn} open 4 00000000", "tx t create 0:Open")
            committers = Committers(it, COMMITTERS, turn)
            time.sleep(0.05)
            program = it.server
            yield expect("its status", it.end(signal.SIGKILL)[0], -signal.SIGKILL)
            yield expect("the client's end", client.rest(), [])
            committers.join()
            if turn == 0:
                replies = it.replies(f"values 0:K{turn}", "info 0:Open", f"kept {unit('kept', turn)}", f"kept {unit('open', turn)}")
                yield expect("a run", replies[1:], ["values 1 kept", "E2 NotFound", replies[3], "E2 NotFound"])
                yield expect("what is kept", replies[3].startswith("committed "), True)
                yield expect("the program has ended", until(lambda: has_ended(program)), True)
            yield expect("it starts again", it.start(), "ready\n")
            with it.lines() as after:
                yield expect("values", after.ask(f"values 0:K{turn}", "info 0:Open"), ["values 1 kept", "E2 NotFound"])
                yield from wrong_commits(after, committers, f"turn {turn}")
        yield expect("the stop", it.end()[0], 0)


def has_ended(process):
    """Whether a process is there no more, or waits for nothing but to be counted."""
    try:
        with open(f"/proc/{process}/stat", encoding="ascii") as file:
            return file.read().rpartition(") ")[2].startswith("Z")
    except FileNotFoundError:
        return True


def stops(bench):
    """A stop with idle clients, with one that doesn't read, and within commits: status 0, in bounded time."""
    with bench.served() as it:
        idle = [it.lines() for _ in range(10)]
        idle[0].ask("create 0:K", f"begin t {unit('open')}", "tx t create 0:Open")
        yield from stopped(it, "idle clients")
        yield expect("their ends", [client.rest() for client in idle], 10 * [[]])
    yield expect("what is there", it.replies("keys 0:"), ["opened 1", "keys 1 K"])
    with bench.served() as it:
        client = it.lines()
        client.ask("create 0:K", f"set 0:K v 3 {'ab' * MEBIBYTE}")
        client.send(*["get 0:K v"] * 1_000)
        yield from stopped(it, "a client that doesn't read")
    for turn in range(bench.times(4, 20)):
        with bench.served(hives=2) as it:
            committers = Committers(it, COMMITTERS)
            yield expect("commits", until(lambda: len(committers.told) == COMMITTERS), True)
            yield from stopped(it, f"within commits {turn}")
            committers.join()
            replies = it.replies(*(f"get {hive}:T{number} n0" for number in range(COMMITTERS) for hive in (0, 1)))[1:]
            found = [number_of(reply) for reply in replies]
            yield expect("both hives", found[::2], found[1::2])
            told = [committers.told[number][0] for number in range(COMMITTERS)]
            yield expect("what was told", [count <= there <= count + 1 for count, there in zip(told, found[::2])], COMMITTERS * [True])
            yield expect("refusals", committers.wrong, [])


def stopped(it, title):
    began = time.monotonic()
    yield expect(f"{title}: the stop", it.end(), (0, "", ""))
    yield expect(f"{title}: its time", time.monotonic() - began < STOP_SECONDS, True)


def full_disk(bench):
    """A disk that becomes full: who is told what, and what is there once there is room."""
    if os.geteuid() != 0:
        skip("full_disk", "this isn't root, and mounts nothing")
        return
    with mounted(bench, DISK_BYTES) as folder:
        if folder is None:
            skip("full_disk", "nothing can be mounted here")
            return
        store = bench.at(folder, "store")
        with bench.served(store=store) as it, it.lines() as client, it.lines() as other:
            client.ask("create 0:K")
            yield from faulted(it, other, fill(client), "the disk is full")
        copy = bench.at("copy")
        shutil.copytree(store, copy)
        it.store = copy
    yield from after_fault(it)


def fill(client):
    """Commits until one is refused: the number of the last change that was acknowledged, how many commits were, and the refusal."""
    last = 0
    for number in range(1_000):
        reply = client.ask(*transaction(unit("fill", number), f"set 0:K v{number} 3 {'ab' * 20_000}"))[2]
        if not reply.startswith("committed "):
            return last, number, reply
        last = int(reply.split(" ")[1])
    raise ValueError("the disk has room for all")


def failing_syncs(bench):
    """A sync that fails: the same."""
    switch = bench.at("fail")
    with bench.served(before=["env", f"LD_PRELOAD={bench.library}", f"SYNCS_FAIL={switch}"]) as it, it.lines() as client, it.lines() as other:
        client.ask("create 0:K")
        last = int(client.ask(*transaction(unit("fill", 0), "set 0:K v0 3 ab"))[2].split(" ")[1])
        with open(switch, "wb"):
            pass
        reply = client.ask(*transaction(unit("fill", 1), "set 0:K v1 3 ab"))[2]
        yield from faulted(it, other, (last, 1, reply), "a sync fails")
        os.remove(switch)
    yield from after_fault(it)


def faulted(it, other, filled, title):
    """What clients are told after a fault, and what the stop tells."""
    it.filled = filled
    yield expect(f"{title}: the commit whose step it was", filled[2], "E13 DiskFault")
    yield expect(f"{title}: another's lines", other.ask("create 0:X", f"kept {unit('fill', 0)}", "flush"), 3 * ["E14 Faulted"])
    yield expect(f"{title}: another's reads", other.ask("keys 0:", "info 0:X"), ["keys 1 K", "E2 NotFound"])
    with it.lines() as late:
        # a session begins with a flush
        yield expect(f"{title}: a client that comes", (late.first, late.read()), ("E14 Faulted", None))
    began = time.monotonic()
    status, printed, _ = it.end()
    yield expect(f"{title}: the stop", (status, printed), (1, "E14 Faulted\n"))
    yield expect(f"{title}: its time", time.monotonic() - began < STOP_SECONDS, True)


def after_fault(it):
    """The store with room, or with syncs: all that was acknowledged, and nothing in part."""
    last, number, _ = it.filled
    opened, values, kept, lost = it.replies("values 0:K", f"kept {unit('fill', number - 1)}", f"kept {unit('fill', number)}")
    there = int(opened.split(" ")[1])
    yield expect("what was acknowledged", there in (last, last + 1), True) and f"{opened}, and {last} was told"
    yield expect("its values", len(values.split(" ")) - 2, number + there - last)
    yield expect("what is kept", (kept, lost), (f"committed {last}", f"committed {there}" if there > last else "E2 NotFound"))


def kept_under_way(bench):
    """`kept` of a commit under way, and a kill at the first `committed`: it is always there."""
    with bench.served(before=["env", f"LD_PRELOAD={bench.library}", f"SYNCS_TAKE={SYNC_TAKES}"]) as it:
        for turn in range(bench.times(20, 120)):
            with it.lines() as one, it.lines() as other:
                one.ask(f"create 0:K{turn}", "flush")
                one.send(*transaction(unit("way", turn), f"set 0:K{turn} v 4 {dword(turn)}"))
                # the reply to the commit comes about then
                yield expect("it is told", until(lambda: other.ask(f"kept {unit('way', turn)}").startswith("committed ")), True)
                it.kill_program()
            yield expect("it starts again", it.start(), "ready\n")
            with it.lines() as client:
                yield expect(f"turn {turn}", number_of(client.ask(f"get 0:K{turn} v")), turn)
                yield expect(f"turn {turn}: kept", client.ask(f"kept {unit('way', turn)}").startswith("committed "), True)


def kept_is_durable(bench):
    """`kept` tells no commit before a sync that begins after it can have ended, however both coincide."""
    early, turns = [], bench.times(400, 4_000)
    with bench.served(before=["env", f"LD_PRELOAD={bench.library}", f"SYNCS_TAKE={SYNC_TAKES}"]) as it, it.lines() as one:
        others = [it.lines() for _ in range(ASKERS)]
        one.ask("create 0:K")
        for turn in range(turns):
            number = unit("durable", turn)
            one.ask(f"begin t {number}", f"tx t set 0:K v 4 {dword(turn)}", "flush")
            for other in others[::2]:
                other.send(f"kept {number}")
            sent = time.monotonic()
            one.send("commit t", "close t")
            for other in others[1::2]:
                other.send(f"kept {number}")
            for other in others:
                reply = other.read()
                # a reply that is read late is taken for one that came late
                if reply.startswith("committed ") and time.monotonic() - sent < SYNC_TAKES / 1e6:
                    early.append(f"turn {turn}: {reply}")
            one.read(), one.read()
        yield expect(f"told too early in {turns} turns", early, [])
        yield expect("the stop", it.end()[0], 0)


def stats(bench):
    """How full a store is: its numbers as changes are accepted and flushed, its clients, and the room that `check` finds used."""
    def room_of(reply):
        return int(reply.split(" ")[6])

    with bench.served() as it, it.lines() as client:
        first = client.ask("stats")
        room = room_of(first)
        yield expect("at first", first, f"stats number 0 durable 0 room {room} clients 1 waiting 0")
        accepted = client.ask("create 0:A", "stats")[1]
        yield expect("accepted", accepted, f"stats number 1 durable 0 room {room_of(accepted)} clients 1 waiting 0")
        yield expect("takes room", room_of(accepted) > room, True)
        with it.lines() as other:
            flushed = other.ask("flush", "stats")[1]
            yield expect("flushed", flushed, f"stats number 1 durable 1 room {room_of(accepted)} clients 2 waiting 0")
        yield expect("one has gone", until(lambda: " clients 1 " in client.ask("stats")), True)
        with it.lines() as other:
            yield expect("with a word", other.ask("stats now"), "line 1: not understood")
        it.kill_program()
        found = subprocess.run([bench.program.path, "check", it.store], capture_output=True, text=True, timeout=STOP_SECONDS).stdout
        yield expect("as check finds it", f"journal {room_of(accepted)} of 67108864 bytes\n" in found, True)


def doors(bench):
    """Modes, folders that others may write, and sockets of others: who doesn't get in, and that the store is free after a refusal."""
    with bench.served("-m", "0600") as it:
        yield expect("its own user", it.lines().first, "opened 0")
        if os.geteuid() == 0:
            yield expect("another user", connected(it), PermissionError)
    with bench.served("-m", "0666") as it:
        if os.geteuid() == 0:
            yield expect("another user, if all may", connected(it), None)
    with bench.served(start=False) as it:
        os.chmod(it.home, 0o777)
        yield from refused(it, "a folder that others may write")
    with bench.served(start=False) as it, socket.socket(socket.AF_UNIX) as other:
        other.bind(it.path)
        if os.geteuid() == 0:
            os.chown(it.path, NOBODY, NOBODY)
        else:
            other.listen()
        yield from refused(it, "a socket of another")
    with bench.served() as it:
        with bench.served(start=False, store=it.store, make=False, wait=0) as again:
            said = again.start()
            yield expect("a store that is served", (said, again.wait()[0]), ("cannot open store\n", 1))
        yield expect("the first goes on", it.lines().first, "opened 0")


def connected(it):
    try:
        with as_other():
            it.lines().close()
        return None
    except OSError as why:
        return type(why)


def refused(it, title):
    """What is wrong with a broker that can't open its socket."""
    said = it.start()
    status, printed, told = it.wait()
    yield expect(title, (said, status, printed, told != ""), ("", 1, "", True))
    yield expect(f"{title}: the store is free", it.replies("keys 0:"), ["opened 0", "keys 0"])


def examples(bench):
    """The first example of each page, as a shell carries it out."""
    os.mkdir(bench.at("bin"))
    for name, path in (("regtx", bench.program.path), ("regtxd", bench.broker), ("regtxc", built("regtxc", bench.home))):
        os.symlink(path, bench.at("bin", name))
    for number, page in enumerate(("docs/SERVING.md", "server/README.md")):
        with open(os.path.join(TOP, page), encoding="utf-8") as file:
            shown = EXAMPLE.search(file.read())[1].splitlines()
        place = bench.at(f"example{number}")
        os.mkdir(place, 0o755)
        commands = [line.removeprefix("$ ") for line in shown if line.startswith("$ ")]
        # what is begun in the background is waited for, and what is ended, too
        waits = {"&": "until test -S run/app.sock; do sleep 0.01; done", "1": "wait"}
        script = "\n".join(f"{command}\n{waits.get(command[-1], '')}" for command in commands)
        ran = subprocess.run(["bash", "-mc", script], cwd=place, stdin=subprocess.DEVNULL, capture_output=True, text=True, timeout=60,
                             env=dict(os.environ, PATH=f"{bench.at('bin')}:{os.environ['PATH']}"))
        yield expect(page, (ran.stdout.splitlines(), ran.returncode), ([line for line in shown if not line.startswith("$ ")], 0))


PARTS = [killed_program, killed_broker, stops, stats, full_disk, failing_syncs, kept_under_way, kept_is_durable, doors, examples]
