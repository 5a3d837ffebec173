"""Those who follow or watch a served store: parts of tests/served.py."""
import os
import random
import re
import subprocess
import threading
import time
import uuid

from scratch import expect
from served_ends import Committers
from served_generations import LINES, MOST_SECONDS, SOON, Writer
from served_store import ID, SECONDS, dword, replies_of, transaction, unit, until

COMMITTERS = 4
CHANGE = re.compile(r"change ([0-9]+) ([0-9]+) ([0-9]+) (-|[0-9a-f-]{36})")
# what a slow reader is sent at least, and in how many changes; and what a session may take of memory beside what it has, in kB
SLOW_BYTES, SLOW_CHANGES, MOST_MEMORY = 12_000_000, 200, 24_576
# a change that is durable is told in some moments; far more on a machine that does much else
SOON_SECONDS = 30
# names of keys and values of random histories; few, so that they meet
KEYS, VALUES = ["A", "A\\B", "A\\B\\C", "A\\D", "Some%0020Vendor", "E\\F"], ["v", "@", "a%0020b", "w"]


class Change:
    """A change as it is told."""

    def __init__(self, head, lines):
        told = CHANGE.fullmatch(head)
        self.number, self.moment = int(told[1]), int(told[2])
        self.unit, self.lines = None if told[4] == "-" else told[4], lines


def changes_in(text):
    """The changes that a text tells, and the lines after them."""
    lines, changes = text.split("\n"), []
    while told := CHANGE.fullmatch(lines[0]):
        count = 1 + int(told[3])
        changes.append(Change(lines[0], lines[1:count]))
        lines = lines[count:]
    return changes, lines


def read_change(client, head):
    """The change that begins with a head."""
    return Change(head, [client.read() for _ in range(int(CHANGE.fullmatch(head)[3]))])


def told_of(changes):
    return [(change.number, change.moment, change.unit, change.lines) for change in changes]


class Follower:
    """A client that follows on a thread of its own, up to the end of what it is told; and the line that ended that."""

    def __init__(self, it, after):
        self.client, self.changes, self.last = it.lines(), [], None
        self.client.send(f"follow {after}")
        self.thread = threading.Thread(target=self.work)
        self.thread.start()

    def work(self):
        while (line := self.client.read() or "") and CHANGE.fullmatch(line):
            self.changes.append(read_change(self.client, line))
        self.last = line

    def has(self, number):
        return bool(self.changes) and self.changes[-1].number >= number

    def end(self, line="keys 9:"):
        """Sends a line, which ends it, and whose reply comes after that; the line that ended it."""
        self.client.send(line)
        self.thread.join(SECONDS)
        return self.last


def requests(chance, count):
    """Random requests, which may be refused."""
    for _ in range(count):
        hive, key, name = chance.randrange(2), chance.choice(KEYS), chance.choice(VALUES)
        kind = chance.random()
        if kind < 0.35:
            yield f"create {hive}:{key}"
        elif kind < 0.5:
            yield f"delete {hive}:{key}"
        elif kind < 0.85:
            yield f"set {hive}:{key} {name} {chance.choice([0, 1, 3, 4, 7, 4_294_967_295])} {chance.randbytes(chance.randrange(9)).hex() or '-'}"
        else:
            yield f"unset {hive}:{key} {name}"


def commit_at_random(it, number, turns):
    """A client that writes alone and in transactions, with moments, some of which others roll back; its units, and the numbers told."""
    chance, told = random.Random(20_265 + number), {}
    with it.lines() as client:
        for turn in range(turns):
            name = unit("random", number, turn)
            client.ask(f"at {chance.randrange(1 << 63)}")
            if chance.random() < 0.3:
                client.ask(*requests(chance, 2))
                continue
            lines = transaction(name, *requests(chance, chance.randrange(6)))
            if chance.random() < 0.2:
                lines[-2] = "rollback t"
            reply = client.ask(*lines)[-2]
            if reply.startswith("committed ") and reply != "committed 0":
                told[name] = int(reply.split(" ")[1])
    return told


def script_of(changes):
    """A script that makes these changes, each as one."""
    for change in changes:
        yield f"at {change.moment}"
        if change.unit is None and len(change.lines) == 1:
            yield change.lines[0]
        else:
            yield f"begin t {change.unit or uuid.uuid4()}"
            yield from (f"tx t {line}" for line in change.lines)
            yield from ("commit t", "close t")


def exported(program, store):
    return subprocess.run([program.path, "export", store], capture_output=True, timeout=SECONDS, check=True).stdout


def moments(program, store):
    """When each key of a store was written last, and how many subkeys and values it has."""
    keys = [f"{hive}:{key}" for hive in (0, 1) for key in ["", *KEYS]]
    return list(zip(keys, replies_of(program, store, *(f"info {key}" for key in keys))[1:]))


def followed(bench):
    """A random history of several committers: what one who follows from the beginning is told makes the same store."""
    with bench.served(hives=2) as it:
        follower, told, wrong = Follower(it, 0), {}, []

        def work(number):
            try:
                told.update(commit_at_random(it, number, bench.times(60, 400)))
            except (AttributeError, OSError) as why:
                wrong.append(f"{number}: {why}")

        threads = [threading.Thread(target=work, args=(number,)) for number in range(COMMITTERS)]
        for each in threads:
            each.start()
        for each in threads:
            each.join()
        yield expect("the committers", wrong, [])
        with it.lines() as client:
            last = int(client.ask("flush").split(" ")[1])
            yield expect("all came", until(lambda: follower.has(last) or follower.last is not None), True)
            yield from late_followers(client, follower, last)
        yield expect("its end", follower.end(), f"followed {last}")
        yield expect("the line after it", follower.client.read(), "E2 NotFound")
        yield expect("the stop", it.end(), (0, "", ""))
    changes = follower.changes
    yield expect("each once, in order", [change.number for change in changes], list(range(1, last + 1)))
    yield expect("the units of commits", {change.unit: change.number for change in changes if change.unit}, told)
    copy = bench.at("copy")
    subprocess.run([bench.program.path, "new", copy, ID, "2"], check=True, stdout=subprocess.DEVNULL, timeout=SECONDS)
    replies = replies_of(bench.program, copy, *script_of(changes))
    yield expect("no line is refused", [reply for reply in replies if reply.startswith(("E", "line "))], [])
    yield expect("the same text", exported(bench.program, copy), exported(bench.program, it.store))
    yield expect("the same moments", moments(bench.program, copy), moments(bench.program, it.store))
    asked = [f"kept {each}" for each in told]
    yield expect("the same units", replies_of(bench.program, copy, *asked), replies_of(bench.program, it.store, *asked))


def late_followers(client, follower, last):
    """What those are told who begin later: the same changes, as far as they are kept."""
    by_number = {change.number: change for change in follower.changes}
    first = ask_from(client, 0)
    yield expect("kept from", 0 <= first <= last, True)
    for after in sorted({first, (first + last) // 2, last - 1, last} & set(range(first, last + 1))):
        client.send(f"follow {after}")
        for number in range(after + 1, last + 1):
            change = read_change(client, client.read())
            yield expect(f"after {after}: {number}", told_of([change]), told_of([by_number[number]]))
        yield expect(f"after {after}: its end", client.ask("keys 9:", "keys 9:")[:2], [f"followed {last}", "E2 NotFound"])
        yield expect(f"after {after}: the next line", client.read(), "E2 NotFound")
    for after in (last + 1, (1 << 64) - 1):
        yield expect(f"after {after}", client.ask(f"follow {after}"), f"E2 NotFound after {last}")
    yield expect("it goes on", client.ask("keys 9:"), "E2 NotFound")


def ask_from(client, after):
    """After which number changes are kept, up to this one; the number itself if they are."""
    # the line sent after it ends it, once all was told
    client.send(f"follow {after}", "keys 9:")
    line = client.read()
    while CHANGE.fullmatch(line):
        read_change(client, line)
        line = client.read()
    client.read()
    return int(line.split(" ")[-1]) if line.startswith("E2 NotFound after ") else after


def follow_ends(bench):
    """What ends one who follows, and that the session goes on; and a client that only hangs up."""
    with bench.served(hives=2) as it, it.lines() as writer:
        writer.ask("create 0:K", "flush")
        for line, wanted in [("keys 0:", "keys 1 K"), ("flush", "flushed 1"), ("follow 2", "E2 NotFound after 1"), ("watch 0:", "watching 1")]:
            with it.lines() as client:
                client.send("follow 1")
                yield expect(f"{line}: nothing comes", client.is_silent(), True)
                yield expect(f"{line}: what ends it, and its reply", (client.ask(line), client.read()), ("followed 1", wanted))
        with it.lines() as client:
            client.send("follow 0", "keys 0:")
            change = read_change(client, client.read())
            yield expect("lines that are sent together", (change.number, change.lines), (1, ["create 0:K"]))
            yield expect("and what is behind it", (client.read(), client.read()), ("followed 1", "keys 1 K"))
            client.push(b"follow 1\nkeys")
            yield expect("a part of a line ends it", client.read(), "followed 1")
            client.push(b" 0:\n")
            yield expect("which is carried out", client.read(), "keys 1 K")
            client.send(f"begin t {unit('open')}", "tx t create 1:T", "follow 1")
            yield expect("a transaction", (client.read(), client.read()), ("ok", "created 1"))
            yield expect("is open over it", client.ask("commit t", "close t")[:2], ["followed 1", "committed 2"])
            client.read()
        with it.lines() as client:
            client.send("follow 2")
            client.half_close()
            yield expect("the end of the writing side", client.rest(), ["followed 2"])
        followers = [it.lines() for _ in range(20)]
        for client in followers:
            client.send("follow 2")
            client.close()
        yield expect("the places of those who have gone", until(lambda: {it.lines().first for _ in range(25)} == {"opened 2"}), True)
        followers = [it.lines() for _ in range(5)]
        for client in followers:
            client.send("follow 2")
        writer.ask("create 0:L", "flush")
        for client in followers:
            change = read_change(client, client.read())
            yield expect("a change", (change.number, change.unit, change.lines), (3, None, ["create 0:L"]))
        yield expect("the stop", it.end(), (0, "", ""))
        yield expect("what each is told at a stop", [client.rest() for client in followers], 5 * [["followed 3"]])


def follow_soon(bench):
    """A change is told as soon as it is durable, whatever made it so: a commit or a flush, a client that comes, `kept` or a backup."""
    folder = bench.at("soon")
    os.mkdir(folder)
    with bench.served(backups=folder) as it, it.lines() as writer, it.lines() as follower:
        follower.send("follow 0")
        makers = [lambda: writer.ask("flush"), lambda: writer.ask(*transaction(unit("soon"), "create 0:Soon"))[2], lambda: it.lines().first,
                  lambda: writer.ask(f"kept {unit('soon')}"), lambda: writer.ask("backup b")]
        number = 0
        for maker in makers:
            number += 1
            yield expect("accepted", writer.ask(f"create 0:K{number}"), f"created 1 accepted {number}")
            yield expect("nothing comes before it is durable", follower.is_silent(), True)
            reply, wanted = maker(), [number]
            if reply == f"committed {number + 1}":
                number += 1
                wanted.append(number)
            follower.socket.settimeout(SOON_SECONDS)
            try:
                yield expect(f"after {reply}", [read_change(follower, follower.read()).number for _ in wanted], wanted)
            except TimeoutError:
                yield f"after {reply}: nothing comes in {SOON_SECONDS} seconds"
                return
        yield expect("the stop", it.end(), (0, "", ""))


def follow_again(bench):
    """Over a stop and a start: who follows is told what the stop makes durable, too, and goes on after it. What was before the start isn't
    kept."""
    with bench.served(hives=2) as it:
        seen, after = [], 0
        for turn in range(4):
            follower = Follower(it, after)
            with it.lines() as client:
                for number in range(5):
                    client.ask(*transaction(unit("again", turn, number), f"create 0:K{turn}-{number}", f"create 1:K{turn}-{number}"))
                yield expect("all came", until(lambda: follower.has(after + 5) or follower.last is not None), True)
                after += 5
                # durable at the stop alone
                is_more = turn % 2 == 1
                if is_more:
                    after += 1
                    yield expect("a write alone", client.ask("create 0:Alone"), f"created 1 accepted {after}")
                yield expect("the stop", it.end(), (0, "", ""))
            follower.thread.join(SECONDS)
            yield expect(f"turn {turn}: its last line", follower.last, f"followed {after}")
            seen += [change.number for change in follower.changes]
            yield expect("the start", it.start(), "ready\n")
            with it.lines() as client:
                number = int(client.first.split(" ")[1])
                yield expect("opened", number, after)
                yield expect("what was before", client.ask(f"follow {number - 1}"), f"E2 NotFound after {number}")
                client.send(f"follow {number}")
                yield expect("what will be", client.ask("keys 9:", "keys 9:")[:2], [f"followed {number}", "E2 NotFound"])
                client.read()
                if is_more:
                    client.ask("delete 0:Alone", "flush")
                    seen.append(number + 1)
                    after = number + 1
        yield expect("each once", seen, list(range(1, after + 1)))


def follow_to_stop(bench):
    """A stop amid commits: who is told `followed N` has all that the store opens at. One whose reply was under way may be told no more,
    and has the first changes then."""
    with bench.served(hives=2) as it:
        for turn in range(bench.times(10, 40)):
            with it.lines() as client:
                after = int(client.ask("flush").split(" ")[1])
            followers, committers = [Follower(it, after) for _ in range(3)], Committers(it, COMMITTERS, 100 + turn)
            time.sleep(0.02 + turn % 5 * 0.01)
            yield expect("the stop", it.end(), (0, "", ""))
            committers.join()
            yield expect("it starts again", it.start(), "ready\n")
            with it.lines() as client:
                opened = int(client.first.split(" ")[1])
            for follower in followers:
                follower.thread.join(SECONDS)
                told = [change.number for change in follower.changes]
                yield expect("each once, in order", told, list(range(after + 1, after + 1 + len(told))))
                if (follower.last or "").startswith("followed "):
                    yield expect("its last line", (follower.last, after + len(told)), (f"followed {opened}", opened))
        yield expect("the stop", it.end(), (0, "", ""))


def follow_slowly(bench):
    """A client that follows and doesn't read: others are as fast as ever, and it isn't told a change without those before it."""
    with bench.served() as it, it.lines() as writer:
        writer.ask("create 0:K", "flush")
        slow = it.lines()
        slow.send("follow 1")
        yield expect("nothing yet", slow.is_silent(), True)
        before, size = it.memory(it.server), SLOW_BYTES // SLOW_CHANGES
        took = []
        for number in range(SLOW_CHANGES):
            began = time.monotonic()
            reply = writer.ask(*transaction(unit("slow", number), f"set 0:K v{number % 50} 3 {'ab' * size}"))[2]
            took.append(time.monotonic() - began)
            yield expect("a commit", reply, f"committed {number + 2}")
        yield expect("no commit waits for it", max(took) < MOST_SECONDS, True)
        grown = it.memory(it.server) - before
        yield expect("memory", grown < 5 * SLOW_BYTES // 1_024 + MOST_MEMORY, True) and f"the program grew by {grown:,} kB"
        line, number = slow.read(), 1
        while CHANGE.fullmatch(line):
            change = read_change(slow, line)
            yield expect("the next one", (change.number, change.unit), (number + 1, unit("slow", number - 1)))
            number = change.number
            if number == SLOW_CHANGES + 1:
                slow.send("keys 9:")
            line = slow.read()
        if line.startswith("E2 "):
            after = int(line.rpartition(" ")[2])
            yield expect("it fell behind", number < after <= SLOW_CHANGES + 1, True)
            slow.send(f"follow {after}")
            for number in range(after + 1, SLOW_CHANGES + 2):
                yield expect("and goes on", read_change(slow, slow.read()).number, number)
        else:
            yield expect("all was told", line, f"followed {SLOW_CHANGES + 1}")
        yield expect("the stop", it.end(), (0, "", ""))


def follow_to_kill(bench):
    """The program is killed under committers: what one who follows was told is durable."""
    chance, told = random.Random(20_266), 0
    with bench.served(hives=2) as it:
        for turn in range(bench.times(15, 60)):
            with it.lines() as client:
                after = int(client.ask("flush").split(" ")[1])
            follower, committers = Follower(it, after), Committers(it, COMMITTERS, turn)
            time.sleep(0.05 + chance.random() * 0.15)
            it.kill_program()
            committers.join()
            follower.thread.join(SECONDS)
            # a head that came whole tells of a change, whether or not its lines came
            changes = follower.changes
            yield expect("each once, in order", [change.number for change in changes], list(range(after + 1, after + 1 + len(changes))))
            resting, end = changes_in(bench.program.run("follow", it.store, str(after))[0].decode())
            yield expect("the store at rest tells the same", told_of(resting[:len(changes)]), told_of(changes))
            yield expect("it starts again", it.start(), "ready\n")
            with it.lines() as client:
                opened = int(client.first.split(" ")[1])
                last = changes[-1].number if changes else after
                yield expect("what was told is there", last <= opened, True) and f"{client.first}, and change {last} was told"
                yield expect("the store at rest told all", ([change.number for change in resting], end),
                             (list(range(after + 1, opened + 1)), [f"followed {opened}", ""]))
                kept = client.ask(*(f"kept {change.unit}" for change in changes), "keys 9:", "keys 9:")[:-2]
                yield expect("their units", kept, [f"committed {change.number}" for change in changes])
            told += len(changes)
        yield expect("there were some", told > 0, True)
        yield expect("the stop", it.end(), (0, "", ""))


def watched(bench):
    """A key that is watched: changes that meet it or a key below it, and no other."""
    with bench.served(hives=2) as it, it.lines() as writer:
        writer.ask("create 0:A\\B", "create 1:A\\B", "set 0:A v 3 00", "flush")
        watchers = {key: it.lines() for key in ("0:A\\B", "0:a\\b", "0:", "1:A", "0:A\\BC", "0:None\\Yet")}
        for key, client in watchers.items():
            yield expect(f"watch {key}", client.ask(f"watch {key}"), "watching 3")
        steps = [(["set 0:A v 3 01"], ["0:"]), (["set 0:A\\B v 3 01"], ["0:A\\B", "0:a\\b", "0:"]),
                 (["create 0:A\\B\\C\\D"], ["0:A\\B", "0:a\\b", "0:"]),
                 (["create 0:A\\BC"], ["0:", "0:A\\BC"]), (["set 1:A v 3 01", "set 0:A\\B\\C w 3 -"], ["0:A\\B", "0:a\\b", "0:", "1:A"]),
                 (["create 0:NONE"], ["0:"]), (["create 0:NONE\\YET"], ["0:", "0:None\\Yet"]), (["delete 0:None\\Yet"], ["0:", "0:None\\Yet"]),
                 (["unset 0:A\\B v", "unset 0:A v"], ["0:A\\B", "0:a\\b", "0:"]), (["delete 1:A\\B"], ["1:A"])]
        for number, (lines, met) in enumerate(steps, 4):
            yield expect(f"{lines}", writer.ask(*transaction(unit("watched", number), *lines))[-2], f"committed {number}")
            for key in met:
                yield expect(f"{lines}: {key}", watchers[key].read(), f"changed {number}")
        last = 3 + len(steps)
        for key, client in watchers.items():
            yield expect(f"{key}: its end", client.ask("keys 9:", "keys 9:")[0], f"followed {last}")
        for line, wanted in [("watch 0:A\\\\B", "E4 BadName"), ("watch 0:" + "a" * 256, "E4 BadName"), ("watch 2:", "E2 NotFound")]:
            yield expect(line[:40], writer.ask(line), wanted)
        other = it.lines()
        yield expect("a stop", (other.ask("watch 0:"), it.end()), (f"watching {last}", (0, "", "")))
        yield expect("what is told at a stop", other.rest(), [f"followed {last}"])


def followed_rest(bench):
    """The history is emptied while clients follow and watch: they are told so, and go on over the same connection."""
    with bench.served() as it:
        writer, last = Writer(it), 0
        writer.write_to(SOON - 2 * LINES)
        after = int(writer.client.ask("flush").split(" ")[1])
        follower, watcher = Follower(it, after), it.lines()
        yield expect("watching", watcher.ask("watch 0:W"), f"watching {after}")
        writer.write_to(SOON + 4 * LINES)
        writer.client.ask("flush")
        yield expect("the end of what is told", until(lambda: follower.last is not None), True)
        while (line := watcher.read()).startswith("changed "):
            last = int(line.split(" ")[1])
        told = [change.number for change in follower.changes]
        yield expect("each once, in order", told, list(range(after + 1, after + 1 + len(told))))
        yield expect("the last line", follower.last, f"followed {after + len(told)}")
        yield expect("and of the watcher", (line.split(" ")[0], int(line.split(" ")[1]) >= last), ("followed", True))
        client = follower.client
        first = ask_from(client, after + len(told))
        yield expect("from where on", first, after + len(told))
        client.send(f"follow {first}")
        number = int(writer.client.ask("set 0:W v 4 00000000").split(" ")[1])
        writer.client.ask("flush")
        numbers = [read_change(client, client.read()).number for _ in range(number - first)]
        yield expect("it goes on", numbers, list(range(first + 1, number + 1)))
        yield expect("the watcher goes on", watcher.ask("watch 0:W").split(" ")[0], "watching")
        yield expect("each write's reply", writer.wrong, [])
        yield expect("the stop", it.end(), (0, "", ""))


PARTS = [followed, follow_ends, follow_soon, follow_again, follow_to_stop, follow_slowly, follow_to_kill, watched, followed_rest]
