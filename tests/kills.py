#!/usr/bin/env python3
"""Ends runs on a store in files by SIGKILL at random moments, and opens the store again after each:

    tests/kills.py PROGRAM [SEED]

A store of three hives is run again and again by scripts of transactions over several hives and of writes alone. Most runs are ended
by SIGKILL: while the store is opened and repaired, between and within lines, and while the end of a run moves changes into the
hives; some use half of the journal's room and more, at which that is done between lines too. What the store opens to must be
the trees after N changes, all of them whole: N at least the last that was acknowledged, and at most the last whose line was sent.
Of replies, each must be the one that the rules say.

Then examples/exactly_once.py takes orders into another store, and it, the program or both are ended so, 200 times; some of these within
the calls of a commit, such as after the write of its gate, so that no reply tells of it. Begun again, it
decides by `kept` alone which orders are left. In the end each order must be there once: by the key that it made, by the stock that
it took one of, and by the number of changes; and with the number that was acknowledged, if one was.

The seed is printed. The last line is 'N passed, N failed', and the status is 0 if none failed; what is left after 240 seconds of
either fails. A process that ends leaves what it wrote to the system, so this shows nothing of syncs, and the store lies in memory where
there is a folder for that: a slow device only takes time.
"""
import os
import random
import re
import signal
import subprocess
import sys
import tempfile
import threading
import time
import uuid

TOP = os.path.dirname(os.path.dirname(os.path.abspath(__file__)))
sys.dont_write_bytecode = True
sys.path.insert(0, os.path.join(TOP, "tests"))
from scratch import SECONDS, Program, expect, finish, memory, noting, noting_library, shown, tell  # noqa: E402

ID, UNIT = "00112233-4455-6677-8899-aabbccddeeff", "00000000-0000-0000-0000-000000000001"
HIVES, NAMES = 3, [f"v{number}" for number in range(6)]
KILLS, MOST_SECONDS = 200, 240
LARGE, SMALL = 1_048_576, 40
# so many changes of large values use more than half of the journal's room
LARGE_CHANGES = 60
CLIENT = os.path.join(TOP, "examples", "exactly_once.py")
# what the client begins with, and how many orders there are in all: fewer than a store keeps outcomes
SHOP, STOCK, ORDERS, MOST_NEW = uuid.UUID("6ba7b810-9dad-11d1-80b4-00c04fd430c8"), 10_000, 2_000, 8
# what is ended, and the calls of a run: of its opening, four of each commit, and of its end
KINDS, MOST_CALLS = ["client", "program", "both", "call", "call"], 4 * MOST_NEW + 20


class Model:
    """The values after each change: of hive and name."""

    def __init__(self):
        self.states = [{}]

    def last(self):
        return len(self.states) - 1

    def change(self, writes):
        self.states.append({**self.states[-1], **writes})

    def forget(self, number):
        """No change behind this one was found."""
        del self.states[number + 1:]


class Chances:
    """Scripts and moments by chance."""

    def __init__(self, seed):
        self.random = random.Random(seed)

    def data(self, size):
        return self.random.randbytes(4).hex() + "00" * (size - 4)

    def writes(self, hives, size):
        return {(hive, self.random.choice(NAMES)): self.data(size) for hive in hives}

    def change(self, model, size):
        """The lines of one change with their replies, which the model takes."""
        number = model.last() + 1
        if self.random.random() < 0.25:
            writes = self.writes([self.random.randrange(HIVES)], size)
            pairs = [(f"set {hive}: {name} 3 {data}", f"accepted {number}") for (hive, name), data in writes.items()]
        else:
            writes = self.writes(self.random.sample(range(HIVES), self.random.randint(2, HIVES)), size)
            pairs = [(f"begin t {UNIT}", "ok"), *[(f"tx t set {hive}: {name} 3 {data}", "ok") for (hive, name), data in writes.items()],
                     ("commit t", f"committed {number}"), ("close t", "ok")]
        model.change(writes)
        return pairs

    def script(self, model, is_large):
        """A script with its replies."""
        if is_large:
            pairs = [pair for _ in range(LARGE_CHANGES) for pair in self.change(model, self.random.choice([LARGE // 2, LARGE // 3]))]
            # and the store is small again
            for hive in range(HIVES):
                for name in NAMES:
                    data = self.data(SMALL)
                    model.change({(hive, name): data})
                    pairs.append((f"set {hive}: {name} 3 {data}", f"accepted {model.last()}"))
            return pairs
        return [pair for _ in range(self.random.randint(1, 40)) for pair in self.change(model, SMALL)]


class Run:
    """A run whose lines come through a pipe, and whose replies are gathered as they come."""

    def __init__(self, program, folder):
        self.child = subprocess.Popen([program.path, "run", folder, "/dev/stdin"], cwd=program.home,
                                      stdin=subprocess.PIPE, stdout=subprocess.PIPE)
        self.replies, self.is_over = [], False
        self.has_come = threading.Condition()
        self.reader = threading.Thread(target=self.gather)
        self.reader.start()

    def gather(self):
        for line in self.child.stdout:
            with self.has_come:
                if line.endswith(b"\n"):
                    self.replies.append(line.decode().rstrip("\n"))
                self.has_come.notify()
        with self.has_come:
            self.is_over = True
            self.has_come.notify()

    def send(self, lines):
        """Sends the lines beside this, and ends the script behind them where it is to end."""
        def write():
            try:
                for line in lines:
                    self.child.stdin.write(f"{line}\n".encode())
                self.child.stdin.close()
            except BrokenPipeError:
                pass
        self.writer = threading.Thread(target=write)
        self.writer.start()

    def wait_for(self, count):
        """Waits until so many replies have come, or the run has ended."""
        with self.has_come:
            self.has_come.wait_for(lambda: len(self.replies) >= count or self.is_over, timeout=SECONDS)

    def kill(self):
        """Ends the run by SIGKILL; answers whether it had not ended by itself."""
        self.child.kill()
        status = self.child.wait(timeout=SECONDS)
        return self.close(status) < 0

    def end(self):
        return self.close(self.child.wait(timeout=SECONDS))

    def close(self, status):
        self.reader.join()
        self.writer.join()
        self.child.stdout.close()
        try:
            self.child.stdin.close()
        except BrokenPipeError:
            pass
        return status


def acknowledged(replies):
    """The last number that a reply says is durable."""
    numbers = [int(reply.split(" ")[1]) for reply in replies if reply.startswith(("opened ", "committed ", "flushed "))]
    return max(numbers, default=0)


def wrong_trees(program, folder, model, least):
    """What is wrong with the store as it opens now, where it must hold so many changes at least; the model forgets the others."""
    asked = [(hive, name) for hive in range(HIVES) for name in NAMES]
    program.put("look", "".join(f"get {hive}: {name}\n" for hive, name in asked).encode()
                + "".join(f"values {hive}:\n" for hive in range(HIVES)).encode())
    printed, _ = program.run("run", folder, "look")
    opened, *replies = printed.decode().splitlines()
    number = int(opened.removeprefix("opened ")) if opened.startswith("opened ") else -1
    if not least <= number <= model.last():
        return f"{shown(opened)}: at least {least} were acknowledged, and {model.last()} sent"
    model.forget(number)
    state = model.states[number]
    wanted = [f"value 3 {state[place]}" if place in state else "E2 NotFound" for place in asked]
    for hive in range(HIVES):
        names = [name for name in NAMES if (hive, name) in state]
        wanted.append(" ".join(["values", str(len(names)), *names]))
    if replies != wanted:
        at = next((at for at, pair in enumerate(zip(replies, wanted)) if pair[0] != pair[1]), len(replies))
        return f"opened {number}, and then reply {at}: wanted {shown(wanted[at:at + 1])}, found {shown(replies[at:at + 1])}"
    return None


def life(program, folder, model, chances, number):
    """One run and the opening behind it: whether the run was killed, and what is wrong."""
    before = model.last()
    is_large = number % 40 == 20
    pairs = chances.script(model, is_large)
    run = Run(program, folder)
    run.send([line for line, _ in pairs])
    kind = chances.random.choice(["opening", "lines", "lines", "lines", "end", "well"])
    killed = False
    if kind == "well":
        status = run.end()
    else:
        wanted = {"opening": 0, "lines": chances.random.randint(0, len(pairs)), "end": len(pairs) + 1}[kind]
        run.wait_for(wanted)
        time.sleep(chances.random.random() * (0.1 if is_large else 0.004))
        killed = run.kill()
        status = 0
    replies = [f"opened {before}", *[reply for _, reply in pairs]]
    found = run.replies
    wrong = None
    if found != replies[:len(found)] or status != 0 or not killed and len(found) < len(replies):
        wrong = f"replies: {len(found)} of {len(replies)}, status {status}, the last {shown(found[-1:])}"
    return killed, wrong or wrong_trees(program, folder, model, acknowledged([f"opened {before}", *found])
                                        if killed else model.last())


def lives(program, seed):
    """All runs, and what is wrong with each."""
    begun = time.monotonic()
    made = program.run("new", "store", ID, str(HIVES))
    yield None if made == (b"ok\n", 0) else f"new: {shown(made)}"
    model, chances, killed, number = Model(), Chances(seed), 0, 0
    while killed < KILLS:
        if time.monotonic() - begun > MOST_SECONDS:
            yield f"{killed} runs were killed after {MOST_SECONDS} seconds"
            return
        number += 1
        was_killed, wrong = life(program, "store", model, chances, number)
        killed += was_killed
        yield f"run {number}: {wrong}" if wrong else None
        if wrong:
            return
    print(f"{killed} of {number} runs were killed; {model.last()} changes")


class Client:
    """The client of examples/, whose lines are gathered as they come; the program that it calls writes down its process."""

    def __init__(self, program, folder, count, end_at=None):
        """Its first run ends itself at a call of this number, if one is given."""
        if end_at:
            program.put("end_at", str(end_at).encode())
        self.pid = program.at("pid")
        with open(self.pid, "w", encoding="ascii"):
            pass
        # a session of its own: it and the program are ended at one moment
        self.child = subprocess.Popen([sys.executable, CLIENT, program.at("noting"), folder, str(count)], cwd=program.home, text=True,
                                      stdin=subprocess.DEVNULL, stdout=subprocess.PIPE, stderr=subprocess.STDOUT, start_new_session=True)
        self.lines = []

    def read(self, count):
        """Reads so many lines, or all that there are."""
        while len(self.lines) < count:
            line = self.child.stdout.readline()
            if not line.endswith("\n"):
                return
            self.lines.append(line.rstrip("\n"))

    def kill(self, kind):
        """Ends the client, the program, both or none by SIGKILL, and reads what is left; answers whether one was ended."""
        with open(self.pid, encoding="ascii") as file:
            program = int(file.read() or 0)
        try:
            if kind == "both":
                os.killpg(self.child.pid, signal.SIGKILL)
            elif kind == "client":
                self.child.kill()
            elif kind == "program" and program:
                os.kill(program, signal.SIGKILL)
        except ProcessLookupError:
            pass
        self.read(sys.maxsize)
        self.child.stdout.close()
        self.status = self.child.wait(timeout=SECONDS)
        return self.status < 0 or any("the run ended" in line for line in self.lines)

    def taken(self):
        """The orders whose commit was answered, each with its number."""
        found = (re.fullmatch(r"order (\d+): committed (\d+)", line) for line in self.lines)
        return {int(told[1]): int(told[2]) for told in found if told}


def wrong_life(client, taken):
    """What is wrong with a life of the client, which adds to the orders that were answered: none of them again."""
    again = sorted(set(client.taken()) & set(taken))
    taken.update(client.taken())
    if client.status > 0 or again:
        return f"status {client.status}, again {shown(again)}, the last lines {shown(client.lines[-3:])}"
    return None


def wrong_orders(program, folder, taken):
    """What is wrong with the store of a client that has ended: each order there once, in each of the ways that tell of it."""
    script = ["values 0:Orders", "get 0:Orders left", *[f"kept {uuid.uuid5(SHOP, f'order {order}')}" for order in range(1, ORDERS + 1)]]
    program.put("look", "".join(f"{line}\n" for line in [*script, "keys 0:Orders"]).encode())
    printed, _ = program.run("run", folder, "look")
    opened, _, left, *kept, keys = printed.decode().splitlines()
    yield expect("the number of changes", opened, f"opened {ORDERS}")
    yield expect("what is left", left, f"value 4 {(STOCK - ORDERS).to_bytes(4, 'little').hex()}")
    yield expect("the keys", sorted(keys.split(" ")[2:], key=int), [str(order) for order in range(1, ORDERS + 1)])
    yield expect("the numbers", sorted(kept), sorted(f"committed {number}" for number in range(1, ORDERS + 1)))
    other = [order for order, number in taken.items() if kept[order - 1] != f"committed {number}"]
    yield expect("orders that were acknowledged", other, [])
    yield expect("some commits were not", len(taken) < ORDERS, True)


def orders(program, seed):
    """What is wrong with each life that was ended, and with the store in the end."""
    begun, chance, taken, killed, count = time.monotonic(), random.Random(seed), {}, 0, 0
    noting(program, noting_library(program))
    made = program.run("new", "shop", ID, "1")
    yield None if made == (b"ok\n", 0) else f"new: {shown(made)}"
    while killed < KILLS:
        if time.monotonic() - begun > MOST_SECONDS:
            yield f"{killed} were killed after {MOST_SECONDS} seconds"
            return
        count = min(ORDERS, count + chance.randint(1, MOST_NEW))
        kind = chance.choice(KINDS)
        client = Client(program, "shop", count, chance.randint(1, MOST_CALLS) if kind == "call" else None)
        if kind != "call":
            client.read(chance.randint(0, MOST_NEW))
            time.sleep(chance.random() * 0.004)
        was_killed = client.kill(kind)
        killed += was_killed
        wrong = wrong_life(client, taken)
        if was_killed or wrong:
            yield f"life {killed}: {wrong}" if wrong else None
        if wrong:
            return
    client = Client(program, "shop", ORDERS)
    client.kill("none")
    yield wrong_life(client, taken) or expect("the end", client.lines[-1:], [f"{ORDERS} orders are taken, {STOCK - ORDERS} left"])
    yield from wrong_orders(program, "shop", taken)


def main():
    if len(sys.argv) not in (2, 3):
        sys.exit(__doc__)
    seed = int(sys.argv[2]) if len(sys.argv) == 3 else 20_260
    print(f"seed {seed}")
    with tempfile.TemporaryDirectory(prefix="kills-", dir=memory()) as home:
        program = Program(os.path.realpath(sys.argv[1]), home)
        finish([tell("kills", list(lives(program, seed))), tell("orders", list(orders(program, seed)))])


main()
