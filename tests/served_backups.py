"""Backups of a served store: parts of tests/served.py."""
import os
import random
import shutil
import subprocess
import threading
import time

from scratch import expect, mounted, skip
from served_store import dword, number_of, replies_of, transaction, unit, until

COMMITTERS, BACKUPS = 8, 100
MEBIBYTE, DISK_BYTES = 1_048_576, 2_097_152
# names that a backup can't have, and names that it can
WRONG = ["@", ".", "..", ".a", "a/b", "a%0020b", "a%005cb", "a%0000", "a%00e4", "a+b", "a:b", "a" * 256, "%002fetc"]
RIGHT = ["a", "A-1_b.c", "-", "0", "a..", "b" * 255]


class Committers:
    """Clients that commit a number over both hives, again and again; each change that they were told, and what came in its place."""

    def __init__(self, it, count):
        self.it, self.told, self.wrong, self.is_over = it, [[] for _ in range(count)], [], False
        self.threads = [threading.Thread(target=self.work, args=(number,)) for number in range(count)]
        for each in self.threads:
            each.start()

    def work(self, number):
        with self.it.lines() as client:
            count = 0
            while not self.is_over:
                count += 1
                requests = [f"create {hive}:T{number}" for hive in (0, 1)]
                requests += [f"set {hive}:T{number} n 4 {dword(count)}" for hive in (0, 1)]
                reply = client.ask(*transaction(unit("backup", number, count), *requests))[5] or "nothing"
                if not reply.startswith("committed "):
                    self.wrong.append(reply)
                    return
                self.told[number].append((int(reply.split(" ")[1]), count))

    def last(self):
        return max((told[-1][0] for told in self.told if told), default=0)

    def at(self, number, change):
        """The count that a committer had committed by a change; 0 if it had none."""
        return max((count for at, count in self.told[number] if at <= change), default=0)

    def end(self):
        self.is_over = True
        for each in self.threads:
            each.join()


def contents(program, copy):
    """What a backup opens at, each committer's number in both hives, and the numbers of the changes that are kept of those."""
    opened, *values = replies_of(program, copy, *(f"get {hive}:T{number} n" for number in range(COMMITTERS) for hive in (0, 1)))
    counts = [max(number_of(value), 0) for value in values]
    units = [unit("backup", number, count) for number, count in enumerate(counts[::2])]
    return opened, counts[::2], counts[1::2], replies_of(program, copy, *(f"kept {each}" for each in units))[1:]


def backups(bench):
    """100 backups under 8 committers: each opens at the number that was told, with all of each transaction up to that and nothing after it,
    in both hives. The committers go on meanwhile."""
    folder, seen, meanwhile = bench.at("backups"), [], 0
    os.mkdir(folder)
    with bench.served(hives=2, backups=folder) as it, it.lines() as client:
        committers = Committers(it, COMMITTERS)
        yield expect("commits", until(lambda: all(committers.told)), True)
        for turn in range(BACKUPS):
            before = committers.last()
            reply = client.ask(f"backup b{turn}")
            meanwhile += committers.last() - before
            # all that is accepted now is above whatever was durable as the backup was made
            after = int(client.ask("flush").split(" ")[1])
            saved = int(reply.split(" ")[1]) if reply.startswith("saved ") else -1
            yield expect(f"backup {turn}", before <= saved <= after, True) and f"backup {turn}: {reply} between {before} and {after}"
            copy = os.path.join(folder, f"b{turn}")
            seen.append((saved, contents(bench.program, copy)))
            shutil.rmtree(copy)
        committers.end()
        yield expect("refusals", committers.wrong, [])
        yield expect("commits went on", meanwhile > 0, True)
        yield expect("the stop", it.end(), (0, "", ""))
    for saved, (opened, first, second, kept) in seen:
        wanted = [committers.at(number, saved) for number in range(COMMITTERS)]
        yield expect(f"saved {saved}: it opens", opened, f"opened {saved}")
        yield expect(f"saved {saved}: both hives", (first, second), (wanted, wanted))
        changes = [dict((count, at) for at, count in told) for told in committers.told]
        yield expect(f"saved {saved}: what is kept", kept, [f"committed {changes[number][count]}" if count else "E2 NotFound"
                                                            for number, count in enumerate(wanted)])


def refusals(bench):
    """Which names are refused, and which are taken; what is there isn't touched; nothing is written outside of the folder."""
    with bench.served() as it, it.lines() as client:
        yield expect("no folder of backups", client.ask("create 0:K", "backup a", "keys 0:"),
                     ["created 1 accepted 1", "E17 Unsupported", "keys 1 K"])
        yield expect("the stop", it.end(), (0, "", ""))
    folder = bench.at("named")
    os.mkdir(folder)
    os.mkdir(os.path.join(folder, "there"))
    with open(os.path.join(folder, "file"), "w", encoding="ascii") as file:
        file.write("mine")
    os.symlink("nowhere", os.path.join(folder, "link"))
    beside = sorted(os.listdir(bench.home))
    with bench.served(backups=folder) as it, it.lines() as client, it.lines() as other:
        client.ask("create 0:K")
        for name in WRONG:
            yield expect(f"backup {name[:40]}", client.ask(f"backup {name}"), "E4 BadName")
        for name in ("there", "file", "link"):
            yield expect(f"backup {name}", client.ask(f"backup {name}"), "E7 Conflict")
        yield expect("none of these is there", sorted(os.listdir(folder)), ["file", "link", "there"])
        for name in RIGHT:
            yield expect(f"backup {name[:40]}", client.ask(f"backup {name}", f"backup {name}"), ["saved 1", "E7 Conflict"])
        yield expect("all are there", sorted(os.listdir(folder)), sorted(["file", "link", "there", *RIGHT]))
        # what one accepted, and nobody made durable, is in it, and what is open isn't
        yield expect("accepted alone", client.ask("create 0:L", f"begin t {unit('open')}", "tx t create 0:Open", "backup c")[3], "saved 2")
        yield expect("another writes", other.ask("create 0:M"), "created 1 accepted 3")
        yield expect("it goes on", client.ask("commit t"), "committed 4")
        yield expect("the stop", it.end(), (0, "", ""))
    yield expect("a backup", replies_of(bench.program, os.path.join(folder, "c"), "keys 0:", "create 0:N", "flush"),
                 ["opened 2", "keys 2 K L", "created 1 accepted 3", "flushed 3"])
    yield expect("the store", it.replies("keys 0:"), ["opened 4", "keys 4 K L M Open"])
    with open(os.path.join(folder, "file"), encoding="ascii") as file:
        yield expect("what was there", (file.read(), os.listdir(os.path.join(folder, "there"))), ("mine", []))
    yield expect("beside the folder", sorted(set(os.listdir(bench.home)) - {str(number) for number in range(9)}),
                 sorted(set(beside) - {str(number) for number in range(9)}))


def full_backups(bench):
    """A folder of backups whose disk is full: the backup is refused, and leaves nothing that opens; the store goes on."""
    if os.geteuid() != 0:
        skip("full_backups", "this isn't root, and mounts nothing")
        return
    with mounted(bench, DISK_BYTES) as folder:
        if folder is None:
            skip("full_backups", "nothing can be mounted here")
            return
        folder = bench.at(folder)
        with bench.served(backups=folder) as it, it.lines() as client:
            client.ask("create 0:K", *(f"set 0:K v{number} 3 {'ab' * MEBIBYTE}" for number in range(4)), "flush")
            for turn in range(3):
                yield expect("a full disk", client.ask(f"backup b{turn}"), "E13 DiskFault")
                yield expect("the store goes on", client.ask(*transaction(unit("full", turn), f"create 0:K{turn}"))[2], f"committed {6 + turn}")
            for name in os.listdir(folder):
                yield expect(f"what is left of {name}", replies_of(bench.program, os.path.join(folder, name)), ["E16 JournalDamaged"])
            yield expect("the stop", it.end(), (0, "", ""))
    yield expect("what is there", it.replies("keys 0:"), ["opened 8", "keys 4 K K0 K1 K2"])


def killed_backups(bench):
    """The program is killed amid a backup: what was told to be saved opens at that, and what wasn't opens so too or not at all."""
    folder, chance, in_part = bench.at("killed"), random.Random(20_264), 0
    os.mkdir(folder)
    with bench.served(hives=2, backups=folder) as it:
        with it.lines() as client:
            client.ask("create 0:K", "create 1:K", *(f"set {number % 2}:K v{number} 3 {'ab' * MEBIBYTE}" for number in range(12)))
            last = int(client.ask("flush").split(" ")[1])
            # how long one takes
            began = time.monotonic()
            yield expect("a whole one", client.ask("backup whole"), f"saved {last}")
            took = time.monotonic() - began
        for turn in range(bench.times(15, 60)):
            with it.lines() as client:
                client.send(f"backup b{turn}")
                time.sleep(took * 1.2 * chance.random())
                it.kill_program()
                told = client.read()
            copy = os.path.join(folder, f"b{turn}")
            opened = replies_of(bench.program, copy)
            in_part += told is None and os.path.exists(copy)
            if told is not None:
                yield expect(f"turn {turn}: what was told", (told, opened), (f"saved {last}", [f"opened {last}"]))
            else:
                has_journal = os.path.exists(os.path.join(copy, "journal"))
                yield expect(f"turn {turn}: it opens", opened, [f"opened {last}"] if has_journal else ["E16 JournalDamaged"])
            shutil.rmtree(copy, ignore_errors=True)
            yield expect("it starts again", it.start(), "ready\n")
        yield expect("some were begun", in_part > 0, True)
        yield expect("the stop", it.end(), (0, "", ""))
    yield expect("the store", it.replies("values 0:K")[0], f"opened {last}")
    checked = subprocess.run([bench.program.path, "check", os.path.join(folder, "whole")], capture_output=True, timeout=60)
    yield expect("a check of the whole one", checked.returncode, 0)


PARTS = [backups, refusals, full_backups, killed_backups]
