#!/usr/bin/env python3
"""Recovers hives of machines that were switched off, with the built program:

    tests/recovered_hives.py PROGRAM

A machine's states are hives that runs/hives/maker.py makes, and its logs are laid out by tests/marvin.py. What is wanted comes from
the states and from which entries stand, never from a reader. The last line is 'N passed, N failed', and the status is 0 if none
failed.

- machines: one log or two, in any order, whole, cut or spoiled; primary files of which each page is of some state.
- lost: machines of which one entry is missing in the middle: an earlier state, whole, or a refusal.
- pages: logs of Windows 8 and before, on disks with sectors of several sizes; those that aren't whole, and several at once.
- limits: numbers from which something is applied, and up to which.
- damaged: results that are no whole hive, and are kept.
- checks: `check` of hives with their logs: what would be applied, and a report of the result. Nothing is written.
- reports: all lines that are printed, and the status.
- refusals: hives and logs of which nothing is made.
- outputs: new files that are there already, can't be written, or fill the device; inputs that are only read.
- kills: runs that are killed at any moment.
- memory: each allocation refused in turn.
"""
import os
import random
import resource
import signal
import struct
import subprocess
import sys
import time

TOP = os.path.dirname(os.path.dirname(os.path.abspath(__file__)))
sys.dont_write_bytecode = True
sys.path[:0] = [os.path.join(TOP, "tests"), os.path.join(TOP, "runs", "hives")]
from checks import A_LOG, ADVICE, DAMAGED, block_lines, cells_line  # noqa: E402
from log_machines import HEAD, TOP_NUMBER, block, recovered, with_sum  # noqa: E402
from maker import SPLITS_FROM, Cells, Key, Value, key_of  # noqa: E402
from marvin import BIN, PAGE, SECTOR, entry  # noqa: E402
from scratch import are_there, as_other, expect, finish, limited, mounted, program_at, refusal_shim, tell  # noqa: E402

BAD_LOG, BAD_BASE, TRUNCATED = (f"E15 HiveDamaged 0 {cause}" for cause in ("BadLog", "BadBase", "Truncated"))
ROOT_BYTES = 77
# how many machines are recovered
MACHINES = int(os.environ.get("MACHINES", "400"))


class Machine:
    """States of a hive, and the entry of each step: that of the step from state i has the number base + i."""

    def __init__(self, seed, steps=4, base=100, minor=5):
        self.chance, self.base, self.minor = random.Random(seed), base, minor
        self.keys = [self.key(number) for number in range(self.chance.randint(2, 8))]
        self.rest = bytes(HEAD - SECTOR)
        self.states, self.entries, self.counts = [], [], []
        self.write()
        for _ in range(steps):
            self.change()
            self.write()
            self.entries.append(self.step(len(self.states) - 2))

    def key(self, number):
        """A key, whose values' data fill pages."""
        values = [Value(f"v{at}", 3, self.chance.randbytes(self.chance.choice([3, 100, 3_000, 9_000]))) for at in range(self.chance.randint(1, 3))]
        return Key(f"key{number}", number, values=values)

    def change(self):
        """A key comes, goes, or has other values."""
        at = self.chance.randrange(len(self.keys))
        kind = self.chance.randrange(4)
        if kind == 0:
            self.keys.append(self.key(len(self.states) + 100))
        elif kind == 1 and len(self.keys) > 1:
            del self.keys[at]
        else:
            self.keys[at] = self.key(int(self.keys[at].name[3:]))

    def write(self):
        # the root's record stands in the first cell, as no entry tells another place; its cell behind its subkeys is left as it is
        cells = Cells(0, self.minor >= SPLITS_FROM)
        self.root = cells.put(bytes(ROOT_BYTES), "root")
        last = key_of(cells, Key("r", len(self.states), list(self.keys)), {})
        cells.fill(self.root, cells.bytes[last + 4:last + 4 + ROOT_BYTES])
        self.states.append(cells.bins())
        self.counts.append((1 + len(self.keys), sum(len(key.values) for key in self.keys)))

    def step(self, at):
        """The entry of the pages that two states have otherwise."""
        old, new = self.states[at], self.states[at + 1]
        changed = [place for place in range(0, len(new), PAGE) if old[place:place + PAGE] != new[place:place + PAGE]] or [0]
        return entry(self.base + at, len(new), [(place, new[place:place + PAGE]) for place in changed], bytes(self.chance.choice([0, 600])))

    def primary(self, kept, upto):
        """A primary file that was last written whole at a state; since then each page was written at one up to another state."""
        bins, pages = self.states[kept], []
        for at in range(0, len(bins), PAGE):
            written = [state[at:at + PAGE] for state in self.states[kept:upto + 1] if len(state) > at]
            pages.append(self.chance.choice(written))
        number = self.base + kept
        return block(number + 1, number, len(bins), minor=self.minor, root=self.root) + self.rest + b"".join(pages)

    def log(self, entries):
        return block(self.base, self.base, len(self.states[0]), kind=6, minor=self.minor, root=self.root) + b"".join(entries)

    def wanted(self, primary, last):
        """The file that recovery of entries up to one gives."""
        state = self.states[last + 1]
        return recovered(primary[:SECTOR], self.base + last, len(state)) + self.rest + state


class Runs:
    """The program, what it printed, and the file that it made."""

    def __init__(self, program):
        self.program = program

    def recover(self, primary, *logs, out="out", words=("recover",), **given):
        """The lines, the status, and the file or None."""
        names = [self.program.put(f"log{at}", log) for at, log in enumerate(logs, 1)]
        if os.path.exists(self.program.at(out)):
            os.remove(self.program.at(out))
        told, status = self.program.run(*words, self.program.put("hive", primary), *names, out, **given)
        return told.decode().splitlines(), status, self.file(out)

    def file(self, name):
        if not os.path.exists(self.program.at(name)):
            return None
        with open(self.program.at(name), "rb") as file:
            return file.read()

    def check(self, primary, *logs):
        """The lines of `check` and the status. All else that is in the folder stays as it was."""
        names = [self.program.put(f"log{at}", log) for at, log in enumerate(logs, 1)]
        hive = self.program.put("hive", primary)
        before = self.contents()
        told, status = self.program.run("check", hive, *names)
        return told.decode().splitlines() + ([] if self.contents() == before else ["something was written"]), status

    def contents(self):
        """The files of the folder with their bytes."""
        names = sorted(os.listdir(self.program.home))
        return {name: self.file(name) for name in names if os.path.isfile(self.program.at(name))}

    def is_file(self, title, primary, logs, wanted, words=("recover",)):
        """What is wrong if a file is wanted."""
        lines, status, found = self.recover(primary, *logs, words=words)
        if (found, status) == (wanted, 0):
            return None
        return f"{title}: status {status}, {'no file' if found is None else 'another file'}: {lines[-3:]}"

    def is_refused(self, title, primary, logs, wanted, words=("recover",)):
        lines, status, found = self.recover(primary, *logs, words=words)
        return expect(title, (lines[-1:], status, found), ([wanted], 1, None))


def machines(runs):
    for seed in range(MACHINES):
        machine = Machine(seed, base=[100, 2**32 - 2, 0, 7][seed % 4], minor=3 + seed % 3)
        entries, last, chance = machine.entries, len(machine.entries) - 1, machine.chance
        kept = chance.randrange(len(entries))
        kind = ["whole", "two logs", "cut", "spoiled"][seed // 4 % 4]
        title = f"machine {seed}, {kind}, kept {kept}"
        log = machine.log(entries)
        if kind == "whole":
            primary = machine.primary(kept, last + 1)
            yield runs.is_file(title, primary, [log], machine.wanted(primary, last))
        elif kind == "two logs":
            cut = chance.randint(1, last)
            logs = [machine.log(entries[:cut]), machine.log(entries[cut:])]
            chance.shuffle(logs)
            primary = machine.primary(kept, last + 1)
            yield runs.is_file(title, primary, logs, machine.wanted(primary, last))
        else:
            # the first entries stand
            stands = chance.randint(0, last)
            begin = SECTOR + sum(map(len, entries[:stands]))
            place = chance.randrange(begin, begin + len(entries[stands]))
            bad = log[:place] if kind == "cut" else log[:place] + bytes([log[place] ^ 1 << chance.randrange(8)]) + log[place + 1:]
            if kept < stands:
                primary = machine.primary(kept, stands)
                yield runs.is_file(f"{title}, {stands} stand", primary, [bad], machine.wanted(primary, stands - 1))
            else:
                yield runs.is_refused(f"{title}, {stands} stand", machine.primary(kept, kept), [bad], BAD_LOG)


def lost(runs):
    """Machines that lost an entry: no hive comes of it that none of the states is."""
    for seed in range(MACHINES // 4):
        machine = Machine(10_000 + seed, steps=5)
        gone = machine.chance.randrange(len(machine.entries))
        logs = [machine.log(machine.entries[:gone]), machine.log(machine.entries[gone + 1:])]
        machine.chance.shuffle(logs)
        if gone == 0:
            yield runs.is_refused(f"machine {seed}, first lost", machine.primary(0, 0), logs, BAD_LOG)
        else:
            primary = machine.primary(0, gone)
            yield runs.is_file(f"machine {seed}, {gone} lost", primary, logs, machine.wanted(primary, gone - 1))


def page_log(machine, at, number, time=77, factor=1, minor=None, **other):
    """The log of pages of a step, as Windows 8 and before write it: letters and pages begin at sectors of the disk."""
    old, new = machine.states[at], machine.states[at + 1]
    unit, marks = 512 * factor, bytearray(len(new) // 4_096)
    changed = [page for page in range(len(new) // 512) if old[512 * page:512 * page + 512] != new[512 * page:512 * page + 512]]
    for page in changed:
        marks[page // 8] |= 1 << page % 8
    sector = block(number, other.get("second", number), len(new), kind=other.get("kind", 1), minor=minor or machine.minor, root=machine.root, time=time)
    if factor > 1:
        sector = with_sum(sector[:44] + struct.pack("<I", factor) + sector[48:])
    front = sector.ljust(unit, b"f") + other.get("letters", b"DIRT") + bytes(marks)
    front += b"?" * (-len(front) % unit)
    return front + b"".join(new[512 * page:512 * page + 512] for page in changed), len(changed), sector


def being_written(machine, at, number, time=77):
    """A primary file that was being written from a state to the next one: some pages are there already."""
    old, new = machine.states[at], machine.states[at + 1]
    pages = [(new if place >= len(old) or machine.chance.random() < 0.5 else old)[place:place + 512] for place in range(0, len(new), 512)]
    body = b"".join(pages)[:machine.chance.choice([len(new), max(len(old), 512)])]
    return block(number + 1, number, len(old), minor=machine.minor, root=machine.root, time=time) + machine.rest + body


def pages(runs):
    """Logs of Windows 8 and before."""
    for seed in range(MACHINES // 4):
        machine = Machine(70_000 + seed, steps=2, minor=3 + seed % 3)
        number, factor = machine.chance.choice([7, 2**32 - 1, 100]), machine.chance.choice([1, 1, 2, 8])
        log, count, sector = page_log(machine, 1, number, factor=factor, kind=machine.chance.choice([1, 2]))
        primary = being_written(machine, 1, number)
        wanted = recovered(sector, number + 1, len(machine.states[2])) + machine.rest + machine.states[2]
        older = page_log(machine, 0, number - 1, time=66)[0]
        logs = machine.chance.choice([[log], [log, older], [older, log], [b"", log + b"remnants"]])
        title = f"machine {seed}, factor {factor}, {len(logs)} logs"
        yield runs.is_file(title, primary, logs, wanted)
        torn = bytes([primary[0] ^ 1]) + primary[1:]
        wanted = recovered(sector, number, len(machine.states[2])) + machine.rest + machine.states[2]
        yield runs.is_file(f"{title}, torn", torn, logs, wanted)
    machine = Machine(80_000, steps=2)
    log, count, sector = page_log(machine, 1, 8)
    primary = being_written(machine, 1, 8)
    head, size = "hive 1.5, numbers 9 and 8, not clean", len(machine.states[2])
    yield expect("lines", runs.recover(primary, b"", log)[:2], (
        [head, "log 1: empty", f"log 2: {count} pages", f"applied {count} pages of number 8", "recovered 9"], 0))
    end = 516 + size // 4_096
    cases = [
        ("another time", page_log(machine, 1, 8, time=78)[0], f"{count} pages"),
        ("numbers", page_log(machine, 1, 8, second=9)[0], "no log: numbers 8 and 9"),
        ("letters", page_log(machine, 1, 8, letters=b"DIRX")[0], "no log: no letters DIRT"),
        ("version", page_log(machine, 1, 8, minor=6)[0], "no log: version"),
        ("bitmap", log[:end - 1], "no log: bitmap cut"),
        ("pages", log[:-1], "no log: pages cut"),
        ("type", page_log(machine, 1, 8, kind=5)[0], "no log: type 5"),
        ("a factor of 9", page_log(machine, 1, 8, factor=9)[0], "no log: no letters DIRT"),
        ("bins size", with_sum(log[:40] + struct.pack("<I", size + 512) + log[44:512]) + log[512:], "no log: bins size"),
    ]
    for title, bad, told in cases:
        yield expect(title, runs.recover(primary, bad), ([head, f"log 1: {told}", BAD_LOG], 1, None))
    # of two that fit, the one with the greater number
    later = page_log(machine, 1, 9)[0]
    yield expect("the later", runs.recover(primary, later, log)[0][-2:], [f"applied {count} pages of number 9", "recovered 9"])
    # a page that neither the file nor the log has
    yield runs.is_refused("lacking pages", primary[:HEAD + 100], [log], BAD_LOG)
    # entries come first
    new = Machine(81_000, steps=2)
    primary = new.primary(0, 0)
    yield runs.is_file("entries first", primary, [page_log(new, 0, 100)[0], new.log(new.entries)], new.wanted(primary, 1))
    clean = block(9, 9, len(new.states[0]), root=new.root) + new.rest + new.states[0]
    yield runs.is_file("a clean hive", clean, [page_log(new, 0, 9)[0]], clean)


def to(number):
    return "recover-to", str(number % TOP_NUMBER)


def starting(number):
    return "recover-from", str(number % TOP_NUMBER)


def limits(runs):
    """Earlier states, and first entries of another number."""
    for seed in range(MACHINES // 8):
        machine = Machine(90_000 + seed, base=[100, 2**32 - 2, 0, 7][seed % 4], minor=3 + seed % 3)
        entries, last, base = machine.entries, len(machine.entries) - 1, machine.base
        log, kept = machine.log(entries), machine.chance.randrange(len(machine.entries))
        for upto in range(kept, last + 2):
            primary, title = machine.primary(kept, min(upto, last) + 1), f"machine {seed}, kept {kept}, up to {upto}"
            yield runs.is_file(title, primary, [log], machine.wanted(primary, min(upto, last)), to(base + upto))
        yield runs.is_refused(f"machine {seed}, up to the one before", machine.primary(kept, kept), [log], BAD_LOG, to(base + kept - 1))
        primary = machine.primary(kept, last + 1)
        other = block(base + 30, base + 29, len(machine.states[kept]), minor=machine.minor, root=machine.root) + primary[SECTOR:]
        yield runs.is_file(f"machine {seed}, from {kept}", other, [log], machine.wanted(other, last), starting(base + kept))
        yield runs.is_refused(f"machine {seed}, from none", primary, [log], BAD_LOG, starting(base - 1))
        clean = block(base, base, len(machine.states[0]), minor=machine.minor, root=machine.root) + machine.rest + machine.states[0]
        for words in (to(base - 1), starting(base + 1)):
            yield runs.is_file(f"machine {seed}, clean, {words}", clean, [log], clean, words)
    machine = Machine(91_000, steps=3)
    head, primary, log = "hive 1.5, numbers 101 and 100, not clean", machine.primary(0, 0), machine.log(machine.entries)
    end = f"0x{len(log):x}"
    yield expect("lines up to 101", runs.recover(primary, log, words=to(101))[:2], (
        [head, f"log 1: entries 100 to 102, then no letters at {end}", "applied 100 to 101 of log 1", "recovered 101"], 0))
    yield expect("lines from 99", runs.recover(primary, log, words=starting(99))[:2], (
        [head, f"log 1: entries 100 to 102, then no letters at {end}, 99 is missing", BAD_LOG], 1))
    yield from limits_of_pages(runs)
    yield from limit_words(runs)


def limits_of_pages(runs):
    """A log of pages counts as one entry of its number."""
    machine = Machine(92_000, steps=2)
    primary = being_written(machine, 1, 8)
    (log, count, sector), (later, _, _) = page_log(machine, 1, 8), page_log(machine, 1, 9)
    wanted = recovered(sector, 9, len(machine.states[2])) + machine.rest + machine.states[2]
    for title, words in (("up to 8", to(8)), ("from 8", starting(8))):
        yield runs.is_file(f"pages {title}", primary, [later, log], wanted, words)
    for title, words in (("up to 7", to(7)), ("from 7", starting(7)), ("from 10", starting(10))):
        yield runs.is_refused(f"pages {title}", primary, [later, log], BAD_LOG, words)
    yield expect("pages up to 9", runs.recover(primary, later, log, words=to(9))[0][-2:], [f"applied {count} pages of number 9", "recovered 9"])


def limit_words(runs):
    """Words that are wrong, and files that aren't there."""
    runs.program.put("hive", b"")
    for name in ("recover-from", "recover-to"):
        for words in ([], ["1"], ["1", "hive"], ["1", "hive", "out"], ["hive", "log1", "out"], ["-1", "hive", "log1", "out"], ["+1", "hive", "log1", "out"],
                      ["0x1", "hive", "log1", "out"], ["4294967296", "hive", "log1", "out"], ["", "hive", "log1", "out"], ["1", "hive", *["log1"] * 9, "out"]):
            yield expect(f"{name} {words}", runs.program.run(name, *words), (b"wrong words\n", 2))
        yield expect(f"{name} none", runs.program.run(name, "4294967295", "none", "log1", "out"), (b"cannot read file\n", 1))
    for words in ([], ["hive"], ["hive", "out"], ["hive", *["log1"] * 9, "out"]):
        yield expect(f"recover-damaged {words}", runs.program.run("recover-damaged", *words), (b"wrong words\n", 2))


def damaged(runs):
    """Results that are no whole hive."""
    machine = Machine(93_000, steps=2)
    primary, keep = machine.primary(0, 0), ("recover-damaged",)
    state, place = bytearray(machine.states[1]), machine.root
    state[place + 4:place + 6] = b"xx"
    state = bytes(state)
    why = f"{BAD_LOG[:-6]}BadRecord at 0x{HEAD + place:x} in the root"
    bad = machine.log([entry(100, len(state), [(0, state)])])
    end = f"0x{len(bad):x}"
    steps = ["hive 1.5, numbers 101 and 100, not clean", f"log 1: entries 100 to 100, then no letters at {end}", "applied 100 to 100 of log 1"]
    wanted = recovered(primary[:SECTOR], 100, len(state)) + machine.rest + state
    yield expect("not whole", runs.recover(primary, bad, words=keep), ([*steps, why, "recovered 100, not whole"], 3, wanted))
    yield expect("it has to be whole", runs.recover(primary, bad), ([*steps, why], 1, None))
    # a hive that was closed, with the same fault
    clean = block(9, 9, len(state), root=place) + machine.rest + state
    lines = ["hive 1.5, numbers 9 and 9, clean", f"log 1: entries 100 to 100, then no letters at {end}", why, "clean 9, not whole"]
    yield expect("clean, not whole", runs.recover(clean + b"more", bad, words=keep), (lines, 3, clean))
    # pages that spoil it
    older = page_log(machine, 1, 8)[0]
    torn_root = bytearray(being_written(machine, 1, 8))
    spoiled = with_sum(older[:36] + struct.pack("<I", 36) + older[40:SECTOR]) + older[SECTOR:]
    lines, status, found = runs.recover(bytes(torn_root), spoiled, words=keep)
    yield expect("pages, not whole", (lines[-1:], status, found is None), (["recovered 9, not whole"], 3, False))
    # results that are whole
    log, last = machine.log(machine.entries), len(machine.entries) - 1
    lines, status, found = runs.recover(primary, log, words=keep)
    yield expect("whole", (lines[-1:], status, found), ([f"recovered {100 + last}"], 0, machine.wanted(primary, last)))
    whole = block(9, 9, len(machine.states[0]), root=place) + machine.rest + machine.states[0]
    yield expect("clean", runs.recover(whole, log, words=keep)[1:], (0, whole))
    # what else is refused stays so
    for title, file, logs, refusal in (("no log fits", primary, [b""], BAD_LOG), ("a short file", primary[:4_095], [log], TRUNCATED),
                                       ("lacking pages", primary[:HEAD], [machine.log([entry(100, 4 * BIN, [])])], BAD_LOG),
                                       ("a log", log, [log], "E17 Unsupported")):
        yield runs.is_refused(f"damaged, {title}", file, logs, refusal, keep)
    yield expect("the file that is kept", runs.program.run("check", runs.program.put("kept", wanted))[1], 1)


def checks(runs):
    """`check` of hives with their logs."""
    fits = "its logs don't fit: take the hive and all its logs from one moment; or restore a backup"
    for seed in range(MACHINES // 8):
        machine = Machine(94_000 + seed, minor=3 + seed % 3)
        entries, last, kept = machine.entries, len(machine.entries) - 1, machine.chance.randrange(len(machine.entries))
        cut = machine.chance.randint(1, last)
        parts = [entries[:cut], entries[cut:]]
        primary, logs = machine.primary(kept, last + 1), [machine.log(part) for part in parts]
        first, second = 100 + kept, 100 + cut
        told = [f"hive 1.{machine.minor}, numbers {first + 1} and {first}, not clean"]
        told += [f"log {at}: entries {begin} to {begin + len(part) - 1}, then no letters at 0x{len(log):x}"
                 for at, (begin, part, log) in enumerate(zip((100, second), parts, logs), 1)]
        told += [f"applied {first} to {second - 1} of log 1"] if kept < cut else []
        told += [f"applied {max(first, second)} to {100 + last} of log 2"]
        yield is_report(f"machine {seed}", runs.check(primary, *logs), told, machine.wanted(primary, last), machine.counts[-1])
    machine = Machine(95_000, steps=2)
    log, primary, state = machine.log(machine.entries), machine.primary(0, 0), machine.states[0]
    clean = block(9, 9, len(state), root=machine.root) + machine.rest + state
    line = f"log 1: entries 100 to 101, then no letters at 0x{len(log):x}"
    yield is_report("clean", runs.check(clean + b"more", log), ["hive 1.5, numbers 9 and 9, clean", line], clean, machine.counts[0])
    pages, count, sector = page_log(machine, 1, 8)
    wanted = recovered(sector, 9, len(machine.states[2])) + machine.rest + machine.states[2]
    told = ["hive 1.5, numbers 9 and 8, not clean", f"log 1: {count} pages", f"applied {count} pages of number 8"]
    yield is_report("pages", runs.check(being_written(machine, 1, 8), pages), told, wanted, machine.counts[2])
    head = "hive 1.5, numbers 101 and 100, not clean"
    yield expect("no log fits", runs.check(primary, machine.log(machine.entries[1:])), (
        [head, f"log 1: entries 101 to 101, then no letters at 0x{SECTOR + len(machine.entries[1]):x}, 100 is missing", BAD_LOG, fits], 1))
    yield expect("a log for a hive", runs.check(log, log), (["hive 1.5, numbers 100 and 100, clean", line, "E17 Unsupported", A_LOG], 1))
    yield expect("a short file", runs.check(primary[:4_095], log), (
        [head, line, "applied 100 to 101 of log 1", TRUNCATED, ADVICE["Truncated"]], 1))
    bad = bytearray(machine.states[1])
    bad[machine.root + 4:machine.root + 6] = b"xx"
    spoiled = machine.log([entry(100, len(bad), [(0, bytes(bad))])])
    wanted = recovered(primary[:SECTOR], 100, len(bad)) + machine.rest + bytes(bad)
    yield expect("not whole", runs.check(primary, spoiled), (
        [head, f"log 1: entries 100 to 100, then no letters at 0x{len(spoiled):x}", "applied 100 to 100 of log 1", *block_lines(wanted), cells_line(wanted),
         f"{BAD_LOG[:-6]}BadRecord at 0x{HEAD + machine.root:x} in the root", DAMAGED], 1))
    program = runs.program
    yield expect("eight logs", program.run("check", "hive", *["log1"] * 8)[1], 1)
    yield expect("nine logs", program.run("check", "hive", *["log1"] * 9), (b"wrong words\n", 2))
    for title, words in (("a folder", [".", "log1"]), ("no log", ["hive", "none"]), ("no hive", ["none", "log1"])):
        yield expect(title, program.run("check", *words), (b"cannot read file\n", 1))


def is_report(title, found, told, file, counts):
    """What is wrong with what a check with logs printed, which ends with the report of a whole hive."""
    lines, status = found
    weight = [line for line in lines if line.startswith("weight ") and line.endswith(" of 16777216")]
    keys, values = counts
    wanted = [*told, *block_lines(file), cells_line(file), f"{keys} keys, {values} values", *weight, "whole"]
    return expect(title, (lines, status, len(weight)), (wanted, 0, 1))


def reports(runs):
    machine = Machine(20_000, steps=3)
    first, second, third = machine.entries
    head = "hive 1.5, numbers 101 and 100, not clean"
    ends = [SECTOR + sum(map(len, part)) for part in (machine.entries, [first], [second, third], [third])]
    primary = machine.primary(0, 0)
    yield expect("whole", runs.recover(primary, machine.log(machine.entries))[:2], (
        [head, f"log 1: entries 100 to 102, then no letters at 0x{ends[0]:x}", "applied 100 to 102 of log 1", "recovered 102"], 0))
    yield expect("two logs", runs.recover(primary, machine.log([second, third]), machine.log([first]), b"")[:2], (
        [head, f"log 1: entries 101 to 102, then no letters at 0x{ends[2]:x}", f"log 2: entries 100 to 100, then no letters at 0x{ends[1]:x}",
         "log 3: empty", "applied 100 to 100 of log 2", "applied 101 to 102 of log 1", "recovered 102"], 0))
    yield expect("a gap", runs.recover(primary, machine.log([first]), machine.log([third]))[:2], (
        [head, f"log 1: entries 100 to 100, then no letters at 0x{ends[1]:x}", f"log 2: entries 102 to 102, then no letters at 0x{ends[3]:x}, 101 is missing",
         "applied 100 to 100 of log 1", "recovered 100"], 0))
    yield expect("nothing fits", runs.recover(primary, machine.log([third]))[:2], (
        [head, f"log 1: entries 102 to 102, then no letters at 0x{ends[3]:x}, 100 is missing", BAD_LOG], 1))
    clean = block(9, 9, len(machine.states[0]), root=machine.root) + machine.rest + machine.states[0]
    lines, status, found = runs.recover(clean + b"more", machine.log([third]))
    yield expect("clean", (lines, status, found), (
        ["hive 1.5, numbers 9 and 9, clean", f"log 1: entries 102 to 102, then no letters at 0x{ends[3]:x}", "clean 9"], 0, clean))
    torn = primary[:300] + bytes([primary[300] ^ 1]) + primary[301:]
    log = machine.log(machine.entries)
    yield expect("torn sum", runs.recover(torn, log)[:2], (
        ["torn base block: sum", f"log 1: entries 100 to 102, then no letters at 0x{ends[0]:x}", "applied 100 to 102 of log 1", "recovered 102"], 0))
    yield expect("torn letters", runs.recover(bytes(SECTOR) + primary[SECTOR:], b"")[:2], (["torn base block: letters", "log 1: empty", BAD_BASE], 1))
    # recover of what recover made
    once = runs.recover(primary, log)[2]
    yield expect("once more", runs.recover(once, log)[1:], (0, once))
    yield expect("it is whole", runs.program.run("check", runs.program.put("once", once))[1], 0)
    for name in are_there("reports", "hivexml", "reglookup"):
        ended = subprocess.run([name, runs.program.at("once")], capture_output=True)
        yield expect(name, (ended.returncode, b"key1" in ended.stdout), (0, True))


def refusals(runs):
    machine = Machine(30_000, steps=2)
    primary, log = machine.primary(0, 0), machine.log(machine.entries)
    cases = [
        ("a file of 511 bytes", primary[:511], [log], TRUNCATED),
        ("a file of 4,095 bytes", primary[:4_095], [log], TRUNCATED),
        ("no log fits", primary, [b""], BAD_LOG),
        ("a log in the hive's place", log, [log], "E17 Unsupported"),
        ("another version", block(101, 100, len(machine.states[0]), minor=6) + primary[SECTOR:], [log], "E17 Unsupported"),
        ("too large", block(101, 100, 2**26 + BIN) + primary[SECTOR:], [log], "E6 TooLarge"),
        ("a wrong bin", primary, [machine.log([entry(100, BIN, [(0, b"x" * PAGE)])])], f"{BAD_LOG[:-6]}BadBin at 0x1000"),
    ]
    state = bytearray(machine.states[1])
    root = machine.root
    state[root + 4:root + 6] = b"xx"
    cases.append(("a wrong root", primary, [machine.log([entry(100, len(state), [(0, bytes(state))])])],
                  f"{BAD_LOG[:-6]}BadRecord at 0x{HEAD + root:x} in the root"))
    for title, file, logs, why in cases:
        yield runs.is_refused(title, file, logs, why)
    runs.program.put("hive", primary)
    for title, words in (("two words", ["hive", "out"]), ("one word", ["hive"]), ("no word", []), ("nine logs", ["hive", *["log1"] * 9, "out"])):
        yield expect(title, runs.program.run("recover", *words), (b"wrong words\n", 2))
    yield expect("eight logs", runs.program.run("recover", runs.program.put("hive", primary), *[runs.program.put("log1", log)] * 8, "eight")[1], 0)
    for title, words in (("no hive", ["none", "log1", "out"]), ("no log", ["hive", "none", "out"]), ("a folder", ["hive", ".", "out"])):
        yield expect(title, runs.program.run("recover", *words), (b"cannot read file\n", 1))


def outputs(runs):
    machine = Machine(40_000)
    primary, log = machine.primary(0, 0), machine.log(machine.entries)
    program, wanted = runs.program, machine.wanted(primary, len(machine.entries) - 1)

    def ends(title, *words, **given):
        """What is wrong if a run doesn't end with `cannot write file`."""
        told, status = program.run("recover", *words, **given)
        return expect(title, (told.splitlines()[-1:], status), ([b"cannot write file"], 1))

    hive, its_log = program.put("hive", primary), program.put("log1", log)
    program.put("there", b"something")
    yield ends("a file", hive, its_log, "there")
    yield expect("it stays", runs.file("there"), b"something")
    yield ends("the hive itself", hive, its_log, hive)
    yield expect("the hive stays", runs.file("hive"), primary)
    for title, target in (("a link", "there"), ("a link to nothing", "nothing")):
        os.symlink(target, program.at("link"))
        yield ends(title, hive, its_log, "link")
        yield expect(f"{title} stays", os.readlink(program.at("link")), target)
        os.remove(program.at("link"))
    os.mkdir(program.at("folder"))
    yield ends("a folder", hive, its_log, "folder")
    yield ends("no folder", hive, its_log, "none/out")
    program.put("new.part", b"part")
    yield ends("a part", hive, its_log, "new")
    yield expect("the part stays", (runs.file("new.part"), runs.file("new")), (b"part", None))
    hints = program.run("recover", hive, its_log, "new", environment={"REGTX_HINTS": "1"})[0]
    yield expect("the part is told", hints, b"regtx: new: with .part behind is there already: a run left it that was killed\n")
    yield ends("a small limit", hive, its_log, "new2", **limited(resource.RLIMIT_FSIZE, 5_000))
    yield expect("nothing is left", (runs.file("new2"), runs.file("new2.part")), (None, None))
    with mounted(program, 8_192) as full:
        if full:
            yield ends("a full device", hive, its_log, f"{full}/out")
            yield expect("nothing is left there", os.listdir(program.at(full)), [])
    # inputs in a folder that can't be written, read by somebody else
    os.mkdir(program.at("inputs"))
    program.put("inputs/hive", primary)
    program.put("inputs/log", log)
    for name in ("inputs/hive", "inputs/log"):
        os.chmod(program.at(name), 0o444)
    os.chmod(program.at("inputs"), 0o555)
    os.mkdir(program.at("results"))
    os.chmod(program.at("results"), 0o777)
    yield expect("inputs that are only read", program.run("recover", "inputs/hive", "inputs/log", "results/out", **as_other())[1], 0)
    yield expect("the result", runs.file("results/out"), wanted)
    yield expect("inputs stay", (runs.file("inputs/hive"), runs.file("inputs/log")), (primary, log))
    yield expect("no part is left", os.listdir(program.at("results")), ["out"])
    os.chmod(program.at("inputs"), 0o755)


def kills(runs):
    """Runs that are killed: the new file isn't there, or is whole."""
    machine = Machine(50_000, steps=6)
    primary, log = machine.primary(0, 0), machine.log(machine.entries)
    program, wanted = runs.program, machine.wanted(primary, len(machine.entries) - 1)
    program.put("hive", primary)
    program.put("log1", log)
    found = {None: 0, wanted: 0}
    for number in range(200):
        for name in ("killed", "killed.part"):
            if os.path.exists(program.at(name)):
                os.remove(program.at(name))
        run = subprocess.Popen([program.path, "recover", "hive", "log1", "killed"], cwd=program.home, stdout=subprocess.DEVNULL)
        time.sleep(machine.chance.random() * 0.012)
        run.send_signal(signal.SIGKILL)
        run.wait()
        left = runs.file("killed")
        if left not in found:
            yield f"kill {number}: another file of {len(left)} bytes"
            continue
        found[left] += 1
        yield None
    print(f"kills: {found[None]} left no file, {found[wanted]} a whole one")


def memory(runs):
    """Recoveries in which each allocation in turn is refused."""
    machine, shim, report = Machine(60_000), refusal_shim(), runs.program.at("report")
    primary, logs = machine.primary(0, 0), [machine.log(machine.entries[:2]), machine.log(machine.entries[2:])]
    wanted = machine.wanted(primary, len(machine.entries) - 1)
    for number in range(1, 2_000):
        given = {"LD_PRELOAD": shim, "FAILALLOC_AT": str(number), "FAILALLOC_REPORT": report}
        lines, status, found = runs.recover(primary, *logs, environment=given)
        with open(report, encoding="ascii") as file:
            if "refused=0" in file.read():
                yield expect("no allocation refused", (status, found), (0, wanted))
                return
        # a file of which all can't be reserved is read in smaller parts
        if (status, found) != (0, wanted):
            yield expect(f"allocation {number}", (lines[-1:], status, found), (["E1 NoMemory"], 1, None))
    yield "each allocation was refused"


def main():
    if len(sys.argv) != 2:
        sys.exit(__doc__)
    with program_at(sys.argv[1], "recovered-") as program:
        runs = Runs(program)
        finish([tell(part.__name__, list(part(runs))) for part in (machines, lost, pages, limits, damaged, checks, reports, refusals, outputs, kills,
                                                                       memory)])


if __name__ == "__main__":
    main()
