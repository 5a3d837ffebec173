#!/usr/bin/env python3
"""Recovers hives of machines that were switched off, with the built program `recoveries`:

    tests/log_machines.py RECOVERIES

A machine has states of bins data, and writes an entry for the pages that a step changes. Its logs are laid out by tests/marvin.py,
its base blocks here, both by the public format. What is wanted comes from the states and from which entries stand, never from a
reader. The last line is 'N passed, N failed', and the status is 0 if none failed.

- whole: one log or two, in either order, at each state that the primary file may have kept, numbers that wrap, versions, remnants.
- spoiled: a bit of each field of each entry, each length of the log, an entry left out.
- false_contents: entries with right hashes whose contents are wrong.
- torn: base blocks of which the sum, the letters or all is wrong.
- limits: numbers from which entries are applied, and up to which.
- heads: logs whose first sector is none, and old logs. Files that are cut.
- memory: each allocation refused in turn.
"""
import os
import random
import struct
import sys

sys.dont_write_bytecode = True
sys.path.insert(0, os.path.dirname(os.path.abspath(__file__)))
from marvin import BIN, PAGE, SECTOR, entry, signed  # noqa: E402
from scratch import expect, finish, program_at, refusal_shim, tell  # noqa: E402

HEAD = 4_096
TOP_NUMBER = 2**32
BAD_LOG, BAD_BASE, TRUNCATED = (f"E15 HiveDamaged 0 {cause}" for cause in ("BadLog", "BadBase", "Truncated"))
UNSUPPORTED = "E17 Unsupported"


def with_sum(sector):
    """A sector with the right sum: the XOR of 127 words, but neither 0 nor all ones."""
    found = 0
    for (word,) in struct.iter_unpack("<I", sector[:508]):
        found ^= word
    found = {0: 1, 0xffffffff: 0xfffffffe}.get(found, found)
    return sector[:508] + struct.pack("<I", found)


def block(first, second, size, kind=0, minor=5, root=32, time=77):
    """A base block's first sector. Bytes that nothing reads are no zeros."""
    sector = struct.pack("<4s2IQ7I", b"regf", first % TOP_NUMBER, second % TOP_NUMBER, time, 1, minor, kind, 1, root, size, 1)
    return with_sum(sector.ljust(112, b"n") + bytes(range(100, 200)) * 3 + bytes(range(96)) + bytes(4))


def recovered(sector, number, size):
    """The sector as the first of the recovered hive."""
    numbers = struct.pack("<2I", number % TOP_NUMBER, number % TOP_NUMBER)
    return with_sum(sector[:4] + numbers + sector[12:28] + bytes(4) + sector[32:40] + struct.pack("<I", size) + sector[44:])


class Machine:
    """States of bins data, and the entry of each step: that of the step from state i has the number base + i."""

    def __init__(self, seed, steps=5, base=100, minor=5):
        self.chance, self.base, self.minor = random.Random(seed), base, minor
        self.rest = self.chance.randbytes(HEAD - SECTOR)
        self.states = [self.chance.randbytes(BIN * self.chance.randint(2, 4))]
        self.entries = []
        for _ in range(steps):
            self.step()

    def step(self):
        """A step that changes some pages, and at times grows or shrinks the bins data."""
        old = self.states[-1]
        size = max(BIN, len(old) + BIN * self.chance.choice([0, 0, 1, 2, -1]))
        changed = {at for at in range(0, size, PAGE) if at >= len(old) or self.chance.random() < 0.5} or {0}
        new = b"".join(self.chance.randbytes(PAGE) if at in changed else old[at:at + PAGE] for at in range(0, size, PAGE))
        pages = [(at, new[at:at + PAGE]) for at in sorted(changed)]
        # some entries have pages in one run, and some bytes behind them
        if self.chance.random() < 0.3 and all(at + PAGE in changed for at in sorted(changed)[:-1]):
            pages = [(pages[0][0], b"".join(data for _, data in pages))]
        padding = self.chance.randbytes(self.chance.choice([0, 0, 100, 700]))
        self.entries.append(entry(self.base + len(self.entries), size, pages, padding))
        self.states.append(new)

    def primary(self, kept, upto, **other):
        """A primary file that was last written whole at a state; since then each page was written at one up to another state."""
        bins = self.states[kept]
        pages = []
        for at in range(0, max(len(bins), len(self.states[upto])), PAGE):
            written = [state[at:at + PAGE] for state in self.states[kept:upto + 1] if len(state) > at]
            if written and (at < len(bins) or self.chance.random() < 0.5 and len(b"".join(pages)) == at):
                pages.append(written[0] if at >= len(bins) else self.chance.choice(written))
        body = b"".join(pages)
        number = self.base + kept
        return block(number + 1, number, len(bins), minor=self.minor, **other) + self.rest + body

    def log(self, entries, **other):
        """A log of these entries."""
        return block(self.base, self.base, len(self.states[0]), kind=6, minor=self.minor, **other) + b"".join(entries)

    def wanted(self, primary, kept, last):
        """The file that recovery of entries up to one gives."""
        state = self.states[last + 1]
        return recovered(primary[:SECTOR], self.base + last, len(state)) + self.rest + state


class Runs:
    """The program, and what it printed and wrote."""

    def __init__(self, program):
        self.program = program

    def recover(self, primary, *logs, limits=None, **given):
        """The lines that it printed, and the file that it wrote, or None. Limits are two numbers, or None for either."""
        names = [self.program.put(f"log{at}", log) for at, log in enumerate(logs)]
        out = self.program.at("out")
        if os.path.exists(out):
            os.remove(out)
        words = ["recover"] if limits is None else ["recover-within", *("-" if number is None else str(number % TOP_NUMBER) for number in limits)]
        told, _ = self.program.run(*words, self.program.put("hive", primary), "out", *names, **given)
        if not os.path.exists(out):
            return told.decode().splitlines(), None
        with open(out, "rb") as file:
            return told.decode().splitlines(), file.read()

    def is_file(self, title, primary, logs, wanted, limits=None):
        """What is wrong if a file is wanted."""
        lines, found = self.recover(primary, *logs, limits=limits)
        if found == wanted:
            return None
        return f"{title}: {lines}" if found is None else f"{title}: other bytes, {len(found)} and not {len(wanted)}: {lines}"

    def is_refused(self, title, primary, logs, wanted, limits=None):
        lines, found = self.recover(primary, *logs, limits=limits)
        return expect(title, (lines[-1:], found), ([wanted], None))

    def ends(self, title, log, wanted):
        """What is wrong with how a log's entries end."""
        told, _ = self.program.run("entries", self.program.put("log", log))
        return expect(title, told.decode().splitlines()[-1], wanted)


def places(entries):
    """Where each entry begins in a log, and where the last one ends."""
    found = [SECTOR]
    for one in entries:
        found.append(found[-1] + len(one))
    return found


def whole(runs):
    for seed in range(12):
        base = [100, TOP_NUMBER - 3, 0, 2**31 - 2][seed % 4]
        machine = Machine(seed, base=base, minor=3 + seed % 3)
        entries, last = machine.entries, len(machine.entries) - 1
        for kept in range(len(entries)):
            primary = machine.primary(kept, last + 1)
            wanted = machine.wanted(primary, kept, last)
            title = f"machine {seed}, kept {kept}"
            log = machine.log(entries)
            yield runs.is_file(title, primary, [log], wanted)
            # remnants of an older round, and zeros, follow
            old = Machine(seed + 1_000, base=base - 50).entries
            yield runs.is_file(f"{title}, remnants", primary, [log + b"".join(old)], wanted)
            yield runs.is_file(f"{title}, zeros", primary, [log + bytes(PAGE), b""], wanted)
            for cut in range(1, len(entries)):
                front, back = machine.log(entries[:cut]), machine.log(entries[cut:])
                yield runs.is_file(f"{title}, cut at {cut}", primary, [front, back], wanted)
                yield runs.is_file(f"{title}, cut at {cut}, turned", primary, [back, front], wanted)
                yield runs.is_file(f"{title}, cut at {cut}, with an older log", primary, [machine.log(old), back, front], wanted)
        clean = block(base, base, len(machine.states[0]), minor=machine.minor) + machine.rest + machine.states[0]
        yield runs.is_file(f"machine {seed}, clean", clean + b"more", [machine.log(entries)], clean)
        yield runs.is_refused(f"machine {seed}, clean and cut", clean[:-1], [machine.log(entries)], TRUNCATED)


def up_to(runs, machine, title, logs, stands):
    """What is wrong with recoveries if entries before one stand, at each state that the primary file may have kept."""
    for kept in range(len(machine.entries)):
        if kept < stands:
            primary = machine.primary(kept, stands)
            yield runs.is_file(f"{title}, kept {kept}", primary, logs, machine.wanted(primary, kept, stands - 1))
        else:
            yield runs.is_refused(f"{title}, kept {kept}", machine.primary(kept, kept), logs, BAD_LOG)


def spoiled(runs):
    machine = Machine(50, steps=3)
    entries, begins = machine.entries, places(machine.entries)
    log = machine.log(entries)
    wanted = [(0, 4, "no letters"), (8, 16, "hash-2 is wrong"), (16, 32, "hash-2 is wrong"), (32, 40, "hash-2 is wrong"),
              (40, 48, "hash-1 is wrong"), (48, 100, "hash-1 is wrong"), (4_000, 4_010, "hash-1 is wrong")]
    for at, begin in enumerate(begins[:-1]):
        for front, end, why in wanted:
            place = begin + machine.chance.randrange(front, end)
            bad = log[:place] + bytes([log[place] ^ 1 << machine.chance.randrange(8)]) + log[place + 1:]
            title = f"entry {at}, byte {place - begin}"
            yield runs.ends(title, bad, f"{why} at 0x{begin:x}")
            yield from up_to(runs, machine, title, [bad], at)
        for size, why in ((0, "wrong size"), (100, "wrong size"), (len(entries[at]) + 1, "wrong size"), (2**31, "is cut"),
                          (len(entries[at]) + SECTOR, "hash-2 is wrong" if at < 2 else "is cut")):
            bad = log[:begin + 4] + struct.pack("<I", size) + log[begin + 8:]
            yield runs.ends(f"entry {at}, size {size}", bad, f"{why} at 0x{begin:x}")
        left = entries[:at] + entries[at + 1:]
        number = machine.base + at
        if 0 < at < 2:
            yield runs.ends(f"without {at}", machine.log(left), f"number {number + 1} after {number - 1} at 0x{begin:x}")
        if at < 2:
            yield from up_to(runs, machine, f"without {at}", [machine.log(left)], at) if at else []
    # the first is missing: what follows begins later
    yield runs.is_refused("without 0", machine.primary(0, 0), [machine.log(entries[1:])], BAD_LOG)
    yield from told(runs, machine)
    yield from cut(runs, machine, log, begins)


def told(runs, machine):
    """What is told of logs, with the number that one lacks."""
    first, second, third = machine.entries
    ends = [f"{places(part)[-1]:x}" for part in ([first], [second], [third], [second, third])]
    cases = [
        ("a number is missing", 0, [[second, third]], [f"entries 101 to 102, then no letters at 0x{ends[3]}, 100 is missing"], BAD_LOG),
        ("a gap", 0, [[first], [third]], [f"entries 100 to 100, then no letters at 0x{ends[0]}",
                                          f"entries 102 to 102, then no letters at 0x{ends[2]}, 101 is missing"], "recovered 100"),
        ("older entries", 2, [[third], [first]], [f"entries 102 to 102, then no letters at 0x{ends[2]}",
                                                  f"entries 100 to 100, then no letters at 0x{ends[0]}"], "recovered 102"),
        ("a log twice", 2, [[third], [third]], [f"entries 102 to 102, then no letters at 0x{ends[2]}"] * 2, "recovered 102"),
        ("no entries", 0, [[first], []], [f"entries 100 to 100, then no letters at 0x{ends[0]}", "no letters at 0x200"], "recovered 100"),
    ]
    for title, kept, parts, lines, last in cases:
        found, _ = runs.recover(machine.primary(kept, kept), *map(machine.log, parts))
        yield expect(title, found, [f"log {at}: {line}" for at, line in enumerate(lines, 1)] + [last])
    clean = block(5, 5, len(machine.states[0])) + machine.rest + machine.states[0]
    yield expect("clean", runs.recover(clean)[0], ["clean 5"])


def cut(runs, machine, log, begins):
    """Logs that are cut."""
    lengths = {begin + part for begin in begins for part in (-1, 0, 1, 3, 4, 7, 8, 39, 40, 512)} | set(range(SECTOR, len(log), 1_111))
    for length in sorted(length for length in lengths if SECTOR <= length < len(log)):
        stands = sum(end <= length for end in begins[1:])
        left = length - begins[stands]
        why = "no letters" if left < 4 else "is cut"
        yield runs.ends(f"cut at {length}", log[:length], f"{why} at 0x{begins[stands]:x}")
        yield from up_to(runs, machine, f"cut at {length}", [log[:length]], stands)
    for length in (0, 100, 511):
        yield runs.is_refused(f"cut at {length}", machine.primary(0, 0), [log[:length]], BAD_LOG)


def false_contents(runs):
    """Entries whose hashes are right over contents that aren't."""
    data = b"x" * PAGE
    cases = [
        ("a page past the bins", entry(101, BIN, [(BIN, data)]), "wrong page"),
        ("a page that ends past the bins", entry(101, 2 * BIN, [(BIN, data * 2)]), "wrong page"),
        ("an offset of 100", entry(101, BIN, [(100, data)]), "wrong page"),
        ("a size of 0", entry(101, BIN, [(0, b"")]), "wrong page"),
        ("a size of 100", entry(101, BIN, [(0, b"y" * 100)]), "wrong page"),
        ("bytes past the entry", entry(101, 16 * BIN, [(0, data)], references=[(0, 2 * PAGE)]), "wrong page"),
        ("a size that wraps", entry(101, BIN, [(0, data)], references=[(512, 2**32 - 512)]), "wrong page"),
        ("many pages", entry(101, BIN, [(0, data)], count=2**29), "wrong page"),
        ("all pages", entry(101, BIN, [(0, data)], count=2**32 - 1), "wrong page"),
        ("no bins", entry(101, 0, []), "wrong bins size"),
        ("a size of bins of 512", entry(101, 512, []), "wrong bins size"),
        ("the number before", entry(99, BIN, [(0, data)]), "number 99 after 100"),
        ("the same number", entry(100, BIN, [(0, data)]), "number 100 after 100"),
    ]
    machine = Machine(60, steps=1)
    begin = SECTOR + len(machine.entries[0])
    for title, bad, why in cases:
        log = machine.log([machine.entries[0], bad])
        yield runs.ends(title, log, f"{why} at 0x{begin:x}")
        yield from up_to(runs, machine, title, [log], 1)
    # pages of 512 bytes, no page at all, and a page twice: the last one counts
    good = [entry(101, BIN, [(512, b"a" * 512), (3_584, b"b" * 512)]), entry(102, BIN, []), entry(103, BIN, [(0, data), (0, b"z" * PAGE)])]
    machine.states[1] = machine.states[1][:BIN]
    machine.entries[0] = entry(100, BIN, [(0, machine.states[1])])
    bins = machine.states[1]
    ends = [bins[:512] + b"a" * 512 + bins[1_024:3_584] + b"b" * 512] * 2 + [b"z" * PAGE]
    for count, state in enumerate(ends, 1):
        primary = machine.primary(0, 0)
        wanted = recovered(primary[:SECTOR], 100 + count, BIN) + machine.rest + state
        yield runs.is_file(f"{count} of 3", primary, [machine.log([machine.entries[0], *good[:count]])], wanted)
    # a byte that nobody has
    lacking = machine.log([entry(100, 64 * BIN, [(0, data)])])
    yield runs.is_refused("bytes that nobody has", machine.primary(0, 0), [lacking], BAD_LOG)


def torn(runs):
    for seed in range(6):
        machine = Machine(seed + 70, steps=4)
        entries, last = machine.entries, len(machine.entries) - 1
        primary = machine.primary(1, last + 1)
        log = machine.log(entries[1:], root=4_128, time=99)
        older = machine.log(Machine(seed + 900, base=40).entries)
        wanted = machine.wanted(log, 1, last)
        sum_wrong = primary[:300] + bytes([primary[300] ^ 1]) + primary[301:]
        no_letters = with_sum(b"REGF" + primary[4:SECTOR]) + primary[SECTOR:]
        zeros = bytes(SECTOR) + primary[SECTOR:]
        for title, bad, none in (("sum", sum_wrong, BAD_LOG), ("letters", no_letters, BAD_BASE), ("zeros", zeros, BAD_BASE)):
            yield runs.is_file(f"torn {seed}, {title}", bad, [log], wanted)
            yield runs.is_file(f"torn {seed}, {title}, an older log", bad, [older, log], wanted)
            yield runs.is_file(f"torn {seed}, {title}, turned", bad, [log, older], wanted)
            yield runs.is_refused(f"torn {seed}, {title}, no log", bad, [b"", bytes(HEAD)], none)


def limits(runs):
    """A limit gives what a machine gives that was switched off earlier, or that tells another number."""
    for seed in range(8):
        base = [100, TOP_NUMBER - 3, 0, 2**31 - 2][seed % 4]
        machine = Machine(seed + 400, base=base, minor=3 + seed % 3)
        entries, last = machine.entries, len(machine.entries) - 1
        log, clean = machine.log(entries), block(base, base, len(machine.states[0]), minor=machine.minor) + machine.rest + machine.states[0]
        for kept in range(len(entries)):
            for upto in range(-1, last + 3):
                title, within = f"machine {seed}, kept {kept}, up to {upto}", (None, base + upto)
                if upto < kept:
                    yield runs.is_refused(title, machine.primary(kept, kept), [log], BAD_LOG, within)
                    continue
                primary = machine.primary(kept, min(upto, last) + 1)
                wanted = machine.wanted(primary, kept, min(upto, last))
                yield runs.is_file(title, primary, [log], wanted, within)
                cut = machine.chance.randint(1, last)
                yield runs.is_file(f"{title}, two logs", primary, [machine.log(entries[cut:]), machine.log(entries[:cut])], wanted, within)
            # a primary file whose second number tells nothing
            primary = machine.primary(kept, last + 1)
            other = block(base + 900, base + 800, len(machine.states[kept]), minor=machine.minor) + primary[SECTOR:]
            wanted = machine.wanted(other, kept, last)
            yield runs.is_file(f"machine {seed}, from {kept}", other, [log], wanted, (base + kept, None))
            yield runs.is_refused(f"machine {seed}, not from {kept}", other, [log], BAD_LOG)
            one = machine.wanted(other, kept, kept)
            other = block(base + 900, base + 800, len(machine.states[kept]), minor=machine.minor) + machine.rest + machine.states[kept]
            yield runs.is_file(f"machine {seed}, {kept} alone", other, [log], one, (base + kept, base + kept))
            yield runs.is_file(f"machine {seed}, clean, from {kept}", clean, [log], clean, (base + kept, None))
        for number in (base - 1, base + last + 1, base + 50):
            yield runs.is_refused(f"machine {seed}, from {number}", machine.primary(0, 0), [log], BAD_LOG, (number, None))
        yield runs.is_refused(f"machine {seed}, from 2 up to 1", machine.primary(0, 0), [log], BAD_LOG, (base + 2, base + 1))
        yield runs.is_file(f"machine {seed}, clean, up to the one before", clean, [log], clean, (None, base - 1))
        yield from torn_limits(runs, machine, log)
    yield from told_limits(runs)


def torn_limits(runs, machine, log):
    """Limits of hives whose base block is torn: the newest log as if it ended earlier, and all of it from a number on."""
    base, last = machine.base, len(machine.entries) - 1
    older = machine.log(Machine(900, base=base - 60, steps=3).entries)
    for upto in range(last + 1):
        primary = machine.primary(0, upto + 1)
        torn = primary[:300] + bytes([primary[300] ^ 1]) + primary[301:]
        yield runs.is_file(f"torn, up to {upto}", torn, [older, log], machine.wanted(log, 0, upto), (None, base + upto))
        for first in range(upto + 1):
            primary = machine.primary(first, upto + 1)
            torn = primary[:300] + bytes([primary[300] ^ 1]) + primary[301:]
            yield runs.is_file(f"torn, {first} up to {upto}", torn, [log, older], machine.wanted(log, first, upto), (base + first, base + upto))
        yield runs.is_refused(f"torn, from {last + 1}", torn, [log], BAD_LOG, (base + last + 1, None))
        yield runs.is_refused(f"torn, up to {-70}", torn, [log, older], BAD_LOG, (None, base - 70))


def told_limits(runs):
    """What is told of logs within limits: all that they have, and a number that is missing below the limit."""
    machine = Machine(50, steps=3)
    first, second, third = machine.entries
    ends = [f"{places(part)[-1]:x}" for part in ([first], [second, third], [third])]
    cases = [
        ("up to 100", (None, 100), [[first], [second, third]], [f"entries 100 to 100, then no letters at 0x{ends[0]}",
                                                                f"entries 101 to 102, then no letters at 0x{ends[1]}"], "recovered 100"),
        ("up to 101", (None, 101), [[first], [third]], [f"entries 100 to 100, then no letters at 0x{ends[0]}",
                                                        f"entries 102 to 102, then no letters at 0x{ends[2]}"], "recovered 100"),
        ("up to 102", (None, 102), [[first], [third]], [f"entries 100 to 100, then no letters at 0x{ends[0]}",
                                                        f"entries 102 to 102, then no letters at 0x{ends[2]}, 101 is missing"], "recovered 100"),
        ("from 99", (99, None), [[first]], [f"entries 100 to 100, then no letters at 0x{ends[0]}, 99 is missing"], BAD_LOG),
    ]
    for title, within, parts, lines, wanted in cases:
        found, _ = runs.recover(machine.primary(0, 0), *map(machine.log, parts), limits=within)
        yield expect(title, found, [f"log {at}: {line}" for at, line in enumerate(lines, 1)] + [wanted])


def heads(runs):
    machine = Machine(80)
    entries, last = machine.entries, len(machine.entries) - 1
    log, primary = machine.log(entries), machine.primary(0, len(entries))
    size = len(machine.states[0])
    cases = [
        ("empty", b""), ("empty", bytes(SECTOR) + b"more"), ("no log: letters", b"HvLE" + log[4:]), ("no log: letters", bytes(3) + log[3:]),
        ("no log: sum", log[:200] + b"?" + log[201:]), ("no log: sum", log[:100]),
        *((f"no log: type {kind}", block(1, 1, size, kind=kind) + log[SECTOR:]) for kind in (0, 1, 2, 5, 7)),
        *(("no log: version", block(1, 1, size, kind=6, minor=minor) + log[SECTOR:]) for minor in (2, 6)),
    ]
    for why, other in cases:
        yield runs.ends(why, other, why)
        yield runs.is_refused(why, primary, [other], BAD_LOG)
        yield runs.is_file(f"{why}, beside a log", primary, [other, log], machine.wanted(primary, 0, last))
    # numbers of a log's first sector are unread
    other = block(7, 9, size, kind=6) + log[SECTOR:]
    yield runs.is_file("other numbers", primary, [other], machine.wanted(primary, 0, last))
    for length, why in ((0, TRUNCATED), (511, TRUNCATED), (512, TRUNCATED), (4_095, TRUNCATED)):
        yield runs.is_refused(f"a file of {length} bytes", primary[:length], [log], why)
    for minor in (2, 6):
        bad = block(101, 100, size, minor=minor) + primary[SECTOR:]
        yield runs.is_refused(f"a file of 1.{minor}", bad, [log], UNSUPPORTED)
    yield runs.is_refused("a log in the file's place", log, [log], UNSUPPORTED)
    yield runs.is_refused("no log", primary, [], BAD_LOG)
    large = entry(100, 2**26 + BIN, [(0, b"x" * PAGE)])
    yield runs.is_refused("bins data over the limit", primary, [machine.log([large])], "E6 TooLarge")


def memory(runs):
    """Recoveries in which each allocation in turn is refused."""
    machine, shim, report = Machine(90), refusal_shim(), runs.program.at("report")
    primary, last = machine.primary(0, len(machine.entries)), len(machine.entries) - 1
    logs = [machine.log(machine.entries[:2]), machine.log(machine.entries[2:])]
    for number in range(1, 1_000):
        given = {"LD_PRELOAD": shim, "FAILALLOC_AT": str(number), "FAILALLOC_REPORT": report}
        lines, found = runs.recover(primary, *logs, environment=given)
        with open(report, encoding="ascii") as file:
            if "refused=0" in file.read():
                yield expect("no allocation refused", found, machine.wanted(primary, 0, last))
                return
        # the library reads a file of which it can't reserve all in smaller parts
        if found != machine.wanted(primary, 0, last):
            yield expect(f"allocation {number}", (lines[-1:], found), (["E1 NoMemory"], None))
    yield "each allocation was refused"


def main():
    if len(sys.argv) != 2:
        sys.exit(__doc__)
    with program_at(sys.argv[1], "machines-") as program:
        runs = Runs(program)
        finish([tell(part.__name__, list(part(runs))) for part in (whole, spoiled, false_contents, torn, limits, heads, memory)])


if __name__ == "__main__":
    main()
