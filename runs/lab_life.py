"""Prints runs of a laboratory that end at each call of a store's life: too long to be kept as text. There the power goes, the device
stops, or it fails in that call alone.

The life has seven changes over two hives. Three batches of the journal make six of them durable, and the seventh waits. Four
flushes and a trim move the first four into the hives; one of these flushes is that of the hive of outcomes. A batch has four calls:
its body and its gate, each written and then synced. A flush of one page has eight. They write the page into the log, the raised
first sector, the page, and the first sector, each with a sync. A trim has two, a write and a sync.

What opens has each change that a `flush` has acknowledged. Beside these it has a batch whose gate is written, if the tear leaves
that. It has a batch whole, in both hives, or nothing of it. `kept` tells the last commit that is there.
"""
import os
import sys

sys.path.insert(0, os.path.join(os.path.dirname(os.path.dirname(os.path.abspath(__file__))), "tests"))
from transcript import listed, write  # noqa: E402

TEARS = ["old", "new", "torn"]
ID = "00000000-0000-0000-0000-000000000001"
HIVES = 2
BATCH, FLUSH, TRIM = 4, 8, 2

# the keys that each change creates, as hives and names; a transaction's label, if it is a commit
CHANGES = [
    (None, [(0, "A")]),
    (None, [(0, "B")]),
    ("t", [(0, "C"), (1, "C")]),
    (None, [(1, "D")]),
    (None, [(1, "E")]),
    ("u", [(0, "F")]),
    (None, [(0, "G")]),
]

# the numbers of changes that are accepted; and between them how many calls are made, the line that makes one of them, and the line
# that makes all, with its reply
LIFE = [
    [1, 2],
    (BATCH, "jstep", "flush", "flushed 2"),
    (FLUSH, "fstep 0", "fall 0", "done"),
    [3, 4],
    (BATCH, "jstep", "flush", "flushed 4"),
    (FLUSH, "fstep 1", "fall 1", "done"),
    (FLUSH, "fstep 0", "fall 0", "done"),
    (FLUSH, "fstep 2", "fall 2", "done"),
    (TRIM, "tstep", None, None),
    [5, 6],
    (BATCH, "jstep", "flush", "flushed 6"),
    [7],
]

BEGINNING = [(f"begin t {ID}", "ok"), (f"begin u {ID}", "ok")]


def accepted(number):
    """Lines that accept the change of this number, at a moment of the same number."""
    label, keys = CHANGES[number - 1]
    paths = [f"{hive}:{name}" for hive, name in keys]
    moment = (f"at {number}", "ok")
    if label is None:
        return [moment, *[(f"create {path}", f"created 1 accepted {number}") for path in paths]]
    return [moment, *[(f"tx {label} create {path}", "created 1") for path in paths], (f"accept {label}", f"accepted {number}")]


def steps(calls, step, count):
    """The first steps of so many calls."""
    return [(step, "done" if number == calls else "more") for number in range(1, count + 1)]


def lines_of(part):
    """The lines of a part of the life, with their replies."""
    if isinstance(part, list):
        return [line for number in part for line in accepted(number)]
    calls, step, line, reply = part
    return steps(calls, step, calls) if line is None else [(line, reply)]


def refused(part):
    """The lines of a part on a store whose device has failed. The moment goes on; nothing else does."""
    return [(line, reply if line.startswith("at ") else "E14 Faulted") for line, reply in lines_of(part)]


def opened(number):
    """The reply to a crash that leaves the changes up to this number: a key has the moment of its creation, and a root the moment of
    the last creation below it."""
    text = [f"opened {number}"]
    for hive in range(HIVES):
        made = [(name, moment) for moment, (_, keys) in enumerate(CHANGES[:number], 1) for of, name in keys if of == hive]
        text += [f"hive {hive}", f"key {hive}: {made[-1][1] if made else 0}", *[f"key {hive}:{name} {moment}" for name, moment in made]]
    return "\n".join(text)


def commit_kept(number):
    """The reply to `kept` once the changes up to this number are there."""
    commits = [at for at, (label, _) in enumerate(CHANGES[:number], 1) if label is not None]
    return f"committed {commits[-1]}" if commits else "E2 NotFound"


def crashed(title, lines, tear, number, status):
    """A run in which the power goes after these lines, and the changes up to this number are there then."""
    reply = commit_kept(number)
    status = max(status, 1 if reply.startswith("E") else 0)
    write(f"{title}; crash {tear}", [*lines, (f"crash {tear}", opened(number)), (f"kept {ID}", reply)], status, HIVES)


def there_after(durable, last, part, made, tear):
    """The number that opens once so many calls of a part of the life are done."""
    is_there = part[0] == BATCH and (made == BATCH or made == BATCH - 1 and tear == "new")
    return last if is_there else durable


def reads(last):
    """Lines that read which keys the store has in memory after these changes."""
    return [(f"keys {hive}:", listed("keys", [name for _, keys in CHANGES[:last] for of, name in keys if of == hive]))
            for hive in range(HIVES)]


def tried(before, durable, last, part, after):
    """Runs in which a part of the life is cut, is stopped or fails, at each of its calls."""
    calls, step, line, _ = part
    for tear in TEARS:
        for made in range(calls + 1):
            number = there_after(durable, last, part, made, tear)
            crashed(f"{step} to change {last}, cut after {made} calls", [*before, *steps(calls, step, made)], tear, number, 0)
        for word in ["stop", "fail"]:
            for call in range(1, calls + 1):
                # the call at which the device stops is done if it is a write, and each write is followed by its sync
                made = call if word == "stop" and call % 2 == 1 else call - 1
                failed = [(line, "E13 DiskFault")] if line else [*steps(calls, step, call - 1), (step, "E13 DiskFault")]
                left = [] if line else [(step, "E14 Faulted")] * (calls - call)
                lines = [*before, (f"{word} {call}", "ok"), *failed, *left, *after, *reads(last), (f"kept {ID}", commit_kept(last))]
                crashed(f"{step} to change {last}, {word} {call}", lines, tear, there_after(durable, last, part, made, tear), 1)


print("# The life of a store in the laboratory, which ends at each of its calls.\n\ncommand: lab\n")

before, durable, last = BEGINNING, 0, 0
for at, part in enumerate(LIFE):
    if isinstance(part, list):
        last = part[-1]
    else:
        tried(before, durable, last, part, [line for later in LIFE[at + 1:] for line in refused(later)])
        if part[0] == BATCH:
            durable = last
    before = [*before, *lines_of(part)]

for tear in TEARS:
    crashed("the seventh change waits", before, tear, 6, 0)
for tear in TEARS:
    crashed("nothing waits", [*before, ("flush", "flushed 7")], tear, 7, 0)
