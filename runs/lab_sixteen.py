"""Prints runs of a laboratory over 16 hives: too long to be kept as text. The power goes at each step of a batch, and between flushes
and a trim.

Each hive gets a key A by a change of its own, and one commit creates B in all of them. These are moved into the hives, that of
outcomes too, and trimmed.
Then each hive gets a key C by a change of its own, and one batch has these 16 changes. They are there all or none: without them the
journal has no change, and the hives tell the number.
"""
import os
import sys

sys.path.insert(0, os.path.join(os.path.dirname(os.path.dirname(os.path.abspath(__file__))), "tests"))
from transcript import write  # noqa: E402

HIVES = range(16)
TEARS = ["old", "new", "torn"]
ID = "00000000-0000-0000-0000-000000000001"

# how many calls a batch has, and a flush of one page
BATCH, FLUSH = 4, 8


def each(name, first):
    """Lines that create a key in each hive, by changes from this number on."""
    return [(f"create {hive}:{name}", f"created 1 accepted {number}") for number, hive in enumerate(HIVES, first)]


def opened(number, names):
    """The reply to a crash that leaves these keys in each hive, of which the first was made at moment 1, and so on."""
    keys = [f"key {{0}}:{name} {moment}" for moment, name in enumerate(names, 1)]
    trees = ["hive {0}", f"key {{0}}: {len(names)}", *keys]
    return "\n".join([f"opened {number}", *[line.format(hive) for hive in HIVES for line in trees]])


def steps(line, calls, count):
    """The first steps of what has so many calls."""
    return [(line, "done" if number == calls else "more") for number in range(1, count + 1)]


def run(title, lines, tear, reply):
    """A run in which the last 16 changes wait, these lines follow, and the power goes."""
    write(f"{title}; crash {tear}", [*WAITING, *lines, (f"crash {tear}", reply), (f"kept {ID}", "committed 17")], 0, len(HIVES))


WAITING = [
    ("at 1", "ok"),
    *each("A", 1),
    ("at 2", "ok"),
    (f"begin t {ID}", "ok"),
    *[(f"tx t create {hive}:B", "created 1") for hive in HIVES],
    ("accept t", "accepted 17"),
    ("flush", "flushed 17"),
    *[(f"fall {hive}", "done") for hive in HIVES],
    (f"fall {len(HIVES)}", "done"),
    *steps("tstep", 2, 2),
    ("at 3", "ok"),
    *each("C", 18),
]
BEFORE, AFTER = opened(17, "AB"), opened(33, "ABC")

# hive i makes i steps of its flush: some have ended then, and some have just begun
BEGUN = [line for hive in HIVES for line in steps(f"fstep {hive}", FLUSH, min(hive, FLUSH))]
REST = [(f"fall {hive}", "done" if hive < FLUSH else "idle") for hive in HIVES]
STAGES = [("flushes are under way", BEGUN), ("a trim may not be made yet", [("tstep", "idle")]), ("all hives are flushed", REST),
          ("a trim is under way", [("tstep", "more")]), ("the trim is done", [("tstep", "done"), ("tstep", "idle")])]

print("# A store of 16 hives in the laboratory.\n\ncommand: lab\n")

for tear in TEARS:
    for made in range(BATCH + 1):
        is_there = made == BATCH or made == BATCH - 1 and tear == "new"
        run(f"a batch of 16 changes, cut after {made} calls", steps("jstep", BATCH, made), tear, AFTER if is_there else BEFORE)
    lines = steps("jstep", BATCH, BATCH)
    for title, stage in STAGES:
        lines = [*lines, *stage]
        run(title, lines, tear, AFTER)
