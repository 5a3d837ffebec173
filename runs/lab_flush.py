"""Prints runs of a laboratory in which the power goes at each call of a hive's flush: too long to be kept as text.

Three values lie so far apart in the hive's file that one byte of each makes three single pages dirty. Their flush has ten calls: the log
and its sync, the first sector and its sync, a write for each page and their sync, the first sector and its sync. Wherever it is
stopped and whatever is torn, the store opens with all of the values. What the hive's own files hold then shows in whether it has
something to flush: up to the log's sync they hold the old values, for which the journal makes up; from the first sector's sync on the
new ones; and between the two what is left of that sector decides.

The same values at the same moment make no page dirty. Their flush has four calls: the log and its sync, the first sector and its sync.
"""
import os
import sys

sys.path.insert(0, os.path.join(os.path.dirname(os.path.dirname(os.path.abspath(__file__))), "tests"))
from transcript import write  # noqa: E402

BEFORE, AFTER = 0x11, 0x22
NAMES = "ABC"


def data(byte):
    """HEX of a value whose middle byte is this one."""
    return "00" * 1_000 + f"{byte:02x}" + "00" * 999


def writes(byte, first):
    """Lines that set the three values, with their numbers from this one on."""
    return [(f"set 0: {name} 3 {data(byte)}", f"accepted {number}") for number, name in enumerate(NAMES, first)]


# flushed twice, so that the file is laid out as the next one of as many bytes is
FLUSHED = [
    *writes(BEFORE, 1),
    ("flush", "flushed 3"),
    ("fall 0", "done"),
    *writes(BEFORE, 4),
    ("flush", "flushed 6"),
    ("fall 0", "done"),
    *writes(AFTER, 7),
    ("flush", "flushed 9"),
]
# the same values again
UNCHANGED = [("fall 0", "done"), *writes(AFTER, 10), ("flush", "flushed 12")]


def opened(number):
    """What an opening tells at a number."""
    return "\n".join([f"opened {number}", "hive 0", "key 0: 0", *[f"val {name} 3 {data(AFTER)}" for name in NAMES]])


def stopped(title, before, calls, number):
    """Runs over a hive whose flush has so many calls, the third of which writes the first sector."""
    steps = [("fstep 0", "more")] * (calls - 1) + [("fstep 0", "done"), ("fstep 0", "idle")]
    write(title, [*before, *steps], 0)
    for tear in ["old", "new", "torn"]:
        # the fourth call, which stops, was to sync the sector
        first_flushed = 5 if tear == "old" else 3
        for call in range(1, calls + 1):
            stop = [(f"stop {call}", "ok"), ("fall 0", "E13 DiskFault"), ("fstep 0", "E14 Faulted")]
            left = ("fall 0", "idle" if call >= first_flushed else "done")
            write(f"{title}: stopped at its call {call}; crash {tear}", [*before, *stop, (f"crash {tear}", opened(number)), left], 1)


print("# A hive's flush in the laboratory, stopped at each of its calls.\n\ncommand: lab\n")
stopped("a flush of three single pages", FLUSHED, 10, 9)
stopped("a flush that changes no page", [*FLUSHED, *UNCHANGED], 4, 12)
