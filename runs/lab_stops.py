"""Prints runs of a laboratory in which the device stops at each write, cut and sync of a store's events, with each tear: too long
to be kept as text.

Two hives get two keys each, hive 1 the second by a commit. A batch of the journal has four calls: its body and its gate, each written
and then synced. A flush of one page has eight. Each pair is made durable by one batch and moved into its hive by one flush, and a
batch of its own makes a fifth key durable.

A batch is there, whole, once its gate is written, if the tear leaves that; and once its gate is synced, with any tear. The device
stops at a call: a write is done then, and no sync. So the third call of a batch and the fourth leave the same. What opens has each
change that a reply has acknowledged, so that the third change, which shares its batch with the fourth, never is the last.
"""
import os
import sys

sys.path.insert(0, os.path.join(os.path.dirname(os.path.dirname(os.path.abspath(__file__))), "tests"))
from transcript import write  # noqa: E402

ID = "00000000-0000-0000-0000-000000000001"
BATCH, FLUSH = 4, 8
HIVES = 2

# lines with their replies, how many calls each makes, and the number of the last change that its calls make durable
EVENTS = [
    ("create 0:A", "created 1 accepted 1", 0, None),
    ("create 0:B", "created 1 accepted 2", 0, None),
    ("flush", "flushed 2", BATCH, 2),
    ("fall 0", "done", FLUSH, None),
    ("create 1:C", "created 1 accepted 3", 0, None),
    (f"begin t {ID}", "ok", 0, None),
    ("tx t create 1:D", "created 1", 0, None),
    ("commit t", "committed 4", BATCH, 4),
    ("fall 1", "done", FLUSH, None),
    ("create 0:E", "created 1 accepted 5", 0, None),
    *[("jstep", reply, 1, None) for reply in ["more", "more", "more"]],
    ("jstep", "done", 1, 5),
]
CALLS = sum(calls for _, _, calls, _ in EVENTS)

# the hive and the name of each change's key
KEYS = [(0, "A"), (0, "B"), (1, "C"), (1, "D"), (0, "E")]


def opened(number):
    """The reply to a crash that leaves the changes up to this number."""
    text = [f"opened {number}"]
    for hive in range(HIVES):
        text += [f"hive {hive}", f"key {hive}: 0", *[f"key {hive}:{name} 0" for of, name in KEYS[:number] if of == hive]]
    return "\n".join(text)


# after how many calls which change is the last of a batch, and is durable
BATCHES, made = [], 0
for _, _, calls, number in EVENTS:
    made += calls
    if number is not None:
        BATCHES.append((made, number))


def left_by(stop, tear):
    """The number that opens if the device has stopped at this call."""
    last = 0
    for end, number in BATCHES:
        if stop > end or stop >= end - 1 and tear == "new":
            last = number
    return last


def stopped(stop):
    """The lines of the events and their replies, if the device stops at this call. A label names nothing if its `begin` is refused."""
    lines, made, has_failed, is_label = [], 0, False, False
    for line, reply, calls, _ in EVENTS:
        if has_failed:
            names_label = line.startswith(("tx t ", "commit t"))
            reply = "E9 NoSuchHandle" if names_label and not is_label else "E14 Faulted"
        elif made + calls >= stop:
            reply, has_failed = "E13 DiskFault", True
        is_label = is_label or line.startswith("begin t ") and reply == "ok"
        made += calls
        lines.append((line, reply))
    return lines


print("# A store's events in the laboratory, stopped at each of their calls.\n\ncommand: lab\n")

for tear in ["old", "new", "torn"]:
    # without the last batch, the fifth change is lost
    for title, lines, number in [("all but the last batch", EVENTS[:-4], 4), ("all", EVENTS, 5)]:
        write(f"{title}; crash {tear}", [*[it[:2] for it in lines], (f"crash {tear}", opened(number))], 0, HIVES)
    for stop in range(1, CALLS + 1):
        crashes = [(f"crash {tear}", opened(left_by(stop, tear)))] + [("crash old", opened(left_by(stop, tear)))]
        write(f"stopped at call {stop} of {CALLS}; crash {tear}", [(f"stop {stop}", "ok"), *stopped(stop), *crashes], 1, HIVES)
