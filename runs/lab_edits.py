"""Prints runs of a laboratory in which the power goes at each call of a flush that carries changes of several kinds into a hive
where they lie: too long to be kept as text.

The hive has keys with a value each. In one flush a value gets other data, longer data, data in segments and none; another is added
and one deleted; keys of several levels are created; and a key with a value goes. The hive's file is long, so that what isn't edited
would show. Wherever the flush is stopped and whatever is torn, the store opens with all of these changes.
"""
import os
import sys

sys.path.insert(0, os.path.join(os.path.dirname(os.path.dirname(os.path.abspath(__file__))), "tests"))
from transcript import write  # noqa: E402

CALLS = 18
KEYS, MOMENT = 40, 9
DATA = "5a" * 600
LONG = "c3" * 20_000
EDITS = [
    "set 0:K05 v 4 01020304",
    f"set 0:K10 v 3 {'a5' * 900}",
    f"set 0:K15 v 3 {LONG}",
    "set 0:K20 v 3 -",
    "set 0:K25 added 1 41000000",
    "unset 0:K30 v",
    "create 0:K35\\deep\\deeper",
    "delete 0:K00",
]


def dumped():
    """The hive as it opens: its keys in their order, each with its time and its values."""
    values = {f"K{number:02}": [f"v 3 {DATA}"] for number in range(1, KEYS)}
    values["K05"], values["K10"], values["K15"], values["K20"] = ["v 4 01020304"], [f"v 3 {'a5' * 900}"], [f"v 3 {LONG}"], ["v 3 -"]
    values["K25"], values["K30"] = ["added 1 41000000", f"v 3 {DATA}"], []
    edited = {"K05", "K10", "K15", "K20", "K25", "K30", "K35"}
    lines = [f"key 0: {MOMENT}"]
    for name, its in values.items():
        lines += [f"key 0:{name} {MOMENT if name in edited else 0}", *[f"val {value}" for value in its]]
        if name == "K35":
            lines += [f"key 0:K35\\deep {MOMENT}", f"key 0:K35\\deep\\deeper {MOMENT}"]
    return lines


ACCEPTED = 2 * KEYS + len(EDITS)
FLUSHED = []
for number in range(KEYS):
    FLUSHED += [(f"create 0:K{number:02}", f"created 1 accepted {2 * number + 1}"), (f"set 0:K{number:02} v 3 {DATA}", f"accepted {2 * number + 2}")]
FLUSHED += [("flush", f"flushed {2 * KEYS}"), ("fall 0", "done"), (f"at {MOMENT}", "ok")]
for number, line in enumerate(EDITS, 2 * KEYS + 1):
    FLUSHED.append((line, f"created 2 accepted {number}" if line.startswith("create") else f"accepted {number}"))
FLUSHED.append(("flush", f"flushed {ACCEPTED}"))
OPENED = "\n".join([f"opened {ACCEPTED}", "hive 0", *dumped()])


def run(title, steps, status):
    """A run over a hive that is flushed."""
    write(title, [*FLUSHED, *steps], status)


print("# A flush of edits in the laboratory, stopped at each of its calls.\n\ncommand: lab\n")

STEPS = [("fstep 0", "more")] * (CALLS - 1) + [("fstep 0", "done"), ("fstep 0", "idle")]
run(f"a flush of edits has {CALLS} calls", STEPS, 0)

for tear in ["old", "new", "torn"]:
    # the third call writes the first sector, and the fourth, which stops, was to sync it
    first_flushed = 5 if tear == "old" else 3
    for call in range(1, CALLS + 1):
        stop = [(f"stop {call}", "ok"), ("fall 0", "E13 DiskFault"), ("fstep 0", "E14 Faulted")]
        left = ("fall 0", "idle" if call >= first_flushed else "done")
        run(f"stopped at its call {call}; crash {tear}", [*stop, (f"crash {tear}", OPENED), left], 1)
