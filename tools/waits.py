#!/usr/bin/env python3
"""Tells which loops over `rt.forever()` have no reason to end:

    tools/waits.py            compares the loops of crates/*/src with tools/waits.txt
    tools/waits.py --write    writes that list anew: what stands there keeps its reason, and a loop that is new gets none

A function with such a loop may run forever, and then meets any `ensures`: a hang breaks no promise, and keeps none. So each has its
line, by crate, file and function, with the kind of its end and the reason:

- thread: another thread has to do something, such as leave a lock, make a step, or say that it is over.
- work: it goes on as long as its caller gives it work.
- clause: it ends by what code below does, and no clause says so. The reason names which clause is missing, of the kit's crates or ours.

Status 1 if a loop has no line, a line no loop, or a line no reason.
"""
import re
import sys

sys.dont_write_bytecode = True
from graph import TOP  # noqa: E402
from sources import code, crate_files, read  # noqa: E402

LIST = f"{TOP}/tools/waits.txt"
HEAD = """# Loops that may never end, and why each ends: CRATE FILE FUNCTION: KIND, REASON. tools/waits.py says what the kinds are;
# it compares the loops, and with --write makes a line for each that is new.
"""
KINDS = ("thread", "work", "clause")
FUNCTION = re.compile(r"\bfn (\w+)")
LOOP = re.compile(r"\.forever\(\)")
NONE = "?"


def loops():
    """Each function with such a loop, by its crate, file and name; in the order of crates and files."""
    found = {}
    for crate, path in crate_files("src", ".rt"):
        text = code(path)
        for loop in LOOP.finditer(text):
            name = FUNCTION.findall(text, 0, loop.start())[-1]
            file = path.split("/src/", 1)[1]
            found[f"{crate} {file} {name}"] = None
    return list(found)


def reasons():
    """What the list says of each function."""
    told = {}
    for line in read(LIST).splitlines():
        if line and not line.startswith("#"):
            name, _, reason = line.partition(": ")
            told[name] = reason
    return told


def main():
    found = loops()
    told = reasons()
    if sys.argv[1:] == ["--write"]:
        with open(LIST, "w", encoding="utf-8") as file:
            file.write(HEAD + "".join(f"{name}: {told.get(name, NONE)}\n" for name in found))
        return 0
    if sys.argv[1:]:
        sys.exit(__doc__)
    faults = [f"{name}: it loops over forever(), and has no line in tools/waits.txt" for name in found if name not in told]
    faults += [f"{name}: it has a line in tools/waits.txt, and no such loop" for name in told if name not in found]
    for name, reason in told.items():
        kind, _, why = reason.partition(", ")
        if kind not in KINDS or not why:
            faults.append(f"{name}: why it ends isn't said: one of {', '.join(KINDS)}, and a reason")
    for fault in faults:
        print(fault)
    if not faults:
        print(f"{len(found)} functions with loops that may never end, each with its reason")
    return 1 if faults else 0


sys.exit(main())
