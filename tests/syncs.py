#!/usr/bin/env python3
"""Runs scripts over a store with a built program, and sees which of its files are synced, in their order:

    tests/syncs.py PROGRAM

A file that was made is lost in a power cut unless its folder is synced, though its bytes were. So the folder is synced behind the first
sync of each run, for the run before it may have been ended between the two; and behind the first sync of a file that the run makes.
The last line is 'N passed, N failed', and the status is 0 where none failed.
"""
import os
import signal
import sys

TOP = os.path.dirname(os.path.dirname(os.path.abspath(__file__)))
sys.dont_write_bytecode = True
sys.path.insert(0, os.path.join(TOP, "tests"))
from scratch import expect, finish, noting_library, program_at, shown, tell  # noqa: E402

ID = "00112233-4455-6677-8899-aabbccddeeff"


def synced(program, library, *words, **given):
    """What a run syncs, and its status."""
    report = program.at("report")
    if os.path.exists(report):
        os.remove(report)
    status = program.run(*words, environment={"SYNCS_REPORT": report, "LD_PRELOAD": library, **given})[1]
    with open(report, encoding="ascii") as file:
        return file.read().splitlines(), status


def wrong_order(title, lines, name):
    """What is wrong with the syncs of a run: the folder is synced behind the first one, and behind the first of the file of this name if
    the run makes it."""
    firsts = [0] + ([lines.index(f"file {name}")] if name else [])
    wrong = [first for first in firsts if lines[first + 1:first + 2] != ["folder"]]
    return f"{title}: {shown(lines)}" if wrong else None


def runs(program, library):
    """A store is made, and run on; the first run is ended between the syncs of the log that it makes and of the folder."""
    lines, status = synced(program, library, "new", "store", ID, "1")
    # the first folder is that in which the store's folder was made; the second hive keeps outcomes of commits
    wanted = ["folder", "file hive00.dat", "folder", "file hive01.dat", "folder", "file journal", "folder"]
    yield expect("new", (status, lines), (0, wanted))
    first, later = program.put("first", b"create 0:A\n"), program.put("later", b"create 0:B\n")
    lines, status = synced(program, library, "run", "store", first, SYNCS_END_AT="2")
    yield expect("a run that is ended", (status, lines[-1:]), (-signal.SIGKILL, ["file hive00.log"]))
    yield wrong_order("a run that is ended", lines, None)
    yield expect("its log is there", os.path.exists(program.at("store", "hive00.log")), True)
    for title in ("the run behind it", "one more"):
        lines, status = synced(program, library, "run", "store", later)
        yield expect(title, status, 0) or wrong_order(title, lines, None)
    os.remove(program.at("store", "hive00.log"))
    lines, status = synced(program, library, "run", "store", program.put("last", b"create 0:C\n"))
    yield expect("a run that makes a log", status, 0) or wrong_order("a run that makes a log", lines, "hive00.log")


def main():
    if len(sys.argv) != 2:
        sys.exit(__doc__)
    with program_at(sys.argv[1], "syncs-") as program:
        finish([tell("syncs", list(runs(program, noting_library(program))))])


main()
