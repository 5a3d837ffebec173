#!/usr/bin/env python3
"""Sweeps power cuts over scripts with a built program `regtx`, and compares what the tables tell with what the rules say:

    tests/sweeps.py PROGRAM

A commit is a body and a gate, each written and synced: whatever the tear, it is not there before its gate is written, and it is
there once that is synced; between these a cut keeps what was synced (old), the gate (new), or a gate that is none (torn).
The last line is 'N passed, N failed', and the status is 0 if none failed.
"""
import os
import re
import subprocess
import sys
import tempfile
import time

sys.dont_write_bytecode = True
sys.path.insert(0, os.path.dirname(os.path.abspath(__file__)))
from scratch import finish, tell  # noqa: E402

ID = "936da01f-9abd-4d9d-80c7-02af85c822a8"
ROW = re.compile(r" *(\d+)(?: to +(\d+))?  (write|cut  |sync ) (journal|hive\d\d\.(?:dat|log)) +(\S+) +(\S+) +(\S+)  (\d+) to (\d+)")
SUM = re.compile(r"(\d+) cuts, (\d+) openings: all within their bounds")
# a table of so many commits is to be there within so many seconds
LONG = 60


def swept(program, folder, lines):
    """What is printed, its lines, and the status."""
    path = f"{folder}/script"
    with open(path, "w", encoding="ascii") as script:
        script.write("".join(line + "\n" for line in lines))
    run = subprocess.run([program, "sweep", path], stdin=subprocess.DEVNULL, capture_output=True, text=True)
    if run.stderr:
        raise AssertionError(f"standard error: {run.stderr}")
    return run.stdout.split("\n")[:-1], run.returncode


def rows_of(printed):
    """The rows among the lines: the calls, what was done to which file, the numbers that open, and their bounds."""
    for line in printed:
        found = ROW.fullmatch(line)
        if found:
            first, last, verb, file, *rest = found.groups()
            yield int(first), int(last or first), verb.strip(), file, tuple(int(number) for number in rest)


def is_table(printed):
    """Whether the rows follow one another, each number is within its bounds, and the last line counts them."""
    rows = list(rows_of(printed))
    calls = [call for first, last, *_ in rows for call in range(first, last + 1)]
    counted = SUM.fullmatch(printed[-1])
    return (calls == list(range(1, len(calls) + 1)) and counted is not None and int(counted[1]) == len(calls)
            and int(counted[2]) == 3 * len(calls)
            and all(low <= number <= high for *_, (old, new, torn, low, high) in rows for number in (old, new, torn)))


def commits(count, hives):
    """The lines of a script of so many commits, each with a change in every hive."""
    yield f"hives {hives}"
    for number in range(count):
        yield f"begin t {ID}"
        for hive in range(hives):
            yield f"tx t create {hive}:key{number}"
        yield "commit t"


def wrong_commit(program, folder):
    """A commit over two hives: each number that opens behind each of its four calls, its reply behind them, and the flush."""
    printed, status = swept(program, folder, list(commits(1, 2)))
    wanted = [(1, 1, "write", "journal", (0, 0, 0, 0, 1)), (2, 2, "sync", "journal", (0, 0, 0, 0, 1)),
              (3, 3, "write", "journal", (0, 1, 0, 0, 1)), (4, 4, "sync", "journal", (1, 1, 1, 1, 1))]
    rows = list(rows_of(printed))
    if rows[:4] != wanted or status != 0 or not is_table(printed):
        return f"a commit over two hives: status {status}", printed
    if printed[5:6] != ["line 5: committed 1"]:
        return "a commit's reply isn't told behind its calls", printed
    # what is moved into the hives and trimmed loses nothing: from the receipt on all is there
    files = {file for _, _, _, file, _ in rows[4:]}
    # the commit's outcome is in a third hive
    flushed = {"journal", *[f"hive{at:02}.{kind}" for at in range(3) for kind in ("dat", "log")]}
    if any(numbers != (1, 1, 1, 1, 1) for *_, numbers in rows[4:]) or files != flushed:
        return "the hives' flush and the trim", printed
    return None


def wrong_flush_at_the_end(program, folder):
    """What nobody asked to be durable is flushed at the end, and may be lost before."""
    printed, status = swept(program, folder, ["hives 1", "create 0:A", "create 0:B"])
    wanted = [(1, 1, "write", "journal", (0, 0, 0, 0, 2)), (2, 2, "sync", "journal", (0, 0, 0, 0, 2)),
              (3, 3, "write", "journal", (0, 2, 0, 0, 2)), (4, 4, "sync", "journal", (2, 2, 2, 2, 2))]
    if list(rows_of(printed))[:4] != wanted or status != 0:
        return f"two changes that are flushed at the end: status {status}", printed
    if "at the end: flushed 2" not in printed or not is_table(printed):
        return "the last flush isn't told", printed
    return None


def wrong_rollback(program, folder):
    """A transaction that is rolled back makes no call."""
    printed, status = swept(program, folder, ["hives 1", f"begin t {ID}", "tx t create 0:A", "rollback t"])
    if any(numbers != (0, 0, 0, 0, 0) for *_, numbers in rows_of(printed)) or status != 0 or "at the end: flushed 0" not in printed:
        return f"a transaction that is rolled back: status {status}", printed
    return None


def wrong_refusal(program, folder):
    """A refused line is told, and is the status."""
    printed, status = swept(program, folder, ["hives 1", "delete 0:A"])
    if "line 2: E2 NotFound" not in printed or status != 1:
        return f"a refused line: status {status}", printed
    return None


NO_SCRIPTS = [(["hives 1", "create 0:A", "creat 0:B"], "line 3: not understood"), (["create 0:A"], "line 1: not understood"),
              ([], "line 1: not understood"), (["hives 1", "hives 1"], "line 2: not understood")]


def wrong_no_script(program, folder, lines, told):
    """A script with a line that isn't understood ends there."""
    printed, status = swept(program, folder, lines)
    return (f"{lines}: status {status}", printed) if printed[-1:] != [told] or status != 2 else None


def wrong_many(program, folder):
    """Many commits over four hives have a table in time."""
    began = time.monotonic()
    printed, status = swept(program, folder, list(commits(100, 4)))
    took = time.monotonic() - began
    if status != 0 or not is_table(printed) or "line 601: committed 100" not in printed or took > LONG:
        return f"a hundred commits: status {status}, {took:.1f} s", printed[-5:]
    return None


def results(program, folder):
    """What is wrong with each table."""
    for judge in [wrong_commit, wrong_flush_at_the_end, wrong_rollback, wrong_refusal, wrong_many]:
        yield judge(program, folder)
    for lines, told in NO_SCRIPTS:
        yield wrong_no_script(program, folder, lines, told)


def main():
    if len(sys.argv) != 2:
        sys.exit(__doc__)
    with tempfile.TemporaryDirectory(prefix="sweeps-") as folder:
        found = list(results(os.path.realpath(sys.argv[1]), folder))
    finish([tell("sweeps", [wrong and "\n    ".join([wrong[0], *wrong[1]]) for wrong in found])])


main()
