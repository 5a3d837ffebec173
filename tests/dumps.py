#!/usr/bin/env python3
"""Dumps hives with a built program, and compares what it prints and its status:

    tests/dumps.py PROGRAM

Each part tells what passed. The last line is 'N passed, N failed', and the status is 0 if none failed.

- cases: the files of runs/hives/cases.py, each with the text that is to be printed.
- spoiled: a small hive, in which one byte at a time is 0x00 and 0xff instead, those of the first sector also with the sum
  mended; and a larger one with data in segments, but for bytes within long runs of zeros. Each dump ends, and prints a tree
  or one refusal that tells of a hive.
- memory: the program with each of its allocations refused in turn, and it with all later ones: it prints what it prints
  with ample memory, or `E1 NoMemory`.
"""
import os
import re
import subprocess
import sys
import tempfile
from concurrent.futures import ThreadPoolExecutor

TOP = os.path.dirname(os.path.dirname(os.path.abspath(__file__)))
sys.dont_write_bytecode = True
sys.path[:0] = [os.path.join(TOP, "tests"), os.path.join(TOP, "runs", "hives")]
import cases  # noqa: E402
from maker import mended  # noqa: E402
from scratch import SECONDS, finish, refusal_shim, shown, tell  # noqa: E402

WANT = b"E1 NoMemory\n"
TOLD = re.compile(rb"(E15 HiveDamaged 0 (Truncated|BadBase|BadBin|BadCell|BadOffset|BadRecord|BadList|BadName|Shared"
                  rb"|NotClean)|E17 Unsupported|E6 TooLarge)\n\Z")
LINES = re.compile(rb"hive 0\n(key 0:\S* \d+\n(val \S+ \d+ (-|([0-9a-f]{2})+)\n)*)+\Z")


def dump(program, file, **given):
    """What is printed of a file's bytes, the status, and what goes to standard error."""
    with tempfile.NamedTemporaryFile(prefix="dump-") as held:
        held.write(file)
        held.flush()
        ended = subprocess.run([program, "dump", held.name], stdin=subprocess.DEVNULL, capture_output=True,
                               env=dict(os.environ, **given), timeout=SECONDS)
    return ended.stdout, ended.returncode, ended.stderr


def wrong_case(program, case):
    """What is wrong with the dump of a case, or None."""
    printed, status, errors = dump(program, case.file)
    if printed not in case.texts:
        return f"{case.title}: wanted {shown(case.texts[0])}, printed {shown(printed)}"
    if status != case.status() or errors:
        return f"{case.title}: status {status}, wanted {case.status()}; {shown(errors)}"
    return None


def spoiled_files(file, skips_zeros):
    """Files of which one byte each is another, with what was done; if so asked, not of bytes within long runs of zeros."""
    for at, byte in enumerate(file):
        if skips_zeros and not any(file[max(at - 24, 0):at + 24]):
            continue
        for new in {0x00, 0xff} - {byte}:
            spoiled = file[:at] + bytes([new]) + file[at + 1:]
            yield f"byte {at} is {new:#04x}", spoiled
            if at < 508:
                yield f"byte {at} is {new:#04x}, and the sum is right", mended(spoiled)


def wrong_spoiled(program, title, file):
    """What is wrong with the dump of a spoiled file, or None."""
    printed, status, errors = dump(program, file)
    told, tree = TOLD.match(printed), LINES.match(printed)
    if errors or (status != 1 if told else status != 0 or not tree):
        return f"{title}: status {status}, printed {shown(printed)}; {shown(errors)}"
    return None


def for_memory(program, file):
    """What is wrong with each dump that has an allocation refused."""
    plain, given = dump(program, file), {"LD_PRELOAD": refusal_shim()}
    for mode in ("FAILALLOC_AT", "FAILALLOC_FROM"):
        number, refused = 0, 1
        while refused:
            number += 1
            with tempfile.NamedTemporaryFile(prefix="report-") as report:
                printed = dump(program, file, **given, **{mode: str(number), "FAILALLOC_REPORT": report.name})
                said = report.read().decode()
            refused = int(said.split("refused=")[1]) if "refused=" in said else None
            right = printed == plain or refused and printed == (WANT, 1, b"")
            if refused is None or not right:
                yield f"{mode.lower()} {number}: status {printed[1]}, printed {shown(printed[0])}"
            elif refused:
                yield None


def main():
    if len(sys.argv) != 2:
        sys.exit(__doc__)
    program, small = os.path.realpath(sys.argv[1]), cases.every_kind()
    files = [*spoiled_files(cases.every_kind(0), False), *spoiled_files(small, True)]
    with ThreadPoolExecutor(max_workers=os.cpu_count()) as pool:
        counts = [tell("cases", list(pool.map(lambda case: wrong_case(program, case), cases.all_cases()))),
                  tell("spoiled", list(pool.map(lambda each: wrong_spoiled(program, *each), files)))]
    counts.append(tell("memory", list(for_memory(program, small))))
    finish(counts)


main()
