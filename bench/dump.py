#!/usr/bin/env python3
"""Measures dumps of hives of 1, 10 and 50 MB beside hivexml on the same files, and how time and memory grow:

    bench/dump.py PROGRAM TRIALS [--write]

PROGRAM is the built `regtx`, which also makes the hives: keys in a tree of fan-out 10, each with three values of 4 and 40
bytes and of 600, or of 6,000. The limit of a tree's weight is met at some 11 MB of such keys, or 15; what a longer file has
beyond them is a free cell. TRIALS is the built `trials`, which loads bins data alone. Times are processor seconds (user and system), the least of several runs; memory is the
most that the process held resident, and beside that without what the dump of an empty hive holds: the program itself. `--write` puts the
table into docs/MEASURED.md.
"""
import itertools
import math
import os
import subprocess
import sys
import tempfile

sys.dont_write_bytecode = True
import measured  # noqa: E402
from hives import CONTENTS, made  # noqa: E402

MB, RUNS = 1_000_000, 3
SIZES = [MB, 10 * MB, 50 * MB]


def measure(program, trials, folder):
    """The rows of the table."""
    peak = measured.peak(folder)
    empty, _ = made(program, folder, 0, CONTENTS[0])
    _, itself = measured.spent_by(peak, RUNS, [program, "dump", empty])
    last = None
    for content, size in [(content, size) for content in CONTENTS for size in SIZES]:
        path, keys = made(program, folder, size, content)
        length = os.path.getsize(path)
        ours, held = measured.spent_by(peak, RUNS, [program, "dump", path])
        theirs, their_held = measured.spent_by(peak, RUNS, ["hivexml", path])
        loads = [int(subprocess.run([trials, "bench", "load", path], stdout=subprocess.PIPE, check=True).stdout) for _ in range(RUNS)]
        exponent = f"{math.log(ours / last[0]) / math.log(length / last[1]):.2f}" if last and size != SIZES[0] else ""
        last = (ours, length)
        yield (f"| {length / MB:.1f} | {keys:,} | {content[0]:,} | {ours:.3f} | {exponent} | {held / length:.2f} | {(held - itself) / length:.2f} "
               f"| {theirs:.3f} | {their_held / length:.2f} | {ours / theirs:.2f} | {length / min(loads):,.0f} |")


def main():
    given = measured.words(__doc__, "program", "trials").parse_args()
    with tempfile.TemporaryDirectory(prefix="bench-") as folder:
        lines = itertools.chain([
            f"{measured.head('dump')}, beside `hivexml` of libhivex.",
            "",
            "| MB of the file | keys | largest value | seconds | exponent | memory in files | without the program's own | seconds of hivexml "
            "| its memory in files | ratio of the times | load alone, MB/s |",
            "|---|---|---|---|---|---|---|---|---|---|---|",
        ], measure(given.program, given.trials, folder))
        measured.tell(lines, "bench/dump.py", given.write)


main()
