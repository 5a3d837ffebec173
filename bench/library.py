#!/usr/bin/env python3
"""Measures how long a program in C takes to open a hive and to read all of it, by the library for C and by libhivex:

    bench/library.py FOLDER [--write]

FOLDER has libregtx.a and regtx.h, as tools/c_library.py writes them. Hives are those of `bench/reg_files.py` of 1, 10 and 50 MB, and
those with so many subkeys of one key. bench/walk_cursor.c, bench/walk_regtx.c, which goes by paths, and bench/walk_hivex.c read each
key's name and counts, and each value's name, type and data. All must come to the same sum. Times are processor seconds (user and
system), the least of several runs; memory is the most that a process held resident. `--write` puts the table into docs/MEASURED.md.
"""
import itertools
import math
import os
import subprocess
import sys
import tempfile

sys.dont_write_bytecode = True
import measured  # noqa: E402
from hives import flat, tree  # noqa: E402

MB, RUNS = 1_000_000, 15
# what a key with its three values takes of a file
KEY_BYTES = 870
# libhivex reads at most 70,000 subkeys of one key
HIVES = [("a tree of fan-out 10", tree, [MB // KEY_BYTES, 10 * MB // KEY_BYTES, 50 * MB // KEY_BYTES]),
         ("subkeys of one key", flat, [7_000, 70_000])]


def walks(folder, library):
    """The programs that read a hive."""
    ours = [measured.compiled(f"{name}.c", f"{folder}/{name}", "-I", library, f"{library}/libregtx.a") for name in ("walk_cursor", "walk_regtx")]
    return (*ours, measured.compiled("walk_hivex.c", f"{folder}/walk_hivex", "-lhivex"))


def read_by(walk, path):
    """Seconds of the opening and of the walk, in the run that took least, and the keys and the sum of what was read."""
    runs = [subprocess.run([walk, path], stdout=subprocess.PIPE, text=True, check=True).stdout.split() for _ in range(RUNS)]
    opened, walked = min(([int(word) for word in run[:2]] for run in runs), key=sum)
    return opened / 1_000_000, walked / 1_000_000, runs[0][2:]


def measure(library, folder):
    """The rows of the table."""
    peak, path = measured.peak(folder), f"{folder}/hive.dat"
    ours, by_paths, theirs = walks(folder, library)
    for shape, made, sizes in HIVES:
        last = None
        for keys in sizes:
            with open(path, "wb") as file:
                file.write(made(keys))
            length = os.path.getsize(path)
            opened, walked, read = read_by(ours, path)
            their_opened, their_walked, their_read = read_by(theirs, path)
            _, paths_walked, paths_read = read_by(by_paths, path)
            if not read == their_read == paths_read:
                sys.exit(f"{shape}, {keys} keys: {read}, by paths {paths_read}, by libhivex {their_read}")
            both, their_both = opened + walked, their_opened + their_walked
            held, their_held = (measured.spent_by(peak, 1, [walk, path])[1] for walk in (ours, theirs))
            exponent = f"{math.log(walked / last[0]) / math.log(int(read[0]) / last[1]):.2f}" if last else ""
            last = (walked, int(read[0]))
            yield (f"| {shape} | {length / MB:.1f} | {int(read[0]):,} | {opened:.4f} | {walked:.4f} | {exponent} | {paths_walked:.4f} "
                   f"| {their_opened:.4f} | {their_walked:.4f} | {both / their_both:.2f} | {held / length:.2f} "
                   f"| {their_held / length:.2f} |")


def main():
    parser = measured.words(__doc__)
    parser.add_argument("folder")
    given = parser.parse_args()
    with tempfile.TemporaryDirectory(prefix="bench-") as folder:
        lines = itertools.chain([
            f"{measured.head('library')}, beside libhivex.",
            "",
            "| hive | MB | keys | seconds to open | seconds to walk | exponent of the walk | seconds to walk by paths "
            "| seconds of libhivex to open | to walk | ratio of the times | memory in files | memory of libhivex |",
            "|---|---|---|---|---|---|---|---|---|---|---|---|",
        ], measure(os.path.abspath(given.folder), folder))
        measured.tell(lines, "bench/library.py", given.write)


main()
