#!/usr/bin/env python3
"""Measures how long the image of a tree takes to be made, for a tree of keys below the root and for one of ten times as many:

    bench/emit.py TRIALS [--write]

TRIALS is the built `trials`. Processor time is the least of several runs, without making the tree. `--write` puts the
table into docs/MEASURED.md, between the lines `<!-- bench/emit.py -->` and `<!-- /bench/emit.py -->`.
"""
import math
import subprocess
import sys

sys.dont_write_bytecode = True
import measured  # noqa: E402

KEYS, RUNS = [4_000, 40_000], 7


def emitted(trials, keys):
    """The least microseconds of making the image, and its bytes."""
    words = [trials, "bench", "emit", str(keys)]
    told = [subprocess.run(words, stdout=subprocess.PIPE, text=True, check=True).stdout.split() for _ in range(RUNS)]
    return min(int(each[0]) for each in told), int(told[0][1])


def main():
    given = measured.words(__doc__, "trials").parse_args()
    rows = [(keys, *emitted(given.trials, keys)) for keys in KEYS]
    exponent = math.log(rows[1][1] / rows[0][1]) / math.log(KEYS[1] / KEYS[0])
    lines = [
        f"{measured.head('emit')}. Keys below the root, each with a value of 16 bytes.",
        "",
        "| keys | bytes of the image | milliseconds of processor time | MB a second |",
        "|---|---|---|---|",
        *(f"| {keys:,} | {size:,} | {took / 1000:.1f} | {size / took:.0f} |" for keys, took, size in rows),
        "",
        f"Ten times the keys take {rows[1][1] / rows[0][1]:.1f} times as long: exponent {exponent:.2f}.",
    ]
    measured.tell(lines, "bench/emit.py", given.write)


main()
