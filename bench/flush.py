#!/usr/bin/env python3
"""Measures flushes of changed values in hives of 1, 10 and 50 MB, and a key that gets values or subkeys one by one:

    bench/flush.py TRIALS [--write]

TRIALS is the built `trials`. Of each hive: the bytes of its bins data and how many values of 16,000 bytes it
has; how many of them change by a byte; the processor time of absorbing the changes, and that of the flush's steps on the disk in
memory; how many pages were written and how many bytes, the log among them. Times are the least of several runs. What a hive may
weigh ends below 50 MB, so the last one has room that no key takes. Then a key gets values of four bytes, or subkeys, each absorbed
by itself, with names in no order: the processor time of all. `--write` puts the tables into docs/MEASURED.md.
"""
import math
import subprocess
import sys

sys.dont_write_bytecode = True
import measured  # noqa: E402

MB, RUNS = 1_000_000, 5
HIVES = [("1 MB", 60, MB, 1), ("10 MB", 600, 10 * MB, 1), ("50 MB", 1_000, 50 * MB, 1), ("50 MB", 1_000, 50 * MB, 1_000)]
# more subkeys would be over what a hive may weigh
GROWTHS = {"values": [1_000, 10_000, 100_000], "keys": [1_000, 10_000, 70_000]}


def numbers(trials, *words):
    """What the program prints at these words."""
    ran = subprocess.run([trials, "bench", *map(str, words)], capture_output=True, text=True)
    if ran.returncode:
        sys.exit(f"status {ran.returncode}: {ran.stderr}")
    return [int(word) for word in ran.stdout.split()]


def rows(trials):
    """A row for each hive."""
    for name, values, least, changes in HIVES:
        runs = [numbers(trials, "flush", values, least, changes) for _ in range(RUNS)]
        size, _, _, pages, written = runs[0]
        absorbing, flushing = (min(run[at] for run in runs) / 1000 for at in (1, 2))
        yield f"| {name} | {values:,} | {size:,} | {changes:,} | {absorbing:.3f} | {flushing:.3f} | {pages:,} | {written:,} |"


def growths(trials):
    """A row for each kind of growth and each count; the exponent is that of the count before."""
    for what, counts in GROWTHS.items():
        before = None
        for count in counts:
            taken = min(numbers(trials, "grow", what, count)[0] for _ in range(2)) / 1000
            exponent = f"{math.log(taken / before[1], count / before[0]):.2f}" if before else ""
            yield f"| {'values' if what == 'values' else 'subkeys'} | {count:,} | {taken:,.1f} | {1000 * taken / count:.1f} | {exponent} |"
            before = count, taken


def main():
    given = measured.words(__doc__, "trials").parse_args()
    lines = [
        f"{measured.head('flush')}. Milliseconds of processor time.",
        "",
        "| hive | values | bytes of bins data | changed | absorbed | flushed, disk in memory | pages | bytes written |",
        "|---|---|---|---|---|---|---|---|",
        *rows(given.trials),
        "",
        "A key that gets values or subkeys one by one:",
        "",
        "| what | N | milliseconds | microseconds each | exponent |",
        "|---|---|---|---|---|",
        *growths(given.trials),
    ]
    measured.tell(lines, "bench/flush.py", given.write)


main()
