#!/usr/bin/env python3
"""Measures an engine over the disk in memory, at N and at ten times N, and how time and memory grow:

    bench/engine.py TRIALS [--write]

TRIALS is the built `trials`. Events: plain writes; transactions of two writes over two hives, each committed and journaled
until its receipt; reads. Openings: of a store of 16 hives whose journal spells small changes, or large ones. Held: changes that are
journaled, flushed and trimmed every ten thousand; the bytes that the program holds behind them and how many more it held at most, and
the most that the process held resident. Times are processor time, the least of several runs; the exponent of growth is that between
the two sizes. `--write` puts the tables into docs/MEASURED.md.
"""
import math
import os
import re
import subprocess
import sys
import tempfile

sys.dont_write_bytecode = True
import measured  # noqa: E402

RUNS = 3
EVENTS = [("plain writes", "writes", 50_000), ("transactions until their receipt", "commits", 5_000), ("reads", "reads", 50_000)]
# the bytes of each change's value, and how many changes
OPENINGS = [(16, 98_000), (65_536, 100)]
HELD = 100_000


def play(trials, *work, **more):
    """The numbers that a work prints, and what went to standard error."""
    ran = subprocess.run([trials, "bench", *map(str, work)], capture_output=True, text=True, env=dict(os.environ, **more))
    if ran.returncode:
        sys.exit(f"{work}: status {ran.returncode}: {ran.stderr}")
    return [int(word) for word in ran.stdout.split()], ran.stderr


def least(trials, *work):
    """The numbers that a work prints, of the run that took the least time."""
    return min(play(trials, *work)[0] for _ in range(RUNS))


def exponent(small, large):
    """How time grows between two sizes, ten times apart."""
    return f"{math.log10(large / small):.2f}"


def events(trials):
    """A row for each kind of event."""
    for name, word, count in EVENTS:
        small, large = (least(trials, word, n)[0] for n in (count, 10 * count))
        yield f"| {name} | {count:,} | {count / small * 1_000_000:,.0f} | {10 * count / large * 1_000_000:,.0f} | {exponent(small, large)} |"


def openings(trials):
    """A row for each journal."""
    for size, count in OPENINGS:
        last = None
        for changes in (count, 10 * count):
            took, length = least(trials, "opening", changes, size)
            yield f"| {size:,} | {changes:,} | {length:,} | {took / 1000:,.1f} | {exponent(last, took) if last else ''} |"
            last = took


def held(trials, folder):
    """A row for each number of changes."""
    shim, peak = measured.held(folder), measured.peak(folder)
    last = None
    for changes in (HELD, 10 * HELD):
        took = least(trials, "held", changes)[0]
        end, most = re.search(r"held=(\d+) most=(\d+)", play(trials, "held", changes, LD_PRELOAD=shim)[1]).groups()
        resident = subprocess.run([peak, trials, "bench", "held", str(changes)], stdout=subprocess.PIPE, text=True, check=True).stdout.split()[1]
        yield (f"| {changes:,} | {took / 1000:,.0f} | {exponent(last, took) if last else ''} | {int(end):,} | {int(most):,} | {int(resident):,} |")
        last = took


def main():
    given = measured.words(__doc__, "trials").parse_args()
    with tempfile.TemporaryDirectory(prefix="bench-") as folder:
        lines = [
            f"{measured.head('engine')}. Processor time.",
            "",
            "| events | N | a second, at N | a second, at 10 N | exponent |",
            "|---|---|---|---|---|",
            *events(given.trials),
            "",
            "Openings of a store of 16 hives, whose files lack what the journal spells:",
            "",
            "| bytes of a change's value | changes | bytes of the journal | milliseconds | exponent |",
            "|---|---|---|---|---|",
            *openings(given.trials),
            "",
            "Changes that are journaled, flushed and trimmed every ten thousand:",
            "",
            "| changes | milliseconds | exponent | bytes held at the end | bytes held at most | most bytes resident |",
            "|---|---|---|---|---|---|",
            *held(given.trials, folder),
        ]
    measured.tell(lines, "bench/engine.py", given.write)


main()
