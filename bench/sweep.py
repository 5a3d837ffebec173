#!/usr/bin/env python3
"""Measures sweeps of power cuts over scripts of commits, each of which changes four hives, and how the time grows:

    bench/sweep.py PROGRAM [--write]

A sweep opens the store with three tears behind each device call of the run. Times are processor seconds (user and system).
`--write` puts the table into docs/MEASURED.md.
"""
import math
import os
import re
import subprocess
import sys
import tempfile

sys.dont_write_bytecode = True
import measured  # noqa: E402

ID = "936da01f-9abd-4d9d-80c7-02af85c822a8"
HIVES, COMMITS = 4, [100, 1_000]
SUM = re.compile(r"(\d+) cuts, (\d+) openings: all within their bounds")


def commits(count):
    """The lines of a script of so many commits, each with a change in every hive."""
    yield f"hives {HIVES}"
    for number in range(count):
        yield f"begin t {ID}"
        for hive in range(HIVES):
            yield f"tx t create {hive}:key{number}"
        yield "commit t"


def swept(program, count):
    """Cuts, openings and processor seconds of a sweep over so many commits."""
    with tempfile.NamedTemporaryFile("w", prefix="bench-", encoding="ascii") as script:
        script.write("".join(line + "\n" for line in commits(count)))
        script.flush()
        before = os.times()
        told = subprocess.run([program, "sweep", script.name], stdin=subprocess.DEVNULL, capture_output=True, text=True, check=True).stdout
        after = os.times()
    found = SUM.fullmatch(told.split("\n")[-2])
    spent = after.children_user + after.children_system - before.children_user - before.children_system
    return int(found[1]), int(found[2]), spent


def main():
    given = measured.words(__doc__, "program").parse_args()
    rows = [(count, *swept(given.program, count)) for count in COMMITS]
    exponent = math.log(rows[1][3] / rows[0][3]) / math.log(rows[1][0] / rows[0][0])
    lines = [
        f"{measured.head('sweep')}. Processor time.",
        "",
        "| commits over four hives | power cuts | openings | seconds | openings a second |",
        "|---|---|---|---|---|",
        *(f"| {count:,} | {cuts:,} | {openings:,} | {spent:.2f} | {openings / spent:,.0f} |" for count, cuts, openings, spent in rows),
        "",
        f"Ten times the commits take {rows[1][3] / rows[0][3]:.0f} times as long, exponent {exponent:.2f}: each opening replays the changes before it.",
    ]
    measured.tell(lines, "bench/sweep.py", given.write)


main()
