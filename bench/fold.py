#!/usr/bin/env python3
"""Measures runs of many changes, without a fold and with one after every 10,000 changes:

    bench/fold.py PROGRAM [--write]

PROGRAM is the built `regtx`. A store has a thousand keys with ten values each. A script writes these values again and again: each line is
a change that is accepted by itself. Times are processor seconds (user and system) of one run; memory is the most that the process held resident.
`--write` puts the table into docs/MEASURED.md.
"""
import itertools
import os
import shutil
import subprocess
import sys
import tempfile

sys.dont_write_bytecode = True
import measured  # noqa: E402
from hives import ID  # noqa: E402

KEYS, VALUES, EACH, COUNTS = 1_000, 10, 10_000, [10_000, 100_000, 1_000_000]


def written(path, count, folds):
    """Writes a script of so many changes, with or without folds."""
    with open(path, "w", encoding="ascii") as file:
        for number in range(count):
            key, value = number % KEYS, number // KEYS % VALUES
            file.write(f"set 0:k{key} v{value} 4 {number:08x}\n")
            if folds and (number + 1) % EACH == 0:
                file.write("fold\n")


def rows(program, folder):
    """A row for each count of changes, without folds and with them."""
    peak, script, store, copy = measured.peak(folder), f"{folder}/script", f"{folder}/store", f"{folder}/copy"
    subprocess.run([program, "new", store, ID, "1"], stdout=subprocess.DEVNULL, check=True)
    with open(script, "w", encoding="ascii") as file:
        file.writelines(f"create 0:k{key}\n" for key in range(KEYS))
        file.writelines(f"set 0:k{key} v{value} 4 00000000\n" for key in range(KEYS) for value in range(VALUES))
    subprocess.run([program, "run", store, script], stdout=subprocess.DEVNULL, check=True)
    for count, folds in itertools.product(COUNTS, [False, True]):
        shutil.rmtree(copy, ignore_errors=True)
        shutil.copytree(store, copy)
        written(script, count, folds)
        seconds, held = measured.spent_by(peak, 1, [program, "run", copy, script])
        journal = os.path.getsize(f"{copy}/journal")
        yield f"| {count:,} | {count // EACH if folds else 0} | {seconds:.2f} | {held / 1_000_000:.1f} | {journal:,} |"


def main():
    given = measured.words(__doc__, "program").parse_args()
    with tempfile.TemporaryDirectory(prefix="bench-") as folder:
        lines = itertools.chain([
            f"{measured.head('fold')}.",
            "",
            "| changes | folds | processor seconds | memory, MB | bytes of the journal then |",
            "|---|---|---|---|---|",
        ], rows(given.program, folder))
        measured.tell(lines, "bench/fold.py", given.write)


main()
