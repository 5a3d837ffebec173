#!/usr/bin/env python3
"""Measures registration files in and out:

    bench/reg_files.py PROGRAM [--write]

PROGRAM is the built `regtx`. Exports are of hives of 1, 10 and 50 MB that runs/hives/maker.py makes: keys in a tree of fan-out
10, each with three values of 4, 40 and 600 bytes. Beside them stand `hivexregedit --export` and `hivexml` of libhivex on
the same files. Applications are of files of N and 10 N keys with a short value each: in a tree, as subkeys of one parent, by
turns of two hives, and in chains of 30 levels. Times are processor seconds (user and system), the least of three runs; memory
is the most that the process held resident. `--write` puts the tables into docs/MEASURED.md.
"""
import itertools
import math
import os
import shutil
import subprocess
import sys
import tempfile

sys.dont_write_bytecode = True
import measured  # noqa: E402
from hives import tree  # noqa: E402

MB, RUNS = 1_000_000, 3
ID = "00000000-0000-0000-0000-000000000000"
# what a key with its three values takes of a file
KEY_BYTES = 870


def spent_by(peak, words):
    """The least processor seconds of some runs, and the most bytes that one held."""
    runs = []
    for _ in range(RUNS):
        ran = subprocess.run([peak, *words], stdout=subprocess.PIPE, check=True)
        runs.append(ran.stdout.split()[-2:])
    return min(int(run[0]) for run in runs) / 1_000_000, max(int(run[1]) for run in runs)


def exponent(now, last):
    """By which power of the size the time grew since the row before."""
    return f"{math.log(now[0] / last[0]) / math.log(now[1] / last[1]):.2f}" if last else ""


def exports(program, folder):
    """The rows of exports."""
    peak, last, path = measured.peak(folder), None, f"{folder}/hive.dat"
    for size in (MB, 10 * MB, 50 * MB):
        keys = size // KEY_BYTES
        with open(path, "wb") as file:
            file.write(tree(keys))
        length = os.path.getsize(path)
        ours, held = spent_by(peak, [program, "export", path])
        part, _ = spent_by(peak, [program, "export", path, "0:k1\\k21"])
        regedit, regedit_held = spent_by(peak, ["hivexregedit", "--export", path, "\\"])
        xml, xml_held = spent_by(peak, ["hivexml", path])
        yield (f"| {length / MB:.1f} | {keys:,} | {ours:.3f} | {exponent((ours, length), last)} | {held / length:.2f} | {part:.3f} "
               f"| {regedit:.3f} | {regedit_held / length:.2f} | {xml:.3f} | {xml_held / length:.2f} |")
        last = (ours, length)


def in_tree(number):
    return "HIVE0\\" + "\\".join("k" + digit for digit in str(number + 1))


def in_chains(number):
    return "HIVE0\\c%d\\" % (number // 30) + "\\".join(f"d{level}" for level in range(number % 30 + 1))


# the shapes of the keys of a file that is applied
SHAPES = [
    ("a tree of fan-out 10", in_tree),
    ("subkeys of one parent", lambda number: f"HIVE0\\parent\\key{number * 7919 % 100_003}"),
    ("two hives by turns", lambda number: f"HIVE{number % 2}\\parent\\key{number}"),
    ("chains of 30 levels", in_chains),
]


def applications(program, folder):
    """The rows of applications."""
    peak, path, store = measured.peak(folder), f"{folder}/keys.reg", f"{folder}/store"
    for name, place in SHAPES:
        last = None
        for keys in (1_000, 10_000):
            with open(path, "w", encoding="ascii") as file:
                file.write("REGEDIT4\n\n")
                file.writelines(f'[{place(number)}]\n"value"="text {number}"\n\n' for number in range(keys))
            runs = []
            for _ in range(RUNS):
                subprocess.run([program, "new", store, ID, "2"], stdout=subprocess.DEVNULL, check=True)
                ran = subprocess.run([peak, program, "apply", store, path], stdout=subprocess.PIPE, check=True)
                runs.append([int(word) for word in ran.stdout.split()[-2:]])
                shutil.rmtree(store)
            spent, held = min(run[0] for run in runs) / 1_000_000, max(run[1] for run in runs)
            yield f"| {name} | {keys:,} | {os.path.getsize(path):,} | {spent:.3f} | {exponent((spent, keys), last)} | {held:,} |"
            last = (spent, keys)


def main():
    given = measured.words(__doc__, "program").parse_args()
    with tempfile.TemporaryDirectory(prefix="bench-") as folder:
        lines = itertools.chain([
            f"{measured.head('reg_files')}, beside `hivexregedit --export` and `hivexml` of libhivex.",
            "",
            "| MB of the hive | keys | seconds of `export` | exponent | memory in files | seconds of one part | seconds of hivexregedit "
            "| its memory in files | seconds of hivexml | its memory in files |",
            "|---|---|---|---|---|---|---|---|---|---|",
        ], exports(given.program, folder), [
            "",
            "| keys that are applied | keys | bytes of the file | seconds of `apply` | exponent | bytes resident |",
            "|---|---|---|---|---|---|",
        ], applications(given.program, folder))
        measured.tell(lines, "bench/reg_files.py", given.write)


main()
