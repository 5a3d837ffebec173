#!/usr/bin/env python3
"""Measures reads of one key or value by `get` and `ls`, of stores and of hives' files:

    bench/reads.py PROGRAM [--write]

PROGRAM is the built `regtx`. It makes the hives of stores, which bench/hives.py describes, each of about 10 MB: a read of one of them, and
of an empty hive beside none and beside three of them. Files have 10,000 and 100,000 subkeys of one key, made by runs/hives/maker.py. Beside
each of its reads stands hivexget, if it is installed. Times are processor seconds (user and system), the least of several runs; memory is
the most that the process held resident. `--write` puts the table into docs/MEASURED.md.
"""
import itertools
import os
import shutil
import subprocess
import sys
import tempfile

sys.dont_write_bytecode = True
import measured  # noqa: E402
from hives import CONTENTS, ID, flat, made  # noqa: E402

MB, RUNS, SIBLINGS = 1_000_000, 7, (10_000, 100_000)
LARGE, BESIDE = 10 * MB, 3


def store_of(program, folder, name, *files):
    """The folder of a store of an empty hive and of the hives of files."""
    empty, store = f"{folder}/empty", f"{folder}/{name}"
    if not os.path.exists(f"{empty}.dat"):
        subprocess.run([program, "new", empty, ID, "1"], stdout=subprocess.DEVNULL, check=True)
        shutil.copy(f"{empty}/hive00.dat", f"{empty}.dat")
    subprocess.run([program, "import", store, ID, f"{empty}.dat", *files], stdout=subprocess.DEVNULL, check=True)
    return store


def store_rows(program, folder, peak):
    """A row for each read of a store."""
    path, keys = made(program, folder, LARGE, CONTENTS[0])
    alone, beside = store_of(program, folder, "alone"), store_of(program, folder, "beside", *[path] * BESIDE)
    large, deep = f"{os.path.getsize(path) / MB:.1f} MB, {keys:,} keys", "1:" + "\\".join("k" + digit for digit in str(keys))
    for hive, store, words in [("an empty hive, alone", alone, ["ls", "0:"]), (f"an empty hive beside {BESIDE} of {large}", beside, ["ls", "0:"]),
                               (f"a hive of {large}", beside, ["get", deep, "value40"]), (f"a hive of {large}", beside, ["ls", deep])]:
        seconds, held = measured.spent_by(peak, RUNS, [program, words[0], store, *words[1:]])
        yield f"| {words[0]} | {hive} | {seconds * 1_000:.1f} | {held / MB:.1f} | |"


def hivexget(peak, path, last):
    """The milliseconds of hivexget for the same value; or that it finds none, as among very many subkeys."""
    words = ["hivexget", path, f"\\parent\\{last}", "value"]
    if not shutil.which(words[0]):
        return ""
    if subprocess.run(words, stdout=subprocess.DEVNULL, stderr=subprocess.DEVNULL).returncode:
        return "not found"
    return f"{measured.spent_by(peak, RUNS, words)[0] * 1_000:.1f}"


def file_rows(program, folder, peak):
    """A row for each read of a file with many subkeys of one key."""
    for count in SIBLINGS:
        path, last = f"{folder}/siblings.dat", f"k{(count - 1) * 7_919 % 100_003}"
        with open(path, "wb") as file:
            file.write(flat(count))
        for words in (["get", f"0:parent\\{last}", "value"], ["ls", f"0:parent\\{last}"], ["ls", "0:parent"]):
            seconds, held = measured.spent_by(peak, RUNS, [program, words[0], path, *words[1:]])
            theirs = hivexget(peak, path, last) if words[0] == "get" else ""
            what = "all" if words[-1] == "0:parent" else "one"
            yield f"| {words[0]} | {what} of {count:,} subkeys, a file of {os.path.getsize(path) / MB:.1f} MB | {seconds * 1_000:.1f} | {held / MB:.1f} | {theirs} |"


def main():
    given = measured.words(__doc__, "program").parse_args()
    with tempfile.TemporaryDirectory(prefix="bench-") as folder:
        peak = measured.peak(folder)
        lines = itertools.chain([
            f"{measured.head('reads')}.",
            "",
            "| word | what is read | milliseconds | memory, MB | milliseconds of hivexget |",
            "|---|---|---|---|---|",
        ], store_rows(given.program, folder, peak), file_rows(given.program, folder, peak))
        measured.tell(lines, "bench/reads.py", given.write)


main()
