#!/usr/bin/env python3
"""Measures how long a program in Python takes to open a hive and to read all of it, by bindings/python and by hivex:

    bench/hive_walks.py FOLDER [--write]

FOLDER has libregtx.so.0, as tools/c_library.py writes it. Hives are those of bench/library.py. Both programs read each key's name and
time, and each value's name, type and data, and have to read as much. They run in an interpreter that has the module of hivex, of the
package python3-hivex. Times are processor seconds (user and system), the least of several runs; memory is the most that a process held
resident. `--write` puts the table into docs/MEASURED.md.
"""
import itertools
import os
import subprocess
import sys
import tempfile

sys.dont_write_bytecode = True
import measured  # noqa: E402
from hives import flat, tree  # noqa: E402

sys.path.insert(0, os.path.join(measured.TOP, "tests"))
from hive_rows import interpreter_with  # noqa: E402

MB, RUNS = 1_000_000, 5
HIVES = [("a tree of fan-out 10", tree, [11_494, 57_471]), ("subkeys of one key", flat, [7_000, 70_000])]
LOADED = " Other work loaded the machine meanwhile: only two rows of one hive compare with each other."
TOLD = """
print(opened - begun, time.process_time() - opened, keys, values, size)
"""
# both begin their time with their module loaded
OURS = """
import sys, time
import regtx_hive
regtx_hive.version()
begun = time.process_time()
hive = regtx_hive.Hive.open(sys.argv[1])
opened = time.process_time()
keys = values = size = 0
for entry in hive.walk():
    keys += 1
    for name, value in entry.values.items():
        values += 1
        size += len(value.data)
""" + TOLD
THEIRS = """
import sys, time
import hivex
begun = time.process_time()
hive = hivex.Hivex(sys.argv[1])
opened = time.process_time()
keys = values = size = 0
left = [hive.root()]
while left:
    node = left.pop()
    keys += 1
    name, written = hive.node_name(node), hive.node_timestamp(node)
    for each in hive.node_values(node):
        name, (kind, data) = hive.value_key(each), hive.value_value(each)
        values += 1
        size += len(data)
    left += hive.node_children(node)
""" + TOLD


def ran(words):
    """Seconds of the opening and of the walk, and how much was read."""
    opened, walked, *read = subprocess.run(words, stdout=subprocess.PIPE, text=True, check=True).stdout.split()
    return float(opened), float(walked), list(map(int, read))


def measure(interpreter, folder):
    """The rows of the table."""
    peak, path = measured.peak(folder), f"{folder}/hive.dat"
    for shape, made, sizes in HIVES:
        for keys in sizes:
            with open(path, "wb") as file:
                file.write(made(keys))
            length, programs = os.path.getsize(path), [[interpreter, "-c", code, path] for code in (OURS, THEIRS)]
            # by turns, so that other work meets both
            runs = [[ran(words) for words in programs] for _ in range(RUNS)]
            for title, words, told in zip(("regtx_hive", "hivex"), programs, zip(*runs)):
                opened, walked, read = min(told, key=lambda run: run[0] + run[1])
                if any(run[2] != runs[0][0][2] for run in told):
                    sys.exit(f"{shape}, {keys} keys: {title} read {read}")
                held = measured.spent_by(peak, 1, words)[1]
                yield (f"| {shape} | {length / MB:.1f} | {read[0]:,} | {read[1]:,} | {title} | {opened:.3f} | {walked:.3f} "
                       f"| {opened + walked:.3f} | {held / length:.2f} |")


def main():
    parser = measured.words(__doc__)
    parser.add_argument("folder")
    given = parser.parse_args()
    interpreter = interpreter_with("hivex")
    if not interpreter:
        sys.exit("bench/hive_walks.py: no interpreter has the module of hivex")
    os.environ.update(REGTX_LIBRARY=os.path.abspath(given.folder), PYTHONDONTWRITEBYTECODE="1",
                      PYTHONPATH=os.pathsep.join(filter(None, [f"{measured.TOP}/bindings/python", os.environ.get("PYTHONPATH")])))
    version = subprocess.run([interpreter, "-c", "import platform; print(platform.python_version())"], stdout=subprocess.PIPE, text=True,
                             check=True).stdout.strip()
    with tempfile.TemporaryDirectory(prefix="bench-") as folder:
        lines = itertools.chain([
            f"{measured.head('hive_walks')}, by Python {version}.{LOADED if os.getloadavg()[0] > os.cpu_count() else ''}",
            "",
            "| hive | MB | keys | values | module | seconds to open | seconds to walk | together | memory in files |",
            "|---|---|---|---|---|---|---|---|---|",
        ], measure(interpreter, folder))
        measured.tell(lines, "bench/hive_walks.py", given.write)


main()
