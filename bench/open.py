#!/usr/bin/env python3
"""Measures openings of stores of imported hives of 10 and 50 MB, of version 1.3 beside the same of 1.5:

    bench/open.py PROGRAM [--write]

PROGRAM is the built `regtx`. It makes the hives, which bench/hives.py describes; none has data over a segment's bytes, so that the file
of 1.3 is that of 1.5 but for its version and its sum. An opening is a run of an empty script, which writes nothing. Of a hive of 1.3 it
makes the image anew in memory, and its first change writes all of that. Times are processor seconds (user and system), the least of
several runs; memory is the most that the process held resident. `--write` puts the table into docs/MEASURED.md.
"""
import itertools
import os
import shutil
import subprocess
import sys
import tempfile

sys.dont_write_bytecode = True
import measured  # noqa: E402
from hives import CONTENTS, ID, made  # noqa: E402
from maker import of_minor  # noqa: E402

MB, RUNS = 1_000_000, 5
SIZES, MINORS = [10 * MB, 50 * MB], [5, 3]


def store_of(program, folder, path, minor):
    """The folder of a store of the hive of a file, as one of a minor version."""
    file, store = f"{folder}/imported.dat", f"{folder}/imported"
    with open(path, "rb") as source, open(file, "wb") as target:
        target.write(of_minor(source.read(), minor))
    shutil.rmtree(store, ignore_errors=True)
    subprocess.run([program, "import", store, ID, file], stdout=subprocess.DEVNULL, check=True)
    return store


def rows(program, folder):
    """A row for each hive and version."""
    peak, script, copy = measured.peak(folder), f"{folder}/change", f"{folder}/copy"
    with open(script, "w", encoding="ascii") as file:
        file.write("set 0:k1 value4 4 00000000\n")
    for content, size in itertools.product(CONTENTS, SIZES):
        path, keys = made(program, folder, size, content)
        for minor in MINORS:
            store = store_of(program, folder, path, minor)

            def renew():
                shutil.rmtree(copy, ignore_errors=True)
                shutil.copytree(store, copy)
            opened, held = measured.spent_by(peak, RUNS, [program, "run", store, "/dev/null"])
            changed, most = measured.spent_by(peak, RUNS, [program, "run", copy, script], renew)
            log = os.path.getsize(f"{copy}/hive00.log")
            length = os.path.getsize(path)
            yield (f"| {length / MB:.1f} | {keys:,} | {content[0]:,} | 1.{minor} | {opened:.3f} | {held / MB:.1f} | {held / length:.2f} "
                   f"| {changed:.3f} | {most / MB:.1f} | {log:,} |")


def main():
    given = measured.words(__doc__, "program").parse_args()
    with tempfile.TemporaryDirectory(prefix="bench-") as folder:
        lines = itertools.chain([
            f"{measured.head('open')}.",
            "",
            "| MB of the file | keys | largest value | version | seconds of an opening | memory, MB | memory in files "
            "| seconds of a run with the first change | its memory, MB | bytes of its log |",
            "|---|---|---|---|---|---|---|---|---|---|",
        ], rows(given.program, folder))
        measured.tell(lines, "bench/open.py", given.write)


main()
