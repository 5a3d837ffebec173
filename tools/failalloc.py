#!/usr/bin/env python3
"""Runs a program with chosen allocations refused:

    tools/failalloc.py count   PROGRAM [ARG..]    how many allocations a run makes, on standard error
    tools/failalloc.py at N    PROGRAM [ARG..]    the Nth allocation is refused; the program's own status
    tools/failalloc.py from N  PROGRAM [ARG..]    the Nth and all later ones are refused
    tools/failalloc.py library                    the path of the shim that does it, built if it isn't there
    tools/failalloc.py each    PROGRAM [ARG..]    one run for each allocation of the plain run, and one that meets no refusal

`each` makes as many runs at a time as there are processors. It tells each run whose status is neither the plain run's nor 1, or that
a signal ended, and whether the run without a refusal differs from the plain one. The last line is 'N passed, N failed', and the
status is 0 if none failed. Standard input is the file in FAILALLOC_STDIN, else empty. FAILALLOC_ACCEPT="0 1" names the statuses that
are taken; FAILALLOC_SHOW=1 prints each run's output; FAILALLOC_MODE=from refuses all allocations from the Nth on.
"""
import os
import re
import subprocess
import sys
import tempfile
import zlib
from concurrent.futures import ThreadPoolExecutor

SOURCE = os.path.join(os.path.dirname(os.path.realpath(__file__)), "failalloc.c")
# how long a run of `each` may take
SECONDS = 60
# the status of a run that took longer
TOO_LONG = 124
MODES = {"at": "FAILALLOC_AT", "from": "FAILALLOC_FROM"}
REPORT = re.compile(r"allocations=(\d+) refused=(\d+)")


def library():
    """The path of the shim."""
    with open(SOURCE, "rb") as file:
        name = f"failalloc-{os.getuid()}-{zlib.crc32(file.read())}.so"
    path = os.path.join(tempfile.gettempdir(), name)
    if not os.path.exists(path):
        part = f"{path}.{os.getpid()}"
        subprocess.run(["cc", "-O2", "-shared", "-fPIC", "-o", part, SOURCE], check=True)
        os.replace(part, path)
    return path


def status_of(code):
    """A status as a shell tells it: 128 and the signal, if one ended the program."""
    return 128 - code if code < 0 else code


class Each:
    """The runs of a program, one for each allocation that is refused."""

    def __init__(self, words, scratch):
        self.words, self.scratch, self.shim = words, scratch, library()
        self.variable = MODES[os.environ.get("FAILALLOC_MODE", "at")]
        self.given = os.environ.get("FAILALLOC_STDIN", "/dev/null")

    def run(self, number):
        """What a run prints, its status, how many allocations it makes and how many of them are refused. Number 0 refuses none."""
        report = os.path.join(self.scratch, str(number))
        refused = {self.variable: str(number)} if number else {}
        environment = dict(os.environ, LD_PRELOAD=self.shim, FAILALLOC_REPORT=report, **refused)
        with open(self.given, "rb") as file:
            try:
                ended = subprocess.run(self.words, stdin=file, stdout=subprocess.PIPE, stderr=subprocess.STDOUT, env=environment,
                                       timeout=SECONDS)
                printed, status = ended.stdout, status_of(ended.returncode)
            except subprocess.TimeoutExpired as late:
                printed, status = late.stdout or b"", TOO_LONG
        if not os.path.exists(report):
            return printed, status, 0, 0
        with open(report, encoding="ascii") as file:
            counts = REPORT.search(file.read())
        os.remove(report)
        return printed, status, *map(int, counts.groups())

    def wrong(self, number, plain, accepted):
        """What is wrong with a run, or None."""
        printed, status, _, refused = self.run(number)
        if os.environ.get("FAILALLOC_SHOW"):
            print(f"== {number}: status {status}\n{printed.decode(errors='replace')}", end="", flush=True)
        if not refused and (printed, status) == plain or refused and status in accepted:
            return None
        if not refused and status in (*accepted, plain[1]):
            return f"run {number} met no refusal and differs from the plain run"
        last = printed.decode(errors="replace").rstrip("\n").rpartition("\n")[2]
        return f"run {number}: status {status}: {last[:160]}"


def each(words):
    with tempfile.TemporaryDirectory(prefix="failalloc-") as scratch:
        runs = Each(words, scratch)
        printed, status, count, _ = runs.run(0)
        accepted = {int(word) for word in os.environ.get("FAILALLOC_ACCEPT", f"{status} 1").split()}
        with ThreadPoolExecutor(max_workers=os.cpu_count()) as pool:
            found = list(pool.map(lambda number: runs.wrong(number, (printed, status), accepted), range(1, count + 2)))
    faults = [why for why in found if why]
    for why in faults[:20]:
        print(why)
    print(f"failalloc: {count} runs with a refused allocation; statuses taken: {' '.join(map(str, sorted(accepted)))}")
    print(f"{len(found) - len(faults)} passed, {len(faults)} failed")
    return 1 if faults else 0


def count(words):
    """Runs the program as it is, and tells how many allocations it made: its status."""
    with tempfile.NamedTemporaryFile(prefix="failalloc-", mode="r", encoding="ascii") as report:
        ended = subprocess.run(words, env=dict(os.environ, LD_PRELOAD=library(), FAILALLOC_REPORT=report.name))
        print(report.read(), end="", file=sys.stderr)
    return status_of(ended.returncode)


def one(mode, number, *words):
    """Becomes the program, some of whose allocations are refused."""
    os.execvpe(words[0], words, dict(os.environ, LD_PRELOAD=library(), **{MODES[mode]: number}))


def main():
    mode, words = sys.argv[1] if len(sys.argv) > 1 else "", sys.argv[2:]
    least = {"library": 0, "count": 1, "each": 1, "at": 2, "from": 2}
    if mode not in least or len(words) < least[mode]:
        print(__doc__, file=sys.stderr)
        return 2
    if mode == "library":
        print(library())
        return 0
    return one(mode, *words) if mode in MODES else each(words) if mode == "each" else count(words)


sys.exit(main())
