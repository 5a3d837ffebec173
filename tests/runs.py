#!/usr/bin/env python3
"""Plays transcripts with a built program, and compares what it prints and its status:

    tests/runs.py PROGRAM [FILE..]       without a FILE all of runs/

tests/transcript.py says how a run is written. The last line is 'N passed, N failed'; status 0 where none failed.
"""
import os
import subprocess
import sys
import tempfile
from concurrent.futures import ThreadPoolExecutor

sys.path.insert(0, os.path.dirname(os.path.abspath(__file__)))
import transcript  # noqa: E402

SECONDS = 600


def difference(run, printed):
    """The first line of the script that is answered otherwise, with both answers."""
    rest = printed
    for line, replies in zip([b""] + run.script, run.replies):
        wanted = b"".join(replies)
        if not rest.startswith(wanted):
            found = rest.split(b"\n", 1)[0]
            return f"at {line[:80]!r}: wanted {wanted[:200]!r}, printed {found[:200]!r}"
        rest = rest[len(wanted):]
    return f"printed behind the end: {rest[:200]!r}"


def play(program, run):
    """What is wrong with the run, or None."""
    with tempfile.NamedTemporaryFile(prefix="run-") as script:
        script.write(run.text())
        script.flush()
        words = [program, run.command, script.name]
        try:
            ended = subprocess.run(words, stdin=subprocess.DEVNULL, capture_output=True, timeout=SECONDS)
        except subprocess.TimeoutExpired:
            return f"not over after {SECONDS} s"
    if ended.stdout != run.printed():
        return difference(run, ended.stdout)
    if ended.returncode != run.status:
        return f"status {ended.returncode}, wanted {run.status}"
    if ended.stderr:
        return f"printed to standard error: {ended.stderr[:200]!r}"
    return None


def main():
    if len(sys.argv) < 2:
        sys.exit(__doc__)
    program = os.path.realpath(sys.argv[1])
    runs = transcript.read_all(sys.argv[2:])
    failed = 0
    with ThreadPoolExecutor(max_workers=os.cpu_count()) as pool:
        for run, wrong in zip(runs, pool.map(lambda run: play(program, run), runs)):
            if wrong:
                failed += 1
                print(f"{run.where}: {run.title}: {wrong}")
    print(f"{len(runs) - failed} passed, {failed} failed")
    sys.exit(1 if failed or not runs else 0)


main()
