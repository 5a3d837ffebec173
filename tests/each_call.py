#!/usr/bin/env python3
"""Runs each test of a built program of tests, each in a process of its own:

    tests/each_call.py PROGRAM

PROGRAM is `calls` of tests/programs.txt. The last line is 'N passed, N failed', and the status is 0 if none failed.
"""
import os
import subprocess
import sys
from concurrent.futures import ThreadPoolExecutor

sys.dont_write_bytecode = True
from scratch import SECONDS, finish, tell  # noqa: E402


def names(program):
    """The tests that the program lists."""
    listed = subprocess.run([program, "--list"], stdout=subprocess.PIPE, text=True, check=True).stdout.splitlines()
    return [line.removesuffix(": test") for line in listed if line.endswith(": test")]


def wrong_test(program, name):
    """What is wrong with a test, or None."""
    try:
        ended = subprocess.run([program, name], stdin=subprocess.DEVNULL, capture_output=True, text=True, timeout=SECONDS)
    except subprocess.TimeoutExpired:
        return f"{name}: it took too long"
    return None if ended.returncode == 0 else f"{name}: status {ended.returncode}: {ended.stdout[-300:]}{ended.stderr[-300:]}"


def main():
    if len(sys.argv) != 2:
        sys.exit(__doc__)
    program = os.path.abspath(sys.argv[1])
    with ThreadPoolExecutor(max_workers=os.cpu_count()) as pool:
        finish([tell("calls", list(pool.map(lambda name: wrong_test(program, name), names(program))))])


main()
