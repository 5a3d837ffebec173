#!/usr/bin/env python3
"""Carries out the commands of sessions with a built program, and compares what each prints and its status:

    tests/sessions.py PROGRAM [FILE..]      without a FILE each of examples/*.session

A session begins in an empty folder, in which `examples` is that of the repository. Behind `$ regtx ` stand the words of a
command; the lines beneath are what it prints, up to an empty line, a comment (`#`) or the next command; a last line `status N`
is its status, 0 where there is none. The last line of this is 'N passed, N failed'; status 0 where none failed.
"""
import glob
import os
import sys

TOP = os.path.dirname(os.path.dirname(os.path.abspath(__file__)))
sys.dont_write_bytecode = True
sys.path.insert(0, os.path.join(TOP, "tests"))
from scratch import expect, finish, program_at, tell  # noqa: E402

COMMAND, STATUS = "$ regtx ", "status "


def commands(path):
    """The words of each command of a session, with what it prints and its status."""
    found = []
    with open(path, encoding="utf-8") as file:
        for line in file.read().splitlines():
            if line.startswith(COMMAND):
                found.append([line.removeprefix(COMMAND).split(" "), "", 0])
            elif line.startswith(STATUS):
                found[-1][2] = int(line.removeprefix(STATUS))
            elif line and not line.startswith("#"):
                found[-1][1] += f"{line}\n"
    return found


def results(program, path):
    """What is wrong with each command of a session."""
    os.symlink(os.path.join(TOP, "examples"), program.at("examples"))
    for words, text, status in commands(path):
        yield expect(" ".join(words), program.run(*words), (text.encode(), status))


def main():
    if len(sys.argv) < 2:
        sys.exit(__doc__)
    counts = []
    for path in sys.argv[2:] or sorted(glob.glob(os.path.join(TOP, "examples", "*.session"))):
        with program_at(sys.argv[1], "sessions-") as program:
            counts.append(tell(os.path.basename(path), list(results(program, path))))
    finish(counts)


main()
