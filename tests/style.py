#!/usr/bin/env python3
"""Compares the layout of the programs of tests/programs.txt with the one that the toolchain's formatter writes:

    tests/style.py             tells each file that differs
    tests/style.py --write     writes them anew

`rt fmt` sees crates alone, and `rt ci` theirs. The last line is 'N passed, N failed', and the status is 0 if none failed.
"""
import os
import shutil
import subprocess
import sys
import tempfile

sys.dont_write_bytecode = True
TOP = os.path.dirname(os.path.dirname(os.path.abspath(__file__)))
sys.path.insert(0, f"{TOP}/tools")
from graph import folder_of, programs  # noqa: E402
from scratch import finish, tell  # noqa: E402


def sources():
    """The files of all programs."""
    return [os.path.join(folder, name) for program in programs() for folder, _, names in os.walk(folder_of(program))
            for name in sorted(names) if name.endswith(".rs")]


def laid_out(path, folder, kit):
    """The file as the formatter writes it."""
    copy = os.path.join(folder, "file.rt")
    shutil.copyfile(path, copy)
    subprocess.run([f"{kit}/bin/rattle", "fmt", "--write", copy], stdout=subprocess.DEVNULL, check=True)
    with open(copy, "rb") as file:
        return file.read()


def results(is_written):
    kit = os.path.dirname(subprocess.run(["rt", "doc"], stdout=subprocess.PIPE, text=True, check=True).stdout.strip())
    with tempfile.TemporaryDirectory(prefix="style-") as folder:
        for path in sources():
            with open(path, "rb") as file:
                before = file.read()
            after = laid_out(path, folder, kit)
            if is_written and before != after:
                with open(path, "wb") as file:
                    file.write(after)
            yield None if before == after or is_written else f"{os.path.relpath(path, TOP)} has another layout"


def main():
    if sys.argv[1:] not in ([], ["--write"]):
        sys.exit(__doc__)
    finish([tell("style", list(results(bool(sys.argv[1:]))))])


main()
