#!/usr/bin/env python3
"""Tries the command of a fresh clone, `./regtx`, and the program that it builds without proofs:

    tests/launcher.py

- help: it and the version are printed with status 0, and nothing is built; without words the usage, and what the program itself answers.
- without rt: one line says what is missing, status 1.
- choice: the proved program runs if it is as new as its files, else the one without proofs. The shell chooses without python3 if
  nothing else is newer.
- build: a program is built in some minutes, and says so; it plays a script, and each transcript of runs/ as it is written; the
  next call finds it there; if a proved program is there, that one runs. A source that can't be compiled is told.

The last line is 'N passed, N failed', and the status is 0 if none failed.
"""
import os
import re
import shutil
import subprocess
import sys
import tempfile
import time
from contextlib import contextmanager

TOP = os.path.dirname(os.path.dirname(os.path.abspath(__file__)))
sys.dont_write_bytecode = True
sys.path[:0] = [os.path.join(TOP, "tests"), os.path.join(TOP, "tools")]
from graph import below, crates  # noqa: E402
from scratch import expect, finish, tell  # noqa: E402

FIRST = b"ok\nok\ncreated 2 accepted 1\naccepted 2\nvalue 1 4100\nkeys 1 Software\n"
NO_RT = b"regtx: the program isn't built yet, and the Rattle toolchain that builds it is missing: no rt on the path\n"
NO_PYTHON = b"regtx: python3, which finds or builds the program, is not on the path\n"
UNPROVED = b"; not proved on this machine; rt ci proves it\n"
SECONDS = 1_800
PROVED, QUICK = "crates/regtx/out/regtx", "out/quick/regtx"
# what is newer than both programs, which of them runs, and which the shell runs alone; None: neither
CHOICES = [
    ("", PROVED, PROVED),
    ("crates/reg_names/README.md", PROVED, PROVED),
    ("crates/reg_names/proofs/Folding.antt", QUICK, None),
    ("crates/reg_names/specs", QUICK, None),
    ("crates/reg_names/src/lib.rt", None, None),
    ("crates/reg_names/src", None, None),
    ("crates.txt", None, None),
    # no part of the program
    ("crates/regtx_c/src/lib.rt", PROVED, None),
]


def clone(home):
    """The files of the repository as they stand, without what was built of them."""
    graph = crates()
    parts = ["regtx", "HANDLES", "crates.txt", "tests/programs.txt", "tools", "examples"]
    os.mkdir(os.path.join(home, "tests"))
    for part in [*parts, *[f"crates/{name}" for name in ["regtx", *below("regtx", graph)]]]:
        source, target = os.path.join(TOP, part), os.path.join(home, part)
        if os.path.isdir(source):
            shutil.copytree(source, target, ignore=shutil.ignore_patterns("out", "__pycache__"))
        else:
            shutil.copy2(source, target)


def ran(home, *words, **given):
    """What is printed, what standard error is told, and the status."""
    ended = subprocess.run([os.path.join(home, "regtx"), *words], cwd=home, stdin=subprocess.DEVNULL, capture_output=True,
                           timeout=SECONDS, **given)
    return ended.stdout, ended.stderr, ended.returncode


@contextmanager
def path_of(*names):
    """The environment in which these programs alone are on the path."""
    with tempfile.TemporaryDirectory(prefix="launcher-path-") as path:
        for name in names:
            os.symlink(shutil.which(name), os.path.join(path, name))
        yield {"PATH": path}


def helps(home):
    """What is wrong with the answers that need no program."""
    usage = ran(home, "help")[0]
    yield None if usage.startswith(b"usage: ./regtx new DIR ID COUNT") else f"help prints {usage[:80]!r}"
    for word in ("help", "--help", "-h"):
        yield expect(word, ran(home, word), (usage, b"", 0))
    yield expect("no word", ran(home), (b"wrong words\n", usage, 2))
    with open(os.path.join(home, "crates", "regtx", "src", "about.rt"), encoding="utf-8") as file:
        version = re.search('VERSION: &str = "(.*)"', file.read())[1]
    for word in ("--version", "-V"):
        yield expect(word, ran(home, word), (f"regtx {version}\n".encode(), b"", 0))
    with path_of("readlink", "python3") as environment:
        yield expect("without rt", ran(home, "play", "examples/first.txt", env=environment), (b"", NO_RT, 1))
    yield None if not os.path.exists(os.path.join(home, "out", "quick")) else "something was built"


def put_program(home, name):
    """Puts a program there that prints its own name."""
    path = os.path.join(home, name)
    os.makedirs(os.path.dirname(path), exist_ok=True)
    with open(path, "w", encoding="ascii") as file:
        file.write(f"#!/bin/sh\necho {name}\n")
    os.chmod(path, 0o755)


def chosen(home):
    """Which program runs, and which the shell runs alone, without python3. Nothing can be built."""
    found = []
    for names in (["readlink", "find", "python3"], ["readlink", "find"]):
        with path_of(*names) as environment:
            printed, told, status = ran(home, "usage", env=environment)
        refusal = NO_RT if "python3" in names else NO_PYTHON
        found.append(None if (printed, told, status) == (b"", refusal, 1) else printed.decode().strip() if not told else told)
    return tuple(found)


def chooses(home):
    """What is wrong with the choice between the two programs."""
    later = time.time() + 100
    for newer, wanted, alone in CHOICES:
        path = os.path.join(home, newer)
        if not os.path.exists(path):
            os.makedirs(os.path.dirname(path))
            open(path, "x").close()
        put_program(home, PROVED)
        put_program(home, QUICK)
        before = os.stat(path).st_mtime
        os.utime(path, (later, later))
        yield expect(f"newer than both: {newer or 'nothing'}", chosen(home), (wanted, alone))
        os.utime(path, (before, before))
    os.chmod(os.path.join(home, PROVED), 0o644)
    yield expect("a proved program that can't be run", chosen(home), (QUICK, QUICK))
    with path_of("readlink", "python3") as environment:
        yield expect("without find", ran(home, "usage", env=environment), (f"{QUICK}\n".encode(), b"", 0))
    shutil.rmtree(os.path.join(home, os.path.dirname(PROVED)))
    yield expect("no proved program", chosen(home), (QUICK, QUICK))
    # the clock of files moves in steps
    time.sleep(0.1)
    gone = os.path.join(home, "crates", "reg_names", "src", "gone.rt")
    open(gone, "x").close()
    os.remove(gone)
    yield expect("a file was taken away", chosen(home), (None, None))
    shutil.rmtree(os.path.join(home, os.path.dirname(QUICK)))


def builds(home):
    """What is wrong with the program that is built without proofs."""
    printed, told, status = ran(home, "play", "examples/first.txt")
    yield expect("the first command", (printed, status), (FIRST, 0))
    lines = told.splitlines(keepends=True)
    is_told = len(lines) == 2 and lines[1].startswith(b"regtx: built in ") and lines[1].endswith(UNPROVED)
    yield None if is_told else f"the first command says {told!r}"
    yield expect("the second command", ran(home, "play", "examples/first.txt"), (FIRST, b"", 0))
    played = subprocess.run([os.path.join(TOP, "tests", "runs.py"), os.path.join(home, "out", "quick", "regtx")],
                            capture_output=True, text=True)
    yield None if not played.returncode else f"the transcripts: {played.stdout[-500:]}"
    put_program(home, PROVED)
    yield expect("with a proved program", ran(home, "play", "examples/first.txt"), (f"{PROVED}\n".encode(), b"", 0))
    with open(os.path.join(home, "crates", "regtx", "src", "main.rt"), "a", encoding="utf-8") as file:
        file.write("fn broken(\n")
    printed, told, status = ran(home, "play", "examples/first.txt")
    yield None if (printed, status) == (b"", 1) and b"Traceback" not in told and b"main.rt" in told else f"a broken source: {told!r}"


def main():
    if len(sys.argv) != 1:
        sys.exit(__doc__)
    with tempfile.TemporaryDirectory(prefix="launcher-") as home:
        clone(home)
        finish([tell("help", list(helps(home))), tell("choice", list(chooses(home))), tell("build", list(builds(home)))])


main()
