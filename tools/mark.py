#!/usr/bin/env python3
"""Marks a program with what it was built of, for its command `about`:

    tools/mark.py FILE proved|unproved

A mark is the last 256 bytes of the program's file: the line `regtx build`, the lines that `about` prints, and zeros. They
are the commit of the checkout, with `and changes` if files of it differ; and by which toolchain the program was proved, or
that it wasn't. An earlier mark is replaced. The file's time stays, since other tools compare it with those of sources.
"""
import os
import subprocess
import sys

sys.dont_write_bytecode = True
sys.path.insert(0, os.path.dirname(os.path.abspath(__file__)))
from graph import TOP  # noqa: E402

HEAD, LENGTH = b"\nregtx build\n", 256


def output(*words):
    """What a command prints in the checkout, without the line's end, or None if it isn't there or fails."""
    try:
        ran = subprocess.run(words, cwd=TOP, capture_output=True, text=True)
    except OSError:
        return None
    return None if ran.returncode else ran.stdout.strip()


def commit():
    name = output("git", "rev-parse", "--short=12", "HEAD")
    if name is None:
        return "commit unknown"
    return f"commit {name}" + (" and changes" if output("git", "status", "--porcelain") else "")


def lines(is_proved):
    kit = output("rt", "version") or "an unknown toolchain"
    return f"{commit()}\n{'proved by' if is_proved else 'not proved; built by'} {kit.splitlines()[0]}\n"


def mark(path, is_proved):
    """Gives a program its mark, in place of an earlier one."""
    text = HEAD + lines(is_proved).encode()[:LENGTH - len(HEAD) - 1]
    with open(path, "rb") as file:
        program = file.read()
    if program[-LENGTH:].startswith(HEAD):
        program = program[:-LENGTH]
    times = os.stat(path)
    part = f"{path}.mark"
    with open(part, "wb") as file:
        file.write(program + text.ljust(LENGTH, b"\0"))
    os.chmod(part, times.st_mode)
    os.replace(part, path)
    os.utime(path, ns=(times.st_atime_ns, times.st_mtime_ns))


if __name__ == "__main__":
    if len(sys.argv) != 3 or sys.argv[2] not in ("proved", "unproved"):
        sys.exit(__doc__)
    mark(sys.argv[1], sys.argv[2] == "proved")
