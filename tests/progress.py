#!/usr/bin/env python3
"""Has a built program `regtx` do work that takes long, and sees what a terminal is told of how far it has come:

    tests/progress.py PROGRAM

Where standard error alone is a terminal a line tells it, in hundredths that never fall within a stage of the work, and is gone at the
end. Where it is none, and where the replies go to a terminal too, nothing is told. The replies are the same. Long work is stopped
again and again while it is done, so that it takes long on any machine. Ends with status 0 where all is as it should be.
"""
import filecmp
import os
import pty
import re
import signal
import subprocess
import sys
import tempfile
import threading
import time

TOLD = re.compile(rb"\r(?:([a-z]+): (\d+) %|\x1b\[K)")
ID = "936da01f-9abd-4d9d-80c7-02af85c822a8"
# long work goes on and is stopped by turns, for so many seconds each, and so many times at most: what of it is done in a fiftieth of
# a second takes a whole one, where half a second is waited for before anything is told
GOES, STOPPED, TIMES = 0.002, 0.1, 30
LINES = 300_000
HIVES, KEYS = 16, 16_000


def drained(terminal, into):
    """What a program writes to a terminal, until it ends."""
    while True:
        try:
            piece = os.read(terminal, 65_536)
        except OSError:
            return
        if not piece:
            return
        into.extend(piece)


def carried_out(words, times, **streams):
    """Carries out these words of a program, which is stopped so many times."""
    with subprocess.Popen(words, stdin=subprocess.DEVNULL, **streams) as program:
        for _ in range(times):
            time.sleep(GOES)
            program.send_signal(signal.SIGSTOP)
            time.sleep(STOPPED)
            program.send_signal(signal.SIGCONT)
    if program.returncode:
        sys.exit(f"{words} end with status {program.returncode}")


def shown_by(words, replies=None, times=TIMES):
    """What stands on a terminal that is the standard error of a program, and its standard output too where no file is given for that."""
    ours, theirs = pty.openpty()
    shown = bytearray()
    reader = threading.Thread(target=drained, args=(ours, shown))
    reader.start()
    carried_out(words, times, stdout=replies or theirs, stderr=theirs)
    os.close(theirs)
    reader.join()
    os.close(ours)
    return bytes(shown)


def wrong_in(shown, stages):
    """What is wrong of what was shown: of these stages some are told of, each in hundredths that never fall, and the line is gone behind
    each and at the end."""
    if TOLD.sub(b"", shown):
        yield f"standard error is told {shown[:200]!r}"
    told = [(match[1].decode(), int(match[2])) if match[1] else None for match in TOLD.finditer(shown)]
    if not any(told) or told[-1]:
        yield f"{stages[0]}: no line, or one that stays: {told[-5:]}"
    for before, after in zip(told, told[1:]):
        if before and after and (before[0] != after[0] or before[1] > after[1]):
            yield f"{before} is followed by {after}"
    works = [work for work in stages if any(step and step[0] == work for step in told)]
    if [step[0] for step, last in zip(told, [None, *told]) if step and not last] != works or works[:1] != stages[:1]:
        yield f"{stages[0]}: stages are told in another order, or none of the first: {works}"
    if any(step and not 0 <= step[1] <= 100 for step in told):
        yield "a hundredth past all"


def long_script(folder):
    """The path of a script that is long. It reads, since a store accepts but so many changes."""
    path = f"{folder}/script"
    with open(path, "w", encoding="ascii") as script:
        script.write("hives 1\nset 0: v 4 01000000\n" + "get 0: v\n" * LINES)
    return path


def faults_of_play(program, folder):
    """What isn't as it should be where scripts are played."""
    words = [program, "play", long_script(folder)]
    replies, told = f"{folder}/replies", f"{folder}/replies-beside-a-line"
    with open(replies, "w+b") as file, open(f"{folder}/errors", "w+b") as errors:
        carried_out(words, TIMES, stdout=file, stderr=errors)
        if errors.tell():
            yield "standard error that is no terminal is told something"
    with open(told, "wb") as file:
        yield from wrong_in(shown_by(words, file), ["play"])
    if not filecmp.cmp(replies, told, shallow=False):
        yield "the replies are others where standard error is a terminal"
    if re.search(rb"play: \d+ %", shown_by(words)):
        yield "a line stands between replies on a terminal"
    short = f"{folder}/short"
    with open(short, "w", encoding="ascii") as script:
        script.write("hives 1\ncreate 0:A\n")
    with open(told, "wb") as file:
        if shown_by([program, "play", short], file, 0):
            yield "a short script is told something of"


def hive_of(program, folder, keys):
    """The path of a hive with so many keys below its root."""
    script, store = f"{folder}/keys", f"{folder}/one"
    with open(script, "w", encoding="ascii") as file:
        file.write("".join(f"create 0:k{number}\n" for number in range(keys)))
    subprocess.run([program, "new", store, ID, "1"], stdout=subprocess.DEVNULL, check=True)
    subprocess.run([program, "run", store, script], stdout=subprocess.DEVNULL, check=True)
    return f"{store}/hive00.dat"


def faults_of_stores(program, folder):
    """What isn't as it should be where a long store is made, and opened."""
    hive = hive_of(program, folder, KEYS)
    with open(f"{folder}/replies", "wb") as file:
        words = [program, "import", f"{folder}/many", ID, *[hive] * HIVES]
        yield from wrong_in(shown_by(words, file), ["import"])
        words = [program, "run", f"{folder}/many", "/dev/null"]
        yield from wrong_in(shown_by(words, file), ["opening", "run"])
    with open(f"{folder}/replies", "rb") as file:
        if file.read() != b"ok\nopened 0\n":
            yield "other replies where a long store is made and opened"


def main():
    if len(sys.argv) != 2:
        sys.exit(__doc__)
    program = os.path.realpath(sys.argv[1])
    with tempfile.TemporaryDirectory(prefix="progress-") as folder:
        found = [*faults_of_play(program, folder), *faults_of_stores(program, folder)]
    for fault in found:
        print(fault)
    print(f"progress: {len(found) or 'no'} faults")
    sys.exit(bool(found))


main()
