#!/usr/bin/env python3
"""Plays scripts with a built program while its memory is refused, and judges the replies:

    tests/memory.py PROGRAM FILE..       FILEs of runs, as tests/transcript.py has them

Each run is played once for each of the program's allocations, which is refused, and once more with it and all later
ones refused. Each line has to be answered `E1 NoMemory`, or as in a run without the lines that were: so a refused line
has changed nothing. A commit alone may be refused for a step of the journal, behind its change: that stands then, and the
others have to be answered as in a run with it. Lines that take no memory are never refused so. Where memory for reading a
line is refused the run ends there. The last line is 'N passed, N failed'; status 0 where none failed.
"""
import os
import subprocess
import sys
import tempfile
from concurrent.futures import ThreadPoolExecutor

sys.dont_write_bytecode = True
sys.path.insert(0, os.path.dirname(os.path.abspath(__file__)))
import transcript  # noqa: E402
from scratch import refusal_shim  # noqa: E402

WANT = b"E1 NoMemory\n"
MODES = ["FAILALLOC_AT", "FAILALLOC_FROM"]
# the first words of lines that take no memory
NO_MEMORY = {b"at", b"rollback", b"close", b"end", b"outcome"}
SECONDS = 120


def word(line):
    """The first word of a line."""
    return line.split()[0]


def is_pending(lines, replies):
    """Whether some change may not be durable behind these lines and their replies."""
    pending = False
    for line, reply in zip(lines, replies):
        if b"accepted" in reply or (reply == WANT and word(line) == b"commit"):
            pending = True
        # `kept` is answered so too, and makes nothing durable
        elif word(reply) == b"flushed" or (word(line) == b"commit" and word(reply) == b"committed" and reply.split()[1] != b"0"):
            pending = False
    return pending


def takes_none(lines, replies, number):
    """Whether the line of this number takes no memory behind those before it: a flush takes none where all is durable."""
    first = word(lines[number - 1])
    return first in NO_MEMORY or (first == b"flush" and not is_pending(lines[:number - 1], replies))


class Judge:
    """A program, the shim that refuses memory, and what the program prints of scripts with ample memory."""

    def __init__(self, program):
        self.program = program
        self.shim = refusal_shim()
        self.plain = {}

    def played(self, run, lines, **refused):
        """What is printed of the lines, the status, and how many allocations were refused."""
        with tempfile.TemporaryDirectory(prefix="memory-") as folder:
            script, report = os.path.join(folder, "script"), os.path.join(folder, "report")
            with open(script, "wb") as file:
                file.write(b"".join(lines))
            given = dict(os.environ, LD_PRELOAD=self.shim, FAILALLOC_REPORT=report, **refused)
            words = [self.program, run.command, script]
            ended = subprocess.run(words, stdin=subprocess.DEVNULL, capture_output=True, env=given, timeout=SECONDS)
            if not os.path.exists(report):
                return ended.stdout, ended.returncode, None
            with open(report, encoding="ascii") as file:
                return ended.stdout, ended.returncode, int(file.read().split("refused=")[1])

    def without_want(self, run, lines):
        """What is printed of the lines with ample memory."""
        key = (run.command, tuple(lines))
        if key not in self.plain:
            self.plain[key] = self.played(run, lines)[0].splitlines(keepends=True)
        return self.plain[key]

    def wrong_in(self, run, printed, status):
        """What is wrong with what was printed where memory was refused, or None."""
        replies = printed.splitlines(keepends=True)
        if len(replies) > len(run.script):
            return "more replies than lines"
        if len(replies) < len(run.script) and replies[-1:] != [WANT]:
            return "the run ended early, and not for want of memory"
        for number, (line, reply) in enumerate(zip(run.script, replies), 1):
            if reply == WANT and takes_none(run.script, replies, number) and not self.ended_at(run, number, replies):
                return f"{line!r} was refused, which takes no memory"
        told = [number for number, reply in enumerate(replies) if reply != WANT]
        refused = [number for number, reply in enumerate(replies) if reply == WANT]
        stood = [number for number in refused[:1] if word(run.script[number]) == b"commit"]
        if told and not any(self.is_answered_as(run, replies, told, with_it) for with_it in ([], stood)):
            return f"not answered as without the lines that were refused: {[replies[number] for number in told]}"
        if WANT in replies and status != 1:
            return f"status {status}, wanted 1"
        return None

    def is_answered_as(self, run, replies, told, stood):
        """Whether the lines that were told something were answered as in a run of them and of those that stood."""
        carried_out = sorted(told + stood)
        wanted = self.without_want(run, [run.script[number] for number in carried_out])
        if len(wanted) != len(carried_out):
            return False
        return all(number in stood or replies[number] == reply for number, reply in zip(carried_out, wanted))

    @staticmethod
    def ended_at(run, number, replies):
        """Whether memory to read the line of this number was refused: it is the last, and longer than each before."""
        longest = max((len(line) for line in run.script[:number - 1]), default=0)
        return number == len(replies) and len(run.script[number - 1]) > longest

    def judge(self, run, mode):
        """How often memory was refused in this mode, and what was wrong at which allocation."""
        wanted, ending, _ = self.played(run, run.script)
        wrong, refused = [], 1
        number = 0
        while refused:
            number += 1
            printed, status, refused = self.played(run, run.script, **{mode: str(number)})
            if refused is None:
                wrong.append(f"allocation {number}: the program broke off, status {status}")
                break
            if not refused:
                why = None if (printed, status) == (wanted, ending) else "without a refusal it differs from the plain run"
            else:
                why = self.wrong_in(run, printed, status)
            if why:
                wrong.append(f"allocation {number}: {why}")
        return number - 1, wrong


def main():
    if len(sys.argv) < 3:
        sys.exit(__doc__)
    judge = Judge(os.path.realpath(sys.argv[1]))
    tasks = [(run, mode) for run in transcript.read_all(sys.argv[2:]) for mode in MODES]
    passed = failed = 0
    with ThreadPoolExecutor(max_workers=os.cpu_count()) as pool:
        for (run, mode), (count, wrong) in zip(tasks, pool.map(lambda task: judge.judge(*task), tasks)):
            passed += count - len(wrong)
            failed += len(wrong)
            for why in wrong[:5]:
                print(f"{run.where}: {run.title}: {mode.lower()}: {why}")
    print(f"{passed} passed, {failed} failed")
    sys.exit(1 if failed or not passed else 0)


main()
