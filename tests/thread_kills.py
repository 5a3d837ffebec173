#!/usr/bin/env python3
"""Ends programs whose 32 threads commit by SIGKILL at random moments, and opens the store again after each:

    tests/thread_kills.py PROGRAM [SEED]

PROGRAM is regtx_bench. Each of 32 threads commits one transaction after another, of four values over two hives, and a line is
printed for each commit that is acknowledged. Runs are ended by SIGKILL: while the store is opened, between and within commits, and
while the end of a run moves changes into the hives. After each, the store must open, with each acknowledged commit: the last round
of a thread is the last that was acknowledged, or the next one, which was under way. No transaction is there in part: the four
values of a round are of that round, in the last rounds of each thread. The next run must go on after those.

The seed is printed. The last line is 'N passed, N failed', and the status is 0 if none failed; what is left after 120 seconds
fails. A process that ends leaves what it wrote to the system, so this shows nothing of syncs, and the store lies in memory if
there is a folder for that. Moments come by chance, and so does the schedule of the threads: a seed gives no run again.
"""
import os
import random
import subprocess
import sys
import tempfile
import threading
import time

TOP = os.path.dirname(os.path.dirname(os.path.abspath(__file__)))
sys.dont_write_bytecode = True
sys.path.insert(0, os.path.join(TOP, "tests"))
from scratch import SECONDS, Program, finish, shown, tell  # noqa: E402

THREADS, TURNS, PLACES = 32, 4, 4
KILLS, MOST_SECONDS = 100, 120
# more commits than a run makes before it is killed, and those of a run that is killed at its end
MANY, FEW = 1_000_000, 100
MOST_LINES = 2_000
# where files lie in memory
MEMORY = "/dev/shm"


class Run:
    """A run whose lines are gathered as they come."""

    def __init__(self, program, folder, count):
        self.child = subprocess.Popen([program.path, "acked", folder, str(THREADS), str(count)], cwd=program.home,
                                      stdin=subprocess.DEVNULL, stdout=subprocess.PIPE, stderr=subprocess.PIPE)
        self.lines, self.is_over = [], False
        self.has_come = threading.Condition()
        self.reader = threading.Thread(target=self.gather)
        self.reader.start()

    def gather(self):
        for line in self.child.stdout:
            with self.has_come:
                self.lines.append(line)
                self.has_come.notify()
        with self.has_come:
            self.is_over = True
            self.has_come.notify()

    def wait_for(self, count):
        """Waits until so many lines have come, or the run has ended; answers whether that was so in time."""
        with self.has_come:
            return self.has_come.wait_for(lambda: len(self.lines) >= count or self.is_over, timeout=SECONDS)

    def kill(self):
        """Ends the run by SIGKILL; answers its status."""
        self.child.kill()
        return self.end()

    def end(self):
        """Waits until the run has ended; answers its status."""
        status = self.child.wait(timeout=SECONDS)
        self.reader.join()
        self.told = self.child.stderr.read().decode()
        self.child.stdout.close()
        self.child.stderr.close()
        return status


class Model:
    """What the store has to hold: the last round of each thread, and the number of the last change that was acknowledged."""

    def __init__(self):
        self.rounds, self.number = [0] * THREADS, 0

    def acknowledge(self, line):
        """Takes a line of a run; answers what is wrong with it."""
        words = line.decode().split()
        if len(words) != 3 or not line.endswith(b"\n") or not all(word.isdigit() for word in words):
            return f"a line {shown(line)}"
        thread, number, at = map(int, words)
        if thread >= THREADS or at != self.rounds[thread] + 1:
            return f"a line {shown(line)} after round {self.rounds[thread]}"
        self.rounds[thread] = at
        self.number = max(self.number, number)
        return None

    def wrong_line(self, lines, before):
        """What is wrong with the lines of a run, which began when changes up to a number were acknowledged."""
        for line in lines:
            wrong = self.acknowledge(line)
            if wrong:
                return wrong
        numbers = [int(line.split()[1]) for line in lines]
        if len(set(numbers)) != len(numbers) or any(number <= before for number in numbers):
            return "a number of a change comes again"
        return None

    def wrong_round(self, thread, found):
        """What is wrong with the values of a thread, as the rounds of each turn; the model takes the last one."""
        last = max((rounds[0] for rounds in found.values()), default=0)
        wanted = {at % TURNS: [at] * PLACES for at in range(max(1, last - TURNS + 1), last + 1)}
        if found != wanted:
            return f"thread {thread} has the rounds {shown(found)}"
        if last not in (self.rounds[thread], self.rounds[thread] + 1):
            return f"thread {thread} has round {last}, and {self.rounds[thread]} was acknowledged"
        self.rounds[thread] = last
        return None


def rounds_printed(printed):
    """The rounds that `check` prints: of each thread, by turns."""
    found = [{} for _ in range(THREADS)]
    for line in printed.decode().splitlines():
        thread, turn, *rounds = line.split(" ")
        found[int(thread)][int(turn)] = [-1 if at == "-" else int(at) for at in rounds]
    return found


def wrong_store(program, folder, model):
    """What is wrong with the store as it opens now."""
    printed, status = program.run("check", folder)
    if status != 0:
        return f"check: status {status}, {shown(printed)}"
    for thread, found in enumerate(rounds_printed(printed)):
        wrong = model.wrong_round(thread, found)
        if wrong:
            return wrong
    return None


def life(program, folder, model, chances):
    """One run and the opening after it: whether the run was killed, and what is wrong."""
    kind = chances.choice(["opening", "lines", "lines", "lines", "lines", "lines", "lines", "end"])
    count = FEW if kind == "end" else MANY
    before = model.number
    run = Run(program, folder, count)
    came = run.wait_for({"opening": 0, "lines": chances.randint(1, MOST_LINES), "end": FEW}[kind])
    time.sleep(chances.random() * (0.02 if kind == "opening" else 0.004))
    status = run.kill()
    if not came:
        return False, f"it hung after {len(run.lines)} lines"
    if status >= 0 and (status, len(run.lines)) != (0, count):
        return False, f"status {status} after {len(run.lines)} lines, {shown(run.told)}"
    return status < 0, model.wrong_line(run.lines, before) or wrong_store(program, folder, model)


def lives(program, seed):
    """All runs, and what is wrong with each."""
    begun = time.monotonic()
    model, chances, killed, number = Model(), random.Random(seed), 0, 0
    # the store is made by a run that ends by itself
    made = Run(program, "store", FEW)
    status = made.end()
    yield model.wrong_line(made.lines, 0) or (f"status {status}, {shown(made.told)}" if status else None)
    while killed < KILLS:
        if time.monotonic() - begun > MOST_SECONDS:
            yield f"{killed} runs were killed after {MOST_SECONDS} seconds"
            return
        number += 1
        was_killed, wrong = life(program, "store", model, chances)
        killed += was_killed
        yield f"run {number}: {wrong}" if wrong else None
        if wrong:
            return
    print(f"{killed} of {number} runs were killed; {sum(model.rounds)} commits, the last is change {model.number}")


def memory():
    """The folder whose files lie in memory, if there is one that can be written; or None."""
    return MEMORY if os.access(MEMORY, os.W_OK) else None


def main():
    if len(sys.argv) not in (2, 3):
        sys.exit(__doc__)
    seed = int(sys.argv[2]) if len(sys.argv) == 3 else 20_261
    print(f"seed {seed}")
    with tempfile.TemporaryDirectory(prefix="thread_kills-", dir=memory()) as home:
        finish([tell("thread_kills", list(lives(Program(os.path.realpath(sys.argv[1]), home), seed)))])


main()
