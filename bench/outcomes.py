#!/usr/bin/env python3
"""Measures what the outcome of a commit costs, on the device of a folder and in memory (tmpfs), where a sync costs nothing:

    bench/outcomes.py PROGRAM [--folder FOLDER] [--write]

The same program runs the same lines over two stores: one of the layout that keeps no outcomes, and one that keeps them. A commit is
of one write of four bytes; all are of one unit of work, or each of its own, of which more than 4,096 come. Processor time (user and
system, of all threads) is the least of several runs. It is told twice: up to the reply to the last commit; and with what the run's
end flushes into the hives then, as the difference to a run without the commits counted. Bytes of the journal are those by which the
file grew between the replies. `--write` puts the tables into docs/MEASURED.md.
"""
import os
import subprocess
import sys
import tempfile
import threading
import typing
import uuid

sys.dont_write_bytecode = True
import measured  # noqa: E402

ID = "936da01f-9abd-4d9d-80c7-02af85c822a8"
RUNS, KEYS, KEPT, COUNTED, MEMORY = 5, 1_000, 4_096, 20_000, "/dev/shm"
# the store's layouts: the letters of its journal, and whether it keeps outcomes
LAYOUTS = [(b"KTMJRNL1", False), (b"KTMJRNL2", True)]


def keys():
    """The lines that make the keys which hold the values, in one commit."""
    yield f"begin k {ID}"
    yield from (f"tx k create 0:key{number:03}" for number in range(KEYS))
    yield "commit k"
    yield "close k"


def unit(number):
    """The unit of work of a number: its bits in no order, as those that clients choose."""
    return uuid.uuid5(uuid.UUID(ID), str(number))


def commits(first, count, is_own):
    """Commits of one write each, of one unit of work or each of its own."""
    for number in range(first, first + count):
        yield f"begin t {unit(number) if is_own else ID}"
        yield f"tx t set 0:key{number % KEYS:03} v 4 {number.to_bytes(4, 'little').hex()}"
        yield "commit t"
        yield "close t"


# what is counted, how many commits are made before, and whether each is of a unit of its own
WORKS = [("one unit of work", 1, False), (f"units of work, up to {KEPT:,}", 1, True),
         (f"units of work, from the {KEPT + 1:,}th on", KEPT, True)]


def counted(before, is_own):
    """How many commits are counted."""
    return KEPT - 2 if is_own and before < KEPT else COUNTED


def new_store(program, folder, letters, keeps):
    """Makes a store of one hive in this layout."""
    subprocess.run(["rm", "-rf", folder], check=True)
    subprocess.run([program, "new", folder, ID, "1"], stdout=subprocess.DEVNULL, check=True)
    with open(f"{folder}/journal", "r+b") as file:
        file.write(letters)
    if not keeps:
        os.remove(f"{folder}/hive01.dat")


class Spent(typing.NamedTuple):
    """What a run took: nanoseconds up to the last reply, and seconds in all; by how much the journal grew, and the hive's bytes."""
    replied: int
    ended: float
    grew: int
    kept: int


def processor_time(pid):
    """The nanoseconds that the threads of a program have run."""
    folder = f"/proc/{pid}/task"
    times = []
    for task in os.listdir(folder):
        with open(f"{folder}/{task}/schedstat", encoding="ascii") as file:
            times.append(int(file.read().split()[0]))
    return sum(times)


def answer(run, lines):
    """Writes lines to a run, and reads a reply to each."""
    lines = list(lines)
    text = "".join(f"{line}\n" for line in lines)
    writer = threading.Thread(target=lambda: (run.stdin.write(text), run.stdin.flush()))
    writer.start()
    for line in lines:
        reply = run.stdout.readline()
        if reply.startswith("E") or not reply:
            sys.exit(f"{line}: {reply}")
    writer.join()


def spent(program, folder, layout, before, after):
    """What a run takes for the lines `after` the lines `before`, over a new store."""
    new_store(program, folder, *layout)
    run = subprocess.Popen([program, "run", folder, "/dev/stdin"], stdin=subprocess.PIPE, stdout=subprocess.PIPE, text=True)
    run.stdout.readline()
    answer(run, before)
    time, size = processor_time(run.pid), os.path.getsize(f"{folder}/journal")
    answer(run, after)
    replied, grew = processor_time(run.pid) - time, os.path.getsize(f"{folder}/journal") - size
    run.stdin.close()
    usage = os.wait4(run.pid, 0)[2]
    run.returncode = 0
    kept = os.path.getsize(f"{folder}/hive01.dat") if layout[1] else 0
    return Spent(replied, usage.ru_utime + usage.ru_stime, grew, kept)


def costs(program, folder, layout, work):
    """The least microseconds of a commit up to its reply, and in all; the bytes of the journal for one, and the hive's."""
    _, before, is_own = work
    count = counted(before, is_own)
    first = [*keys(), *commits(1, before, is_own)]
    base = min(spent(program, folder, layout, first, []).ended for _ in range(RUNS))
    runs = [spent(program, folder, layout, first, commits(before + 1, count, is_own)) for _ in range(RUNS)]
    replied = min(run.replied for run in runs) / 1_000
    ended = (min(run.ended for run in runs) - base) * 1_000_000
    return replied / count, ended / count, runs[0].grew / count, runs[0].kept


def row(program, home, work):
    """The cells of a kind of work, in both layouts."""
    title, before, is_own = work
    plain, kept = (costs(program, f"{home}/store", layout, work) for layout in LAYOUTS)
    times = " | ".join(f"{plain[at]:.1f} | {kept[at]:.1f} | {kept[at] / plain[at]:.2f}" for at in range(2))
    return f"| {title} | {counted(before, is_own):,} | {times} | {plain[2]:.0f} | {kept[2]:.0f} | {kept[3]:,} |"


def table(program, place):
    """The table of stores in a folder of a place."""
    yield ("| commits of one write | commits | microseconds up to the reply, without an outcome | with it | ratio | microseconds with the "
           "flush of the hives, without | with | ratio | bytes of the journal, without | with | bytes of the hive of outcomes |")
    yield "|" + "---|" * 11
    with tempfile.TemporaryDirectory(prefix="outcomes-", dir=place) as home:
        yield from (row(program, home, work) for work in WORKS)


def page(program, place):
    """All lines: on the device of a folder, and in memory."""
    yield from [f"{measured.head('outcomes')}.", ""]
    yield from table(program, place)
    yield from ["", "The same in memory (tmpfs), where a sync costs nothing:", ""]
    yield from table(program, MEMORY)


def main():
    words = measured.words(__doc__, "program")
    words.add_argument("--folder", help="a folder on the device that is measured")
    given = words.parse_args()
    measured.tell(page(given.program, given.folder), "bench/outcomes.py", given.write)


main()
