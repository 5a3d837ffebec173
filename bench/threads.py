#!/usr/bin/env python3
"""Measures commits and reads of many threads beside sqlite3 and LMDB on the same work in the same folder:

    bench/threads.py PROGRAM [--write] [--folder FOLDER]

PROGRAM is regtx_bench. A commit is a transaction of four values of 50 bytes in keys of the thread's own; it is answered once it
is synced. sqlite3 has one connection a thread, a journal of its own (WAL) and synchronous FULL. LMDB lets one thread write at a
time: a writer takes all the transactions that wait in a queue, and commits them as one. A read is of one of 100,000 values of 50
bytes; beside a writer, one more thread writes such values meanwhile. There each write of sqlite3 and LMDB is synced, and one in 500 of
PROGRAM's.

sqlite3 and LMDB are called by Python's modules, which run one thread of Python at a time: what Python takes counts for nothing
beside a sync, and is most of a read. Of several runs the one of median speed is told. If the module of LMDB isn't there, its rows
are left out (Debian: python3-lmdb, for /usr/bin/python3). `--write` puts the tables into docs/MEASURED.md.
"""
import os
import queue
import random
import shutil
import sqlite3
import subprocess
import sys
import tempfile
import threading
import time

sys.dont_write_bytecode = True
import measured  # noqa: E402

try:
    import lmdb
except ImportError:
    lmdb = None

RUNS, SYNCS = 3, 200
# how many threads make how many commits
COMMITS = [(1, 200), (4, 800), (32, 3_200)]
READERS, READS, READS_BY_PYTHON = 4, 1_000_000, 100_000
KEYS, VALUES, TURNS = 10_000, 10, 4
BYTES = 50
ROOM = 1 << 30


class Measured:
    """How many calls there were, in how many seconds, and the microseconds of each percentile; syncs a call if they are known; and
    how many calls another thread made meanwhile."""

    def __init__(self, count, seconds, percentiles, syncs=None, beside=0):
        self.speed, self.percentiles, self.syncs, self.beside = count / seconds, percentiles, syncs, beside / seconds


def median_of(measure):
    """The measured run of median speed."""
    runs = sorted((measure() for _ in range(RUNS)), key=lambda run: run.speed)
    return runs[len(runs) // 2]


def percentiles(seconds):
    """The microseconds that 50, 99 and 100 percent take at most."""
    ordered = sorted(seconds)
    return [ordered[max(0, -(-len(ordered) * percent // 100) - 1)] * 1e6 for percent in (50, 99, 100)]


def calls_of_threads(threads, count, caller, beside=None):
    """Measures `count` calls of so many threads: `caller` is told the thread, and gives the call, which is told its number.
    Meanwhile another thread calls what `beside` gives, if it is there."""
    spent, wrong, is_over, made_beside = [], [], threading.Event(), [0]
    start = threading.Barrier(threads + 1)

    def run(thread):
        mine = []
        try:
            call = caller(thread)
            start.wait()
            for number in range(count // threads):
                begun = time.perf_counter()
                call(number)
                mine.append(time.perf_counter() - begun)
        except Exception as error:  # told below
            wrong.append(error)
            start.abort()
        spent.append(mine)

    def run_beside():
        call = beside(threads)
        while not is_over.is_set():
            call(made_beside[0])
            made_beside[0] += 1

    others = [threading.Thread(target=run_beside)] if beside else []
    callers = [threading.Thread(target=run, args=(thread,)) for thread in range(threads)]
    for each in [*others, *callers]:
        each.start()
    try:
        start.wait()
    except threading.BrokenBarrierError:
        pass
    begun = time.perf_counter()
    for each in callers:
        each.join()
    took = time.perf_counter() - begun
    is_over.set()
    for each in others:
        each.join()
    if wrong:
        sys.exit(f"a call failed: {wrong[0]!r}")
    return Measured(count, took, percentiles([each for mine in spent for each in mine]), beside=made_beside[0])


def numbers_of(words):
    """The numbers of the lines that a program prints, by the words before them."""
    ended = subprocess.run(words, stdin=subprocess.DEVNULL, stdout=subprocess.PIPE, check=True, text=True)
    lines = [line.removesuffix(" us").rsplit(" ", 1) for line in ended.stdout.splitlines()]
    return {name: float(number) for name, number in lines}


class Ours:
    """PROGRAM over a store in a folder, with or without a flusher while threads commit."""

    def __init__(self, program, folder, flushes=True):
        self.program, self.path = program, f"{folder}/store"
        self.name, self.work = ("Nojaldreg", "commits") if flushes else ("Nojaldreg, no flusher beside", "commits-unflushed")

    def run(self, work, threads, count):
        shutil.rmtree(self.path, ignore_errors=True)
        told = numbers_of([self.program, work, self.path, str(threads), str(count)])
        return Measured(count, told["seconds"], [told[f"latency of {percent} percent"] for percent in (50, 99, 100)],
                        told.get("syncs a commit"), told.get("writes meanwhile", 0))

    def commits(self, threads, count):
        return self.run(self.work, threads, count)

    def reads(self, threads, is_beside):
        return self.run("reads-beside-a-writer" if is_beside else "reads", threads, READS)


def data_of(number):
    return bytes([number % 256]) * BYTES


def rows_of(thread, number):
    """The four values that a thread's transaction sets: keys, names and data."""
    turn = number % TURNS
    return [(f"{hive}:t{thread:02}", f"{letter}{turn}", data_of(number)) for hive in range(2) for letter in "ab"]


def names_by_chance(chances):
    """The key and the name of a value that is read or written."""
    return f"0:k{chances.randrange(KEYS):05}", f"v{chances.randrange(VALUES)}"


def all_rows():
    return ((f"0:k{key:05}", f"v{name}", data_of(0)) for key in range(KEYS) for name in range(VALUES))


class Sqlite:
    """A base of sqlite3 in a folder."""

    PUT = "insert or replace into datas values (?, ?, ?)"

    def __init__(self, folder):
        self.path, self.name = f"{folder}/base", "sqlite3"

    def connection(self):
        made = sqlite3.connect(self.path, timeout=60, isolation_level=None)
        made.execute("pragma journal_mode = wal")
        made.execute("pragma synchronous = full")
        return made

    def begin(self, rows):
        for name in (self.path, f"{self.path}-wal", f"{self.path}-shm"):
            if os.path.exists(name):
                os.remove(name)
        made = self.connection()
        made.execute("create table datas (path text, name text, data blob, primary key (path, name)) without rowid")
        made.execute("begin")
        made.executemany(self.PUT, rows)
        made.execute("commit")
        made.close()

    def committer(self, thread):
        connection = self.connection()

        def commit(number):
            connection.execute("begin immediate")
            connection.executemany(self.PUT, rows_of(thread, number))
            connection.execute("commit")
        return commit

    def reader(self, thread):
        connection, chances = self.connection(), random.Random(thread)

        def read(_):
            found = connection.execute("select data from datas where path = ? and name = ?", names_by_chance(chances)).fetchone()
            if len(found[0]) != BYTES:
                raise ValueError(found)
        return read

    def writer(self, thread):
        connection, chances = self.connection(), random.Random(thread)
        return lambda number: connection.execute(self.PUT, (*names_by_chance(chances), data_of(number)))

    def commits(self, threads, count):
        self.begin([])
        return calls_of_threads(threads, count, self.committer)

    def reads(self, threads, is_beside):
        self.begin(all_rows())
        return calls_of_threads(threads, READS_BY_PYTHON, self.reader, self.writer if is_beside else None)


def put_rows(env, rows):
    """Puts rows in one transaction, and syncs."""
    with env.begin(write=True) as transaction:
        for path, name, data in rows:
            transaction.put(f"{path}/{name}".encode(), data)


class Lmdb:
    """A base of LMDB in a folder."""

    def __init__(self, folder):
        self.path, self.name = f"{folder}/lmdb", "LMDB"

    def begin(self, rows):
        shutil.rmtree(self.path, ignore_errors=True)
        env = lmdb.open(self.path, map_size=ROOM)
        put_rows(env, rows)
        return env

    def commits(self, threads, count):
        env, waiting = self.begin([]), queue.Queue()

        def serve():
            """Commits all that waits as one transaction, until nothing is to come."""
            while True:
                batch = [waiting.get()]
                while not waiting.empty():
                    batch.append(waiting.get())
                if None in batch:
                    return
                put_rows(env, [row for rows, _ in batch for row in rows])
                for _, done in batch:
                    done.release()

        def committer(thread):
            done = threading.Semaphore(0)

            def commit(number):
                waiting.put((rows_of(thread, number), done))
                done.acquire()
            return commit

        server = threading.Thread(target=serve)
        server.start()
        try:
            return calls_of_threads(threads, count, committer)
        finally:
            waiting.put(None)
            server.join()
            env.close()

    def reads(self, threads, is_beside):
        env = self.begin(all_rows())

        def reader(thread):
            chances = random.Random(thread)

            def read(_):
                with env.begin() as transaction:
                    found = transaction.get("/".join(names_by_chance(chances)).encode())
                if len(found) != BYTES:
                    raise ValueError(found)
            return read

        def writer(thread):
            chances = random.Random(thread)
            return lambda number: put_rows(env, [(*names_by_chance(chances), data_of(number))])

        try:
            return calls_of_threads(threads, READS_BY_PYTHON, reader, writer if is_beside else None)
        finally:
            env.close()


def synced_twice(folder):
    """Two small writes in two files, each with its sync: what a commit by itself takes of the device."""
    handles = [os.open(f"{folder}/synced{at}", os.O_CREAT | os.O_WRONLY) for at in range(2)]
    spent = []
    for _ in range(SYNCS):
        begun = time.perf_counter()
        for handle in handles:
            os.write(handle, bytes(4 * BYTES))
            os.fdatasync(handle)
        spent.append(time.perf_counter() - begun)
    for handle in handles:
        os.close(handle)
    return Measured(SYNCS, sum(spent), percentiles(spent), 2)


def row(*cells):
    return f"| {' | '.join(cells)} |"


def told(threads, name, run):
    """The cells of a row."""
    syncs = "" if run.syncs is None else f"{run.syncs:.2f}"
    return row(str(threads), name, f"{run.speed:,.0f}", syncs, *(f"{micros:,.1f}" for micros in run.percentiles))


HEADS = ["50 % us", "99 % us", "100 % us"]


def table(heads, rows):
    yield row(*heads)
    yield "|---" * len(heads) + "|"
    yield from rows


def bases(program, folder):
    return [Ours(program, folder), Sqlite(folder), *([Lmdb(folder)] if lmdb else [])]


def commit_rows(program, folder):
    yield told(1, "two writes, each with its `fdatasync`", median_of(lambda: synced_twice(folder)))
    for threads, count in COMMITS:
        for base in [Ours(program, folder, False), *bases(program, folder)]:
            yield told(threads, base.name, median_of(lambda: base.commits(threads, count)))
    yield told(1, "two writes again", median_of(lambda: synced_twice(folder)))


def read_rows(program, folder):
    for is_beside in (False, True):
        for base in bases(program, folder):
            run = median_of(lambda: base.reads(READERS, is_beside))
            yield row("yes" if is_beside else "no", base.name, f"{run.speed:,.0f}", *(f"{micros:,.1f}" for micros in run.percentiles),
                      f"{run.beside:,.0f}" if is_beside else "")


def page(program, place):
    """All lines."""
    with_lmdb = f"LMDB {'.'.join(map(str, lmdb.version()))}" if lmdb else "without LMDB"
    yield from [f"{measured.head('threads')}, sqlite3 {sqlite3.sqlite_version}, {with_lmdb}, called by Python.", ""]
    with tempfile.TemporaryDirectory(prefix="bench-", dir=place) as folder:
        yield from table(["threads", "program", "commits a second", "syncs a commit", *HEADS], commit_rows(program, folder))
        yield from ["", f"Reads of {READERS} threads:", ""]
        yield from table(["a writer beside", "program", "reads a second", *HEADS, "its writes a second"], read_rows(program, folder))


def main():
    words = measured.words(__doc__, "program")
    words.add_argument("--folder", help="a folder on the device that is measured")
    given = words.parse_args()
    measured.tell(page(given.program, given.folder), "bench/threads.py", given.write)


main()
