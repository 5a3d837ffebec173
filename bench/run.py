#!/usr/bin/env python3
"""Measures runs of scripts over a store in files beside sqlite3 on the same work in the same folder, and counts device calls:

    bench/run.py PROGRAM [--write] [--folder FOLDER]

Both read a script from a file: PROGRAM by `run`, and the shell `sqlite3` with a journal of its own (WAL) and synchronous FULL, so
that each answers a commit only once it is synced. Wall seconds are the median of several runs, processor seconds (user and
system) that of the same ones; both on a device and in memory. Device calls are counted by strace, as the difference of a run
with twice as many commits to one, so that what opening and ending a store take is left out. `--write` puts the tables into
docs/MEASURED.md.
"""
import os
import shutil
import statistics
import subprocess
import sys
import tempfile
import time

sys.dont_write_bytecode = True
import measured  # noqa: E402

ID = "936da01f-9abd-4d9d-80c7-02af85c822a8"
RUNS, KEYS = 3, 1_000
COUNTED, SYNCS, MEMORY = 1_000, 200, "/dev/shm"
CALLS = ["pwrite64", "fdatasync", "fsync", "pread64", "ftruncate", "lseek"]


def keys():
    """The lines that make the keys which hold the values."""
    yield f"begin k {ID}"
    yield from (f"tx k create 0:key{number:03}" for number in range(KEYS))
    yield "commit k"


def one_transaction(count):
    """Writes in one transaction, over a thousand keys"""
    yield f"begin t {ID}"
    for number in range(count):
        yield f"tx t set 0:key{number % KEYS:03} v{number // KEYS} 4 01000000"
    yield "commit t"


def commits(count):
    """Transactions of one write, each committed, over a thousand keys"""
    for number in range(count):
        yield f"begin t {ID}"
        yield f"tx t set 0:key{number % KEYS:03} v{number // KEYS} 4 01000000"
        yield "commit t"
        yield "close t"


def commits_of_ten(count):
    """Transactions of ten writes, each committed, over a thousand keys"""
    for number in range(count):
        yield f"begin t {ID}"
        for part in range(10):
            yield f"tx t set 0:key{(number * 10 + part) % KEYS:03} v{number // 100} 4 01000000"
        yield "commit t"
        yield "close t"


WORKS = [(one_transaction, 100_000), (commits, 10_000), (commits_of_ten, 1_000)]


def statements(lines):
    """The script's lines as statements of sqlite3: keys and values are rows under their path."""
    for line in lines:
        words = line.split(" ")
        words = words[2:] if words[0] == "tx" else words
        if words[0] in ("begin", "commit"):
            yield f"{words[0]};"
        elif words[0] == "create":
            yield f"insert or replace into keys values ('{words[1]}', 0);"
        elif words[0] == "set":
            yield f"insert or replace into datas values ('{words[1]}', '{words[2]}', {words[3]}, x'{words[4]}');"


def put(path, lines):
    with open(path, "w", encoding="ascii") as file:
        file.writelines(f"{line}\n" for line in lines)
    return path


def spent_by(words, script=os.devnull):
    """Wall and processor seconds of a program that reads the script, all of whose replies go nowhere."""
    begun = time.perf_counter()
    with open(script, "rb") as source, open(os.devnull, "wb") as nowhere:
        child = subprocess.Popen(words, stdin=source, stdout=nowhere)
        _, status, used = os.wait4(child.pid, 0)
    child.returncode = status
    if status:
        sys.exit(f"{words[0]} ended with status {status}")
    return time.perf_counter() - begun, used.ru_utime + used.ru_stime


def store(program, folder):
    """A store with the keys in it."""
    path = f"{folder}/store"
    shutil.rmtree(path, ignore_errors=True)
    spent_by([program, "new", path, ID, "1"])
    spent_by([program, "run", path, put(f"{folder}/keys", keys())])
    return path


def synced(folder):
    """The median microseconds of a small write at a file's end with its sync, which no commit can do without."""
    handle = os.open(f"{folder}/synced", os.O_CREAT | os.O_WRONLY)
    spent = []
    for _ in range(SYNCS):
        begun = time.perf_counter()
        os.write(handle, bytes(100))
        os.fdatasync(handle)
        spent.append(time.perf_counter() - begun)
    os.close(handle)
    return statistics.median(spent) * 1e6


SETTINGS = ["pragma journal_mode = wal;", "pragma synchronous = full;"]


def base(folder):
    """A base of sqlite3 with the keys in it."""
    path = f"{folder}/base"
    for name in (path, f"{path}-wal", f"{path}-shm"):
        if os.path.exists(name):
            os.remove(name)
    tables = ["create table keys (path text primary key, moment integer) without rowid;",
              "create table datas (path text, name text, kind integer, data blob, primary key (path, name)) without rowid;"]
    spent_by(["sqlite3", path], put(f"{folder}/tables", [*SETTINGS, *tables, *statements(keys())]))
    return path


def medians(runs):
    return [statistics.median(column) for column in zip(*runs)]


def times(program, folder):
    """The rows of the table of times."""
    for work, count in WORKS:
        script = put(f"{folder}/script", work(count))
        theirs = put(f"{folder}/statements", [*SETTINGS, *statements(work(count))])
        ours, others = [], []
        for _ in range(RUNS):
            ours.append(spent_by([program, "run", store(program, folder), script]))
            others.append(spent_by(["sqlite3", base(folder)], theirs))
        (wall, spent), (their_wall, their_spent) = medians(ours), medians(others)
        yield (f"| {work.__doc__} | {count:,} | {wall:.3f} | {spent:.3f} | {their_wall:.3f} | {their_spent:.3f} "
               f"| {wall / their_wall:.2f} | {spent / their_spent:.2f} |")


def calls_of(words, folder, script=os.devnull):
    """How often a program makes each call."""
    told = f"{folder}/calls"
    spent_by(["strace", "-f", "-c", "-o", told, *words], script)
    counts = dict.fromkeys(CALLS, 0)
    with open(told, encoding="ascii") as file:
        for line in file:
            words = line.split()
            if words and words[-1] in counts:
                counts[words[-1]] = int(words[3])
    return counts


def counted(program, folder):
    """The rows of the table of calls."""
    rows = {}
    for title, calls in [
            ("`regtx run`", lambda count: calls_of([program, "run", store(program, folder), put(f"{folder}/script", commits(count))], folder)),
            ("`sqlite3`", lambda count: calls_of(["sqlite3", base(folder)], folder,
                                                 put(f"{folder}/statements", [*SETTINGS, *statements(commits(count))])))]:
        once, twice = calls(COUNTED), calls(2 * COUNTED)
        rows[title] = [(twice[name] - once[name]) / COUNTED for name in CALLS]
    for title, each in rows.items():
        yield f"| {title} | " + " | ".join(f"{count:.2f}" for count in each) + " |"


HEADS = ["work", "how many", "seconds", "processor seconds", "seconds of sqlite3", "its processor seconds", "ratio of seconds",
         "ratio of processor seconds"]


def table(heads, rows):
    """The lines of a table."""
    yield f"| {' | '.join(heads)} |"
    yield "|---" * len(heads) + "|"
    yield from rows


def page(program, place):
    """All lines: on the device of a folder, and in memory."""
    version = subprocess.run(["sqlite3", "--version"], stdout=subprocess.PIPE, text=True, check=True).stdout.split()[0]
    yield from [f"{measured.head('run')}, sqlite3 {version}, WAL and synchronous FULL.", ""]
    with tempfile.TemporaryDirectory(prefix="bench-", dir=place) as folder:
        before = synced(folder)
        yield from table(HEADS, times(program, folder))
        yield from ["", f"A write of 100 bytes with its `fdatasync` took {before:.0f} microseconds there before, and {synced(folder):.0f} after."]
    yield from ["", "The same in memory (tmpfs), where a sync costs nothing:", ""]
    with tempfile.TemporaryDirectory(prefix="bench-", dir=MEMORY) as folder:
        yield from table(HEADS, times(program, folder))
        yield from ["", "Device calls a commit of one write:", ""]
        yield from table(["program", *CALLS], counted(program, folder))


def main():
    words = measured.words(__doc__, "program")
    words.add_argument("--folder", help="a folder on the device that is measured")
    given = words.parse_args()
    measured.tell(page(given.program, given.folder), "bench/run.py", given.write)


main()
