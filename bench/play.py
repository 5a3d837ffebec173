#!/usr/bin/env python3
"""Measures runs of scripts beside sqlite3 in memory on the same work, and how the time grows:

    bench/play.py PROGRAM [--largest N] [--of COMMIT] [--write]

For each kind of work, at some numbers of lines, the table has the processor seconds (user and system) of `PROGRAM play`, from
its start to its end, and their ratio to those of sqlite3, which Python calls once a statement. Keys and values are rows under
their path in sqlite3, and in each column it does something else:

- ratio to sqlite3: the same work. A creation also writes the time of the key's parent, and a value that is written that of its
  key, and a line outside of transactions is one change that arrives whole. So a `create` is the key's row and an update of its
  parent's time, a `set` the value's row and an update of its key's time; and both stand between a `begin` and a `commit` of
  sqlite3's own, but where the script itself has begun a transaction: sqlite3 has none within another, so that plain lines before
  that one's end are part of it. An `info` is a count of the key's values, without its subkeys and its time.
- ratio to its rows alone: less work. A `create` and a `set` are their row, no time is updated, and sqlite3 has the script's
  transactions and no others.
- ratio to it and its reading: the same work as in the first column, its statements made of the script's lines by Python as it
  goes, since the program reads its script too. In the other two they are made before the time is taken.

An exponent is that of the growth of the seconds with the lines: from the row before, and, in a work's last row, from its first
one. Of keys and values in one place there is the ratio to as many keys spread in trees of fan-out 10, and of a million spread
keys the most bytes resident. A script has as few hives as hold its keys, since a hive's weight is limited, but those of the
first work have 16 throughout: a million keys need nearly as many, and so each row has as many trees.

Times are the least of several turns, in each of which all that a work's rows set beside one another is measured, so that what else
the machine does is left out: a work has five turns, and more while it hasn't had two minutes; a row that takes longer than twenty
seconds has one. A row whose script the program doesn't
carry out without a refusal is left out with a message.

`--largest` leaves out the rows of more lines. `--write` puts the table into docs/MEASURED.md, that of a program of another
commit, which `--of` names, into a place of its own.
"""
import itertools
import math
import os
import resource
import sqlite3
import subprocess
import sys
import tempfile
import time
from contextlib import ExitStack

sys.dont_write_bytecode = True
import measured  # noqa: E402

ID = "936da01f-9abd-4d9d-80c7-02af85c822a8"
# a store has no more hives, and by its weight a hive holds somewhat more keys
MOST_HIVES, KEYS_OF_HIVE = 16, 70_000
# how many turns a work has at least, for how many seconds it has more, and how many seconds a row takes that has one
TURNS, WHILE, LONG = 5, 120, 20
MILLION = 1_000_000
OWN_BEGIN, OWN_COMMIT = ("begin", ()), ("commit", ())
HEADS = ["work", "lines", "seconds", "ratio to sqlite3", "ratio to its rows alone", "ratio to it and its reading", "exponent",
         "exponent from the first", "ratio to as many spread keys", "most bytes resident"]
TABLES = """
create table keys (path text primary key, moment integer) without rowid;
create table datas (path text, name text, kind integer, data blob, primary key (path, name)) without rowid;
"""


def spread(count, hives=MOST_HIVES):
    """Keys in trees of fan-out 10, one in each hive."""
    for number in range(count):
        yield f"create {number % hives}:" + "\\".join("k" + digit for digit in str(number // hives + 1))


def wide_keys(count):
    """Direct subkeys of one parent."""
    for number in range(count):
        yield f"create 0:k{number * 7919 % count:05}"


def wide_values(count):
    """Values of one key."""
    for number in range(count):
        yield f"set 0: v{number * 7919 % count:05} 4 01000000"


def one_transaction(count):
    """One transaction of many writes, over a thousand keys."""
    yield f"begin t {ID}"
    for number in range(1000):
        yield f"tx t create 0:key{number:03}"
    for number in range(count):
        yield f"tx t set 0:key{number % 1000:03} v{number // 1000} 4 01000000"
    yield "commit t"


def nested_keys(count):
    """Keys below one another in one transaction."""
    yield f"begin t {ID}"
    for depth in range(1, count + 1):
        yield "tx t create 0:" + "\\".join(f"key{level:03}" for level in range(depth))
    yield "commit t"


def by_turns(count):
    """A transaction's write and a plain write elsewhere by turns."""
    yield "create 0:plain"
    yield f"begin t {ID}"
    yield "tx t create 0:private"
    for number in range(count // 2):
        yield f"tx t set 0:private v{number % 100} 4 01000000"
        yield f"set 0:plain v{number % 100} 4 01000000"
    yield "commit t"


def asked_inside(count):
    """In a transaction a new moment, a write and the key's counts by turns."""
    yield f"begin t {ID}"
    yield "tx t create 0:private"
    for number in range(count // 3):
        yield f"at {number + 1}"
        yield f"tx t set 0:private v{number % 100} 4 01000000"
        yield "tx t info 0:private"
    yield "commit t"


def asked_beside_others(count):
    """In a transaction a creation, a plain one beside it at a new moment, and the counts of the key above by turns."""
    yield f"begin t {ID}"
    for number in range(count // 4):
        yield f"at {number + 1}"
        yield f"tx t create 0:own{number:05}"
        yield f"create 0:other{number:05}"
        yield "tx t info 0:"
    yield "commit t"


# each with the hives that it needs, and its numbers
WORKS = [(spread, MOST_HIVES, [100_000, 300_000, MILLION]), (wide_keys, 1, [1_000, 10_000, KEYS_OF_HIVE]),
         (wide_values, 1, [10_000, 30_000, 100_000]), (one_transaction, 1, [10_000, 30_000, 100_000]),
         (nested_keys, 1, [100, 200, 400, 500]), (by_turns, 1, [1_600, 4_800, 16_000]), (asked_inside, 1, [1_600, 4_800, 16_000]),
         (asked_beside_others, 1, [1_600, 4_800, 16_000])]
IN_ONE_PLACE = [wide_keys, wide_values]


def least_in_turns(rows):
    """The least that each piece of work of each of these rows takes, of several turns in each of which all of all rows are measured; a row
    whose turn takes too long has one."""
    turns, long, began_all = {count: [] for count in rows}, set(), time.monotonic()
    for turn in itertools.count():
        if turn >= TURNS and time.monotonic() - began_all > WHILE or len(long) == len(rows):
            break
        for count, works in rows.items():
            if count in long:
                continue
            began = time.monotonic()
            turns[count].append([work() for work in works])
            if time.monotonic() - began > LONG:
                long.add(count)
    return {count: [min(of_one) for of_one in zip(*of_row)] for count, of_row in turns.items()}


def played(peak, program, script):
    """The processor seconds of the program as it plays the script, and the most bytes resident."""
    told = subprocess.run([peak, program, "play", script], capture_output=True, text=True, check=True).stdout.split()
    return int(told[0]) / 1_000_000, int(told[1])


def parent(path):
    """The path of the key above: that of a hive's root ends with the colon."""
    above, _, _ = path.rpartition("\\")
    return above or path[:path.index(":") + 1]


def write(words, moment):
    """The statements of a line that writes: a row, and the time of the key in which it stands."""
    if words[0] == "create":
        row, within = ("insert or replace into keys values (?, ?)", (words[1], moment)), parent(words[1])
    else:
        value = words[1], words[2], int(words[3]), bytes.fromhex(words[4])
        row, within = ("insert or replace into datas values (?, ?, ?, ?)", value), words[1]
    return row, ("update keys set moment = ? where path = ?", (moment, within))


def statements(lines, whole):
    """The script's lines as statements of sqlite3, that do the same work where it is to be whole, else write their rows alone."""
    moment, alone = 0, whole
    for line in lines:
        words = line.rstrip("\n").split(" ")
        words = words[2:] if words[0] == "tx" else words
        if words[0] in ("begin", "commit"):
            alone = whole and words[0] == "commit"
            yield words[0], ()
        elif words[0] == "at":
            moment = int(words[1])
        elif words[0] == "info":
            yield "select count(*) from datas where path = ?", (words[1],)
        elif words[0] in ("create", "set"):
            row, time_of_key = write(words, moment)
            change = [row, time_of_key] if whole else [row]
            yield from [OWN_BEGIN, *change, OWN_COMMIT] if alone else change


def carry_out(hives, wanted):
    """Carries out statements over tables in memory, in which the roots of so many hives stand."""
    base = sqlite3.connect(":memory:", isolation_level=None)
    base.executescript(TABLES)
    base.executemany("insert into keys values (?, 0)", [(f"{hive}:",) for hive in range(hives)])
    for text, values in wanted:
        base.execute(text, values).fetchall()


def spent_by_sqlite(hives, wanted):
    """Processor seconds that a child takes for the statements which the call gives: not those of the call, and not those of the
    child's making and end, which are those of this program's memory."""
    ours, theirs = os.pipe()
    child = os.fork()
    if child == 0:
        given = wanted()
        before = time.process_time()
        carry_out(hives, given)
        os.write(theirs, str(time.process_time() - before).encode())
        os._exit(0)
    os.close(theirs)
    with open(ours, encoding="ascii") as told:
        spent = told.read()
    if os.waitpid(child, 0)[1]:
        sys.exit("a child did not end well")
    return float(spent)


def scripted(hives, lines):
    """A file with the script of these lines."""
    script = tempfile.NamedTemporaryFile("w", prefix="bench-", encoding="ascii")
    script.write(f"hives {hives}\n" + "\n".join(lines) + "\n")
    script.flush()
    return script


def beside_one_another(kept, play, work, hives, count):
    """All that a row sets beside one another: what the script takes, what sqlite3 does in each column, what spread keys take. Nothing
    where the program doesn't carry the script out."""
    lines = list(work(count))
    script = kept.enter_context(scripted(hives, lines))
    try:
        play(script.name)
    except subprocess.CalledProcessError:
        print(f"not carried out, so left out: {work.__doc__} {count:,} lines", file=sys.stderr, flush=True)
        return []
    works = [lambda: play(script.name),
             lambda: spent_by_sqlite(hives, lambda: list(statements(lines, whole=True))),
             lambda: spent_by_sqlite(hives, lambda: list(statements(lines, whole=False))),
             lambda: spent_by_sqlite(hives, lambda: statements(open(script.name, encoding="ascii"), whole=True))]
    if work in IN_ONE_PLACE:
        needed = math.ceil(count / KEYS_OF_HIVE)
        spread_keys = kept.enter_context(scripted(needed, spread(count, needed)))
        works.append(lambda: play(spread_keys.name))
    return works


def ratio(seconds, others):
    """How often the others' seconds go into these."""
    return f"{seconds / max(others, 0.001):.2f}"


def exponent(now, then):
    """That of the growth from another row's count and seconds, where there is such a row."""
    return f"{math.log(now[1] / then[1]) / math.log(now[0] / then[0]):.2f}" if then else ""


def shown(cells):
    """Cells as a line of a table."""
    return "| " + " | ".join(cells) + " |"


def rows(play, work, hives, counts):
    """The rows of a work, each as its cells."""
    with ExitStack() as kept:
        found = {count: beside_one_another(kept, play, work, hives, count) for count in counts}
        least = least_in_turns({count: works for count, works in found.items() if works})
    first = last = None
    for count, ((ours, held), same, alone, reading, *beside) in least.items():
        now = count, ours
        ratios = [ratio(ours, others) for others in (same, alone, reading)]
        from_first = exponent(now, first) if count == counts[-1] else ""
        yield [work.__doc__.rstrip("."), f"{count:,}", f"{ours:.3f}", *ratios, exponent(now, last), from_first,
               ratio(ours, beside[0][0]) if beside else "", f"{held:,}" if count == MILLION else ""]
        first, last = first or now, now


def table(program, largest):
    """The lines of the table."""
    yield shown(HEADS)
    yield "|" + "---|" * len(HEADS)
    with tempfile.TemporaryDirectory(prefix="bench-") as folder:
        peak = measured.peak(folder)
        for work, hives, counts in WORKS:
            counts = [count for count in counts if count <= largest]
            yield from map(shown, rows(lambda script: played(peak, program, script), work, hives, counts))


def main():
    words = measured.words(__doc__, "program")
    words.add_argument("--largest", type=int, default=MILLION)
    words.add_argument("--of", metavar="COMMIT")
    given = words.parse_args()
    head = (f"{measured.head('play', given.of)}, sqlite3 {sqlite3.sqlite_version}; the least of {TURNS} turns or more, or one where it "
            f"takes over {LONG} seconds.")
    place = "bench/play.py of another commit" if given.of else "bench/play.py"
    measured.tell(itertools.chain([head, ""], table(given.program, given.largest)), place, given.write)


resource.setrlimit(resource.RLIMIT_CORE, (0, 0))
main()
