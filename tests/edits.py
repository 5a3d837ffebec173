#!/usr/bin/env python3
"""Changes hives by random scripts, and reads them after each by other code:

    tests/edits.py PROGRAM [SEED [OPERATIONS]]

Each store has one hive. Scripts of 100 operations are run on it one after another; the end of a run moves them into the hive.
Then runs/hives/reader.py reads the hive's file, which has to have the tree that the operations make. So have its forms: subkeys
and values are in the order of their names, a leaf has at most 500, hashes are those of the names, and a security record has the
number of the keys that name it. What the file had otherwise before the scripts it may go on having: lists in no order, and other
numbers. After the last script hivexml and reglookup, if they are there, have to read the same keys and values.

- made: hives that `new` made.
- wide: one key gets 1,500 subkeys in random order, loses and gets some, and loses all.
- foreign: imports of files by runs/hives/maker.py: lists in no order, leaves of each kind, lists of leaves, empty leaves, names in
  UTF-16 that could be Latin-1.
- older: the same files as hives of 1.3 and 1.4. From the first script on they keep the rules of hives that `new` made.
- others: imports of files that hivexsh and reged wrote, of runs/hives.
- few: what one operation in a hive of 1,000 keys writes: pages of 512 bytes in the log.
- refused: a script with each of the program's allocations refused in turn.

The seed is printed. The last line is 'N passed, N failed', and the status is 0 if none failed.
"""
import gzip
import itertools
import os
import random
import shutil
import struct
import sys
from concurrent.futures import ProcessPoolExecutor

TOP = os.path.dirname(os.path.dirname(os.path.abspath(__file__)))
sys.dont_write_bytecode = True
sys.path[:0] = [os.path.join(TOP, "tests"), os.path.join(TOP, "runs", "hives")]
import other_readers  # noqa: E402
import reader  # noqa: E402
from edit_model import Node, Script  # noqa: E402
from maker import SEGMENT, Key, Value, hive, of_minor  # noqa: E402
from scratch import are_there, expect, finish, memory, program_at, refusal_shim, tell  # noqa: E402

ID = "00112233-4455-6677-8899-aabbccddeeff"
A_SCRIPT, OPERATIONS = 100, 10_000
FIRST_MOMENT = 1_000
MANY = 1_500
# one operation in a hive of 1,000 keys with one value each, beside a bare one, and the most pages that it may write
FEW = [("delete 0:K0000", 16), ("delete 0:Bare", 16), ("set 0:K0500 v 4 01020304", 16), ("set 0:K0500 v 3 0102030405", 16),
       ("set 0:K0500 new 4 01", 16), ("unset 0:K0500 v", 16), ("create 0:K0500\\A", 16), ("create 0:K0500\\A\\B\\C\\D", 24),
       ("create 0:K0500b", 24), ("set 0:K0500 v 3 " + 40_000 * "ab", 100)]


def played(program, store, lines):
    """What is wrong with the replies to a script."""
    program.put("script", "\n".join(lines + ["at 0"]).encode() + b"\n")
    printed, status = program.run("run", store, "script")
    bad = [line for line in printed.split(b"\n") if line.startswith((b"E", b"line", b"wrong"))]
    return expect("a run", (status, bad[:1]), (0, []))


def difference(found, wanted, path=""):
    """Where two trees differ first."""
    for name in ("name", "time", "flags", "descriptor", "class_bytes", "values"):
        if getattr(found, name) != getattr(wanted, name):
            return f"{path}: {name}: {getattr(found, name)!r}, not {getattr(wanted, name)!r}"[:600]
    if set(found.keys) != set(wanted.keys):
        return f"{path}: subkeys {set(found.keys) ^ set(wanted.keys)}"
    below = (difference(key, wanted.keys[name], f"{path}/{bytes(key.name[::2])!r}") for name, key in found.keys.items())
    return next(filter(None, below), None)


def lists_in_no_order(row, path=()):
    """The paths of keys with their subkeys, or their values, out of order."""
    found = {(path, what) for what, names in (("subkeys", row.keys), ("values", row.values)) if list(names) != sorted(names)}
    return found.union(*(lists_in_no_order(key, (*path, name)) for name, key in row.keys.items()))


def wrong_leaves(row):
    """A leaf with too many, an empty one, or one with hashes that aren't those of the names."""
    names = [key.name for key in row.keys.values()]
    if any(count > reader.MOST_IN_LEAF or not count for _, count in row.lists):
        return f"a leaf of {row.lists}"
    if row.lists and all(kind == b"lh" for kind, _ in row.lists) and row.hashes != [reader.hash_of(name) for name in names]:
        return "hashes"
    return next(filter(None, map(wrong_leaves, row.keys.values())), None)


class Hive:
    """The hive of a store, beside the tree that it is to have."""

    def __init__(self, program, store, root, is_ours):
        self.program, self.store, self.root, self.is_ours = program, store, root, is_ours
        self.path = program.at(store, "hive00.dat")
        found = self.read()
        self.no_order, self.counts_right = lists_in_no_order(found.tree), self.counts(found)

    def read(self):
        with open(self.path, "rb") as file:
            return reader.Reader(file.read(), strict=self.is_ours, edited=True)

    @staticmethod
    def counts(found):
        """Whether each security record has the number of the keys that name it."""
        return {at: struct.unpack_from("<I", found.cells[at], 12)[0] for at in found.named} == found.named

    def wrong(self):
        """What is wrong with it, also beside what was read of it before."""
        try:
            found = self.read()
        except reader.WrongHive as wrong:
            return str(wrong)
        if found.tree != self.root.row():
            return f"another tree: {difference(found.tree, self.root.row())}"
        no_order, counts_right = lists_in_no_order(found.tree), self.counts(found)
        if not no_order <= self.no_order:
            return f"out of order: {sorted(no_order - self.no_order)[:3]}"
        if self.counts_right and not counts_right:
            return f"how many keys name a descriptor: {found.named}"
        self.no_order, self.counts_right = no_order, counts_right
        return wrong_leaves(found.tree) if self.is_ours else None

    def run(self, script):
        """What is wrong after a script."""
        return played(self.program, self.store, script.lines) or self.wrong()

    def changes(self, chances, scripts):
        """Runs random scripts; what was wrong after each, and what others read at the end."""
        moment = FIRST_MOMENT
        for number in range(scripts):
            script = Script(self.root, chances, moment)
            for _ in range(A_SCRIPT):
                script.operation()
            moment = script.moment
            wrong = self.run(script)
            yield f"{self.store}, script {number}: {wrong}" if wrong else None
            if wrong:
                return
        yield other_readers.wrong_reading(self.path, self.root)


def fresh(program, store):
    """The hive of a new store."""
    program.run("new", store, ID, "1")
    with open(program.at(store, "hive00.dat"), "rb") as file:
        tree = reader.Reader(file.read()).tree
    return Hive(program, store, Node.of_row(tree), True)


def made(program, chances, scripts):
    return list(fresh(program, "made").changes(chances, scripts))


def wide(program, chances):
    """One key whose list gets long, and short again: leaves are split, and empty ones go."""
    wide_hive, results = fresh(program, "wide"), []
    script = Script(wide_hive.root, chances, FIRST_MOMENT)
    script.tick()
    script.create((), ["wide"])
    absent, there = [f"n{number:04}" for number in range(MANY)], []

    def taken(names):
        """One of these names, which are without it then."""
        at = chances.randrange(len(names))
        names[at], names[-1] = names[-1], names[at]
        return names.pop()

    def create():
        name = taken(absent)
        there.append(name)
        script.create(("wide",), [name])
        if chances.random() < 0.3:
            script.set(("wide", name), "v")

    def delete():
        name = taken(there)
        absent.append(name)
        script.delete(("wide", name))

    def turn():
        if there and (not absent or chances.random() < 0.5):
            delete()
        else:
            create()

    steps = [create] * MANY + [turn] * (MANY // 2) + [delete] * (2 * MANY)
    for number, step in enumerate(steps):
        if number >= MANY + MANY // 2 and not there:
            break
        script.tick()
        step()
        if number % A_SCRIPT == A_SCRIPT - 1 or number >= MANY + MANY // 2 and not there:
            wrong = wide_hive.run(script)
            results.append(f"wide, step {number}: {wrong}" if wrong else None)
            script.lines = []
            if wrong:
                break
            if number == MANY - 1:
                results.append(other_readers.wrong_reading(wide_hive.path, wide_hive.root))
    return results


def take_in(program, store, file):
    """A store whose hive is a foreign file."""
    printed = program.run("import", store, ID, program.put("foreign", file))
    if printed != (b"ok\n", 0):
        raise SystemExit(f"import {store}: {printed}")


def foreign_trees(chances):
    """Roots in forms that other programs write."""
    for leaf, many, gaps, is_sorted in ((b"li", 0, False, False), (b"lf", 0, False, True), (b"lh", 0, False, False), (b"lilf", 3, True, False),
                                        (b"lh", 2, False, True), (b"lflhli", 7, True, True)):
        keys = [Key(f"k{number:02}", number, descriptor=b"one" if number % 3 else b"two", wide=number % 7 == 0,
                    values=[Value(f"v{at}", at, bytes(at * 3), wide=at == 2) for at in range(number % 5)],
                    class_bytes=b"class" if number % 11 == 0 else b"") for number in range(40)]
        if not is_sorted:
            chances.shuffle(keys)
        yield Key("root", 5, flags=4, keys=keys, leaf=leaf, many=many, gaps=gaps, descriptor=b"one",
                  values=[Value("zz", 1, b"last"), Value("", 3, b"default"), Value("Mid", 4, b"a longer text", wide=True)])


def foreign(program, chances, scripts):
    results = []
    for number, root in enumerate(foreign_trees(chances)):
        store = f"foreign{number}"
        take_in(program, store, hive(root)[0])
        results += Hive(program, store, Node.of(root), False).changes(chances, scripts)
    return results


def older(program, chances):
    """Hives of older minor versions: the first flush makes them anew."""
    results = []
    for number, root in enumerate(foreign_trees(chances)):
        for minor in (3, 4):
            root.values.append(Value(f"large{minor}", 3, chances.randbytes(SEGMENT + minor)))
            store = f"older{number}-{minor}"
            take_in(program, store, hive(root, minor=minor)[0])
            its = Hive(program, store, Node.of(root), False)
            its.is_ours, its.no_order = True, set()
            results += its.changes(chances, 3)
    return results


def others(program, chances, scripts):
    results = []
    for name in ("hivex", "reged"):
        with gzip.open(os.path.join(TOP, "runs", "hives", f"{name}.hive.gz")) as packed:
            file = packed.read()
        take_in(program, name, file)
        results += Hive(program, name, Node.of_row(reader.read(file)), False).changes(chances, scripts)
    return results


def pages_written(program, store):
    """How many pages the last flush of a store's hive wrote: those that its log marks."""
    with open(program.at(store, "hive00.log"), "rb") as file:
        return len(reader.marked(file.read()))


def made_anew(program, store):
    """The bins data of a hive that is made of the tree of a store's hive, and what is wrong with the run. The first flush of a hive
    of an older minor version makes it anew; its line writes a value as it is."""
    shutil.rmtree(program.at("anew"), ignore_errors=True)
    with open(program.at(store, "hive00.dat"), "rb") as file:
        program.run("import", "anew", ID, program.put("older", of_minor(file.read(), 4)))
    wrong = played(program, "anew", ["set 0:K0001 v 3 " + "00" * 12])
    with open(program.at("anew", "hive00.dat"), "rb") as file:
        return file.read()[4_096:], wrong


def pages_apart(old, new):
    """In how many pages two images differ."""
    return sum(old[at:at + 512] != new[at:at + 512] for at in range(0, max(len(old), len(new)), 512))


def few(program):
    """How many pages one operation writes in a hive of 1,000 keys: fewer than if images that are made anew are compared."""
    results = []
    for line, most in FEW:
        shutil.rmtree(program.at("few"), ignore_errors=True)
        program.run("new", "few", ID, "1")
        wrong = played(program, "few", [f"create 0:K{number:04}\nset 0:K{number:04} v 3 {'00' * 12}" for number in range(1_000)] + ["create 0:Bare"])
        before, not_made = made_anew(program, "few")
        wrong = wrong or not_made or played(program, "few", [line])
        after, not_made = made_anew(program, "few")
        pages, anew, wrong = pages_written(program, "few"), pages_apart(before, after), wrong or not_made
        print(f"{line[:30]}: {pages} pages; made anew {anew}")
        results.append(wrong or (None if pages <= most and pages < max(anew, most) else f"{line[:30]}: {pages} pages"))
    return results


REFUSED = [
    ("at 50", None),
    ("set 0:k03 v 4 61626364", lambda root: root.key(["k03"]).set(50, "v", 4, b"abcd")),
    ("set 0:k04 v 3 " + b"a longer one".hex(), lambda root: root.key(["k04"]).set(50, "v", 3, b"a longer one")),
    ("set 0:k05 new 1 " + "00" * 30, lambda root: root.key(["k05"]).set(50, "new", 1, bytes(30))),
    ("unset 0:k06 v", lambda root: root.key(["k06"]).unset(50, "v")),
    ("create 0:k41", lambda root: root.create(50, ["k41"])),
    ("create 0:k42\\a\\b", lambda root: root.create(50, ["k42", "a", "b"])),
    ("delete 0:k00", lambda root: root.delete(50, "k00")),
    ("set 0:k07 v 3 " + "00" * 20_000, lambda root: root.key(["k07"]).set(50, "v", 3, bytes(20_000))),
]


def refused(program):
    """One script with each of the program's allocations refused in turn: a line that isn't refused has done what it does. The
    hive is whole after each run; after another run it has what the lines did that weren't refused."""
    shim, results = refusal_shim(), []
    for number in itertools.count(1):
        shutil.rmtree(program.at("first"), ignore_errors=True)
        root = Key("root", 1, descriptor=b"one", keys=[Key(f"k{at:02}", at, values=[Value("v", 3, bytes(9))]) for at in range(40)])
        take_in(program, "first", hive(root)[0])
        first = Hive(program, "first", Node.of(root), False)
        program.put("script", ("\n".join(line for line, _ in REFUSED) + "\n").encode())
        given = {"LD_PRELOAD": shim, "FAILALLOC_AT": str(number), "FAILALLOC_REPORT": program.at("report")}
        printed, _ = program.run("run", "first", "script", environment=given)
        replies = printed.splitlines()[1:]
        for (_, change), reply in zip(REFUSED, replies):
            if not reply.startswith((b"E", b"cannot")) and change:
                change(first.root)
        program.run("run", "first", "/dev/null")
        wrong = first.wrong()
        results.append(f"allocation {number}: {wrong}: {replies}" if wrong else None)
        with open(program.at("report"), encoding="ascii") as report:
            if "refused=0" in report.read():
                return results


# each part with what it takes beside the program: chances, and how many scripts of how many operations in all
PARTS = {
    "made": made,
    "wide": lambda program, chances, _: wide(program, chances),
    "foreign": lambda program, chances, scripts: foreign(program, chances, max(1, scripts // 6)),
    "older": lambda program, chances, _: older(program, chances),
    "others": lambda program, chances, scripts: others(program, chances, max(1, scripts // 2)),
    "few": lambda program, _, __: few(program),
    "refused": lambda program, _, __: refused(program),
}


def carry_out(part, path, seed, scripts):
    """What is wrong with a part, in a folder and by chances of its own."""
    with program_at(path, f"edits-{part}-", memory()) as program:
        return PARTS[part](program, random.Random(f"{seed} {part}"), scripts)


def main():
    if not 2 <= len(sys.argv) <= 4:
        sys.exit(__doc__)
    seed = int(sys.argv[2]) if len(sys.argv) > 2 else random.SystemRandom().randrange(10 ** 6)
    operations = int(sys.argv[3]) if len(sys.argv) > 3 else OPERATIONS
    print(f"seed {seed}", flush=True)
    are_there("others", "hivexml", "reglookup")
    with ProcessPoolExecutor(max_workers=os.cpu_count()) as pool:
        running = {part: pool.submit(carry_out, part, sys.argv[1], seed, max(1, operations // A_SCRIPT)) for part in PARTS}
        finish([tell(part, run.result()) for part, run in running.items()])


main()
