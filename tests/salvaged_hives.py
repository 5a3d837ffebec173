#!/usr/bin/env python3
"""Salvages damaged hives with a built program, in folders that go with the run:

    tests/salvaged_hives.py PROGRAM

Hives are made by runs/hives/maker.py, and spoiled here. What is wanted comes from tests/salvage_reader.py, a second reader by the rules,
or from `export` of a whole hive. The last line is 'N passed, N failed', and the status is 0 if none failed. No run changes a file.
HIVES in the environment says how many random hives are spoiled (400).

- whole: hives of all kinds: what `export`, `export-json` and `export-tsv` print, nothing on standard error, status 0.
- records: each field of each record of a small hive spoiled in turn: keys, values, lines of losses and the last line.
- random: random hives with rubbish in a few places, and such with cells, bins and the base block spoiled.
- paths: a key with all below it, losses there and on the way there, and keys that aren't found.
- names: names that a registration file can't show: what it leaves out is told.
- shared: lists that all name one value or one key: output within bounds.
- blocks: hives that aren't clean, wrong sums, cut files, no root, no hive.
- devices: standard input, full devices, closed standard error, and files of others.
- memory: each allocation refused in turn: nothing but that is told on standard output.
- peers: what hivexregedit and reglookup read of the spoiled hives is read here, too, if they are installed.
"""
import itertools
import json
import os
import random as randomness
import re
import subprocess
import sys
from concurrent.futures import ThreadPoolExecutor

TOP = os.path.dirname(os.path.dirname(os.path.abspath(__file__)))
sys.dont_write_bytecode = True
sys.path[:0] = [os.path.join(TOP, "tests"), os.path.join(TOP, "runs", "hives")]
import cases  # noqa: E402
from cases import patched  # noqa: E402
from hive_rows import random_tree  # noqa: E402
from maker import NONE, Key, Value, hive, mended, of_minor, u16, u32  # noqa: E402
from salvage_reader import Salvage  # noqa: E402
from scratch import are_there, as_other, expect, finish, program_at, refusal_shim, tell  # noqa: E402

BINARY, HEAD, SECONDS = 3, 4_096, 120
KINDS = ["NONE", "SZ", "EXPAND_SZ", "BINARY", "DWORD", "DWORD_BIG_ENDIAN", "LINK", "MULTI_SZ", "RESOURCE_LIST", "FULL_RESOURCE_DESCRIPTOR",
         "RESOURCE_REQUIREMENTS_LIST", "QWORD"]
FORMS = ["", "-utf8", "-json", "-tsv"]


def tree():
    """A tree with lists of each kind, data of each size, classes and descriptors."""
    vendor = Key("Vendor", 2, [Key(f"Product {at}", at, values=[Value("v", BINARY, bytes([at]) * 9)]) for at in range(7)],
                 [Value("", 1, "x\0".encode("utf-16-le")), Value("small", 4, b"\5\0\0\0"), Value("mid", BINARY, bytes(range(90))),
                  Value("large", BINARY, bytes(at % 251 for at in range(20_000)))], leaf=b"lhlfli", many=3, class_bytes=b"c\0l\0", descriptor=b"one descriptor")
    deep = Key("deep0", 3)
    for at in range(1, 6):
        deep = Key(f"deep{at}", 3, [deep], descriptor=b"another")
    return Key("r", 1, [vendor, deep, Key("Zeta", 4, values=[Value("z", 0, b"")], leaf=b"li")], [Value("of the root", BINARY, b"\1\2\3")], leaf=b"lf")


class Runs:
    """Runs of the program on files of a folder."""

    def __init__(self, program):
        self.program = program

    def run(self, word, path, *words, **given):
        """Standard output, lines of standard error, and the status."""
        ended = subprocess.run([self.program.path, word, path, *words], cwd=self.program.home, stdin=subprocess.DEVNULL, capture_output=True,
                               timeout=SECONDS, **given)
        return ended.stdout, ended.stderr.decode("ascii", "backslashreplace").split("\n")[:-1], ended.returncode


def units_of(text):
    units = text.encode("utf-16-le", "surrogatepass")
    return tuple(int.from_bytes(units[at:at + 2], "little") for at in range(0, len(units), 2))


def rows_of(printed):
    """The keys of lines of JSON, each with its values in their order."""
    rows = []
    for line in printed.decode("ascii").splitlines():
        said = json.loads(line)
        if "name" in said:
            kind = KINDS.index(said["type"][4:]) if said["type"].startswith("REG_") else int(said["type"], 16)
            rows[-1][-1].append((units_of(said["name"]), kind, bytes.fromhex(said["data"])))
        else:
            path = tuple(units_of(name) for name in said["key"].split("\\")) if said["key"] else ()
            its_class = said["class"].encode("utf-16-le", "surrogatepass") if "class" in said else bytes.fromhex(said.get("class_hex", ""))
            rows.append((path, int(said["time"]), said["flags"], bytes.fromhex(said.get("descriptor", "")), its_class, []))
    return rows


def wanted_of(file):
    """What is wanted of a file: rows, lines on standard error and the status; or the refusal."""
    found = Salvage(file)
    if found.refusal:
        return [], [], 1, found.refusal
    rows = [(row.path, row.time, row.flags, row.descriptor, row.class_bytes, row.values) for row in found.rows]
    return rows, found.lines + ([found.totals] if found.lines else []), 3 if found.lines else 0, None


def wrong(runs, title, file, name="hive.dat"):
    """What is wrong with what is printed of a file, or None."""
    path = runs.program.put(name, file)
    printed, lines, status = runs.run("salvage-json", path)
    rows, wanted, wanted_status, refusal = wanted_of(file)
    if refusal:
        told = b"E17 Unsupported\n" if refusal == "Unsupported" else f"E15 HiveDamaged 0 {refusal}\n".encode()
        return expect(title, (printed, lines, status), (told, [], 1))
    found = rows_of(printed)
    for row, other in zip(found, rows):
        if row != other:
            return expect(f"{title}, a row", row, other)
    return expect(title, (len(found), lines, status), (len(rows), wanted, wanted_status))


def whole_files():
    yield "tree", hive(tree())[0]
    for case in cases.all_cases():
        if not case.status():
            yield case.title, case.file


def whole(program):
    runs, results, count = Runs(program), [], 0
    for title, file in whole_files():
        path = program.put("hive.dat", file)
        for form in FORMS:
            exported = runs.run(f"export{form}", path)
            if exported[2] == 0:
                count += 1
                results.append(expect(f"{title}, salvage{form}", runs.run(f"salvage{form}", path), exported))
    results.append(None if count > 40 else f"too few whole hives: {count}")
    return tell("whole", results)


def spoiled_fields(file):
    """A file for each four bytes of each allocated cell, with rubbish in them."""
    source = randomness.Random(7)
    for at, data in sorted(Salvage(file).cells.items()):
        for place in range(0, min(len(data), 100), 4):
            for rubbish in (b"\xff\xff\xff\xff", u32(at), source.randbytes(4)):
                yield f"0x{HEAD + at:x} and {place}, {rubbish.hex()}", patched(file, at + 4 + place, rubbish)
        for size in (0, 8, 13, -(2 ** 31) & NONE, NONE - 15):
            yield f"the size at 0x{HEAD + at:x}: {size}", patched(file, at, u32(size))


def each(runs, files):
    """What is wrong with each of some files, several at a time."""
    results, files = [], iter(files)
    with ThreadPoolExecutor(4) as pool:
        while some := list(itertools.islice(files, 64)):
            results += pool.map(lambda given: wrong(runs, *given[1], f"hive{given[0]}.dat"), enumerate(some))
    return results


def records(program):
    small = Key("r", 1, [Key("A", 2, values=[Value("v", BINARY, b"x" * 30)], class_bytes=b"k\0", descriptor=b"secret"),
                         Key("b", 3, [Key(f"c{at}", at) for at in range(5)], leaf=b"lhli", many=2)], [Value("w", 4, b"\1\2\3\4"), Value("u", 1, b"y" * 9)])
    return tell("records", each(Runs(program), spoiled_fields(hive(small)[0])))


def spoiled(source):
    """A random hive with rubbish in it."""
    file = hive(random_tree(source), minor=source.choice([3, 4, 5]))[0]
    cells = sorted(Salvage(file).cells)
    for _ in range(source.randint(1, 4)):
        kind = source.randrange(8)
        if kind < 5:
            at = source.choice(cells) + 4 + source.randrange(0, 80)
            file = patched(file, min(at, len(file) - HEAD - 8), source.randbytes(source.randint(1, 4)))
        elif kind == 5:
            file = patched(file, source.choice(cells), source.randbytes(source.randint(1, 4)))
        elif kind == 6:
            file = patched(file, source.choice(cells) + 4 + 4 * source.randrange(0, 19), u32(source.choice(cells)))
        else:
            at = source.randrange(0, max(len(file) - HEAD, 1), 4_096)
            file = patched(file, at + source.choice([0, 4, 8]), source.randbytes(4)) if source.randrange(4) == 0 else file[:max(len(file) - source.randrange(1, 4_096), 512)]
    return file


def random(program):
    source = randomness.Random(int(os.environ.get("SEED", "1")))
    files = ((f"random hive {number}", spoiled(source)) for number in range(int(os.environ.get("HIVES", "400"))))
    return tell("random", each(Runs(program), files))


def paths(program):
    runs, results = Runs(program), []
    file, places = hive(tree())
    path = program.put("hive.dat", file)
    for form in FORMS:
        for key in ("0:Vendor", "0:vendor\\product 3", "0:Zeta", "0:"):
            results.append(expect(f"salvage{form} {key}", runs.run(f"salvage{form}", path, key), runs.run(f"export{form}", path, key)))
    for key in ("0:Nobody", "1:Vendor", "0:Vendor\\Product 1\\below"):
        results.append(expect(key, runs.run("salvage", path, key), (b"E2 NotFound\n", [], 1)))
    results.append(expect("too many words", runs.run("salvage", path, "0:", "HKLM=0")[2], 2))
    path = program.put("spoiled.dat", patched(patched(file, places["Product 2"] + 4, b"xx"), places["deep2"] + 4, b"xx"))
    all_rows = rows_of(runs.run("salvage-json", path)[0])
    printed, lines, status = runs.run("salvage-json", path, "0:Vendor")
    beginning = units_of("Vendor")
    results.append(expect("part of a spoiled hive", rows_of(printed), [row for row in all_rows if row[0][:1] == (beginning,)]))
    results.append(expect("losses of a part", ([line.split(" ", 1)[1] for line in lines], status),
                          (["BadRecord key 3 below Vendor", "7 keys, 10 values; left out 1 keys, 0 values, 0 other parts, 0 bytes"], 3)))
    printed, lines, status = runs.run("salvage-tsv", path, "0:Vendor\\Product 1")
    results.append(expect("losses on the way", (printed.count(b"\n"), len(lines), status), (2, 2, 3)))
    results.append(expect("a key that isn't read", runs.run("salvage", path, "0:Vendor\\Product 2"), (b"E2 NotFound\n", [], 1)))
    return tell("paths", results)


def names(program):
    runs, results = Runs(program), []
    file = hive(Key("r", 1, [Key("a\nb", 2, [Key("below", 3)]), Key("fine", 4, values=[Value("x\0y", 4, b"1234")]), Key("half\ud800", 5), Key("good", 6)]))[0]
    path = program.put("hive.dat", file)
    printed, lines, status = runs.run("salvage", path)
    results.append(expect("UTF-16", (re.findall(r"\[(.*)\]", printed.decode("utf-16", "surrogatepass")), lines, status),
                          (["HIVE0", "HIVE0\\good", "HIVE0\\half\ud800"],
                           ["BadName names of a%000ab", "BadName names of a%000ab\\below", "BadName names of fine",
                            "salvaged 3 keys, 0 values; left out 3 keys, 0 values, 0 other parts, 0 bytes"], 3)))
    printed, lines, status = runs.run("salvage-utf8", path)
    results.append(expect("UTF-8", (printed.count(b"["), len(lines), status), (2, 5, 3)))
    for form in ("-json", "-tsv"):
        results.append(expect(f"salvage{form}", runs.run(f"salvage{form}", path), runs.run(f"export{form}", path)))
    return tell("names", results)


def shared(program):
    """Each key of a hive gets the lists of one: its values and subkeys are there once, and the output stays small."""
    runs = Runs(program)
    keys = [Key(f"k{at}", at, [Key(f"s{at}", 1)], [Value(f"v{at}", BINARY, b"d" * 5_000)]) for at in range(300)]
    file, places = hive(Key("r", 1, keys))
    first = places["k0"]
    results = []
    for field in (28, 40):
        there = file[HEAD + first + 4 + field:HEAD + first + 8 + field]
        bad = file
        for at in range(1, 300):
            bad = patched(bad, places[f"k{at}"] + 4 + field, there)
        results.append(wrong(runs, f"one list for all, {field}", bad))
        results.append(None if len(runs.run("salvage", "hive.dat")[0]) < 12 * len(file) else "too much is printed")
    listed = int.from_bytes(file[HEAD + first + 4 + 40:HEAD + first + 8 + 40], "little")
    value = file[HEAD + listed + 4:HEAD + listed + 8]
    bad = file
    for at in range(1, 300):
        its = int.from_bytes(file[HEAD + places[f"k{at}"] + 4 + 40:HEAD + places[f"k{at}"] + 8 + 40], "little")
        bad = patched(bad, its + 4, value)
    results.append(wrong(runs, "one value for all", bad))
    root = int.from_bytes(file[36:40], "little")
    ring = patched(file, places["s7"] + 4 + 20, u32(1))
    ring = patched(ring, places["s7"] + 4 + 28, file[HEAD + root + 4 + 28:HEAD + root + 8 + 28])
    results.append(wrong(runs, "a key that lists those above it", ring))
    return tell("shared", results)


def blocks(program):
    runs, results = Runs(program), []
    file = hive(tree())[0]
    all_rows = rows_of(runs.run("salvage-json", program.put("hive.dat", file))[0])
    for title, bad, first in [("not clean", mended(file[:4] + u32(7, 6) + file[12:]), "not clean: changes in its logs are missing"),
                              ("wrong sum", file[:508] + u32(1) + file[512:], "wrong sum: the base block may be damaged"),
                              ("wrong sum and size", file[:40] + u32(4_096) + file[44:], "wrong sum: the base block may be damaged")]:
        results.append(wrong(runs, title, bad))
        printed, lines, status = runs.run("salvage-json", program.put("hive.dat", bad))
        results.append(expect(title, (rows_of(printed) == all_rows, lines[0], status), (True, first, 3)))
    for size in (HEAD + 4_096, HEAD + 9_000, len(file) - 1, len(file) - 4_096):
        results.append(wrong(runs, f"cut to {size}", file[:size]))
    results.append(wrong(runs, "with more behind it", file + b"rest" * 3_000))
    for title, bad, told in [("no hive", b"x" * 5_000, b"E15 HiveDamaged 0 BadBase\n"), ("empty", b"", b"E15 HiveDamaged 0 Truncated\n"),
                             ("a base block alone", file[:HEAD], b"E15 HiveDamaged 0 BadOffset\n"), ("no root", mended(file[:36] + u32(3) + file[40:]), b"E15 HiveDamaged 0 BadOffset\n"),
                             ("another version", mended(file[:24] + u32(6) + file[28:]), b"E17 Unsupported\n")]:
        path = program.put("hive.dat", bad)
        for form in FORMS:
            results.append(expect(f"{title}, {form}", runs.run(f"salvage{form}", path), (told, [], 1)))
    for minor in (3, 4):
        results.append(wrong(runs, f"minor {minor}", of_minor(file, minor)))
    return tell("blocks", results)


def devices(program):
    runs, results = Runs(program), []
    file, places = hive(tree())
    bad = patched(file, places["Vendor"] + 4, b"xx")
    path = program.put("hive.dat", bad)
    wanted = runs.run("salvage-tsv", path)
    with open(program.at(path), "rb") as source:
        ended = subprocess.run([program.path, "salvage-tsv", "-"], stdin=source, capture_output=True)
    results.append(expect("standard input", (ended.stdout, ended.stderr.decode().split("\n")[:-1], ended.returncode), wanted))
    for form in FORMS:
        for streams in ({"stderr": subprocess.DEVNULL}, {"stdout": subprocess.DEVNULL}):
            with open("/dev/full", "wb") as full:
                ended = subprocess.run([program.path, f"salvage{form}", path], cwd=program.home, **{"stdout": full, "stderr": full, **streams})
            results.append(expect(f"a full device, {form}, {streams}", ended.returncode, 1))
    results.append(expect("no file", runs.run("salvage", "nothing")[::2], (b"cannot read file\n", 1)))
    results.append(expect("a folder", runs.run("salvage", ".")[::2], (b"cannot read file\n", 1)))
    os.chmod(program.at(path), 0)
    results.append(expect("a file of others", program.run("salvage", path, **as_other()), (b"cannot read file\n", 1)))
    os.chmod(program.at(path), 0o644)
    return tell("devices", results)


def memory(program):
    file, places = hive(tree())
    path, shim, report, results = program.put("hive.dat", patched(file, places["Product 2"] + 4, b"xx")), refusal_shim(), program.at("report"), []
    runs = Runs(program)
    for words in [("salvage", path), ("salvage-json", path, "0:Vendor")]:
        wanted = runs.run(*words)
        for number in range(1, 4_000):
            told = runs.run(*words, env={**os.environ, "LD_PRELOAD": shim, "FAILALLOC_AT": str(number), "FAILALLOC_REPORT": report})
            with open(report, encoding="ascii") as noted:
                if "refused=0" in noted.read():
                    results.append(expect(f"{words[0]}, no allocation refused", told, wanted))
                    break
            # a file of which all can't be reserved is read in smaller parts
            if told != wanted:
                results.append(None if told[0].endswith(b"E1 NoMemory\n") and told[2] == 1 else f"{words[0]}, allocation {number}: {told}")
        else:
            results.append(f"{words[0]}: each allocation was refused")
    return tell("memory", results)


def keys_of_reglookup(path):
    """The paths and the values that reglookup prints; names are ASCII."""
    ended = subprocess.run(["reglookup", "-H", path], capture_output=True, timeout=SECONDS)
    return {line.split(b",")[0] for line in ended.stdout.splitlines() if line.startswith(b"/") and b",KEY," in line}


def keys_of_hivexregedit(path):
    ended = subprocess.run(["hivexregedit", "--unsafe", "--export", "--prefix", "HKEY_X", path, "\\"], capture_output=True, timeout=SECONDS)
    return {line[len("[HKEY_X\\"):-1] for line in ended.stdout.decode("latin-1").splitlines() if line.startswith("[HKEY_X\\")}


def plain_tree(source, depth=0):
    values = [Value(f"v{at}", BINARY, source.randbytes(source.choice([3, 40, 400]))) for at in range(source.randint(0, 4))]
    keys = [plain_tree(source, depth + 1) for _ in range(source.randint(0 if depth else 4, 5 - depth))]
    for at, key in enumerate(keys):
        key.name = f"k{at}"
    leaf, many = source.choice([(b"lh", 0), (b"lf", 0), (b"li", 0), (b"lhli", 2)])
    return Key("r", 5, keys, values, leaf=leaf, many=many)


def is_told(key, found, lines):
    """Whether a loss is told of the last key on the way to a key that is found, or of a list of it; or a subkey there has another name,
    which is spoiled, and read so in a whole hive too."""
    names = key.split("\\")
    while names and "\\".join(names) not in found:
        names.pop()
    where = "\\".join(names) or "the root"
    beside = {key.split("\\")[len(names)] for key in found if key.split("\\")[:len(names)] == names and key.count("\\") >= len(names)}
    return any(line.endswith(f" below {where}") for line in lines) or not all(re.fullmatch(r"k\d", name) for name in beside)


def peers(program):
    """Keys that another program finds in a hive that is spoiled, and that aren't found here, are told: their parent's loss is. They are
    few: nodes that are marked as handles, in a cell whose size is wrong, or between two of these."""
    runs, results, source, count = Runs(program), [], randomness.Random(3), {}
    tools = list(are_there("peers", "reglookup", "hivexregedit"))
    for number in range(int(os.environ.get("PEERS", "60")) if tools else 0):
        file = hive(plain_tree(source))[0]
        cells = sorted(Salvage(file).cells)
        for _ in range(source.randint(1, 3)):
            at = source.choice(cells) + 4 + source.randrange(0, 76)
            file = patched(file, min(at, len(file) - HEAD - 8), source.randbytes(source.randint(1, 4)))
        path = program.put("hive.dat", file)
        printed, lines, status = runs.run("salvage-json", path)
        found = {"\\".join("".join(map(chr, name)) for name in row[0]) for row in (rows_of(printed) if status != 1 else [])}
        others = {}
        if "reglookup" in tools:
            others["reglookup"] = {key.decode("latin-1")[1:].replace("/", "\\") for key in keys_of_reglookup(program.at(path))}
        if "hivexregedit" in tools:
            others["hivexregedit"] = keys_of_hivexregedit(program.at(path))
        for name, keys in others.items():
            missing = {key for key in keys - found if re.fullmatch(r"(k\d\\)*k\d", key)}
            silent = [key for key in missing if status != 1 and not is_told(key, found, lines)]
            results.append(f"{name} reads {sorted(silent)[:3]} of hive {number}" if silent else None)
            for what, keys in ((name, keys), (f"not of {name}", missing), (f"beside {name}", found - keys)):
                count[what] = count.get(what, 0) + len(keys)
    for name in tools:
        results.append(None if count[f"not of {name}"] * 50 < count[f"beside {name}"] + count[name] else f"too few keys: {count}")
    return tell("peers", results or [None])


PARTS = [whole, records, random, paths, names, shared, blocks, devices, memory, peers]


def main():
    chosen = [part for part in PARTS if not sys.argv[2:] or part.__name__ in sys.argv[2:]]
    with program_at(sys.argv[1], "regtx-salvaged-hives-") as program:
        finish([part(program) for part in chosen])


main()
