#!/usr/bin/env python3
"""Reads single keys and values of hives' files by words of the command line:

    tests/file_values.py PROGRAM

Hives are made by runs/hives/maker.py, so what is wanted comes from trees, never from our output. The last line is 'N passed, N failed',
and the status is 0 if none failed. No run changes a file.

- whole: each key and each value of a tree, by `ls`, `get` and `get-raw`; a store that imports the file answers `get` alike.
- missing: keys, values and hives that aren't there.
- damaged: one record of a hive spoiled in turn: what doesn't need it is read as before, and what needs it is refused with a cause.
- refused: files that are no clean hives, and what a file can't be.
- devices: standard input, files that can't be read, and replies that can't be written.
- memory: each allocation refused in turn: nothing but that is printed.
- others: `hivexget` reads the same bytes, if it is installed.
"""
import os
import subprocess
import sys

TOP = os.path.dirname(os.path.dirname(os.path.abspath(__file__)))
sys.dont_write_bytecode = True
sys.path[:0] = [os.path.join(TOP, "tests"), os.path.join(TOP, "runs", "hives")]
from cases import patched  # noqa: E402
from maker import NONE, Key, Value, hive, mended, u32  # noqa: E402
from scratch import are_there, as_other, expect, finish, program_at, refusal_shim, tell  # noqa: E402

ID = "00112233-4455-6677-8899-aabbccddeeff"
BINARY, HEAD = 3, 4_096


def tree():
    """A tree whose names differ by more than case, with lists of each kind and data of each size."""
    vendor = Key("Vendor", 2, [Key(f"Product {at}", at, values=[Value("v", BINARY, bytes([at]) * 9)]) for at in range(7)],
                 [Value("", 1, "x\0".encode("utf-16-le")), Value("small", 4, b"\5\0\0\0"), Value("mid", BINARY, bytes(range(90))),
                  Value("large", BINARY, bytes(at % 251 for at in range(20_000))), Value("@", BINARY, b"at")], leaf=b"lhlfli", many=3)
    deep = Key("deep0", 3)
    for at in range(1, 20):
        deep = Key(f"deep{at}", 3, [deep])
    return Key("r", 1, [vendor, deep, Key("Zeta", 4, values=[Value("z", 0, b"")])], [Value("of the root", BINARY, b"\1\2\3")])


def all_keys(key, path=()):
    yield path, key
    for subkey in key.keys:
        yield from all_keys(subkey, (*path, subkey.name))


def word(path, number=0):
    return f"{number}:" + "\\".join(path)


def name_word(name):
    """How a name is said: `@` is the one without letters, so the name `@` is escaped."""
    return {"": "@", "@": "%0040"}.get(name, name)


class Reads:
    """Runs of the program on one file, which stays as it is."""

    def __init__(self, program, file):
        self.program, self.file = program, file
        self.path = program.put("hive.dat", file)

    def run(self, *words):
        told = self.program.run(words[0], self.path, *words[1:])
        with open(self.program.at(self.path), "rb") as file:
            return told if file.read() == self.file else (b"the file was changed", None)

    def raw(self, path, name):
        return self.run("get-raw", word(path), name_word(name))

    def names(self, path):
        """The names that `ls` prints, and the status."""
        printed, status = self.run("ls", word(path))
        lines = [line.split(b" ", 1) for line in printed.decode("latin-1").encode("latin-1").split(b"\n")[:-1]]
        return [(kind, rest if kind == b"key" else rest.split(b" ")[0]) for kind, rest in lines], status


def wrong_listing(reads, path, key):
    """What is wrong with what `ls` prints of a key, or None: subkeys, then values, each by their names."""
    printed, status = reads.run("ls", word(path))
    lines = printed.decode().split("\n")[:-1]
    keys = sorted((subkey.name for subkey in key.keys), key=str.upper)
    named = [line.removeprefix("key ") for line in lines if line.startswith("key ")]
    values = sum(line.startswith("value ") for line in lines)
    return expect(f"ls {word(path)}", ([name.replace("%0020", " ") for name in named], values, len(lines), status),
                  (keys, len(key.values), len(keys) + len(key.values), 0))


def whole(program):
    root, results = tree(), []
    file, _ = hive(root)
    reads = Reads(program, file)
    for path, key in all_keys(root):
        results.append(wrong_listing(reads, path, key))
        for value in key.values:
            results.append(expect(f"{word(path)} {value.name}", reads.raw(path, value.name), (value.data, 0)))
    spelled = tuple(name.swapcase() for name in ("Vendor", "Product 3"))
    results.append(expect("another spelling", reads.raw(spelled, "V"), (b"\3" * 9, 0)))
    program.run("import", "copy", ID, reads.path)
    for path, key in all_keys(root):
        told = program.run("ls", "copy", word(path))
        results.append(expect(f"ls {word(path)} of a store", reads.run("ls", word(path)), told))
        for value in key.values:
            told = program.run("get", "copy", word(path), name_word(value.name))
            results.append(expect(f"get {word(path)} {value.name} of a store", reads.run("get", word(path), name_word(value.name)), told))
    return tell("whole", results)


def missing(program):
    reads = Reads(program, hive(tree())[0])
    asked = [("get", word(("Nobody",)), "v"), ("get", word(("Vendor",)), "nothing"), ("get", word(("Vendor", "Product 9"))),
             ("get-raw", word(()), "x"), ("get", word(("Zeta",))), ("ls", word(("Vendor", "Product 1", "below"))),
             ("get", word(("Vendor",), 1), "small"), ("ls", word((), 15))]
    return tell("missing", [expect(" ".join(words), reads.run(*words), (b"E2 NotFound\n", 1)) for words in asked])


def damaged(program):
    root, results = tree(), []
    file, places = hive(root)
    # the record of a key, with all that is below it
    reads = Reads(program, patched(file, places["Product 2"] + 4, b"xx"))
    for path, key in all_keys(root):
        if "Vendor" in path and len(path) > 1:
            # a name that stands beside it may be that of the record that isn't read
            results.append(None if reads.raw(path, "v")[0].startswith(b"E15 HiveDamaged 0 BadRecord") else f"{path}: {reads.raw(path, 'v')}")
            continue
        for value in key.values:
            results.append(expect(f"beside a damaged key, {word(path)} {value.name}", reads.raw(path, value.name), (value.data, 0)))
    told, status = reads.run("get", word(("Vendor", "Nobody")), "v")
    results.append(expect("none, if one isn't read", (told.split(b" ")[:1], status), ([b"E15"], 1)))
    # a list of values that has an offset of no cell at its end
    key = places["Vendor"]
    at = int.from_bytes(file[HEAD + key + 4 + 40:HEAD + key + 8 + 40], "little")
    reads = Reads(program, patched(file, at + 4 + 4 * 4, u32(3)))
    results.append(expect("beside a damaged list, another key", reads.raw(("Vendor", "Product 1"), "v"), (b"\1" * 9, 0)))
    told, status = reads.run("get", word(("Vendor",)), "nothing")
    results.append(expect("none, if a record isn't read", (told, status), (b"E15 HiveDamaged 0 BadOffset\n", 1)))
    # the data of one value: others of its key are read
    record = int.from_bytes(file[HEAD + at + 4 + 8:HEAD + at + 8 + 8], "little")
    reads = Reads(program, patched(file, record + 4 + 8, u32(NONE)))
    results.append(expect("beside damaged data", reads.raw(("Vendor",), "small"), (b"\5\0\0\0", 0)))
    results.append(expect("damaged data", reads.run("get", word(("Vendor",)), "mid"), (b"E15 HiveDamaged 0 BadOffset\n", 1)))
    # a descriptor that is shared by nobody else, and a class
    reads = Reads(program, patched(file, places["Vendor"] + 4 + 44, u32(4)))
    results.append(expect("a damaged descriptor", reads.raw(("Vendor",), "small"), (b"\5\0\0\0", 0)))
    return tell("damaged", results)


def refused(program):
    file, results = hive(tree())[0], []
    for title, bad, told in [("cut", file[:5_000], b"E15 HiveDamaged 0 Truncated\n"), ("no hive", b"x" * 5_000, b"E15 HiveDamaged 0 BadBase\n"),
                             ("not clean", mended(file[:4] + u32(7, 6) + file[12:]), b"E15 HiveDamaged 0 NotClean\n"),
                             ("another version", mended(file[:24] + u32(6) + file[28:]), b"E17 Unsupported\n"), ("empty", b"", b"E15 HiveDamaged 0 Truncated\n")]:
        reads = Reads(program, bad)
        for words in [("get", "0:Vendor"), ("get-raw", "0:Vendor"), ("ls", "0:Vendor")]:
            results.append(expect(f"{title}, {words[0]}", reads.run(*words), (told, 1)))
    reads = Reads(program, file)
    for words in [("get", "Vendor"), ("ls", "0"), ("get", "0:Vendor", "a", "b")]:
        results.append(expect(" ".join(words), reads.run(*words), (b"wrong words\n", 2)))
    before = sorted(os.listdir(program.home))
    for words in [("set", "0:Vendor", "v", "sz", "x"), ("create", "0:New"), ("del", "0:Zeta")]:
        told, status = reads.run(*words)
        results.append(expect(" ".join(words), (told, status, sorted(os.listdir(program.home))), (b"cannot open store\n", 1, before)))
    return tell("refused", results)


def devices(program):
    file = hive(tree())[0]
    path = program.put("hive.dat", file)
    words, results = ("get-raw", path, word(("Vendor",)), "small"), []
    with open(program.at(path), "rb") as source:
        ended = subprocess.run([program.path, words[0], "-", *words[2:]], stdin=source, capture_output=True)
    results.append(expect("standard input", (ended.stdout, ended.returncode), (b"\5\0\0\0", 0)))
    for asked in [words, ("get", path, word(()), "none"), ("ls", path, word(("Vendor",)))]:
        results.append(expect(f"{asked[0]}, a full device", program.status_to("/dev/full", *asked), 1))
    os.chmod(program.at(path), 0)
    results.append(expect("a file of others", program.run(*words, **as_other()), (b"cannot read file\n", 1)))
    os.chmod(program.at(path), 0o644)
    return tell("devices", results)


def memory(program):
    path, shim, report, results = program.put("hive.dat", hive(tree())[0]), refusal_shim(), program.at("report"), []
    for words in [("get", path, word(("Vendor",)), "large"), ("ls", path, word(("Vendor",)))]:
        wanted = program.run(*words)
        for number in range(1, 2_000):
            told = program.run(*words, environment={"LD_PRELOAD": shim, "FAILALLOC_AT": str(number), "FAILALLOC_REPORT": report})
            with open(report, encoding="ascii") as file:
                if "refused=0" in file.read():
                    results.append(expect(f"{words[0]}, no allocation refused", told, wanted))
                    break
            # a file of which all can't be reserved is read in smaller parts
            if told != wanted:
                results.append(expect(f"{words[0]}, allocation {number}", told, (b"E1 NoMemory\n", 1)))
        else:
            results.append(f"{words[0]}: each allocation was refused")
    return tell("memory", results)


def others(program):
    results, root = [], tree()
    file, _ = hive(root)
    reads = Reads(program, file)
    for name in are_there("others", "hivexget"):
        for path, key in all_keys(root):
            for value in key.values:
                if value.kind == BINARY and value.name not in ("", "@"):
                    ended = subprocess.run([name, program.at(reads.path), "\\" + "\\".join(path), value.name], capture_output=True)
                    results.append(expect(f"{word(path)} {value.name}", (ended.stdout, 0), reads.raw(path, value.name)))
    return tell("others", results or [None])


PARTS = [whole, missing, damaged, refused, devices, memory, others]


def main():
    with program_at(sys.argv[1], "regtx-file-values-") as program:
        finish([part(program) for part in PARTS])


main()
