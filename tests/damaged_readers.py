#!/usr/bin/env python3
"""Compares what is read of single keys and values of damaged hives with what other programs read of them:

    tests/damaged_readers.py PROGRAM

Each program of others is skipped, by name, if it isn't installed. A small hive of runs/hives/maker.py is spoiled in several ways. Each
key and value that another program reads is asked for by `ls`, `export-json` and `get-raw`. Either it is told as the tree has it, or
the cause is told that the spoiled bytes have: never that it isn't there, and never anything else. `salvage` finds each of them. The last line is 'N passed, N
failed', and the status is 0 if none failed. How much each program reads is printed too.
"""
import json
import os
import re
import shutil
import subprocess
import sys
import xml.etree.ElementTree

TOP = os.path.dirname(os.path.dirname(os.path.abspath(__file__)))
sys.dont_write_bytecode = True
sys.path[:0] = [os.path.join(TOP, "tests"), os.path.join(TOP, "runs", "hives")]
from cases import number, patched  # noqa: E402
from maker import Key, Value, hive, mended, u32  # noqa: E402
from other_readers import of_hivexml, of_reglookup  # noqa: E402
from part_reader import Parts  # noqa: E402
from scratch import expect, finish, program_at, skip, tell  # noqa: E402

BINARY, SECONDS = 3, 60


def tree():
    """A tree of 43 keys with 42 values, seven of them at and below one key."""
    spoiled = Key("Spoiled", 3, [Key(f"below{at}", 4, values=[Value("b", BINARY, bytes([at]) * 12)]) for at in range(6)], [Value("s", BINARY, b"s" * 9)])
    beside = [Key(f"beside{at}", 5, [Key("one", 6, values=[Value("o", BINARY, b"o" * (at + 5))]), Key("two", 7)], [Value("v", BINARY, b"v" * (at + 5))])
              for at in range(9)]
    other = Key("Other", 8, [Key(f"k{at}", 9, values=[Value(f"w{turn}", BINARY, bytes([turn]) * 7) for turn in range(4 if at < 2 else 3)])
                             for at in range(5)], [])
    return Key("r", 1, [Key("Vendor", 2, [spoiled, *beside]), other, Key("Last", 1)], [])


def all_keys(key, path=()):
    yield path, key
    for subkey in key.keys:
        yield from all_keys(subkey, (*path, subkey.name))


def with_parents(file):
    """The file with the offset of its parent in each key's record, which hivexregedit asks for."""
    parts = Parts(file)
    waiting = [parts.root]
    while waiting:
        at, parts.own = waiting.pop(), set()
        for subkey in parts.listed(at):
            file = patched(file, subkey + 4 + 16, u32(at))
            waiting.append(subkey)
    return file


def sound_file():
    """The file of the tree, and the offsets of its keys by their names."""
    file, places = hive(tree())
    return with_parents(file), places


def spoiled_files():
    """A title, a file, and the cause that is true of it."""
    file, places = sound_file()
    key = places["Spoiled"]
    record = number(file, number(file, key + 4 + 40) + 4)
    yield "numbers that differ", mended(file[:4] + u32(7, 6) + file[12:]), "NotClean"
    yield "a wrong sum", file[:508] + bytes([file[508] ^ 1]) + file[509:], "NotClean"
    yield "letters of a key", patched(file, key + 4, b"xx"), "BadRecord"
    yield "letters of a value", patched(file, record + 4, b"xx"), "BadRecord"
    yield "the size of a key's cell", patched(file, key, u32(7)), "BadCell"
    yield "letters of the first bin", patched(file, 0, b"nibh"), "BadBin"
    yield "letters of a list", patched(file, number(file, key + 4 + 28) + 4, b"zz"), "BadList"
    yield "an offset of a value's data", patched(file, record + 4 + 8, u32(0x7fff_fff0)), "BadOffset"
    yield "a count of values", patched(file, key + 4 + 36, u32(9_999)), "BadRecord"


# ---- what others read: paths of keys, and the data of values by path and name, or None if they aren't told

def by_hivexml(path):
    """What `hivexml -u` prints, as far as it is XML."""
    ended = subprocess.run(["hivexml", "-u", path], capture_output=True, timeout=SECONDS)
    try:
        return of_hivexml(ended.stdout)
    except xml.etree.ElementTree.ParseError:
        return set(), {}


def by_reglookup(path):
    return of_reglookup(subprocess.run(["reglookup", "-H", path], capture_output=True, timeout=SECONDS).stdout)


def by_hivexregedit(path):
    """What `hivexregedit --unsafe --export` prints until it ends."""
    ended = subprocess.run(["hivexregedit", "--unsafe", "--export", path, "\\"], capture_output=True, timeout=SECONDS)
    keys, values, names = set(), {}, ()
    for line in ended.stdout.decode("latin-1").split("\n"):
        key, value = re.fullmatch(r"\[\\?(.*)\]\r?", line), re.match(r'"(.*?)"=hex\(3\):([0-9a-f,]*)', line)
        if key:
            names = tuple(name for name in key[1].split("\\") if name)
            keys.add(names)
        elif value:
            values[names, value[1]] = bytes.fromhex(value[2].replace(",", ""))
    return keys, values


READERS = {"hivexml": by_hivexml, "reglookup": by_reglookup, "hivexregedit": by_hivexregedit}


class Reads:
    """What the program reads of one file."""

    def __init__(self, program, path, cause):
        self.program, self.path, self.cause = program, path, f"E15 HiveDamaged 0 {cause}\n".encode()
        self.model = dict(all_keys(tree()))
        self.counts = [0, 0]

    def told(self, *words):
        """What is printed with status 0; None if the true cause is told; or all that was told."""
        printed, status = self.program.run(words[0], self.path, *words[1:])
        if status == 0:
            return printed
        return None if (printed, status) == (self.cause, 1) else (printed, status)

    def wrong_key(self, path):
        """What is wrong with what is told of a key that somebody else reads."""
        word = "0:" + "\\".join(path)
        key, listed, exported = self.model.get(path), self.told("ls", word), self.told("export-json", word)
        if key is None:
            return None if listed is None and exported is None else f"{word}: a key that isn't there is told: {listed}"
        if isinstance(listed, bytes):
            wanted = [f"key {name}" for name in sorted((sub.name for sub in key.keys), key=str.upper)]
            found = [line for line in listed.decode().split("\n")[:-1] if line.startswith("key ")]
            if found != wanted or listed.count(b"\nvalue ") + listed.startswith(b"value ") != len(key.values):
                return f"ls {word}: {listed}"
            self.counts[0] += 1
        if isinstance(exported, bytes):
            lines = [json.loads(line) for line in exported.splitlines()]
            if [line["key"] for line in lines if "name" not in line] != ["\\".join((*path, *rest)) for rest, _ in in_order(key)]:
                return f"export-json {word}: {exported}"
        return next((f"{word}: {told}" for told in (listed, exported) if isinstance(told, tuple)), None)

    def wrong_value(self, path, name):
        word = "0:" + "\\".join(path)
        told = self.told("get-raw", word, name)
        wanted = next((value.data for value in self.model[path].values if value.name == name), None) if path in self.model else None
        if isinstance(told, bytes) and told == wanted:
            self.counts[1] += 1
            return None
        return None if told is None else f"get-raw {word} {name}: {told}"


def in_order(key, path=()):
    """The keys of a tree, siblings by their names."""
    yield path, key
    for subkey in sorted(key.keys, key=lambda each: each.name.upper()):
        yield from in_order(subkey, (*path, subkey.name))


def salvaged(program, path):
    """The keys that `salvage` finds, and the data of the values by path and name."""
    ended = subprocess.run([program.path, "salvage-json", path], cwd=program.home, stdin=subprocess.DEVNULL, capture_output=True, timeout=SECONDS)
    keys, values = [], {}
    for line in map(json.loads, ended.stdout.splitlines() if ended.returncode != 1 else []):
        if "name" in line:
            values[keys[-1], line["name"]] = bytes.fromhex(line["data"])
        else:
            keys.append(tuple(name for name in line["key"].split("\\") if name))
    return set(keys), values


def named(path, data):
    """The names of the values of a key of the tree that have these data."""
    return [value.name for value in dict(all_keys(tree()))[path].values if value.data == data] if path in dict(all_keys(tree())) else []


def unsalvaged(keys, values, found_keys, found_values):
    """What is wrong with what `salvage` finds: a key or a value of the tree is missing that somebody else reads as the tree has it."""
    model = dict(all_keys(tree()))
    for key in sorted(keys & set(model)):
        yield None if key in found_keys else f"not salvaged: {key}"
    for path, its in model.items():
        for value in its.values:
            if values.get((path, value.name)) == value.data:
                yield expect(f"salvaged value {value.name} of {path}", found_values.get((path, value.name)), value.data)


def compared(program, title, file, cause):
    """All that others read of one file."""
    path, keys, values, counts, right = program.put("spoiled.hive", file), set(), set(), [], {}
    for name, reader in READERS.items():
        if shutil.which(name):
            its_keys, its_values = reader(program.at(path))
            counts.append(f"{name} {len(its_keys)} keys and {len(its_values)} values")
            keys, values = keys | its_keys, values | set(its_values)
            right.update((place, data) for place, data in its_values.items() if place[1] in named(place[0], data))
    found_keys, found_values = salvaged(program, path)
    counts.append(f"salvage {len(found_keys)} keys and {len(found_values)} values")
    reads = Reads(program, path, cause)
    results = [reads.wrong_key(key) for key in sorted(keys)] + [reads.wrong_value(*value) for value in sorted(values)]
    # what nobody reads is told with its cause, or as it is
    results += [reads.wrong_key(key) for key in sorted(set(reads.model) - keys)]
    results += unsalvaged(keys, right, found_keys, found_values)
    print(f"{title}: {', '.join(counts)}; of these and others here {reads.counts[0]} keys and {reads.counts[1]} values")
    return [result and f"{title}: {result}" for result in results]


def whole(program):
    """What is wrong with what each program reads of the sound hive: all of it."""
    path = program.put("sound.hive", sound_file()[0])
    wanted = {key for key, _ in all_keys(tree())}, {(key, value.name) for key, its in all_keys(tree()) for value in its.values}
    for name, reader in READERS.items():
        if not shutil.which(name):
            skip("readers", f"{name} isn't there")
            continue
        keys, values = reader(program.at(path))
        yield expect(f"{name} of the sound hive", (keys, set(values)), wanted)


def main():
    with program_at(sys.argv[1], "regtx-damaged-readers-") as program:
        results = [each for title, file, cause in spoiled_files() for each in compared(program, title, file, cause)]
        finish([tell("whole", list(whole(program))), tell("damaged", results)])


main()
