"""Trees of hives as rows, each a path of names, the time of the last write, and values in their order: what the parts of
tests/hive_bindings.py compare. They come of trees of runs/hives/maker.py, of programs of others, and of the bindings.
"""
import json
import os
import re
import shutil
import subprocess
import sys

from maker import Key, Value
from scratch import TOP

SECONDS = 120
HEX = re.compile(r"hex(?:\((?P<kind>[0-9a-f]+)\))?:(?P<data>[0-9a-f,]*)")
ESCAPE = re.compile(r"\\(?:u\{([0-9a-f]+)\}|(.))")
PLAIN = {"n": "\n", "r": "\r", "t": "\t", "0": "\0"}


def joined(text):
    """The text with each two surrogates that belong together as one letter."""
    return text.encode("utf-16-le", "surrogatepass").decode("utf-16-le", "surrogatepass")


def folded(name):
    """What names are ordered by: their units, those of `a` to `z` as those of `A` to `Z`."""
    units = name.encode("utf-16-be", "surrogatepass")
    found = [int.from_bytes(units[at:at + 2], "big") for at in range(0, len(units), 2)]
    return [unit - 32 if 0x61 <= unit <= 0x7a else unit for unit in found]


def of_model(key, path=()):
    """The rows of a tree, by the rules: each key before those below it, siblings and values in the order of names."""
    values = sorted(((joined(value.name), value.kind, value.data) for value in key.values), key=lambda value: folded(value[0]))
    yield path, key.time, values
    for subkey in sorted(key.keys, key=lambda each: folded(each.name)):
        yield from of_model(subkey, (*path, joined(subkey.name)))


def of_module(entries):
    """The rows of a walk of regtx_hive."""
    return [(tuple(entry.path.split("\\")) if entry.path else (), entry.time,
             [(name, int(value.kind), value.data) for name, value in entry.values.items()]) for entry in entries]


def of_example(printed):
    """The rows that the example `print` of the crate prints."""
    kinds = ["NONE", "SZ", "EXPAND_SZ", "BINARY", "DWORD", "DWORD_BIG_ENDIAN", "LINK", "MULTI_SZ", 8, 9, 10, "QWORD"]
    numbers = {f"REG_{name}": number for number, name in enumerate(kinds)}
    found = []
    for line in printed.splitlines():
        name, _, rest = line.lstrip(" ").rpartition('" ')
        name = joined(ESCAPE.sub(lambda told: chr(int(told[1], 16)) if told[1] else PLAIN.get(told[2], told[2]), name[1:]))
        if line.startswith(" "):
            kind, data = rest.split(" ")
            found[-1][2].append((name, numbers[kind] if kind in numbers else int(kind), bytes.fromhex(data)))
        else:
            found.append((tuple(name.split("\\")) if name else (), int(rest), []))
    return found


def by_path(rows):
    """The rows without their order."""
    return {path: (time, {name: (kind, data) for name, kind, data in values}) for path, time, values in rows}


def interpreter_with(module):
    """An interpreter of Python that has a module of others, or None."""
    for each in dict.fromkeys([sys.executable, shutil.which("python3"), "/usr/bin/python3"]):
        if each and os.path.exists(each) and subprocess.run([each, "-c", f"import {module}"], capture_output=True).returncode == 0:
            return each
    return None


def of_hivex(interpreter, path):
    """The rows that the Python module of hivex reads in a file, without their order; or None if it refuses to."""
    ran = subprocess.run([interpreter, os.path.join(TOP, "tests", "hivex_tree.py"), path], capture_output=True, text=True, timeout=SECONDS)
    if ran.returncode:
        return None
    rows = map(json.loads, ran.stdout.splitlines())
    return by_path((tuple(names), time, [(name, kind, bytes.fromhex(data)) for name, kind, data in values]) for names, time, values in rows)


def of_hivexregedit(path):
    """The keys with their values as hivexregedit exports them, without times; names are ASCII."""
    ran = subprocess.run(["hivexregedit", "--export", "--prefix", "HKEY_X", path, "\\"], stdout=subprocess.PIPE, text=True, check=True,
                         timeout=SECONDS)
    found, values = {}, {}
    for line in ran.stdout.splitlines():
        if line.startswith("[HKEY_X\\"):
            names = line[len("[HKEY_X\\"):-1]
            values = found[tuple(names.split("\\")) if names else ()] = {}
        elif line.startswith(('"', "@")):
            name, data = ("", line[2:]) if line[0] == "@" else re.fullmatch(r'"((?:[^"\\]|\\.)*)"=(.*)', line).groups()
            values[re.sub(r"\\(.)", r"\1", name)] = exported(data)
    return found


def exported(text):
    """Type and data of a value of a registration file."""
    if text.startswith("dword:"):
        return 4, int(text[6:], 16).to_bytes(4, "little")
    told = HEX.fullmatch(text)
    return int(told["kind"] or "3", 16), bytes.fromhex(told["data"].replace(",", ""))


def random_tree(random, depth=0):
    """A key of a random name and what is below it, of a few dozen keys; names have units of all kinds."""
    def name(least):
        letters = "aZ0_ .%@\u00e4\u20ac\u03a9\ud834\udd1e\u0001\n\"'\uffff"
        while "\\" in (made := "".join(random.choices(letters, k=random.randint(least, 8)))):
            pass
        return made

    def apart(made):
        return list({tuple(folded(each.name)): each for each in made}.values())

    values = apart(Value(name(0), random.choice([0, 1, 2, 3, 4, 5, 7, 11, 0xffff_ffff]), random.randbytes(random.choice([0, 1, 4, 5, 8, 300])))
                   for _ in range(random.randint(0, 6)))
    keys = apart(random_tree(random, depth + 1) for _ in range(random.randint(0, 5 - depth)))
    return Key(name(1) if depth else "root", random.randrange(1 << 64), keys=keys, values=values)
