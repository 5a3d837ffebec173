#!/usr/bin/env python3
"""Reads and edits hives by bindings/python/regtx_hive.py and the crate of bindings/rust:

    tests/hive_bindings.py FOLDER     FOLDER has libregtx.a and libregtx.so.0, as tools/c_library.py writes them

- made: hives whose trees are known, with names of all kinds of units: a walk, and each mapping.
- others: hives that other programs wrote or read: the same as the Python module of hivex, hivexml and reglookup read.
- fields: flags, classes and security descriptors of a hive that the test made, also as reglookup reads them.
- values: makers of each type beside the bytes that the registry's rules give; what data of other lengths stand for.
- edits: what is set, created and deleted, as hivexregedit, hivexml, reglookup and regfinfo read it; times.
- refusals: the error of each, with its number, name and text; what isn't there is a KeyError.
- recoveries: hives that were not closed cleanly, opened by logs that are bytes or files.
- damage: spoiled copies of hives: each is refused, or read to its end and written.
- lives: closed hives, and what goes on after them; threads; the memory of 10,000 openings.
- files: a written file takes the place of the old one, synced; what is left if a write is refused, or ended at each of its calls.
- loading: where the library is looked for.
- pages: what the examples of the pages print; mypy, if it is there.
- rust: the crate's tests, its package, and what its example `print` reads in the same hives; if cargo is there.

The last line is 'N passed, N failed'; status 0 if none failed. What isn't over after 900 seconds ends with status 1.
"""
import faulthandler
import glob
import gzip
import os
import random
import re
import resource
import shutil
import signal
import subprocess
import sys
import tempfile
import threading
from datetime import datetime, timezone

TOP = os.path.dirname(os.path.dirname(os.path.abspath(__file__)))
PYTHON = os.path.join(TOP, "bindings", "python")
sys.dont_write_bytecode = True
sys.path[:0] = [os.path.join(TOP, "tests"), os.path.join(TOP, "runs", "hives"), PYTHON]
import regtx_hive  # noqa: E402
from hive_crate import rust  # noqa: E402
from hive_rows import by_path, folded, interpreter_with, of_hivex, of_hivexregedit, of_model, of_module, random_tree  # noqa: E402
from maker import Key, hive  # noqa: E402
from maker import Value as Made  # noqa: E402
from other_readers import READERS  # noqa: E402
from regtx_hive import Cursor, Hive, HiveError, Kind, NotFound, Value  # noqa: E402
from scratch import Program, are_there, expect, finish, limited, noting_library, skip, tell  # noqa: E402
from value_machine import ValueMachine  # noqa: E402

MOST_SECONDS, SEED, TREES, SPOILED, CRATE_SPOILED, OPENINGS, MOST_KEYS = 900, 20_261, 12, 1_500, 40, 10_000, 200
SOFTWARE = os.path.join(TOP, "examples", "software.dat")
OLD = b"what was there before"


# ---- hives that are read

def odd_tree():
    """A tree with names of all kinds of units."""
    values = [Made("", 1, b"a\0\0\0"), Made("@", 1), Made("\ud834\udd1e", 3, b"\1"), Made("\ud834", 3, b"\2"),
              Made("\udd1e\ud834", 3, b"\3"), Made("a b%", 7), Made("\u00e4\u20ac", 0xffff_ffff, b"12345"),
              Made("\0\x1f\x7f\x9f", 4, b"1234"), Made("v" * 16_383, 4, b"\3\0\0\0"), Made("w" * 30_000, 3, bytes(70_000))]
    keys = [Key("Plain", 5, values=values, keys=[Key("x", 6)]), Key("\u00e4\u20ac", 7, keys=[Key("below", 8)]),
            Key("\ud834\udd1e", 2 ** 64 - 1), Key("half\ud834", 9), Key("a b%20[x]", keys=[Key("@")]), Key("_"), Key("Z"), Key("a"),
            Key("n" * 256, keys=[Key("x")])]
    return Key("root", 3, keys=keys)


def deep_tree(levels):
    """A chain of keys."""
    key = Key("d")
    for _ in range(levels - 1):
        key = Key("d", keys=[key])
    return Key("root", keys=[key])


def wide_tree():
    """Keys with many subkeys and values."""
    keys = [Key(f"k{number * 7 % 2_000}", number) for number in range(2_000)]
    values = [Made(f"v{number * 7 % 1_000}", 4, number.to_bytes(4, "little")) for number in range(1_000)]
    return Key("root", keys=[Key("keys", keys=keys, many=500), Key("values", values=values)])


def made_trees():
    """Trees by their names."""
    chance = random.Random(SEED)
    return {"odd": odd_tree(), "deep": deep_tree(512), "wide": wide_tree(),
            **{f"random {number}": random_tree(chance) for number in range(TREES)}}


def first_difference(title, found, wanted):
    """What is wrong with rows, if they aren't the wanted ones."""
    apart = next((pair for pair in zip(found, wanted) if pair[0] != pair[1]), (len(found), len(wanted)))
    return None if found == wanted else expect(title, *apart)


def swapped(name):
    """The name in another spelling of its ASCII letters."""
    return "".join(letter.swapcase() if letter.isascii() else letter for letter in name)


def mappings(title, opened, rows):
    """Keys by their paths in another spelling, and their mappings."""
    below = {}
    for path, _, _ in rows[1:]:
        below.setdefault(path[:-1], []).append(path[-1])
    for path, time, values in rows[:MOST_KEYS]:
        key = opened["\\".join(map(swapped, path))]
        names = below.get(path, [])
        found = (key.path, key.time, list(key.subkeys), len(key.subkeys), [each.path for each in key.subkeys.values()])
        yield expect(f"{title}: {path}", found, ("\\".join(path), time, names, len(names), ["\\".join((*path, name)) for name in names]))
        told = [(name, int(value.kind), value.data) for name, value in key.values.items()]
        yield expect(f"{title}: values of {path}", (told, len(key.values), list(key.values)), (values, len(values), [each[0] for each in values]))
        yield expect(f"{title}: by name in {path}", [tuple(key.values[swapped(name)]) for name, _, _ in values], [each[1:] for each in values])
        yield expect(f"{title}: subkeys of {path}", [key.subkeys[swapped(name)].name for name in names[:50]], names[:50])


def snapshots(title, opened):
    """The values of a walk by their names in another spelling."""
    for entry in opened.walk():
        if entry.values:
            found = [entry.values.get(swapped(name)) for name in entry.values]
            yield expect(f"{title}: by name in {entry.path!r}", (found, entry.values.get("none")), (list(entry.values.values()), None))


def made(_):
    for title, tree in made_trees().items():
        with Hive.open(hive(tree)[0]) as opened:
            rows = list(of_model(tree))
            yield first_difference(f"{title}: the walk", of_module(opened.walk()), rows)
            yield expect(f"{title}: the root", (opened.root.name, opened.root.path), (tree.name, ""))
            if title != "deep":
                yield from mappings(title, opened, rows)
                yield from snapshots(title, opened)
            depths = [(entry.depth, entry.subkeys) for entry in opened.walk()]
            counts = [sum(other[0][:-1] == path for other in rows[1:]) for path, _, _ in rows[:MOST_KEYS]]
            yield expect(f"{title}: depths", depths[:MOST_KEYS], [(len(row[0]), count) for row, count in zip(rows, counts)])
            again = Hive.open(opened.to_bytes()) if title != "deep" else opened
            yield first_difference(f"{title}: written and read again", of_module(again.walk()), rows)


def other_files(program):
    """Hives that this project's library didn't write, and two that it did."""
    for path in sorted(glob.glob(os.path.join(TOP, "runs", "hives", "*.hive.gz"))):
        with gzip.open(path) as file:
            yield program.at(program.put(os.path.basename(path)[:-3], file.read()))
    yield from (os.path.join(TOP, "examples", name) for name in ("by_hivex.dat", "software.dat"))


def plain(rows):
    """The keys and values of rows as tests/other_readers.py has them: those of printable ASCII, the data if they are binary."""
    def is_plain(name):
        return all(" " <= letter <= "~" for letter in name)
    kept = [row for row in rows if all(map(is_plain, row[0]))]
    return {row[0] for row in kept}, {(path, name): data if kind == Kind.REG_BINARY else None
                                      for path, _, values in kept for name, kind, data in values if is_plain(name)}


def by_readers(title, path, rows):
    """What programs of others read in a file beside rows."""
    for reader in READERS:
        keys, values = reader(path)
        # reglookup is asked of short data alone: tests/other_readers.py says why
        wanted = plain(rows)
        yield expect(f"{title}, by {reader.__name__}: keys", keys, wanted[0])
        short = {at for at, data in wanted[1].items() if data is None or len(data) <= 16_344}
        yield expect(f"{title}, by {reader.__name__}: values", {at: data for at, data in values.items() if at in short},
                     {at: wanted[1][at] for at in short})


def others(program):
    interpreter = interpreter_with("hivex")
    if not interpreter:
        skip("others", "the Python module of hivex isn't there")
    are_there("others", "hivexml", "reglookup")
    for path in other_files(program):
        with Hive.open(path) as opened:
            rows, title = of_module(opened.walk()), os.path.basename(path)
            yield from by_readers(title, path, rows)
            opened.write(program.at("again.dat"))
            for file in (path, program.at("again.dat")) if interpreter else ():
                yield expect(f"{title}, by hivex: {os.path.basename(file)}", of_hivex(interpreter, file), by_path(rows))
            order = [(path[:-1], folded(path[-1])) for path, _, _ in rows[1:]]
            yield expect(f"{title}: the order", [sorted(part) for part in parted(order)], parted(order))


def parted(order):
    """Names by the key that they are below."""
    found = {}
    for above, name in order:
        found.setdefault(above, []).append(name)
    return list(found.values())


# ---- flags, classes and descriptors

# a self-relative descriptor: the owner S-1-5-32-544, the group S-1-5-18, and a list by which S-1-1-0 may do all
DESCRIPTOR = bytes.fromhex("010004801400000024000000000000003000000001020000000000052000000020020000010100000000000512000000"
                           "02001c000100000000001400ff000f00010100000000000100000000")


RIGHTS = "S-1-1-0:ALLOW:QRY_VAL SET_VAL CREATE_KEY ENUM_KEYS NOTIFY CREATE_LNK DELETE R_CONT W_DAC W_OWNER:"


def classed_tree():
    """A tree with keys of flags, classes and descriptors."""
    keys = [Key("Class", 5, flags=0x10, class_bytes="Shape".encode("utf-16-le"), descriptor=DESCRIPTOR), Key("Half", flags=8, class_bytes=b"abc"),
            Key("\u20ac", flags=0xff9e, class_bytes=b"\xe4\x00\x34\xd8", descriptor=bytes(range(250)) * 20), Key("Plain")]
    return Key("root", 3, flags=0x2c, keys=keys, descriptor=DESCRIPTOR)


def fields(program):
    """What keys have, as the test put it into a file."""
    tree = classed_tree()
    path = program.at(program.put("fields.hive", hive(tree)[0]))
    with Hive.open(path) as opened:
        for title, key in [("", tree), *((each.name, each) for each in tree.keys)]:
            found = opened[title]
            yield expect(f"{title!r}", (found.flags, found.class_data, found.descriptor), (key.flags & ~0x20, key.class_bytes, key.descriptor))
        yield expect("classes", [opened[each].class_name for each in ("Class", "\u20ac", "Plain", "")], ["Shape", "\u00e4\ud834", "", ""])
        yield expect("half a unit", raised(lambda: opened["Half"].class_name), UnicodeDecodeError)
        made, gone = opened["Class"].create_key("Below"), opened["Plain"]
        yield expect("a key that is made", (made.flags, made.class_data, made.descriptor), (0, b"", DESCRIPTOR))
        gone.delete()
        missing = (2, "REGTX_NOT_FOUND", "E2 NotFound", False, True)
        yield expect("a key that is gone", [told(lambda call=call: getattr(gone, call)) for call in ("flags", "class_name", "descriptor")], [missing] * 3)
        again = Hive.open(opened.to_bytes())
        yield expect("written and read again", [(each.flags, each.class_data, each.descriptor) for each in again.root.subkeys.values()],
                     [(each.flags, each.class_data, each.descriptor) for each in opened.root.subkeys.values()])
    if are_there("fields", "reglookup"):
        ran = subprocess.run(["reglookup", "-s", "-H", path], stdout=subprocess.PIPE, stderr=subprocess.DEVNULL, check=True)
        line = next(line for line in ran.stdout.split(b"\n") if line.startswith(b"/Class,")).decode()
        yield expect("by reglookup", line.split(",")[4:], ["S-1-5-32-544", "S-1-5-18", "", RIGHTS, "Shape"])


# ---- values

# a maker's value, the number of its type, its bytes, and what they stand for
MADE = [
    (Value.sz(""), 1, "0000", ""), (Value.sz("1.0"), 1, "31002e0030000000", "1.0"),
    (Value.sz("\u00e4\u20ac\U0001d11e\ud834"), 1, "e400ac2034d81edd34d80000", "\u00e4\u20ac\U0001d11e\ud834"),
    (Value.expand_sz("%A%"), 2, "2500410025000000", "%A%"), (Value.binary(b"\1\2"), 3, "0102", b"\1\2"),
    (Value.dword(0xffffffff), 4, "ffffffff", 0xffffffff), (Value.dword_big_endian(42), 5, "0000002a", 42),
    (Value.multi_sz([]), 7, "0000", []), (Value.multi_sz(["a", "b c"]), 7, "6100000062002000630000000000", ["a", "b c"]),
    (Value.multi_sz([""]), 7, "00000000", [""]), (Value.multi_sz(["", "a"]), 7, "0000610000000000", ["", "a"]),
    (Value.qword(0x0123456789abcdef), 11, "efcdab8967452301", 0x0123456789abcdef), (Value(8, b"\1"), 8, "01", b"\1"),
    (Value(0xffff_ffff, b""), 0xffff_ffff, "", b""),
]
# a type and bytes that no maker makes, and what they stand for
FOREIGN = [
    (1, "", ""), (1, "6100", "a"), (1, "6100000062000000", "a\0b"), (2, "61000000000000", b"a\0\0\0\0\0\0"), (1, "61", b"a"),
    (1, "34d8", "\ud834"), (4, "", b""), (4, "2a0000", b"*\0\0"), (4, "2a00000000", b"*\0\0\0\0"), (5, "2a", b"*"), (11, "2a000000", b"*\0\0\0"),
    (6, "61000000", b"a\0\0\0"), (7, "", []), (7, "6100", ["a"]), (7, "61000000", ["a"]), (7, "61000000000062000000", ["a", "", "b"]),
    (7, "61", b"a"), (0, "6100", b"a\0"),
]
NO_VALUES = [
    (lambda: Value.dword(-1), ValueError), (lambda: Value.dword(1 << 32), ValueError), (lambda: Value.qword(1 << 64), ValueError),
    (lambda: Value.sz("a\0b"), ValueError), (lambda: Value.multi_sz("ab"), TypeError), (lambda: Value.multi_sz(["a\0"]), ValueError),
]
# what can't be set
UNSET = [(5, TypeError), ((1, b""), TypeError), (Value(-1, b""), ValueError), (Value(1 << 32, b""), ValueError), (Value("1", b""), ValueError),
         (Value(3, "text"), TypeError), (Value(3, 5), TypeError)]


def raised(call):
    """The type of what a call raises, or None."""
    try:
        call()
    except Exception as error:  # noqa: BLE001
        return type(error)
    return None


def values(_):
    for value, kind, digits, wanted in MADE:
        yield expect(f"{value}", (value.kind, value.data.hex(), value.value), (kind, digits, wanted))
    for kind, digits, wanted in FOREIGN:
        yield expect(f"{kind} {digits}", Value(kind, bytes.fromhex(digits)).value, wanted)
    for number, (call, error) in enumerate(NO_VALUES):
        yield expect(f"no value {number}", raised(call), error)
    with Hive.new() as opened:
        held = opened.root.values
        for value, error in UNSET:
            yield expect(f"set {value}", raised(lambda value=value: held.__setitem__("v", value)), error)
        yield expect("nothing was set", len(held), 0)
        for number, (value, kind, _, _) in enumerate(MADE):
            held[f"v{number}"] = value
            found = held[f"V{number}"]
            yield expect(f"v{number}", (found, isinstance(found.kind, Kind)), (value, kind in list(Kind)))
        held["view"] = Value(3, memoryview(b"abc"))
        yield expect("bytes of a view", held["view"].data, b"abc")


# ---- edits

def edits(program):
    """A hive that is made by edits, as others read it."""
    opened, when = Hive.new(), datetime(2024, 2, 29, tzinfo=timezone.utc)
    opened.at(regtx_hive.moment_of(when))
    vendor, long = opened.create_key(r"Software\Vendor"), bytes(at % 251 for at in range(40_000))
    vendor.values.update({"": Value.sz("text"), "Number": Value.dword(7), "Long": Value.binary(long), "a\"b\\c": Value.qword(1)})
    vendor.values["NUMBER"] = Value.dword(8)
    vendor.values["gone"] = Value.sz("x")
    del vendor.values["Gone"]
    for number in range(600):
        opened.create_key(f"Many\\k{number}")
    for name in list(opened["Many"].subkeys)[1::2]:
        opened[f"many\\{name}"].delete()
    opened.create_key(r"Tree\a\b\c")
    opened["tree"]["A"].delete_tree()
    opened["Tree"].create_key("x").values["v"] = Value.multi_sz(["a"])
    wanted = {(): {}, ("Software",): {}, ("Many",): {}, ("Tree",): {}, ("Tree", "x"): {"v": (7, b"a\0\0\0\0\0")}, ("Software", "Vendor"): {
        "": (1, "text\0".encode("utf-16-le")), "Number": (4, b"\x08\0\0\0"), "Long": (3, long), "a\"b\\c": (11, b"\1" + bytes(7))}}
    names = sorted((f"k{number}" for number in range(600)), key=folded)
    wanted |= {("Many", name): {} for name in names[::2]}
    file = program.at("edited.dat")
    opened.write(file)
    yield expect("the same tree", {path: values for path, (_, values) in by_path(of_module(opened.walk())).items()}, wanted)
    if are_there("edits", "hivexregedit"):
        yield expect("by hivexregedit", of_hivexregedit(file), wanted)
    yield from by_readers("edits", file, of_module(opened.walk()))
    if are_there("edits", "regfinfo"):
        yield expect("by regfinfo", by_regfinfo(file), sorted(
            [(0, "ROOT"), *((len(path), path[-1]) for path in wanted if path),
             *((len(path) + 1, name or "(default)") for path, held in wanted.items() for name in held)]))
    interpreter = interpreter_with("hivex")
    moment = 133_536_384_000_000_000
    if interpreter:
        found = of_hivex(interpreter, file)
        yield expect("by hivex", {path: values for path, (_, values) in found.items()}, wanted)
        yield expect("times by hivex", {time for time, _ in found.values()}, {moment})
    yield from times(opened, moment, when)
    yield expect("a replaced value's name", [name for name in vendor.values if name.lower() == "number"], ["Number"])
    vendor.values.clear()
    yield expect("cleared", (dict(vendor.values), "Number" in vendor.values), ({}, False))


def by_regfinfo(file):
    """The names of keys and values that libregf reads, each with how deep it is."""
    ran = subprocess.run(["regfinfo", file], stdout=subprocess.PIPE, text=True, check=True, timeout=60)
    told = (re.fullmatch(r"( *)\((?:key:|value: \d+)\) (.*)", line) for line in ran.stdout.splitlines())
    return sorted((len(line[1]), line[2]) for line in told if line)


def times(opened, moment, when):
    """The moment of edits: a chosen one, or now."""
    key = opened["Tree"]
    yield expect("a time", (key.time, regtx_hive.datetime_of(key.time)), (moment, when))
    opened.at(None)
    begun = regtx_hive.moment_of(datetime.now(timezone.utc))
    opened["Tree"].values["v"] = Value.dword(1)
    ended = regtx_hive.moment_of(datetime.now(timezone.utc)) + 10
    yield expect("now", begun <= key.time <= ended, True)
    for no_moment in (-1, 1 << 64):
        yield expect(f"the moment {no_moment}", raised(lambda at=no_moment: opened.at(at)), ValueError)


# ---- refusals

def told(call):
    """What an error tells."""
    try:
        call()
    except HiveError as error:
        return error.code, error.name, error.text, error.is_damage, isinstance(error, KeyError)
    return None


def refusals(_):
    missing, bad = (2, "REGTX_NOT_FOUND", "E2 NotFound", False, True), (4, "REGTX_BAD_NAME", "E4 BadName", False, False)
    with Hive.open(SOFTWARE) as opened:
        before, key = opened.to_bytes(), opened["Software"]
        calls = [
            (lambda: opened["None"], missing), (lambda: opened["\ud834"], missing), (lambda: key["None"], missing),
            (lambda: key.subkeys["None"], missing), (lambda: key.subkeys["Vendor\\Product"], missing), (lambda: key.subkeys[""], missing),
            (lambda: key.values["None"], missing), (lambda: key.values.__delitem__("None"), missing), (lambda: opened.walk("None"), missing),
            (lambda: Cursor(opened, "None"), missing), (lambda: opened["a\\\\b"], bad), (lambda: opened["\\a"], bad),
            (lambda: opened.create_key("\u00e4"), bad), (lambda: opened.create_key("n" * 256), bad),
            (lambda: key.values.__setitem__("\u00e4", Value.dword(1)), bad),
            (lambda: opened.create_key("\\".join("d" * 33)), (5, "REGTX_TOO_DEEP", "E5 TooDeep", False, False)),
            (lambda: opened["\\".join("d" * 513)], (5, "REGTX_TOO_DEEP", "E5 TooDeep", False, False)),
            (lambda: key.values.__setitem__("v", Value.binary(bytes(1_048_577))), (6, "REGTX_TOO_LARGE", "E6 TooLarge", False, False)),
            (key.delete, (3, "REGTX_HAS_SUBKEYS", "E3 HasSubkeys", False, False)),
            (opened.root.delete_tree, (18, "REGTX_FIXED", "E18 Fixed", False, False)),
            (lambda: Hive.open(before[:-1]), (1501, "REGTX_TRUNCATED", "E15 HiveDamaged 0 Truncated", True, False)),
            (lambda: Hive.open(b""), (1501, "REGTX_TRUNCATED", "E15 HiveDamaged 0 Truncated", True, False)),
            (lambda: Hive.open(__file__), (1502, "REGTX_BAD_BASE", "E15 HiveDamaged 0 BadBase", True, False)),
        ]
        for number, (call, wanted) in enumerate(calls):
            yield expect(f"refusal {number}", told(call), wanted)
        yield expect("a KeyError", raised(lambda: {}["x"]) in NotFound.__mro__, True)
        yield expect("without an error", (opened.get("None"), opened.get("a\\\\b"), "None" in opened, "a\\\\b" in opened, "software" in opened,
                                          5 in opened, key.values.get("None"), key.subkeys.get("None"), "None" in key.subkeys,
                                          "Vendor\\Product" in key.subkeys), (None, None, False, False, True, False, None, None, False, False))
        for call in (lambda: opened[5], lambda: key.values[5], lambda: opened[b"Software"], lambda: Hive.open(None)):
            yield expect("no text", raised(call), TypeError)
        yield expect("the hive after them", opened.to_bytes(), before)
        yield expect("what an error says", str(caught(lambda: opened["Software\\None"])), "Software\\None: E2 NotFound")
    yield expect("no file", caught(lambda: Hive.open("none.dat")).filename, "none.dat")
    yield expect("no hive", str(caught(lambda: Hive.open(__file__))), f"{__file__}: E15 HiveDamaged 0 BadBase")


def caught(call):
    """What a call raises."""
    try:
        call()
    except Exception as error:  # noqa: BLE001
        return error
    return None


def recoveries(program):
    machine = ValueMachine()
    unclean, log = machine.primary(0), machine.log(machine.entries)
    with Hive.recover(unclean, machine.log(machine.entries[2:]), machine.log(machine.entries[:2])) as opened:
        yield expect("two logs", opened["k"].values["v"].data, machine.data(4))
    for name, content in (("unclean", unclean), ("log", log)):
        with open(program.at(name), "wb") as file:
            file.write(content)
    with Hive.recover(program.at("unclean"), program.at("log")) as opened:
        yield expect("files", opened["k"].values["v"].data, machine.data(4))
    with Hive.recover(machine.primary(2, True), log) as opened:
        yield expect("a closed hive", opened["k"].values["v"].data, machine.data(2))
    bad_log = (1510, "REGTX_BAD_LOG", "E15 HiveDamaged 0 BadLog", True, False)
    for title, logs in (("no log", []), ("a log of no bytes", [b""]), ("a missing entry", [machine.log(machine.entries[1:])])):
        yield expect(title, told(lambda: Hive.recover(unclean, *logs)), bad_log)  # pylint: disable=cell-var-from-loop
    yield expect("what an error says", str(caught(lambda: Hive.recover(program.at("unclean")))), f"{program.at('unclean')}: E15 HiveDamaged 0 BadLog")


def spoiled_files():
    """Copies of hives with a few bytes of other numbers, some of them cut."""
    chance = random.Random(SEED)
    with open(SOFTWARE, "rb") as file:
        sources = [file.read(), hive(odd_tree())[0]]
    for number in range(SPOILED):
        file = bytearray(sources[number % 2])
        for _ in range(chance.randint(1, 3)):
            file[chance.randrange(40 if chance.random() < 0.2 else 4_096, len(file))] = chance.choice([0, 1, 0x7f, 0x80, 0xff, chance.randrange(256)])
        yield bytes(file[:chance.randrange(len(file))] if chance.random() < 0.1 else file)


def damage(_):
    """Each spoiled copy; some of them have to be refused, and some have to be read."""
    refused = 0
    for number, file in enumerate(spoiled_files()):
        try:
            with Hive.open(file) as opened:
                rows = of_module(opened.walk())
                with Hive.open(opened.to_bytes()) as again:
                    yield first_difference(f"copy {number}", of_module(again.walk()), rows)
        except HiveError as error:
            refused += 1
            yield None if error.is_damage or error.code in (6, 17) else f"copy {number}: {error}"
    yield expect("some are refused, and some are read", 50 < refused < SPOILED - 50, True)


# ---- lives

def closed():
    """A hive that is closed, its keys, and what goes on."""
    opened = Hive.open(SOFTWARE)
    key, walk, subkeys = opened["Software"], opened.walk(), iter(opened["Software"].subkeys)
    cursor, before = Cursor(opened, "Software"), of_module(opened.walk())
    next(opened.walk())
    opened.close()
    opened.close()
    calls = [lambda: opened["Software"], lambda: opened.get("x"), lambda: "x" in opened, opened.walk, opened.to_bytes, lambda: key.time,
             lambda: list(key.subkeys), lambda: len(key.values), lambda: key.values["v"], lambda: key.values.get("v"), key.delete_tree,
             lambda: key.values.__setitem__("v", Value.dword(1)), lambda: opened.create_key("x"), lambda: opened.write("/none/x")]
    for number, call in enumerate(calls):
        yield expect(f"closed, call {number}", told(call), (100, "REGTX_NOT_OPEN", "no hive is open", False, False))
    yield expect("is closed", opened.closed, True)
    yield expect("a walk after it", of_module(walk), before)
    yield expect("an iteration after it", list(subkeys), ["Vendor"])
    yield expect("a cursor after it", (cursor.down(), cursor.name, cursor.down(), cursor.name, len(cursor.values()), cursor.next(), cursor.up(),
                                       cursor.up(), cursor.up(), cursor.name), (True, "Vendor", True, "Product", 4, False, True, True, False, "Software"))
    cursor.close()
    cursor.close()
    yield expect("a closed cursor", [told(call)[0] for call in (cursor.down, cursor.next, cursor.up)], [100] * 3)
    try:
        with Hive.open(SOFTWARE) as within:
            raise ZeroDivisionError
    except ZeroDivisionError:
        yield expect("after with", within.closed, True)
    with Hive.open(SOFTWARE) as within:
        seen = [(name, within["System"].create_key(f"new{number}").name) for number, name in enumerate(within["System"].subkeys)]
        walked = [within.get(entry.path) and within[entry.path].delete_tree() for entry in within.walk() if entry.depth == 1]
        yield expect("changed within", (len(seen), len(walked), [entry.path for entry in within.walk()]), (2, 2, [""]))


def threads():
    """Threads that read one hive at once, each by its walk, while another one edits it; and that share its calls."""
    tree, wrong, errors = wide_tree(), [], []
    rows = list(of_model(tree))
    with Hive.open(hive(tree)[0]) as opened:
        walks = [opened.walk() for _ in range(4)]

        def read(walk):
            try:
                wrong.extend([1] if of_module(walk) != rows else [])
            except Exception as error:  # noqa: BLE001
                errors.append(error)

        def edit(number):
            try:
                for at in range(100):
                    opened["values"].values[f"w{number}"] = Value.dword(at)
                    if opened["Values"].values[f"W{number}"].value != at or len(opened["keys"].subkeys) != 2_000:
                        wrong.append(number)
                    opened.to_bytes() if at % 25 == 0 else None
            except Exception as error:  # noqa: BLE001
                errors.append(error)

        running = [*(threading.Thread(target=read, args=(walk,)) for walk in walks), *(threading.Thread(target=edit, args=(at,)) for at in range(2))]
        for thread in running:
            thread.start()
        for thread in running:
            thread.join()
        yield expect("threads", (wrong, errors), ([], []))
        yield expect("after them", [opened["values"].values[f"w{number}"].value for number in range(2)], [99, 99])


def resident():
    """How many bytes of this process are in memory."""
    with open("/proc/self/statm", encoding="ascii") as file:
        return int(file.read().split()[1]) * resource.getpagesize()


def memory():
    """Openings of a hive that nobody closes, each with a walk that is left halfway and a cursor, and refused ones."""
    with open(SOFTWARE, "rb") as file:
        content = file.read()
    bad, held = content[:-4_096], 0
    for number in range(OPENINGS):
        opened = Hive.open(content)
        next(opened.walk())
        Cursor(opened, "software").down()
        opened["software"].values.get("none")
        if number % 10 == 0:
            raised(lambda: Hive.open(bad))
            opened.to_bytes()
        held = held or (number == OPENINGS // 10 and resident()) or 0
    # a hive of that file holds some 20,000 bytes, so that a hundredth of them would pass this
    yield expect("bytes more after 9,000 openings", resident() - held < 2_000_000, True)


def lives(_):
    yield from closed()
    yield from threads()
    yield from memory()


# ---- files

def content_of(path):
    with open(path, "rb") as file:
        return file.read()


def files(program):
    """What a write leaves."""
    opened = Hive.open(SOFTWARE)
    file, link, folder = program.at("out.dat"), program.at("link.dat"), program.at("folder")
    os.mkdir(folder)
    program.put("out.dat", OLD)
    os.chmod(file, 0o640)
    os.symlink("out.dat", link)
    opened.write(link)
    yield expect("through a link", (content_of(file), os.path.islink(link), os.stat(file).st_mode & 0o777), (opened.to_bytes(), True, 0o640))
    program.put("out.dat", OLD)
    program.put("out.dat.new", b"another")
    for path, named in [(file, f"{file}.new"), (folder, f"{folder}.new"), (program.at("none", "x"), program.at("none", "x.new"))]:
        error = caught(lambda path=path: opened.write(path))
        yield expect(f"refused: {path}", (isinstance(error, OSError), error.filename), (True, named))
    yield expect("what is left", (content_of(file), content_of(f"{file}.new"), sorted(os.listdir(program.home))),
                 (OLD, b"another", ["folder", "link.dat", "out.dat", "out.dat.new"]))
    os.remove(f"{file}.new")
    yield from calls(program, file)
    heavy = Hive.open(hive(Key("root", values=[Made(f"v{at:02}", 3, bytes(1_048_576)) for at in range(17)]))[0])
    yield expect("a heavy hive is read", [len(entry.values) for entry in heavy.walk()], [17])
    yield expect("and isn't written", (told(lambda: heavy.write(file))[0], content_of(file)[:4]), (6, b"regf"))


def calls(program, file):
    """The calls on files of a write, in another process: its syncs, a full disk, and its end at each call."""
    library, report = noting_library(program), program.at("report")
    code = f"import sys, regtx_hive\nh = regtx_hive.Hive.open({SOFTWARE!r})\ntry: h.write(sys.argv[1])\nexcept OSError as e: sys.exit(str(e))"

    def write(**given):
        environment = dict(os.environ, PYTHONPATH=PYTHON, **given.pop("environment", {}))
        ran = subprocess.run([sys.executable, "-Bc", code, "out.dat"], cwd=program.home, env=environment, stdin=subprocess.DEVNULL,
                             capture_output=True, text=True, timeout=60, **given)
        return ran.stderr, ran.returncode

    program.put("out.dat", OLD)
    found = write(**limited(resource.RLIMIT_FSIZE, 4_096))
    yield expect("a full disk", (found, content_of(file)), (("[Errno 27] File too large: 'out.dat.new'\n", 1), OLD))
    yield expect("the write", write(environment={"LD_PRELOAD": library, "SYNCS_REPORT": report}), ("", 0))
    yield expect("its syncs", content_of(report), b"file out.dat.new\nfolder\n")
    ends = 0
    for ends in range(1, 100):
        program.put("out.dat", OLD)
        _, status = write(environment={"LD_PRELOAD": library, "CALLS_END_AT": str(ends)})
        if status == 0:
            break
        yield expect(f"ended at call {ends}", (status, content_of(file)), (-signal.SIGKILL, OLD))
        if os.path.exists(f"{file}.new"):
            os.remove(f"{file}.new")
    yield expect("all calls were met", (ends > 1, content_of(file)[:4]), (True, b"regf"))


# ---- the library, and the pages

def loading(program, folder):
    """Where the library is looked for: the version, or what is raised, in a process of its own."""
    beside, empty, wrong, so = *map(program.at, ("beside", "empty", "wrong")), os.path.join(folder, "libregtx.so.0")
    for name in (beside, empty, wrong):
        os.mkdir(name)
    # one that can't be loaded: the system may have another one
    program.put("wrong/libregtx.so.0", b"no library")
    for name in (os.path.join(PYTHON, "regtx_hive.py"), so):
        shutil.copy(name, beside)
    at_it = {"REGTX_LIBRARY": folder}
    none = "REGTX_LIBRARY or load() names the folder of libregtx.so.0"
    for title, place, load, environment, wanted in [
            ("a folder of the environment", PYTHON, "", at_it, "0.9.0"), ("a file of it", PYTHON, "", {"REGTX_LIBRARY": so}, "0.9.0"),
            ("beside the module", beside, "", {}, "0.9.0"), ("by the system", PYTHON, "", {"LD_LIBRARY_PATH": folder}, "0.9.0"),
            ("a folder that is named", PYTHON, f"regtx_hive.load({folder!r})", {"REGTX_LIBRARY": empty}, "0.9.0"),
            ("a file that is named", PYTHON, f"regtx_hive.load({so!r})", {}, "0.9.0"), ("none that can be loaded", PYTHON, "", {"LD_LIBRARY_PATH": wrong}, none),
            ("an empty folder, though one is beside", beside, "", {"REGTX_LIBRARY": empty}, none),
            ("another library", PYTHON, "regtx_hive.load('/proc/self/exe')", at_it, none)]:
        code = f"import regtx_hive\ntry:\n    {load or 'pass'}\n    print(regtx_hive.version()[0])\nexcept OSError as error: print(error)"
        given = {name: text for name, text in os.environ.items() if name not in ("REGTX_LIBRARY", "LD_LIBRARY_PATH")}
        ran = subprocess.run([sys.executable, "-Bc", code], env={**given, "PYTHONPATH": place, **environment}, capture_output=True, text=True)
        yield expect(title, (ran.stdout.strip()[-len(wanted):], ran.stderr, ran.returncode), (wanted, "", 0))


def pages(program):
    """The examples of the pages in Python."""
    with open(os.path.join(PYTHON, "README.md"), encoding="utf-8") as file:
        code, printed = re.search(r"^```python\n(.*?)^```$.*?^```\n(.*?)^```$", file.read(), re.MULTILINE | re.DOTALL).groups()
    ran = subprocess.run([sys.executable, "-Bc", code], cwd=program.home, env=dict(os.environ, PYTHONPATH=PYTHON), capture_output=True, text=True)
    yield expect("the example", (ran.stdout, ran.stderr, ran.returncode), (printed, "", 0))
    with open(os.path.join(TOP, "bindings", "README.md"), encoding="utf-8") as file:
        code = re.search(r"^```python\n(.*?)^```$", file.read(), re.MULTILINE | re.DOTALL)[1]
    with Hive.new() as opened:
        opened.create_key("Select").values["Current"] = Value.dword(1)
        opened.create_key(r"ControlSet001\Services\Disk")
        opened.write(program.at("SYSTEM"))
    ran = subprocess.run([sys.executable, "-Bc", code], cwd=program.home, env=dict(os.environ, PYTHONPATH=PYTHON), capture_output=True, text=True)
    with Hive.open(program.at("SYSTEM")) as opened:
        start = opened[r"ControlSet001\Services\Disk"].values["Start"]
    yield expect("the first page", (ran.stdout, ran.stderr, start), ("1\n", "", Value.dword(0)))
    if are_there("pages", "mypy"):
        words = ["mypy", "--strict", "--cache-dir", program.at("cache"), os.path.join(PYTHON, "regtx_hive.py")]
        ran = subprocess.run(words, capture_output=True, text=True)
        yield expect("mypy --strict", (ran.stdout[-300:] if ran.returncode else "", ran.returncode), ("", 0))


def results(part, home):
    """The results of a part, in a folder of its own; an error that is none of its own is one that failed."""
    os.mkdir(home)
    try:
        yield from part(Program(None, home))
    except Exception as error:  # noqa: BLE001
        yield f"{type(error).__name__}: {error}"


def main():
    if len(sys.argv) != 2:
        sys.exit(__doc__)
    faulthandler.dump_traceback_later(MOST_SECONDS, exit=True)
    folder = os.path.abspath(sys.argv[1])
    # processes that begin here find it so
    os.environ["REGTX_LIBRARY"] = folder
    regtx_hive.load(folder)

    trees = {title: (hive(tree)[0], list(of_model(tree))) for title, tree in made_trees().items()}
    parts = {"made": made, "others": others, "fields": fields, "values": values, "edits": edits, "refusals": refusals, "recoveries": recoveries, "damage": damage,
             "lives": lives, "files": files, "loading": lambda program: loading(program, folder), "pages": pages,
             "rust": lambda program: rust(program, folder, trees, list(spoiled_files())[:CRATE_SPOILED])}
    with tempfile.TemporaryDirectory(prefix="hive_bindings-") as home:
        finish([tell(name, list(results(part, os.path.join(home, name)))) for name, part in parts.items()])


main()
