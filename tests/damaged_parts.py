#!/usr/bin/env python3
"""Exports single keys of hives' files, whole and damaged ones, with the built program:

    tests/damaged_parts.py PROGRAM

Hives are made by runs/hives/maker.py. What is wanted of a key comes from its tree, or from tests/part_reader.py, which reads by
docs/FORMATS.md. The last line is 'N passed, N failed', and the status is 0 if none failed.

- whole: each key of whole hives. JSON has the keys and values of its tree; each form is the part of the whole export that begins with its path.
- damaged: one record of each kind spoiled: the keys beside it are printed, a key that needs it is refused, and so is one that isn't there
  if it isn't known.
- chance: bytes of records spoiled by chance: each key is printed, missing or refused just as the other reader says.
- depths: paths of 512 names, and keys that lie deeper.
- devices: standard input, a full device.
- memory: each allocation refused in turn: nothing but that is printed, or some keys before it.
"""
import json
import os
import random
import struct
import subprocess
import sys

TOP = os.path.dirname(os.path.dirname(os.path.abspath(__file__)))
sys.dont_write_bytecode = True
sys.path[:0] = [os.path.join(TOP, "tests"), os.path.join(TOP, "runs", "hives")]
from cases import patched  # noqa: E402
from maker import NONE, Key, Value, hive, u32  # noqa: E402
from part_reader import Found, Missing, Parts, Unread, order  # noqa: E402
from scratch import expect, finish, program_at, refusal_shim, tell  # noqa: E402

HEAD, BINARY, MOST_NAMES = 4_096, 3, 512
KINDS = [f"REG_{name}" for name in ("NONE", "SZ", "EXPAND_SZ", "BINARY", "DWORD", "DWORD_BIG_ENDIAN", "LINK", "MULTI_SZ",
                                    "RESOURCE_LIST", "FULL_RESOURCE_DESCRIPTOR", "RESOURCE_REQUIREMENTS_LIST", "QWORD")]
FORMS = ("export", "export-utf8", "export-json", "export-tsv")
MISSING = (b"E2 NotFound\n", 1)
# how many hives are spoiled by chance
HIVES = int(os.environ.get("HIVES", "40"))


def word(path, number=0):
    return f"{number}:" + "\\".join(path)


def tree(minor=5):
    """A tree with lists, data and records of each kind. Several keys share a descriptor."""
    shared, alone = bytes(range(40)), bytes(range(60))
    products = [Key(f"Product {at}", at, [Key("Sub", 9, values=[Value("s", 7, b"a\0b\0")])], [Value("v", BINARY, bytes([at]) * 9)],
                    descriptor=shared if at % 2 else b"", class_bytes=b"c\0l\0" if at == 3 else b"") for at in range(9)]
    data = [Value("", 1, "x\0".encode("utf-16-le")), Value("small", 4, b"\5\0\0\0"), Value("large", BINARY, bytes(at % 251 for at in range(40_000)))]
    vendor = Key("Vendor", 2, products, data, descriptor=alone, leaf=b"lhlfli", many=2)
    plain = Key("Plain", 3, [Key(f"k{at}", at, leaf=b"li") for at in range(5)], leaf=b"lf")
    return Key("r", 1, [vendor, plain, Key("Zeta", 4, values=[Value("z", 0, b"")], flags=4)], [Value("of the root", 0x1234, b"\1\2\3")])


def all_keys(key, path=()):
    yield path, key
    for subkey in key.keys:
        yield from all_keys(subkey, (*path, subkey.name))


def rows_of(key, path):
    """The keys of a tree, as part_reader.py tells them."""
    values = sorted(((value.name, value.kind, value.data) for value in key.values), key=lambda each: order(each[0]))
    yield Found(path, key.time, key.flags, key.class_bytes, key.descriptor, values)
    for subkey in sorted(key.keys, key=lambda each: order(each.name)):
        yield from rows_of(subkey, (*path, subkey.name))


def kind_of(name):
    return KINDS.index(name) if name in KINDS else int(name.removeprefix("hex(").removesuffix(")"), 16)


def rows_in(printed):
    """The keys that lines of JSON tell."""
    found = []
    for line in map(json.loads, printed.splitlines()):
        path = tuple(line["key"].split("\\")) if line["key"] else ()
        if "name" not in line:
            its_class = bytes.fromhex(line["class_hex"]) if "class_hex" in line else line.get("class", "").encode("utf-16-le", "surrogatepass")
            found.append(Found(path, int(line["time"]), line["flags"], its_class, bytes.fromhex(line.get("descriptor", ""))))
        else:
            found[-1].values.append((line["name"], kind_of(line["type"]), bytes.fromhex(line["data"])))
    return found


class Exports:
    """Exports of one file."""

    def __init__(self, program, file):
        self.program, self.path = program, program.put("hive.dat", file)

    def part(self, path, form="export-json", number=0):
        return self.program.run(form, self.path, word(path, number))

    def rows(self, path):
        """The keys that are printed, or the line and the status."""
        printed, status = self.part(path)
        return rows_in(printed) if status == 0 else (printed, status)

    def wrong_part(self, title, path, wanted):
        found = self.rows(path)
        return None if found == wanted else f"{title}, {word(path)}: {found if isinstance(found, tuple) else 'other keys'}"

    def is_damaged(self, title, path):
        """What is wrong, if a key has to be refused."""
        printed, status = self.part(path)
        return None if status == 1 and printed.startswith(b"E15 HiveDamaged 0 ") and printed.count(b"\n") == 1 else f"{title}, {word(path)}: {printed[:80]}"


def part_of_whole(form, whole, path):
    """The lines of a whole export that are those of a key and of all below it."""
    if form == "export-json":
        begins = [json.loads(line)["key"].upper().split("\\")[:len(path)] == [name.upper() for name in path] for line in whole.splitlines()]
        return b"".join(line for line, is_part in zip(whole.splitlines(True), begins) if is_part)
    if form == "export-tsv":
        keys = [line.split(b"\t")[0].split(b":", 1)[1].decode().upper() for line in whole.splitlines()]
        return b"".join(line for line, key in zip(whole.splitlines(True), keys) if is_below(key, path))
    text = whole.decode("utf-16-le" if form == "export" else "utf-8")
    parts = text.split("\r\n\r\n")
    kept = [part for part in parts[1:] if part.startswith("[") and is_below(part[1:].split("]\r\n")[0].split("]")[0].partition("\\")[2].upper(), path)]
    return "".join(part + "\r\n\r\n" for part in [parts[0], *kept]).encode("utf-16-le" if form == "export" else "utf-8")


def is_below(key, path):
    """Whether a key, in capitals, is at a path or below it."""
    asked = "\\".join(path).upper()
    return not asked or key == asked or key.startswith(asked + "\\")


def whole(program):
    results = []
    for minor in (3, 5):
        root = tree()
        exports = Exports(program, hive(root, minor=minor)[0])
        wholes = {form: program.run(form, exports.path)[0] for form in FORMS}
        for path, key in all_keys(root):
            results.append(exports.wrong_part(f"whole, 1.{minor}", path, list(rows_of(key, path))))
            swapped = tuple(name.swapcase() for name in path)
            for form in FORMS:
                results.append(expect(f"{form} {word(path)}", exports.part(swapped, form), (part_of_whole(form, wholes[form], path), 0)))
        for path in (("Nobody",), ("Vendor", "Nobody"), ("Vendor", "Product 1", "Sub", "below")):
            results.append(expect(word(path), exports.part(path), MISSING))
        results.append(expect("another hive", exports.part((), number=1), MISSING))
    return tell("whole", results)


class Spoiled:
    """A hive one record of which is spoiled: what is wrong of the keys beside it, and of those that need it."""

    def __init__(self, program, root, file):
        self.exports, self.root = Exports(program, file), root

    def results(self, title, needs):
        """`needs` tells of a path whether a key there needs the record."""
        for path, key in all_keys(self.root):
            if needs(path):
                yield self.exports.is_damaged(title, path)
            else:
                yield self.exports.wrong_part(title, path, list(rows_of(key, path)))


def field_at(file, at, place):
    """The number of 32 bits in a cell."""
    return struct.unpack_from("<I", file, HEAD + at + 4 + place)[0]


def damaged(program):
    root, results = tree(), []
    file, places = hive(root)
    product, vendor, zeta = places["Product 3"], places["Vendor"], places["Zeta"]

    def spoil(title, at, some, needs):
        results.extend(Spoiled(program, root, patched(file, at + 4, some)).results(title, needs))

    # its siblings are read for their names, so those beside it and below them are refused too
    spoil("a key's record", product, b"xx", lambda path: not path or path[0] == "Vendor")
    results.append(expect("beside it", Exports(program, patched(file, product + 4, b"xx")).part(("Nobody",)), MISSING))
    results.append(Exports(program, patched(file, product + 4, b"xx")).is_damaged("beside it", ("Vendor", "Nobody")))
    value = field_at(file, field_at(file, product, 40), 0 - 4 + 4)

    def above_product(path):
        return path in ((), ("Vendor",), ("Vendor", "Product 3"))

    spoil("a value's record", value, b"xx", above_product)
    spoil("a value's data", value + 8, u32(NONE), above_product)
    spoil("a list of values", product + 40, u32(4), above_product)
    spoil("a class", product + 48, u32(4), above_product)
    spoil("a descriptor", product + 44, u32(4), above_product)
    spoil("a list of subkeys", product + 28, u32(4), lambda path: above_product(path) or path[:2] == ("Vendor", "Product 3"))
    spoil("a count of subkeys", product + 20, u32(2), lambda path: above_product(path) or path[:2] == ("Vendor", "Product 3"))
    spoil("the list of subkeys", field_at(file, vendor, 28), b"zz", lambda path: not path or path[0] == "Vendor")
    spoil("large data", field_at(file, field_at(file, vendor, 40), 8) + 8, u32(NONE), lambda path: path in ((), ("Vendor",)))
    # the descriptor that keys share, and the cell of a key that is also a descriptor
    shared = field_at(file, places["Product 1"], 44)
    odd = {("Vendor", f"Product {at}") for at in (1, 3, 5, 7)}
    spoil("the shared descriptor", shared, b"xx", lambda path: path in ((), ("Vendor",)) or path in odd)
    # a value that two keys have: each is read by itself
    other = field_at(file, zeta, 40)
    spoil("a value of two keys", other, u32(value), lambda path: not path)
    return results


def told_damaged(program):
    results = damaged(program)
    # what is printed of the key that took another's value
    root = tree()
    file, places = hive(root)
    value = field_at(file, field_at(file, places["Product 3"], 40), 0)
    exports = Exports(program, patched(file, field_at(file, places["Zeta"], 40) + 4, u32(value)))
    wanted = [Found(("Zeta",), 4, 4, b"", b"", [("v", BINARY, b"\3" * 9)])]
    results = [each for each in results if each is None or "a value of two keys, 0:Zeta" not in each]
    results.append(exports.wrong_part("the other's value", ("Zeta",), wanted))
    # two subkeys of one name: neither is found, those beside them are
    twice = Key("r", 1, [Key("Same", 2), Key("sAME", 3), Key("Other", 4, [Key("below", 5)])])
    exports = Exports(program, hive(twice)[0])
    results += [exports.is_damaged("two of one name", ("same",)), exports.is_damaged("two of one name", ()),
                exports.wrong_part("beside two of one name", ("Other",), list(rows_of(twice.keys[2], ("Other",))))]
    # bins that aren't in order: nothing is read
    for title, bad in [("a bin", patched(file, 0, b"nibh")), ("a cell", patched(file, places["Zeta"], u32(7)))]:
        exports = Exports(program, bad)
        results += [exports.is_damaged(title, path) for path in ((), ("Plain",), ("Nobody",))]
    return tell("damaged", results)


def chance(program):
    results = []
    for seed in range(HIVES):
        rng, root = random.Random(seed), tree()
        file, _ = hive(root, minor=rng.choice((3, 4, 5)))
        file = bytearray(file)
        cells = list(Parts(bytes(file)).cells.items())
        for _ in range(rng.randint(1, 3)):
            at, data = rng.choice(cells)
            # the fields of a record more often than bytes far behind
            place = HEAD + at + 4 + rng.randrange(min(len(data), 80))
            kind = rng.randrange(3)
            some = bytes([file[place] ^ 1 << rng.randrange(8)]) if kind == 0 else rng.randbytes(rng.randint(1, 4)) if kind == 1 else u32(rng.choice(cells)[0])
            some = some[:HEAD + at + 4 + len(data) - place]
            file[place:place + len(some)] = some
        parts, exports = Parts(bytes(file)), Exports(program, bytes(file))
        for path, _ in all_keys(root):
            try:
                wanted = parts.part(path)
            except Missing:
                results.append(expect(f"chance {seed}, {word(path)}", exports.part(path), MISSING))
                continue
            except Unread:
                printed, status = exports.part(path)
                results.append(None if status == 1 and printed[:3] in (b"E15", b"E17", b"E6 ") else f"chance {seed}, {word(path)}: {printed[:80]}, {status}")
                continue
            printed, status = exports.part(path)
            results.append(None if status == 0 and rows_in(printed) == wanted else f"chance {seed}, {word(path)}: {printed[:80]}, {status}")
    return tell("chance", results)


def chain(names, below=None):
    """Keys one below the other."""
    key = below
    for name in reversed(names):
        key = Key(name, 1, [key] if key else [])
    return key


def depths(program):
    names, results = [f"n{at}" for at in range(MOST_NAMES)], []
    root = Key("r", 1, [chain(names), Key("beside", 2)])
    exports = Exports(program, hive(root)[0])
    for path, key in list(all_keys(root))[::100] + list(all_keys(root))[-3:]:
        results.append(exports.wrong_part("as deep as may be", path, list(rows_of(key, path))))
    deeper = Key("r", 1, [chain([*names, "deeper"]), Key("beside", 2)])
    exports = Exports(program, hive(deeper)[0])
    for count in (0, 1, 300, MOST_NAMES):
        results.append(expect(f"{count} names to one that is too deep", exports.part(names[:count]), (b"E6 TooLarge\n", 1)))
    results.append(exports.wrong_part("beside it", ("beside",), list(rows_of(deeper.keys[1], ("beside",)))))
    results.append(expect("513 names", exports.part((*names, "deeper")), (b"E5 TooDeep\n", 1)))
    return tell("depths", results)


def devices(program):
    file, places = hive(tree())
    exports, results = Exports(program, patched(file, places["Product 3"] + 4, b"xx")), []
    for form in FORMS:
        with open(program.at(exports.path), "rb") as source:
            ended = subprocess.run([program.path, form, "-", word(("Plain",))], stdin=source, capture_output=True)
        results.append(expect(f"{form} of standard input", (ended.stdout, ended.returncode), exports.part(("Plain",), form)))
        for path in (("Plain",), ("Nobody",)):
            results.append(expect(f"{form}, a full device", program.status_to("/dev/full", form, exports.path, word(path)), 1))
    return tell("devices", results)


def memory(program):
    file, places = hive(tree())
    exports, shim, report, results = Exports(program, patched(file, places["Zeta"] + 40 + 4, u32(4))), refusal_shim(), program.at("report"), []
    for form in ("export-utf8", "export-json"):
        words = (form, exports.path, word(("Vendor", "Product 3")))
        wanted = program.run(*words)
        for number in range(1, 2_000):
            told = program.run(*words, environment={"LD_PRELOAD": shim, "FAILALLOC_AT": str(number), "FAILALLOC_REPORT": report})
            with open(report, encoding="ascii") as file:
                if "refused=0" in file.read():
                    results.append(expect(f"{form}, no allocation refused", told, wanted))
                    break
            # a file of which all can't be reserved is read in smaller parts
            if told != wanted:
                before = told[0].removesuffix(b"E1 NoMemory\n")
                results.append(None if told[1] == 1 and before != told[0] and wanted[0].startswith(before) else f"{form}, allocation {number}: {told}")
        else:
            results.append(f"{form}: each allocation was refused")
    return tell("memory", results)


PARTS = [whole, told_damaged, chance, depths, devices, memory]


def main():
    sys.setrecursionlimit(5_000)
    with program_at(sys.argv[1], "regtx-damaged-parts-") as program:
        finish([part(program) for part in PARTS])


main()
