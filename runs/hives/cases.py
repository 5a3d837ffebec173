"""Files that are dumped, with what is printed of each: the rules are those of docs/FORMATS.md and docs/SCRIPTS.md.

A case is a title, the file's bytes, and the texts of which one is printed; the status is 0 where that begins with `hive`.
"""
import functools
import operator
import os
import struct
from dataclasses import dataclass

from maker import NEWEST, NONE, SEGMENT, Key, Value, head, hive, mended, of_minor, u16, u32


@dataclass
class Case:
    title: str
    file: bytes
    texts: list

    def status(self):
        return 0 if self.texts[0].startswith(b"hive") else 1


def damaged(cause):
    return f"E15 HiveDamaged 0 {cause}\n".encode()


UNSUPPORTED, TOO_LARGE = b"E17 Unsupported\n", b"E6 TooLarge\n"


def lines(*texts):
    return "".join(text + "\n" for text in ("hive 0", *texts)).encode()


def case(title, root, *texts):
    """A tree, and the lines that are printed of it."""
    return Case(title, hive(root)[0], [lines(*texts)])


def refused(title, file, *texts):
    return Case(title, file, list(texts))


def patched(file, at, some):
    """The file with other bytes at an offset of its bins data."""
    at += 4_096
    return file[:at] + some + file[at + len(some):]


def number(file, at):
    """The number of four bytes at an offset of the bins data."""
    return int.from_bytes(file[4_096 + at:4_100 + at], "little")


def offsets(file, key):
    """Where the elements of the list of a key's subkeys begin, less the bytes of the cell's size, in the bins data."""
    return number(file, key + 4 + 28) + 4


def values_of(file, key):
    """Where the offsets of a key's values begin, in the bins data."""
    return number(file, key + 4 + 40) + 4


def value_of(file, key, index=0):
    """Where the record of one of a key's values begins, in the bins data."""
    return number(file, values_of(file, key) + 4 * index) + 4


def names_and_order():
    yield case("the root alone", Key("ROOT"), "key 0: 0")
    yield case("the root's own name is no part of a path, whatever it is", Key(""), "key 0: 0")
    yield case("times are told as numbers", Key("r", 2 ** 64 - 1), "key 0: 18446744073709551615")
    tree = Key("r", 1, [Key("b", 2, [Key("d", 3), Key("C", 4)]), Key("A", 5), Key("a-", 6)])
    wanted = ["key 0: 1", "key 0:A 5", "key 0:a- 6", "key 0:b 2", "key 0:b\\C 4", "key 0:b\\d 3"]
    for leaf in (b"lh", b"lf", b"li"):
        tree.leaf = leaf
        yield case(f"keys come in the order of folded names, whatever that of the list {leaf.decode()}", tree, *wanted)
    tree.many = 2
    yield case("and of a list of lists", tree, *wanted)
    tree.leaf, tree.many = b"lilflh", 1
    yield case("whose lists are one of each kind", tree, *wanted)
    yield case("a beginning comes first, its subkeys before the next name",
               Key("r", 0, [Key("ab"), Key("a", 0, [Key("z")]), Key("a ")]),
               "key 0: 0", "key 0:a 0", "key 0:a\\z 0", "key 0:a%0020 0", "key 0:ab 0")
    yield case("`Z`, `[`, `_` and the grave accent come before a brace, small letters as capitals",
               Key("r", 0, [Key("{"), Key("z"), Key("`"), Key("_"), Key("["), Key("Y")]),
               *("key 0:" + name + " 0" for name in ["", "Y", "z", "[", "_", "`", "{"]))
    yield case("blanks, percent signs and units past ASCII by their numbers",
               Key("r", 0, [Key("a b"), Key("50%"), Key("\u00c4"), Key("\u4e2d\u00e4"), Key("~\x7f")]),
               "key 0: 0", "key 0:50%0025 0", "key 0:a%0020b 0", "key 0:~%007f 0", "key 0:%00c4 0", "key 0:%4e2d%00e4 0")
    yield case("a key named `@` is spelled by its number", Key("r", 0, [Key("@"), Key("@@")]),
               "key 0: 0", "key 0:%0040 0", "key 0:@@ 0")


def values():
    named = [Value("b", 1, b"12345"), Value("", 3, b"\x01"), Value("A", 0xffff_ffff), Value("@", 4, b"abcd"), Value("a b", 0, b"xy")]
    yield case("values come in the order of folded names behind their key, the empty name as `@`, no data as `-`",
               Key("r", 7, [Key("k", 8, [], [Value("v", 2, b"\xff")])], named),
               "key 0: 7", "val @ 3 01", "val %0040 4 61626364", "val A 4294967295 -", "val a%0020b 0 7879",
               "val b 1 3132333435", "key 0:k 8", "val v 2 ff")
    for size in (1, 3, 4, 5, SEGMENT, SEGMENT + 1, 2 * SEGMENT, 2 * SEGMENT + 1, 1_048_576):
        data = bytes(at * 7 % 251 for at in range(size))
        yield case(f"data of {size} bytes", Key("r", 0, [], [Value("v", 3, data)]), "key 0: 0", "val v 3 " + data.hex())
    cell = 32
    record = b"vk" + u16(1) + u32(3, cell, 5) + u16(1, 0) + b"v"
    file, _ = hive(Key("r", 0, [], [Value("x", 0, b"abcdefgh"), Value("", record=record)]))
    yield refused("a small size without its top bit names a cell, here one that another value has", file, damaged("Shared"))
    file, _ = hive(Key("r", 0, [], [Value("", record=b"vk" + u16(1) + u32(0, 12_345, 5) + u16(1, 0) + b"v")]))
    yield Case("at size 0 the offset is unread", file, [lines("key 0: 0", "val v 5 -")])
    shared = [Key("a", 0, [], [], 0, b"descriptor"), Key("b", 0, [], [], 0, b"descriptor")]
    yield case("a descriptor that two keys name, and a class: neither is printed",
               Key("r", 0, shared, [], 0, b"other", b"class"), "key 0: 0", "key 0:a 0", "key 0:b 0")


def files():
    file, _ = hive(Key("r", 9, [], [Value("v", 1, b"x")]))
    text = lines("key 0: 9", "val v 1 78")
    yield Case("bytes behind the bins data are unread", file + b"more", [text])
    yield Case("so are the name, the clustering factor and the store's fields",
               mended(file[:44] + u32(7) + b"n" * 64 + b"?" * 88 + file[200:]), [text])
    for size in (0, 1, 511, 512, 600, 4_095, 4_096, 4_097, len(file) - 1):
        yield refused(f"a file that ends behind {size} bytes", file[:size], damaged("Truncated"))
    yield refused("two numbers that differ", hive(Key("r"), primary=2)[0], damaged("NotClean"))
    yield refused("so in a file of 600 bytes", hive(Key("r"), primary=2)[0][:600], damaged("NotClean"))
    yield refused("a wrong sum", file[:508] + bytes([file[508] ^ 1]) + file[509:], damaged("NotClean"))
    # the signature is looked at first: another one is that of no hive, whatever its sum and its numbers are
    yield refused("512 zeros: their sum is 1", bytes(512), damaged("BadBase"))
    yield refused("a text", b"Windows Registry Editor Version 5.00\r\n" * 20, damaged("BadBase"))
    yield refused("another signature", hive(Key("r"), signature=b"rege")[0], damaged("BadBase"))
    yield refused("so with two numbers that differ", hive(Key("r"), signature=b"rege", primary=2)[0], damaged("BadBase"))
    for name, number in (("major", 0), ("major", 2), ("minor", 6), ("minor", 2), ("format", 0), ("format", 2),
                         ("kind", 1), ("kind", 2), ("kind", 3)):
        yield refused(f"{name} {number}", hive(Key("r"), **{name: number})[0], UNSUPPORTED)
    bins = file[4_096:]
    yield refused("no bins data", head(32, 0) + bins, damaged("BadBase"))
    yield refused("bins data of 4,097 bytes", head(32, 4_097) + bins + b"\0", damaged("BadBase"))
    yield refused("bins data of 4 KiB past the limit", head(32, 67_108_864 + 4_096) + bins, TOO_LARGE)
    yield refused("bins data of the limit that aren't there", head(32, 67_108_864) + bins, damaged("Truncated"))


def spelled_block(primary, total):
    """A block spelled out: primary sequence number and sum are given, the root is at 32, and the bins data are one bin."""
    fields = bytes.fromhex("72656766" + primary + "01000000 0000000000000000 01000000 05000000 00000000 01000000 20000000 00100000 01000000")
    return fields + bytes(508 - len(fields)) + bytes.fromhex(total) + bytes(4_096 - 512)


def with_xor(file, xor, total):
    """The file with another word at 112, which nobody reads, so that the XOR of 127 words is this; and with this sum."""
    words = struct.unpack("<127I", file[:112] + bytes(4) + file[116:508])
    return file[:112] + u32(xor ^ functools.reduce(operator.xor, words)) + file[116:508] + u32(total) + file[512:]


def sums():
    file, _ = hive(Key("r", 9))
    text = lines("key 0: 9")
    # XOR of `regf` 0x66676572, 1, 1, 1, 5, 1, 0x20, 0x1000 and 1; then 2 in place of the first 1
    yield Case("a block spelled out", spelled_block("01000000", "56756766") + file[4_096:], [text])
    yield refused("so with two numbers that differ", spelled_block("02000000", "55756766") + file[4_096:], damaged("NotClean"))
    for xor, total, other in ((0, 1, 0), (1, 1, 0), (NONE, NONE - 1, NONE), (NONE - 1, NONE - 1, NONE), (0x7fff_fffe, 0x7fff_fffe, 1)):
        yield Case(f"a sum of words whose XOR is {xor:#x}", with_xor(file, xor, total), [text])
        yield refused(f"and another sum of them, {other:#x}", with_xor(file, xor, other), damaged("NotClean"))
    yield refused("a byte that nobody reads, without its sum", file[:300] + b"\1" + file[301:], damaged("NotClean"))


def tiles():
    """Bins and cells that do or do not fill the data: of one bin, with allocated cells and after them a free one; and of two."""
    tree = Key("r", 9, [], [Value("v", 3, b"five!")])
    file, places = hive(tree)
    free = places["r"] + 88
    left = number(file, free)
    for title, at, some, cause in [
            ("a bin's signature", 0, b"hbim", "BadBin"), ("a bin's own offset", 4, u32(4_096), "BadBin"),
            ("a bin of size 0", 8, u32(0), "BadBin"), ("a bin past the data", 8, u32(8_192), "BadBin"),
            ("a bin of 4,097 bytes", 8, u32(4_097), "BadBin"), ("a bin of 4,104 bytes", 8, u32(4_104), "BadBin"),
            ("a cell of size 0", 32, u32(0), "BadCell"), ("a cell of 84 bytes", 32, u32(2 ** 32 - 84), "BadCell"),
            ("a cell past its bin", 32, u32(2 ** 32 - 8_192), "BadCell"), ("a cell of the least number", 32, u32(1 << 31), "BadCell"),
            ("a free cell of size 0", free, u32(0), "BadCell"), ("a free cell of 4 bytes", free, u32(4), "BadCell"),
            ("a free cell of 12 bytes", free, u32(12), "BadCell"), ("a free cell of the least number", free, u32(1 << 31), "BadCell"),
            ("a free cell past its bin", free, u32(left + 8), "BadCell"), ("zeros after a free cell", free, u32(left - 8), "BadCell")]:
        yield refused(title, patched(file, at, some), damaged(cause))
    for before in (4_096, 8_192):
        file, _ = hive(tree, before)
        yield Case(f"a free bin of {before} bytes before the root's", file, [lines("key 0: 9", "val v 3 " + b"five!".hex())])
        yield refused("the own offset of a second bin", patched(file, before + 4, u32(0)), damaged("BadBin"))
        yield refused("a cell that reaches into a second bin", patched(file, 32, u32(before)), damaged("BadCell"))


def roots():
    """Offsets of the root at which no allocated cell begins."""
    file, places = hive(Key("r", 0, [Key("a"), Key("b")]))
    root = places["r"]
    for at in (0, 4, 33, root + 4, root + 8, 4_096, NONE):
        yield refused(f"a root at {at}", head(at, 4_096) + file[4_096:], damaged("BadOffset"))
    yield refused("a root in a free cell", patched(file, root, u32(2 ** 32 - number(file, root))), damaged("BadOffset"))
    # the first cell's data, from their fifth byte on, are a whole cell of a key
    inner = u32(2 ** 32 - 88) + b"nk" + u16(0x20) + bytes(40) + u32(NONE) + bytes(36)
    file, _ = hive(Key("r", 0, [], [Value("v", 3, bytes(4) + inner)]))
    for at, cause in ((32, "BadRecord"), (36, "BadOffset"), (40, "BadOffset"), (44, "BadOffset")):
        yield refused(f"a root at {at}, in or before a cell within a cell", head(at, 4_096) + file[4_096:], damaged(cause))


def keys():
    """Keys and lists that name what they may not."""
    file, places = hive(Key("r", 0, [Key("a"), Key("b")]))
    root = places["r"]
    yield refused("a root that is no key node", patched(file, root + 4, b"nx"), damaged("BadRecord"))
    yield refused("a key's name past its cell", patched(file, root + 4 + 72, u16(60_000)), damaged("BadRecord"))
    yield refused("a subkey that is the root", patched(file, offsets(file, root) + 4, u32(root)), damaged("Shared"))
    yield refused("a subkey twice", patched(file, offsets(file, root) + 12, u32(places["a"])), damaged("Shared"))
    yield refused("a subkey nowhere", patched(file, offsets(file, root) + 4, u32(NONE)), damaged("BadOffset"))
    yield refused("a flag that says that a handle stands for the values", patched(file, root + 4 + 2, u16(0x60)), UNSUPPORTED)
    yield refused("a security cell that is none", patched(file, root + 4 + 44, u32(places["a"])), damaged("BadRecord"), damaged("Shared"))


def key_nodes():
    """Each rule of a key's record broken once."""
    file, places = hive(Key("r", 0, [Key("abcdefgh", 7)]))
    key = places["abcdefgh"] + 4
    yield Case("a key's name up to the end of its cell", file, [lines("key 0: 0", "key 0:abcdefgh 7")])
    yield refused("a key's name one past its cell", patched(file, key + 72, u16(9)), damaged("BadRecord"))
    for letters in (b"nl", b"kn", b"lk"):
        yield refused(f"a subkey with the letters {letters.decode()}", patched(file, key, letters), damaged("BadRecord"))
    yield refused("a handle in place of a subkey", patched(file, key + 2, u16(0x6c)), UNSUPPORTED)
    yield refused("a class of two bytes that lies nowhere", patched(file, key + 74, u16(2)), damaged("BadOffset"))
    yield refused("half a unit", patched(patched(file, key + 2, u16(0)), key + 72, u16(7)), damaged("BadName"))
    yield refused("a backslash of one byte", patched(file, key + 83, b"\\"), damaged("BadName"))
    yield refused("a backslash of two bytes", hive(Key("r", 0, [Key("\u4e2d\\")]))[0], damaged("BadName"))
    file, places = hive(Key("r", 0, [], [], 0, b"", b"twelve bytes"))
    yield Case("a class up to the end of its cell", file, [lines("key 0: 0")])
    yield refused("a class one past its cell", patched(file, places["r"] + 4 + 74, u16(13)), damaged("BadRecord"))
    # the data of the first cell are the root's record, as far as they go
    record = b"nk" + bytes(42) + u32(NONE) + bytes(28)
    for size in (12, 60, 68, 76):
        file, _ = hive(Key("r", 0, [], [Value("v", 3, record[:size])]))
        file = head(32, 4_096) + file[4_096:]
        yield (Case("a root without a name in the least cell", file, [lines("key 0: 0")]) if size == 76
               else refused(f"a root in a cell of {size + 4} bytes", file, damaged("BadRecord")))


def securities():
    """Each rule of a security record broken once, and cells that are reached twice."""
    tree = Key("r", 0, [Key("a", 1, [], [Value("v", 3, b"five!")])], [], 0, b"sixteen bytes...")
    file, places = hive(tree)
    root, its = places["r"] + 4, value_of(file, places["a"])
    cell = number(file, root + 44)
    yield refused("the letters of a security record", patched(file, cell + 4, b"sl"), damaged("BadRecord"))
    for size in (17, 1 << 31, NONE):
        yield refused(f"a descriptor of {size} bytes in a cell for 16", patched(file, cell + 4 + 16, u32(size)), damaged("BadRecord"))
    yield refused("a security record that is a subkey's data", patched(file, its + 8, u32(cell)), damaged("Shared"))
    file, places = hive(Key("r", 0, [], tree.keys[0].values, 0, b"sixteen bytes..."))
    cell, its = number(file, places["r"] + 4 + 44), value_of(file, places["r"])
    yield refused("a security record that is its own key's data", patched(file, its + 8, u32(cell)), damaged("Shared"))
    file, places = hive(Key("r", 0, [], [Value("v", 3, b"five!"), Value("w", 3, b"fives")]))
    first, second = value_of(file, places["r"]), value_of(file, places["r"], 1)
    yield refused("two values with one cell of data", patched(file, second + 8, u32(number(file, first + 8))), damaged("Shared"))


def value_records():
    """Each rule of a value's record broken once."""
    file, places = hive(Key("r", 0, [], [Value("abcdefgh", 4, b"wxyz")]))
    value = value_of(file, places["r"])
    yield Case("a value's name up to the end of its cell", file, [lines("key 0: 0", "val abcdefgh 4 7778797a")])
    yield refused("a value's name one past its cell", patched(file, value + 2, u16(9)), damaged("BadRecord"))
    yield refused("the letters of a value's record", patched(file, value, b"vl"), damaged("BadRecord"))
    plain = patched(file, value + 16, u16(0))
    yield refused("half a unit of a value's name", patched(plain, value + 2, u16(7)), damaged("BadName"))
    for size in (5, 0x7fff_ffff):
        yield refused(f"{size} bytes of data in the record", patched(file, value + 4, u32(1 << 31 | size)), damaged("BadRecord"))
    for size in (0, 1, 2, 3):
        text = lines("key 0: 0", f"val abcdefgh 4 {'7778797a'[:2 * size] or '-'}")
        yield Case(f"{size} bytes of the four in the record", patched(file, value + 4, u32(1 << 31 | size)), [text])
    record = b"vk" + u16(0) + u32(1 << 31, 0, 4) + u16(1, 0)
    for size in (12, 20):
        file, _ = hive(Key("r", 0, [], [Value("", record=record[:size])]))
        yield (Case("a value without a name in the least cell", file, [lines("key 0: 0", "val @ 4 -")]) if size == 20
               else refused(f"a value in a cell of {size + 4} bytes", file, damaged("BadRecord")))


def big_data():
    """Each rule of big data broken once: of one byte more than two segments have, and of one byte more than one."""
    for size, segments in ((SEGMENT + 1, 2), (2 * SEGMENT, 2), (2 * SEGMENT + 1, 3)):
        file, places = hive(Key("r", 0, [], [Value("v", 3, bytes(size))]))
        value = value_of(file, places["r"])
        record = number(file, value + 8) + 4
        yield refused(f"the letters of big data of {size} bytes", patched(file, record, b"dc"), damaged("BadRecord"))
        for count in (0, segments - 1, segments + 1):
            yield refused(f"{count} segments of {size} bytes", patched(file, record + 2, u16(count)), damaged("BadRecord"))
        other = segments * SEGMENT + 1
        yield refused(f"{other} bytes in {segments} segments", patched(file, value + 4, u32(other)), damaged("BadRecord"))


def versions():
    """Hives of each minor version that is read. In 1.3 data of more than four bytes lie in one cell, however many they are."""
    for size in (0, 1, 4, 5, SEGMENT, SEGMENT + 1, 2 * SEGMENT, 2 * SEGMENT + 1, 1_048_576):
        data = bytes(at * 11 % 253 for at in range(size))
        for minor in (3, 4):
            file, _ = hive(Key("r", 9, [], [Value("v", 3, data)]), minor=minor)
            yield Case(f"{size} bytes in 1.{minor}", file, [lines("key 0: 9", f"val v 3 {data.hex() or '-'}")])
    big = "val big 3 " + "00" * (SEGMENT + 1)
    text = lines("key 0: 1", "key 0:a 4", "val @ 1 616263646566", "val n 4 01000000", "key 0:b 5", "key 0:wide%0020%4e2d 2", big,
                 "key 0:wide%0020%4e2d\\x 3")
    for minor in (3, 4, 5):
        yield Case(f"records of each kind in 1.{minor}", every_kind(SEGMENT + 1, minor), [text])
    for minor in (0, 1, 2, 6, 7, 256 + 3, NONE):
        yield refused(f"version 1.{minor}", hive(Key("r"), minor=minor)[0], UNSUPPORTED)
    for name, number in (("major", 0), ("major", 2), ("format", 0), ("format", 2), ("kind", 1), ("kind", 2)):
        yield refused(f"1.3 with {name} {number}", hive(Key("r"), minor=3, **{name: number})[0], UNSUPPORTED)
    yield from one_cells()
    yield from segments_in_a_cell()


def one_cells():
    """Large data in one cell: one of 16,352 bytes, whose size is stored as a negative number, has room for 16,348."""
    file, places = hive(Key("r", 9, [], [Value("v", 3, bytes(SEGMENT + 1))]), minor=3)
    value = value_of(file, places["r"])
    file = patched(file, number(file, value + 8), bytes.fromhex("20c0ffff"))
    for size in (SEGMENT + 1, 16_348):
        text = lines("key 0: 9", "val v 3 " + "00" * size)
        yield Case(f"a cell of 16,352 bytes that has {size} in 1.3", patched(file, value + 4, u32(size)), [text])
        for minor in (4, 5):
            yield refused(f"the same in 1.{minor}", of_minor(patched(file, value + 4, u32(size)), minor), damaged("BadRecord"))
    yield refused("16,349 bytes in a cell for 16,348", patched(file, value + 4, u32(16_349)), damaged("BadRecord"))
    yield refused("the data of 1.3 nowhere", patched(file, value + 8, u32(NONE)), damaged("BadOffset"))
    file, places = hive(Key("r", 0, [], [Value("v", 3, bytes(SEGMENT + 1)), Value("w", 3, bytes(SEGMENT + 1))]), minor=3)
    first, second = value_of(file, places["r"]), value_of(file, places["r"], 1)
    yield refused("two large values of 1.3 with one cell", patched(file, second + 8, u32(number(file, first + 8))), damaged("Shared"))
    file, _ = hive(Key("r", 9, [], [Value("v", 3, bytes(SEGMENT + 1))]))
    yield Case("big data in 1.4", of_minor(file, 4), [lines("key 0: 9", "val v 3 " + "00" * (SEGMENT + 1))])
    yield refused("a record of big data in 1.3 is a cell that is too short", of_minor(file, 3), damaged("BadRecord"))


def segments_in_a_cell():
    """A value whose cell begins as a record of big data does, and has room for as many bytes as its segments have. In 1.3 the data
    are the cell's bytes, and after that those of the segments. These were another value's, which has none now."""
    parts = bytes(at * 5 % 249 for at in range(SEGMENT + 1))
    file, places = hive(Key("r", 9, [], [Value("w", 3, parts), Value("v", 3, bytes(SEGMENT))]))
    other, value = value_of(file, places["r"]), value_of(file, places["r"], 1)
    record = number(file, other + 8) + 4 + 4_096
    record = file[record:record + 8]
    file = patched(patched(file, value + 4, u32(SEGMENT + 1)), number(file, value + 8) + 4, record)
    file = patched(file, other + 4, u32(1 << 31))
    for minor, data in ((3, record + bytes(SEGMENT + 1 - 8)), (4, parts), (5, parts)):
        text = lines("key 0: 9", "val v 3 " + data.hex(), "val w 3 -")
        yield Case(f"a cell as a record of big data and as data, in 1.{minor}", of_minor(file, minor), [text])


def lists():
    tree = Key("r", 0, [Key("a"), Key("b"), Key("c")], many=2)
    file, places = hive(tree)
    first = offsets(file, places["r"])
    above = first - 4
    leaf = number(file, first + 4)
    yield refused("a list of lists in a list of lists", patched(file, leaf + 4, b"ri"), damaged("BadList"))
    yield refused("a list of lists that names itself", patched(file, first + 4, u32(above)), damaged("BadList"), damaged("Shared"))
    yield refused("a list that a list of lists names twice", patched(file, first + 8, u32(leaf)), damaged("Shared"))
    yield refused("a list of no kind", patched(file, leaf + 4, b"lx"), damaged("BadList"))
    yield refused("a list longer than its cell", patched(file, leaf + 6, u16(900)), damaged("BadList"))
    yield from full_lists()
    for count in (2, 4, 0x4000_0003, NONE):
        yield refused(f"three subkeys that are said to be {count}", patched(file, places["r"] + 4 + 20, u32(count)), damaged("BadList"))
    yield Case("no subkeys: the offset beside the 0 is unread", patched(file, places["r"] + 4 + 20, u32(0)), [lines("key 0: 0")])
    file, places = hive(Key("r", 0, [], [Value("v", 1, b"x")]))
    for count in (900, 0x4000_0001, NONE):
        yield refused(f"a list of {count} values longer than its cell", patched(file, places["r"] + 4 + 36, u32(count)), damaged("BadRecord"))


def full_lists():
    """Lists that fill their cells, and one element more of them, which the key counts too."""
    for leaf, names in ((b"li", "ab"), (b"lf", "a"), (b"lf", "ab"), (b"lh", "a"), (b"lh", "ab")):
        file, places = hive(Key("r", 0, [Key(name) for name in names], leaf=leaf))
        title, count, cell = leaf.decode(), len(names), offsets(file, places["r"]) - 4
        text = lines("key 0: 0", *(f"key 0:{name} 0" for name in names))
        yield Case(f"{title} of {count}", file, [text])
        longer = patched(patched(file, places["r"] + 4 + 20, u32(count + 1)), cell + 6, u16(count + 1))
        yield refused(f"{title} of {count + 1} in a cell for {count}", longer, damaged("BadList"))
        other = {b"li": b"lh", b"lf": b"lh", b"lh": b"lf"}[leaf]
        changed = patched(file, cell + 4, other)
        # an element of `li` has four bytes, and one of the others eight
        yield Case(f"{title} as {other.decode()}", changed, [damaged("BadList") if leaf == b"li" else text])


def bad_names():
    yield refused("two subkeys of one folded name", hive(Key("r", 0, [Key("a"), Key("A")]))[0], damaged("BadName"))
    yield refused("two values of one folded name", hive(Key("r", 0, [], [Value("v"), Value("V")]))[0], damaged("BadName"))
    yield refused("two values without a name", hive(Key("r", 0, [], [Value(""), Value("")]))[0], damaged("BadName"))
    yield refused("a subkey without a name", hive(Key("r", 0, [Key("")]))[0], damaged("BadName"))
    yield refused("a backslash in a key's name", hive(Key("r", 0, [Key("a\\b")]))[0], damaged("BadName"))
    yield refused("so in the root's", hive(Key("\\"))[0], damaged("BadName"))
    yield case("a backslash in a value's name", Key("r", 0, [], [Value("a\\b", 1)]), "key 0: 0", "val a\\b 1 -")
    yield refused("a name in UTF-16 of an odd length", hive(Key("abc", patch={2: u16(0)}))[0], damaged("BadName"))


def limits():
    def deep(names):
        root = below = Key("r", 0)
        for _ in range(names):
            below.keys = [Key("k", 5)]
            below = below.keys[0]
        return root
    yield case("a path of 512 names", deep(512), "key 0: 0", *("key 0:" + "\\".join(["k"] * level) + " 5" for level in range(1, 513)))
    yield refused("a path of 513 names", hive(deep(513))[0], TOO_LARGE)
    # 192 and 2 for the root, 16 times 128 and 2, and the data
    full = 16_777_216 - 194 - 16 * 130
    for over in (0, 1):
        sizes = [full // 16] * 15 + [full // 16 + full % 16 + over]
        held = [Value(chr(97 + at), 3, bytes(size)) for at, size in enumerate(sizes)]
        file, _ = hive(Key("r", 0, [], held))
        text = lines("key 0: 0", *(f"val {value.name} 3 " + value.data.hex() for value in held))
        yield Case(f"a tree that weighs {over} more than it may", file, [TOO_LARGE if over else text])


def examples():
    """The files of examples/, whose trees are those of the scripts beside them."""
    folder = os.path.join(os.path.dirname(os.path.abspath(__file__)), "..", "..", "examples")
    first, later = 133536384000000000, 133536384600000000
    software = lines(f"key 0: {later}", f"key 0:Software {first}", f"key 0:Software\\Vendor {first}",
                     f"key 0:Software\\Vendor\\Product {first}", "val @ 1 " + utf16("Product"), "val Cache 3 -",
                     "val Flags 4 01000000", "val Version 1 " + utf16("1.2"), f"key 0:System {later}",
                     f"key 0:System\\Control%0020Set {later}", f"key 0:System\\Select {later}", "val Current 4 02000000")
    by_hivex = lines("key 0: 0", "key 0:Software 0", "key 0:Software\\Vendor 0", "val @ 1 " + utf16("Vendor"),
                     "val Flags 4 01000000", "val Version 1 " + utf16("1.2"), "key 0:System 0")
    for name, text in (("software.dat", software), ("by_hivex.dat", by_hivex)):
        with open(os.path.join(folder, name), "rb") as file:
            yield Case(f"examples/{name}", file.read(), [text])


def utf16(text):
    """A text as a value has it, with the unit 0 at its end, in hex digits."""
    return (text + "\0").encode("utf-16-le").hex()


def all_cases():
    for made in (names_and_order, values, files, sums, tiles, roots, keys, key_nodes, securities, value_records, big_data, versions,
                 lists, bad_names, limits, examples):
        yield from made()


def every_kind(size=SEGMENT + 1, minor=NEWEST):
    """A small hive with records of each kind; one value has so many bytes of data. It is of a minor version."""
    tree = Key("ROOT", 1, [Key("wide \u4e2d", 2, [Key("x", 3)], [Value("big", 3, bytes(size))]),
                           Key("a", 4, [], [Value("", 1, b"abcdef"), Value("n", 4, b"\1\0\0\0")], 0, b"descriptor"),
                           Key("b", 5, [], [], 0, b"descriptor", b"class")], many=2)
    return hive(tree, minor=minor)[0]
