"""Reads the tree of a primary file by the rules of docs/FORMATS.md, and by nothing of this project's code. If it is strict, the
file has to keep what the rules say of written bytes, too. An edited file may have cells with room, and greater upper bounds. Also reads
which pages a log marks.
"""
import struct
from dataclasses import dataclass, field

from maker import NONE, SEGMENT, SPLITS_FROM

LATIN_KEY, LATIN_VALUE = 0x20, 1
MOST_IN_LEAF = 500


class WrongHive(Exception):
    """What is wrong with a file."""


@dataclass
class Row:
    """A key as it is read. `lists` are the letters of its leaves, and `hashes` the hashes in them."""
    name: bytes
    time: int
    flags: int
    descriptor: bytes
    class_bytes: bytes
    values: dict = field(default_factory=dict)
    keys: dict = field(default_factory=dict)
    lists: list = field(default_factory=list, compare=False)
    hashes: list = field(default_factory=list, compare=False)


def units(name):
    return struct.unpack(f"<{len(name) // 2}H", name)


def folded(name):
    """A name's units, those of small letters as those of capitals."""
    return tuple(unit - 32 if 0x61 <= unit <= 0x7a else unit for unit in units(name))


def hash_of(name):
    total = 0
    for unit in folded(name):
        total = (37 * total + unit) % 2 ** 32
    return total


class Reader:
    def __init__(self, file, strict=False, edited=False):
        self.strict, self.edited, self.named = strict, edited, {}
        minor, = struct.unpack_from("<I", file, 24)
        root, size = struct.unpack_from("<2I", file, 36)
        self.splits = minor >= SPLITS_FROM
        self.bins, self.cells = file[4_096:4_096 + size], {}
        at = 0
        while at < size:
            at = self.walk(at)
        self.tree = self.key(root, NONE)
        if strict:
            self.see_ring()

    def see(self, is_right, what, *about):
        """What the rules say of written bytes."""
        if self.strict and not is_right:
            raise WrongHive(f"{what}: {about}")

    def walk(self, at):
        """Takes the allocated cells of a bin: where it ends."""
        letters, own, size = struct.unpack_from("<4s2I", self.bins, at)
        if letters != b"hbin" or own != at or size % 4_096 or not size:
            raise WrongHive(f"a bin at {at}")
        self.see(self.bins[at + 12:at + 32] == bytes(20), "a bin's header", at)
        end, at = at + size, at + 32
        while at < end:
            size = struct.unpack_from("<i", self.bins, at)[0]
            if abs(size) % 8 or not size or at + abs(size) > end:
                raise WrongHive(f"a cell at {at}")
            if size < 0:
                self.cells[at] = self.bins[at + 4:at - size]
            at += abs(size)
        return end

    def cell(self, at, length):
        """So many bytes of a cell. It has just enough room for them, or 8 bytes more; an edited one has enough."""
        data = self.cells[at]
        least = (length + 4 + 7) // 8 * 8
        room = len(data) + 4 - least
        self.see(room >= 0 if self.edited else room in (0, 8), "the size of a cell", at, length)
        return data[:length]

    def name(self, raw, is_latin):
        """A name in UTF-16."""
        name = b"".join(bytes([byte, 0]) for byte in raw) if is_latin else raw
        self.see(is_latin == (not any(name[1::2])), "how a name is stored", name)
        return name

    def key(self, at, parent):
        """A key with all that is below it."""
        letters, flags, time = struct.unpack_from("<2sHQ", self.cells[at])
        count, lists = self.counted(at, 20, 28)
        values, value_list = self.counted(at, 36, 40)
        security, its_class = struct.unpack_from("<2I", self.cells[at], 44)
        length, class_length = struct.unpack_from("<2H", self.cells[at], 72)
        record = self.cell(at, 76 + length)
        if letters != b"nk":
            raise WrongHive(f"a key at {at}")
        row = Row(self.name(record[76:], bool(flags & LATIN_KEY)), time, flags & ~LATIN_KEY, self.descriptor(security),
                  self.cell(its_class, class_length) if class_length else b"")
        row.values = dict(self.value(where) for where in self.offsets(value_list, values))
        for where in self.subkeys(row, lists) if count else []:
            subkey = self.key(where, at)
            row.keys[folded(subkey.name)] = subkey
        if (len(row.values), len(row.keys)) != (values, count):
            raise WrongHive(f"how many subkeys and values the key at {at} has")
        self.see_key(row, record, parent)
        self.see_lists(row)
        return row

    def counted(self, at, *fields):
        """A number and an offset in a key's record; the offset is that of no cell if the number is 0."""
        count, where = (struct.unpack_from("<I", self.cells[at], place)[0] for place in fields)
        self.see(count or where == NONE, "an offset beside a 0", at)
        return count, where

    def see_key(self, row, record, parent):
        """What a key's record says that nobody reads."""
        self.see(struct.unpack_from("<I", record, 16)[0] == parent, "the offset of a key's parent", row.name)
        self.see(row.class_bytes or record[48:52] == b"\xff" * 4, "the offset of no class", row.name)
        self.see((record[12:16], record[24:28], record[68:72]) == (bytes(4),) * 3, "zeros of a key's record", row.name)
        self.see(record[32:36] == b"\xff" * 4, "the offset of no volatile subkeys", row.name)
        told = struct.unpack_from("<4I", record, 52)
        self.see(told == bounds(row) or self.edited and all(map(int.__ge__, told, bounds(row))), "a key's upper bounds", row.name, told)

    def offsets(self, at, count):
        return struct.unpack(f"<{count}I", self.cell(at, 4 * count)) if count else ()

    def descriptor(self, at):
        """The descriptor that a key names."""
        if at == NONE:
            return b""
        self.named[at] = self.named.get(at, 0) + 1
        letters, length = struct.unpack_from("<2s14xI", self.cells[at])
        if letters != b"sk":
            raise WrongHive(f"a security record at {at}")
        return self.cell(at, 20 + length)[20:]

    def see_ring(self):
        """Security records are in one ring, each distinct descriptor once, with the number of keys that name it."""
        links = {at: struct.unpack_from("<3I", self.cells[at], 4) for at in self.named}
        self.see(all(links[at][2] == count for at, count in self.named.items()), "how many keys name a descriptor", links)
        at, met = next(iter(links), None), []
        for _ in links:
            after, _, _ = links[at]
            self.see(links[after][1] == at, "the link back to a security record", links)
            met.append(at)
            at = after
        self.see(sorted(met) == sorted(links), "the ring of security records", links)
        self.see(len({self.cells[at][16:] for at in links}) == len(links), "descriptors", links)

    def subkeys(self, row, at):
        """The offsets of subkeys that a list has."""
        letters, count = struct.unpack_from("<2sH", self.cells[at])
        if letters == b"ri":
            leaves = struct.unpack_from(f"<{count}I", self.cell(at, 4 + 4 * count), 4)
            return [where for leaf in leaves for where in self.subkeys(row, leaf)]
        row.lists.append((letters, count))
        if letters == b"li":
            return struct.unpack_from(f"<{count}I", self.cell(at, 4 + 4 * count), 4)
        pairs = struct.unpack_from(f"<{2 * count}I", self.cell(at, 4 + 8 * count), 4)
        row.hashes += pairs[1::2]
        return pairs[::2]

    def see_lists(self, row):
        """Subkeys are sorted, 500 at most in a leaf, all with hashes, or all without if a name is past ASCII."""
        letters = b"li" if any(unit > 0x7f for name in row.keys for unit in name) else b"lh"
        self.see(list(row.keys) == sorted(row.keys), "the order of subkeys", row.name)
        self.see(all(kind == letters and count <= MOST_IN_LEAF for kind, count in row.lists), "lists", row.lists)
        self.see(letters == b"li" or row.hashes == [hash_of(key.name) for key in row.keys.values()], "hashes", row.hashes)

    def value(self, at):
        letters, length, size, where, kind, flags = struct.unpack_from("<2sHIIIH", self.cells[at])
        record = self.cell(at, 20 + length)
        if letters != b"vk":
            raise WrongHive(f"a value at {at}")
        name = self.name(record[20:], bool(flags & LATIN_VALUE))
        if size >> 31:
            if size > 1 << 31 | 4:
                raise WrongHive(f"small data of a value at {at}")
            return folded(name), (name, kind, record[8:8 + size % 2 ** 31])
        self.see(size > 4, "small data in a cell", at)
        return folded(name), (name, kind, self.data(where, size) if size else b"")

    def data(self, at, size):
        """Data in one cell, or in segments."""
        if size <= SEGMENT or not self.splits:
            return self.cell(at, size)
        letters, count, parts = struct.unpack_from("<2sHI", self.cell(at, 8))
        if letters != b"db" or count != (size + SEGMENT - 1) // SEGMENT:
            raise WrongHive(f"big data at {at}")
        return b"".join(self.cells[part][:SEGMENT] for part in self.offsets(parts, count))[:size]


def bounds(row):
    """The longest subkey's name and class, the longest value's name, and the largest data; names in UTF-16."""
    keys, values = row.keys.values(), row.values.values()
    return (max((len(key.name) for key in keys), default=0), max((len(key.class_bytes) for key in keys), default=0),
            max((len(name) for name, _, _ in values), default=0), max((len(data) for _, _, data in values), default=0))


def marked(log):
    """The pages that a log marks."""
    size, = struct.unpack_from("<I", log, 40)
    return [page for page in range(size // 512) if log[516 + page // 8] >> page % 8 & 1]


def read(file, strict=False, edited=False):
    """The tree of a hive."""
    return Reader(file, strict, edited).tree


def wrong_tree(file, wanted, edited=True):
    """What is wrong with a hive that is to have this tree, by the rules of written ones; or None."""
    try:
        found = read(file, True, edited)
    except (WrongHive, KeyError, struct.error) as wrong:
        return repr(wrong)
    return None if found == wanted else "another tree"
