"""Reads what is left of a damaged hive's file, by the rules of docs/RECOVERING.md and docs/FORMATS.md and by nothing of this project's
code: the second reader of tests/salvaged_hives.py.
"""
import struct
from dataclasses import dataclass, field

from maker import NONE, SEGMENT, SPLITS_FROM, mended

PAGE, HEAD, MOST_NAMES = 4_096, 4_096, 512
LISTS = {b"li": 4, b"lf": 8, b"lh": 8, b"ri": 4}


class Unread(Exception):
    """Why something isn't read."""


@dataclass
class Row:
    """A key that is read: its names, and what is read of it. Values are in the order of their names."""
    path: tuple
    time: int
    flags: int
    descriptor: bytes
    class_bytes: bytes
    values: list = field(default_factory=list)


def u16(data, at):
    return struct.unpack_from("<H", data, at)[0]


def u32(data, at):
    return struct.unpack_from("<I", data, at)[0]


def units(data, latin):
    if latin:
        return tuple(data)
    if len(data) % 2:
        raise Unread("BadName")
    return struct.unpack(f"<{len(data) // 2}H", data)


def folded(name):
    return tuple(unit - 32 if 0x61 <= unit <= 0x7a else unit for unit in name)


def name_text(name):
    """A name as the program prints it."""
    if not name:
        return "@"
    if name == (0x40,):
        return "%0040"
    return "".join(chr(unit) if 0x21 <= unit <= 0x7e and unit != 0x25 else f"%{unit:04x}" for unit in name)


class Salvage:
    """What is found in a file: `rows` of keys, in the order of paths, and `lines` that tell what isn't read."""

    def __init__(self, file):
        self.rows, self.lines, self.marks, self.known = [], [], set(), {}
        self.left = {"key": 0, "value": 0, "part": 0}
        block = file[:512]
        is_right = mended(file)[508:512] == file[508:512]
        size, self.minor = u32(block, 40), u32(block, 24)
        bins = file[HEAD:HEAD + size] if is_right else file[HEAD:]
        if block[4:8] != block[8:12]:
            self.lines.append("not clean: changes in its logs are missing")
        if not is_right:
            self.lines.append("wrong sum: the base block may be damaged")
        whole = len(bins) // PAGE * PAGE
        missing = (size if is_right else len(bins)) - whole
        if missing:
            self.lines.append(f"0x{HEAD + whole:x} Truncated {missing} bytes")
        self.lost = missing
        self.bins, self.cells = bins[:whole], {}
        self.find_cells()
        root = u32(block, 36)
        self.refusal = None
        try:
            node = self.node(root)
        except Unread as why:
            self.refusal = str(why)
            return
        self.marks.add(root)
        self.key(root, node, ())
        if self.marks & set(self.known):
            self.tell(root, "Shared", "security cells of", ())

    # ---- bins and cells

    def cell_end(self, at, end):
        """Where the cell at an offset ends, or None if none begins there."""
        if at % 8 or at + 8 > end:
            return None
        size = abs(struct.unpack_from("<i", self.bins, at)[0])
        return at + size if size >= 8 and size % 8 == 0 and at + size <= end else None

    def gap(self, cause, at, size):
        self.lines.append(f"0x{HEAD + at:x} {cause} {size} bytes")
        self.lost += size

    def find_cells(self):
        at = 0
        while at < len(self.bins):
            letters, own, size = struct.unpack_from("<4s2I", self.bins, at)
            if letters != b"hbin" or own != at or size % PAGE or not size or at + size > len(self.bins):
                self.gap("BadBin", at, PAGE)
                at += PAGE
            else:
                self.find_in_bin(at + 32, at + size)
                at += size

    def find_in_bin(self, at, end):
        while at < end:
            after = self.cell_end(at, end)
            if after is None:
                after = self.go_on(at, end)
                self.gap("BadCell", at, after - at)
            elif struct.unpack_from("<i", self.bins, at)[0] < 0:
                self.cells[at] = self.bins[at + 4:after]
            at = after

    def go_on(self, at, end):
        """The first place with the longest chain of cells."""
        chains, best = {}, (0, end)
        for place in range(end - 8, at - 1, -8):
            after = self.cell_end(place, end)
            chains[place] = 0 if after is None else 1 + chains.get(after, 0)
            if chains[place] and chains[place] >= best[0]:
                best = (chains[place], place)
        return best[1]

    # ---- single records

    def look(self, at):
        if at not in self.cells:
            raise Unread("BadOffset")
        return self.cells[at]

    def take(self, at):
        data = self.look(at)
        if at in self.marks:
            raise Unread("Shared")
        self.marks.add(at)
        return data

    def prefix(self, at, size):
        data = self.take(at)
        if len(data) < size:
            raise Unread("BadRecord")
        return data[:size]

    def node(self, at):
        data = self.look(at)
        if data[:2] != b"nk" or len(data) < 76 or len(data) < 76 + u16(data, 72):
            raise Unread("BadRecord")
        if u16(data, 2) & 0x40:
            raise Unread("Unsupported")
        name = units(data[76:76 + u16(data, 72)], u16(data, 2) & 0x20)
        if 0x5c in name:
            raise Unread("BadName")
        return data

    @staticmethod
    def name(node):
        return units(node[76:76 + u16(node, 72)], u16(node, 2) & 0x20)

    def descriptor(self, at):
        if at == NONE:
            return b""
        if at not in self.known:
            data = self.look(at)
            if data[:2] != b"sk" or len(data) < 20 or len(data) < 20 + u32(data, 16):
                raise Unread("BadRecord")
            self.known[at] = data[20:20 + u32(data, 16)]
        return self.known[at]

    def value(self, at):
        data = self.look(at)
        if data[:2] != b"vk" or len(data) < 20 or len(data) < 20 + u16(data, 2):
            raise Unread("BadRecord")
        name = units(data[20:20 + u16(data, 2)], u16(data, 16) & 1)
        size, offset = u32(data, 4), u32(data, 8)
        if size >= 2 ** 31 and size - 2 ** 31 > 4:
            raise Unread("BadRecord")
        self.take(at)
        if size >= 2 ** 31:
            its = data[8:8 + size - 2 ** 31]
        elif not size:
            its = b""
        elif self.minor >= SPLITS_FROM and size > SEGMENT:
            its = self.big(offset, size)
        else:
            its = self.prefix(offset, size)
        return name, u32(data, 12), its

    def big(self, at, size):
        data, count = self.take(at), -(-size // SEGMENT)
        if data[:2] != b"db" or len(data) < 8 or u16(data, 2) != count:
            raise Unread("BadRecord")
        places, pieces = self.take(u32(data, 4)), b""
        if len(places) < 4 * count:
            raise Unread("BadRecord")
        for index in range(count):
            pieces += self.prefix(u32(places, 4 * index), min(SEGMENT, size - SEGMENT * index))
        return pieces

    def list(self, at):
        data = self.look(at)
        if data[:2] not in LISTS or len(data) < 4 or len(data) < 4 + LISTS[data[:2]] * u16(data, 2):
            raise Unread("BadList")
        self.take(at)
        return data[:2] == b"ri", [u32(data, 4 + LISTS[data[:2]] * index) for index in range(u16(data, 2))]

    # ---- keys

    def tell(self, at, why, part, path):
        where = "\\".join(map(name_text, path)) if path else "the root"
        self.lines.append(f"0x{HEAD + at:x} {why} {part} {where}")
        self.left[part.split(" ")[0] if part.startswith(("key ", "value ")) else "part"] += 1

    def kept(self, read, nothing, at, part, path):
        try:
            return read()
        except Unread as why:
            self.tell(at, why, part, path)
            return nothing

    def key(self, at, node, path):
        class_len, class_at = u16(node, 74), u32(node, 48)
        its_class = self.kept(lambda: self.prefix(class_at, class_len) if class_len else b"", b"", class_at, "class of", path)
        descriptor = self.kept(lambda: self.descriptor(u32(node, 44)), b"", u32(node, 44), "descriptor of", path)
        values = self.values(u32(node, 36), u32(node, 40), path)
        flags = u16(node, 2) & ~0x20
        self.rows.append(Row(path, struct.unpack_from("<Q", node, 4)[0], flags, descriptor, its_class, [values[name] for name in sorted(values)]))
        found = self.subkeys(u32(node, 20), u32(node, 28), path)
        found.sort(key=lambda each: (folded(each[0]), each[2]))
        for index, (name, subkey, place) in enumerate(found):
            if index and folded(found[index - 1][0]) == folded(name):
                self.tell(subkey, "BadName", self.place(place), path)
            elif len(path) == MOST_NAMES:
                self.tell(subkey, "TooLarge", self.place(place), path)
            else:
                self.key(subkey, self.cells[subkey], (*path, name))

    def values(self, count, at, path):
        values = {}
        if not count:
            return values
        listed = self.kept(lambda: self.take(at), None, at, "list of values of", path)
        if listed is None:
            return values
        if len(listed) < 4 * count:
            self.tell(at, "BadRecord", "number of values of", path)
        for index in range(min(len(listed) // 4, count)):
            value = self.kept(lambda: self.fresh(u32(listed, 4 * index), values), None, u32(listed, 4 * index), f"value {index + 1} of", path)
            if value:
                values[folded(value[0])] = value
        return values

    def fresh(self, at, values):
        value = self.value(at)
        if folded(value[0]) in values:
            raise Unread("BadName")
        return value

    @staticmethod
    def place(place):
        leaf, index = place
        return f"key {index + 1} of list {leaf + 1} below" if leaf else f"key {index + 1} below"

    def subkeys(self, count, at, path):
        found = []
        if not count:
            return found
        read = self.kept(lambda: self.list(at), None, at, "list of keys below", path)
        if read is None:
            return found
        is_indirect, listed = read
        total = len(listed)
        if is_indirect:
            total = 0
            for leaf, its_at in enumerate(listed):
                total += self.leaf(leaf, its_at, path, found)
        else:
            self.named(0, listed, path, found)
        if total != count:
            self.tell(at, "BadList", "number of keys below", path)
        return found

    def leaf(self, leaf, at, path, found):
        read = self.kept(lambda: self.list(at), None, at, f"list {leaf + 1} of keys below", path)
        if read is None:
            return 0
        if read[0]:
            self.tell(at, "BadList", f"list {leaf + 1} of keys below", path)
            return 0
        self.named(leaf, read[1], path, found)
        return len(read[1])

    def named(self, leaf, listed, path, found):
        for index, at in enumerate(listed):
            name = self.kept(lambda: self.claimed(at), None, at, self.place((leaf, index)), path)
            if name:
                found.append((name, at, (leaf, index)))

    def claimed(self, at):
        name = self.name(self.node(at))
        if not name:
            raise Unread("BadName")
        self.take(at)
        return name

    @property
    def totals(self):
        """The last line."""
        printed = sum(len(row.values) for row in self.rows)
        keys, values, parts = (self.left[kind] for kind in ("key", "value", "part"))
        return f"salvaged {len(self.rows)} keys, {printed} values; left out {keys} keys, {values} values, {parts} other parts, {self.lost} bytes"
