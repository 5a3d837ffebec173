"""Reads one key of a hive's file with all below it, by the rules of docs/FORMATS.md, and by nothing of this project's code. Of the keys
beside it only the names on the way are read. For tests/damaged_parts.py.
"""
import struct
from dataclasses import dataclass, field

from maker import NONE, SEGMENT, SPLITS_FROM
from reader import Reader, folded

MOST_NAMES = 512
NO_CLASS_OR_LINK, LATIN_KEY, LATIN_VALUE, SMALL = 0x40, 0x20, 1, 1 << 31


class Unread(Exception):
    """What has to be read isn't readable."""


class Missing(Exception):
    """All that could be the key was read, and it isn't there."""


@dataclass
class Found:
    """A key as it is read: its path and all that is its own. Names are texts, in which half of a pair may stand alone."""
    path: tuple
    time: int
    flags: int
    class_bytes: bytes
    descriptor: bytes
    values: list = field(default_factory=list)


def rule(holds, what):
    if not holds:
        raise Unread(what)


def text(raw, is_latin):
    rule(is_latin or len(raw) % 2 == 0, "half a unit")
    return raw.decode("latin-1") if is_latin else raw.decode("utf-16-le", "surrogatepass")


def order(name):
    return folded(name.encode("utf-16-le", "surrogatepass"))


def are_apart(names):
    return len({order(name) for name in names}) == len(names)


class Parts(Reader):
    """The parts of a file whose bins and cells are in order."""

    def __init__(self, file):
        # pylint: disable=super-init-not-called
        minor, = struct.unpack_from("<I", file, 24)
        self.root, size = struct.unpack_from("<2I", file, 36)
        self.strict, self.splits, self.bins, self.cells = False, minor >= SPLITS_FROM, file[4_096:4_096 + size], {}
        self.own, self.lent, at = set(), set(), 0
        while at < size:
            at = self.walk(at)

    def part(self, path):
        """The keys at a path and below it, each before those below it, siblings by their names."""
        at, spelled = self.root, ()
        self.node(at)
        for name in path:
            self.own = set()
            nodes = [(self.node(where)[0], where) for where in self.listed(at)]
            found = [each for each in nodes if order(each[0]) == order(name)]
            rule(len(found) < 2, "two of the name")
            if not found:
                raise Missing
            spelled, at = (*spelled, found[0][0]), found[0][1]
        self.own, self.lent = set(), set()
        rows = list(self.rows(at, spelled))
        rule(not self.own & self.lent, "a cell of one key is lent")
        return rows

    def look(self, at, least):
        """The data of a cell that belongs to one key alone."""
        rule(at in self.cells and at not in self.own, "a cell")
        self.own.add(at)
        rule(len(self.cells[at]) >= least, "a short cell")
        return self.cells[at]

    def node(self, at):
        """A key's name and the data of its record."""
        rule(at in self.cells, "a key's cell")
        data = self.cells[at]
        rule(len(data) >= 76 and data[:2] == b"nk", "a key's record")
        flags, length = struct.unpack_from("<H", data, 2)[0], struct.unpack_from("<H", data, 72)[0]
        rule(len(data) >= 76 + length and not flags & NO_CLASS_OR_LINK, "a key's record")
        name = text(data[76:76 + length], bool(flags & LATIN_KEY))
        rule("\\" not in name, "a key's name")
        return name, data

    def listed(self, at):
        """The offsets of a key's subkeys."""
        data = self.cells[at]
        count, where = struct.unpack_from("<I", data, 20)[0], struct.unpack_from("<I", data, 28)[0]
        found = self.in_list(where, True) if count else []
        rule(len(found) == count, "how many subkeys there are")
        return found

    def in_list(self, at, is_first):
        data = self.look(at, 4)
        letters, count = struct.unpack_from("<2sH", data)
        stride = {b"li": 4, b"lf": 8, b"lh": 8, b"ri": 4}.get(letters)
        rule(stride and (is_first or letters != b"ri") and len(data) >= 4 + stride * count, "a list")
        found = [struct.unpack_from("<I", data, 4 + stride * place)[0] for place in range(count)]
        return [each for leaf in found for each in self.in_list(leaf, False)] if letters == b"ri" else found

    def rows(self, at, path):
        """A key, and those below it."""
        rule(len(path) <= MOST_NAMES, "too deep")
        name, data = self.node(at)
        self.look(at, 76)
        flags, time = struct.unpack_from("<HQ", data, 2)
        count, values, security, its_class = struct.unpack_from("<4I", data, 36)
        length = struct.unpack_from("<H", data, 74)[0]
        row = Found(path, time, flags & ~LATIN_KEY, self.look(its_class, length)[:length] if length else b"", self.lent_at(security))
        if count:
            listed = self.look(values, 4 * count)
            row.values = [self.value_at(struct.unpack_from("<I", listed, 4 * place)[0]) for place in range(count)]
        rule(are_apart([each[0] for each in row.values]), "values of one name")
        row.values.sort(key=lambda each: order(each[0]))
        yield row
        below = [(self.node(where)[0], where) for where in self.listed(at)]
        rule(are_apart([each for each, _ in below]) and "" not in [each for each, _ in below], "subkeys of one name")
        for each, where in sorted(below, key=lambda sub: order(sub[0])):
            yield from self.rows(where, (*path, each))

    def lent_at(self, at):
        if at == NONE:
            return b""
        rule(at in self.cells, "a descriptor's cell")
        data = self.cells[at]
        rule(data[:2] == b"sk" and len(data) >= 20, "a descriptor")
        size = struct.unpack_from("<I", data, 16)[0]
        rule(len(data) >= 20 + size, "a descriptor")
        self.lent.add(at)
        return data[20:20 + size]

    def value_at(self, at):
        """A value: its name, type and data."""
        data = self.look(at, 20)
        letters, length, size, where, kind, flags = struct.unpack_from("<2sHIIIH", data)
        rule(letters == b"vk" and len(data) >= 20 + length, "a value")
        name = text(data[20:20 + length], bool(flags & LATIN_VALUE))
        if size >= SMALL:
            rule(size - SMALL <= 4, "small data")
            return name, kind, data[8:8 + size - SMALL]
        return name, kind, self.large(where, size) if size else b""

    def large(self, at, size):
        if size <= SEGMENT or not self.splits:
            return self.look(at, size)[:size]
        data = self.look(at, 8)
        letters, count, where = struct.unpack_from("<2sHI", data)
        rule(letters == b"db" and count == (size + SEGMENT - 1) // SEGMENT, "big data")
        listed, found = self.look(where, 4 * count), b""
        for place in range(count):
            part = min(SEGMENT, size - len(found))
            found += self.look(struct.unpack_from("<I", listed, 4 * place)[0], part)[:part]
        return found
