"""Makes primary files of hives from trees, by the rules of docs/FORMATS.md and of the public format, and by nothing of
this project's code. What it makes is plain rather than small: each record has a cell of its own, in one bin.
"""
import struct
import sys
from dataclasses import dataclass, field

sys.setrecursionlimit(5_000)    # trees that are too deep are made too

NONE = 0xffffffff
SEGMENT = 16_344
# the minor version that is written, and the least one whose data of more than a segment's bytes lie in segments
NEWEST, SPLITS_FROM = 5, 4


def u16(*numbers):
    return struct.pack(f"<{len(numbers)}H", *numbers)


def u32(*numbers):
    return struct.pack(f"<{len(numbers)}I", *numbers)


def u64(number):
    return struct.pack("<Q", number)


def latin(name, wide=False):
    """A name's bytes, and whether they are Latin-1 and not UTF-16."""
    units = name.encode("utf-16-le", "surrogatepass")
    if not wide and all(units[at + 1] == 0 for at in range(0, len(units), 2)):
        return units[::2], True
    return units, False


@dataclass
class Value:
    name: str
    kind: int = 0
    data: bytes = b""
    record: bytes = None     # its whole record, in place of what the other fields ask
    wide: bool = False       # its name is in UTF-16, even if Latin-1 could spell it


@dataclass
class Key:
    name: str = ""
    time: int = 0
    keys: list = field(default_factory=list)
    values: list = field(default_factory=list)
    flags: int = 0
    descriptor: bytes = b""
    class_bytes: bytes = b""
    leaf: bytes = b"lh"      # the letters of its list of subkeys; several are those of its leaves by turns
    many: int = 0            # so many subkeys a leaf, below an `ri`; 0 for one leaf
    gaps: bool = False       # an empty leaf before each leaf below an `ri`, and behind the last one
    wide: bool = False       # its name is in UTF-16, even if Latin-1 could spell it
    patch: dict = field(default_factory=dict)    # bytes of its record by their offset


def free_bin(at, size):
    """A bin at an offset with one free cell; or nothing."""
    return b"hbin" + u32(at, size) + bytes(20) + u32(size - 32) + bytes(size - 36) if size else b""


class Cells:
    """The cells of one bin, in the order in which they are put. It lies behind a free bin of some size. Large data lie in segments,
    or in one cell each."""

    def __init__(self, before=0, splits=True):
        self.before, self.splits = before, splits
        self.bytes = bytearray(before + 32)
        self.places = {}

    def put(self, data, name=None):
        """An allocated cell for these data: its offset."""
        at = len(self.bytes)
        size = (len(data) + 4 + 7) // 8 * 8
        self.bytes += struct.pack("<i", -size) + data + bytes(size - 4 - len(data))
        if name:
            self.places[name] = at
        return at

    def fill(self, at, data):
        """Other data for a cell that is there, from their first byte on."""
        self.bytes[at + 4:at + 4 + len(data)] = data

    def bins(self, least=0):
        """The bins, the last one filled up with one free cell to whole pages, and to a least size of all."""
        end = max((len(self.bytes) + 4_095) // 4_096 * 4_096, least)
        left = end - len(self.bytes)
        rest = struct.pack("<i", left) + bytes(left - 4) if left else b""
        header = b"hbin" + u32(self.before, end - self.before) + bytes(20)
        return free_bin(0, self.before) + header + bytes(self.bytes[self.before + 32:]) + rest


def value_of(cells, value):
    """The cell of a value's record."""
    if value.record is not None:
        return cells.put(value.record)
    name, is_latin = latin(value.name, value.wide)
    size, where = len(value.data), 0
    if size <= 4:
        size, where = size | 1 << 31, struct.unpack("<I", value.data.ljust(4, b"\0"))[0]
    elif size <= SEGMENT or not cells.splits:
        where = cells.put(value.data)
    else:
        parts = [cells.put(value.data[at:at + SEGMENT] + bytes(4)) for at in range(0, size, SEGMENT)]
        where = cells.put(b"db" + u16(len(parts)) + u32(cells.put(u32(*parts))))
    return cells.put(b"vk" + u16(len(name)) + u32(size, where, value.kind) + u16(is_latin, 0) + name)


def leaf_of(cells, letters, offsets):
    """The cell of one list of key nodes; the hints and hashes in it are wrong, since nobody reads them."""
    beside = u32(0xdead_beef) if letters in (b"lf", b"lh") else b""
    return cells.put(letters + u16(len(offsets)) + b"".join(u32(at) + beside for at in offsets))


def list_of(cells, key, offsets):
    """The cell of a key's list of subkeys."""
    if not key.many:
        return leaf_of(cells, key.leaf, offsets)
    kinds = [key.leaf[at:at + 2] for at in range(0, len(key.leaf), 2)]
    parts = [offsets[at:at + key.many] for at in range(0, len(offsets), key.many)]
    if key.gaps:
        parts = [part for some in parts for part in ([], some)] + [[]]
    return leaf_of(cells, b"ri", [leaf_of(cells, kinds[number % len(kinds)], part) for number, part in enumerate(parts)])


def key_of(cells, key, securities):
    """The cell of a key's record, with all that is below it."""
    offsets = [key_of(cells, subkey, securities) for subkey in key.keys]
    subkeys = list_of(cells, key, offsets) if offsets else NONE
    records = [value_of(cells, value) for value in key.values]
    values = cells.put(u32(*records)) if records else NONE
    security = NONE
    if key.descriptor:
        if key.descriptor not in securities:
            at = len(cells.bytes)
            securities[key.descriptor] = cells.put(b"sk" + u16(0) + u32(at, at, 1, len(key.descriptor)) + key.descriptor)
        security = securities[key.descriptor]
    its_class = cells.put(key.class_bytes) if key.class_bytes else NONE
    name, is_latin = latin(key.name, key.wide)
    record = bytearray(b"nk" + u16(key.flags | is_latin << 5) + u64(key.time) + u32(0, 0, len(offsets), 0, subkeys, NONE)
                       + u32(len(records), values, security, its_class) + bytes(20)
                       + u16(len(name), len(key.class_bytes)) + name)
    for at, some in key.patch.items():
        record[at:at + len(some)] = some
    return cells.put(bytes(record), key.name)


def head(root, size, **other):
    """The first 4,096 bytes of a primary file; other fields by their names."""
    fields = {"signature": b"regf", "primary": 1, "secondary": 1, "written": 0, "major": 1, "minor": NEWEST, "kind": 0, "format": 1,
              "store": bytes(16), "applied": 0}
    fields.update(other)
    text = (fields["signature"] + u32(fields["primary"], fields["secondary"]) + u64(fields["written"])
            + u32(fields["major"], fields["minor"], fields["kind"], fields["format"], root, size, 1)
            + bytes(128) + fields["store"] + u64(fields["applied"]))
    return mended(text + bytes(4_096 - len(text)))


def log(root, bins, pages, **other):
    """The log of bins data of which some pages, by their numbers, are dirty; other fields of its block by their names."""
    marks = bytearray(len(bins) // 4_096)
    for page in pages:
        marks[page // 8] |= 1 << page % 8
    front = head(root, len(bins), **{"kind": 1, **other})[:512] + b"DIRT" + marks
    return front + bytes(-len(front) % 512) + b"".join(bins[512 * page:512 * page + 512] for page in sorted(pages))


def mended(file):
    """The file with the right sum of its first sector."""
    total = 0
    for word in struct.unpack("<127I", file[:508]):
        total ^= word
    return file[:508] + u32({0: 1, NONE: NONE - 1}.get(total, total)) + file[512:]


def of_minor(file, minor):
    """The file with another minor version, and the right sum."""
    return mended(file[:24] + u32(minor) + file[28:])


def imported(file, store):
    """The primary file that an import makes of a hive's file: its bins data below a block of the store."""
    minor, = struct.unpack_from("<I", file, 24)
    root, size = struct.unpack_from("<2I", file, 36)
    return head(root, size, minor=minor, store=store) + file[4_096:4_096 + size]


def hive(root, before=0, least=0, **other):
    """The primary file of a tree, and the offsets of its keys' cells by their names. Its bin lies behind a free one of some
    size, and the bins data have at least some size. Fields of the base block are given by their names; its minor version says how
    large data are stored."""
    cells = Cells(before, other.get("minor", NEWEST) >= SPLITS_FROM)
    at = key_of(cells, root, {})
    bins = cells.bins(least)
    return head(at, len(bins), **other) + bins, cells.places
