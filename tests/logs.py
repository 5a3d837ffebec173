#!/usr/bin/env python3
"""Opens hives whose flush was cut short, with logs made by hand, and reads the files of flushes, with a built program:

    tests/logs.py PROGRAM

Files are made, and compared, by the rules of docs/FORMATS.md and by nothing of this project's code. Each part tells what
passed; the last line is 'N passed, N failed', and the status is 0 if none failed.

- repairs: hives that their log repairs, up to the largest one: what is read of them, and the primary file then.
- refusals: logs that aren't whole, or lack a page that the primary file lacks too: BadLog, and both files stay.
- flushes: the primary file and the log after a flush, field by field and page by page. runs/hives/reader.py reads the hive.
"""
import os
import struct
import sys

TOP = os.path.dirname(os.path.dirname(os.path.abspath(__file__)))
sys.dont_write_bytecode = True
sys.path[:0] = [os.path.join(TOP, "tests"), os.path.join(TOP, "runs", "hives")]
import reader  # noqa: E402
from maker import NONE, Key, Value, head, hive, log, mended, u16, u32  # noqa: E402
from scratch import expect, finish, program_at, tell  # noqa: E402

ID, ID_BYTES = "00112233-4455-6677-8899-aabbccddeeff", bytes.fromhex("00112233445566778899aabbccddeeff")
HEAD, PAGE, BIN = 4_096, 512, 4_096
LARGEST = 67_108_864
MEBIBYTE = 1_048_576
LATIN = 1
BAD_LOG = (b"E15 HiveDamaged 0 BadLog\n", 1)
DATA = bytes(range(9))


class Store:
    """A store of one hive, whose files are put as they shall be."""

    def __init__(self, program, folder):
        self.program, self.folder = program, folder
        if program.run("new", folder, ID, "1") != (b"ok\n", 0):
            raise SystemExit(f"no store {folder}")

    def put(self, primary, its_log):
        self.program.put(f"{self.folder}/hive00.dat", primary)
        self.program.put(f"{self.folder}/hive00.log", its_log)

    def primary(self):
        with open(self.program.at(self.folder, "hive00.dat"), "rb") as file:
            return file.read()

    def files(self):
        """The primary file and the log."""
        with open(self.program.at(self.folder, "hive00.log"), "rb") as file:
            return self.primary(), file.read()

    def run(self, lines):
        script = self.program.put("script", "".join(f"{line}\n" for line in lines).encode())
        return self.program.run("run", self.folder, script)


def root_and_bins(least=0):
    """Where the root's cell is, and bins data of a least size. Cells are in the first page; the others are in a free cell, and
    each has its number in each byte."""
    file, places = hive(Key("r", 5, [Key("a", 6)], [Value("v", 3, DATA)]), least=least)
    pages = range(1, (len(file) - HEAD) // PAGE)
    return places["r"], file[HEAD:HEAD + PAGE] + b"".join(bytes([page % 251]) * PAGE for page in pages)


def unclean(root, bins, **other):
    """A primary file whose flush began: its first number is one more than its second, and both of the log's are."""
    return head(root, len(bins), primary=2, secondary=1, store=ID_BYTES, **other) + bins


def log_of(root, bins, pages, **other):
    return log(root, bins, pages, **{"primary": 2, "secondary": 2, "store": ID_BYTES, **other})


def spoiled(bins, pages):
    """The bins data with other bytes in some pages."""
    for page in pages:
        bins = bins[:PAGE * page] + b"\xee" * PAGE + bins[PAGE * (page + 1):]
    return bins


def wrong_repair(store, title, root, bins, left, its_log, data=DATA, **other):
    """What is wrong with the opening of a hive of which these bins data are left, below a block with other fields by their names. The
    log makes it whole."""
    store.put(unclean(root, left, **other), its_log)
    wrong = expect(title, store.run(["get 0: v"]), (f"opened 0\nvalue 3 {data.hex()}\n".encode(), 0))
    primary, block = store.primary(), head(root, len(bins), primary=2, secondary=2, store=ID_BYTES)
    return (wrong or expect(f"{title}: block", primary[:HEAD], block)
            or expect(f"{title}: bins", primary[HEAD:HEAD + len(bins)] == bins, True))


def repairs(program):
    """Hives that their log repairs, and what is wrong with each."""
    store = Store(program, "repairs")
    root, bins = root_and_bins()
    # `DIRT`, a byte with the bits 0 and 3, zeros up to 1,024, and the pages 0 and 3
    block = block_of_log(root, BIN)
    small = block + b"DIRT\x09" + bytes(507) + bins[:PAGE] + b"\3" * PAGE
    yield expect("a small log: length", len(small), 2_048)
    yield wrong_repair(store, "a small log", root, bins, spoiled(bins, [0, 3]), small)
    yield wrong_repair(store, "bytes behind a log", root, bins, spoiled(bins, [0, 3]), small + b"more")
    yield wrong_repair(store, "a log of no page", root, bins, bins, block + b"DIRT" + bytes(508))
    for kind in (1, 2):
        yield wrong_repair(store, f"a log of type {kind}", root, bins, spoiled(bins, [1]), log_of(root, bins, [1], kind=kind))
    for minor in (3, 4):
        yield wrong_repair(store, f"a hive that was of 1.{minor}", root, bins, spoiled(bins, [1]), log_of(root, bins, [1]), minor=minor)
    root, bins = root_and_bins(2 * BIN)
    its_log = log_of(root, bins, [1, *range(8, 16)])
    yield wrong_repair(store, "a second bin, and a page of the first", root, bins, spoiled(bins[:BIN], [1]), its_log)
    yield wrong_repair(store, "a primary file that is too long", root, bins, spoiled(bins, [1]) + bytes(BIN), its_log)
    yield from spelled_bitmaps(store)
    root, bins = root_and_bins(MEBIBYTE)
    yield wrong_repair(store, "all pages of a mebibyte", root, bins, b"", log_of(root, bins, range(2_048)))
    yield largest(store)


def block_of_log(root, size):
    """The block of a log of bins data of a size."""
    return head(root, size, primary=2, secondary=2, kind=1, store=ID_BYTES)[:PAGE]


def spelled_bitmaps(store):
    """Repairs by logs whose bitmap, and where their pages begin, is spelled out; and what is wrong with each."""
    root, bins = root_and_bins(131_072)
    marks, pages = b"\x20" + bytes(6) + b"\xf0\x3f" + bytes(22) + b"\x80", [5, *range(60, 70), 255]
    front = (block_of_log(root, 131_072) + b"DIRT" + marks).ljust(1_024, b"\0")
    its_log = front + b"".join(bytes([page % 251]) * PAGE for page in pages)
    yield wrong_repair(store, "the pages 5, 60 to 69 and 255", root, bins, spoiled(bins, pages), its_log)
    # bitmaps of 1, 508, 509 and 1,024 bytes
    for size, start in ((BIN, 1_024), (2_080_768, 1_024), (2_084_864, 1_536), (4_194_304, 2_048)):
        root, bins = root_and_bins(size)
        its_log = (block_of_log(root, size) + b"DIRT\x01").ljust(start, b"\0") + bins[:PAGE]
        yield wrong_repair(store, f"the first page of {size} bytes", root, bins, spoiled(bins, [0]), its_log)


def largest(store):
    """What is wrong with the repair of the largest hive's last page, which has the end of a value's data."""
    data, last = bytes(at % 251 for at in range(BIN - 36)), LARGEST - BIN
    record = b"vk" + u16(1) + u32(len(data), last + 32, 3, LATIN) + b"v"
    file, places = hive(Key("r", 5, [], [Value("", record=record)]), least=last)
    root, bins = places["r"], file[HEAD:] + b"hbin" + u32(last, BIN) + bytes(20) + struct.pack("<i", -(BIN - 32)) + data
    marks = bytes(16_383) + b"\x80"
    its_log = (block_of_log(root, LARGEST) + b"DIRT" + marks).ljust(17_408, b"\0") + bins[-PAGE:]
    return expect("the largest hive: log", (len(its_log), its_log[16_899]), (17_920, 0x80)) or wrong_repair(
        store, "the largest hive's last page", root, bins, spoiled(bins, [131_071]), its_log, data)


def wrong_refusal(store, title, primary, its_log):
    """What is wrong with the opening of a hive whose log doesn't repair it."""
    store.put(primary, its_log)
    return expect(title, store.run(["get 0: v"]), BAD_LOG) or expect(f"{title}: files", store.files() == (primary, its_log), True)


def refusals(program):
    """Logs that don't repair their hive, and what is wrong with each."""
    store = Store(program, "refusals")
    root, bins = root_and_bins()
    primary, whole = unclean(root, bins), log_of(root, bins, [1])
    yield expect("the length of a log of one page", len(whole), 1_536)
    for size in (1_535, 1_024, 517, 516, 512, 511, 0):
        yield wrong_refusal(store, f"a log that ends behind {size} bytes", primary, whole[:size])
    for at in (508, 512, 515, 41):
        yield wrong_refusal(store, f"byte {at} of a log is 0", primary, whole[:at] + b"\0" + whole[at + 1:])
    for field in ({"primary": 3}, {"secondary": 3}, {"kind": 0}, {"kind": 3}, {"signature": b"rege"}, {"major": 2}, {"minor": 6},
                  {"minor": 4}, {"minor": 3}, {"format": 2}):
        yield wrong_refusal(store, f"a log with {field}", primary, log_of(root, bins, [1], **field))
    for size in (0, 512, 4_097, LARGEST + BIN):
        yield wrong_refusal(store, f"a log of {size} bytes of bins data", primary, mended(whole[:40] + u32(size) + whole[44:]))
    # the last page isn't dirty, and the primary file hasn't the whole of it
    root, bins = root_and_bins(2 * BIN)
    its_log = log_of(root, bins, [1, *range(8, 16)])
    yield wrong_refusal(store, "a page that neither has", unclean(root, bins)[:HEAD + BIN - 1], its_log)


def wrong_flush(title, store, before, lines, told, **fields):
    """What is wrong with a run of these lines, which end with one flush, and with its files. The primary file was this before;
    fields are those of the block then. A page that the log doesn't mark is as it was."""
    wrong = expect(title, store.run(lines), (told, 0))
    primary, its_log = store.files()
    root, size = struct.unpack_from("<2I", primary, 36)
    bins, old, fields = primary[HEAD:HEAD + size], before[HEAD:], {"store": ID_BYTES, **fields}
    pages = reader.marked(its_log)
    changed = [page for page in range(len(bins) // PAGE) if bins[PAGE * page:][:PAGE] != old[PAGE * page:][:PAGE]]
    wanted = log(root, bins, pages, **fields)
    return (wrong or expect(f"{title}: block", primary[:HEAD], head(root, len(bins), **fields))
            or expect(f"{title}: pages that aren't in the log", set(changed) - set(pages), set())
            or expect(f"{title}: log of {len(pages)} pages", its_log[:len(wanted)] == wanted, True) or wrong_hive(title, primary))


def wrong_hive(title, primary):
    """What is wrong with a written hive, by the rules of written ones."""
    try:
        reader.read(primary, strict=True, edited=True)
    except (reader.WrongHive, KeyError) as wrong:
        return f"{title}: {wrong}"
    return None


def flushes(program):
    """Runs that end with a flush, and what is wrong with the files then."""
    store = Store(program, "flushes")
    before = store.primary()
    root = struct.unpack_from("<I", before, 36)[0]
    yield expect("a new hive: block", before[:HEAD], head(root, len(before) - HEAD, store=ID_BYTES))
    # a time of which each byte is another, and nine changes
    keys = [f"create 0:k{number}" for number in range(9)]
    told = b"opened 0\nok\n" + b"".join(f"created 1 accepted {number + 1}\n".encode() for number in range(9))
    yield wrong_flush("nine keys", store, before, [f"at {0x0102030405060708}", *keys], told,
                      primary=2, secondary=2, written=0x0102030405060708, applied=9)
    after = store.primary()
    yield expect("nine keys: tree", [bytes(key.name) for key in reader.read(after).keys.values()],
                 [f"k{number}".encode("utf-16-le") for number in range(9)])
    yield expect("nine keys: time, store and number", (after[12:20], after[176:192], after[192:200]),
                 (bytes([8, 7, 6, 5, 4, 3, 2, 1]), ID_BYTES, bytes([9, 0, 0, 0, 0, 0, 0, 0])))
    number, sizes = 9, (1, 16_345, MEBIBYTE, MEBIBYTE, 5)
    for flush, size in enumerate(sizes):
        # the bins data pass a mebibyte, and then the size whose bitmap has 508 bytes
        name, number, before = f"v{min(flush, 3)}", number + 1, store.primary()
        data = bytes(at // 7 % 251 for at in range(size))
        yield wrong_flush(f"a value of {size} bytes", store, before, [f"at {number}", f"set 0: {name} 3 {data.hex()}"],
                          f"opened {number - 1}\nok\naccepted {number}\n".encode(),
                          primary=flush + 3, secondary=flush + 3, written=number, applied=number)
    before = store.primary()
    before = mended(before[:4] + u32(NONE, NONE) + before[12:])
    store.put(before, b"")
    yield wrong_flush("the number after the greatest", store, before, ["at 1", "create 0:k"],
                      f"opened {number}\nok\ncreated 1 accepted {number + 1}\n".encode(), written=1, applied=number + 1,
                      primary=0, secondary=0)
    yield from older_flushes(program)


def older_flushes(program):
    """The first flushes of hives of older minor versions, and the next ones; and what is wrong with the files then."""
    for minor in (3, 4):
        store, data = Store(program, f"flushes{minor}"), bytes(at % 251 for at in range(20_000))
        before, _ = hive(Key("r", 5, [Key("a", 6)], [Value("v", 3, data)]), minor=minor, store=ID_BYTES)
        store.put(before, b"")
        for number in (1, 2):
            yield wrong_flush(f"flush {number} of 1.{minor}", store, before, [f"at {number}", f"set 0:a w 4 0{number}000000"],
                              f"opened {number - 1}\nok\naccepted {number}\n".encode(),
                              primary=number + 1, secondary=number + 1, written=number, applied=number)
            before = store.primary()


def main():
    if len(sys.argv) != 2:
        sys.exit(__doc__)
    counts = []
    for title, results in (("repairs", repairs), ("refusals", refusals), ("flushes", flushes)):
        with program_at(sys.argv[1], "logs-") as program:
            counts.append(tell(title, list(results(program))))
    finish(counts)


main()
