#!/usr/bin/env python3
"""Reads hives of the older minor versions, 1.3 and 1.4, makes stores of them and changes these, with a built program:

    tests/versions.py PROGRAM

Files are made by runs/hives/maker.py and read by runs/hives/reader.py, by the rules of docs/FORMATS.md and by nothing of this project's
code. Which files are hives, and what `dump` prints of them, tests/dumps.py asks. Each part tells what passed; the last line is 'N passed,
N failed', and the status is 0 if none failed.

- printed: what `export`, `export-utf8`, `export-json` and `export-tsv` print of such a hive, and of a store of it.
- kept: a store of two of them. Commands that change nothing of a hive leave its file as the import made it, byte for byte.
- flushed: the first flush makes the hive anew, as 1.5: large data lie in segments then, and the bins data are no shorter. The second
  one writes few pages.
- several: stores of hives of several versions, one of which changes; and imports that are refused, of which nothing is left.
- stops: the power goes after each call of the first flush, with what tests/power_cuts.py says of what is left then. The store opens
  with the tree before the change or after it, whole; so it does if the repair is cut too. An import that is cut makes a store or none.
- device: the first flush meets the greatest size that a file may have, in the log and in the hive. The next run ends it.
- memory: a run with each of its allocations refused in turn, and with all later ones: what was acknowledged is there with memory.
- others: hives of 1.3 that programs of others write: hivexregedit, hivexsh, reged and samba's library, if they are installed; it says
  which are. hivexml, reglookup and reged list the same keys and values.
"""
import functools
import json
import os
import re
import resource
import shutil
import struct
import sys
from concurrent.futures import ThreadPoolExecutor

TOP = os.path.dirname(os.path.dirname(os.path.abspath(__file__)))
sys.dont_write_bytecode = True
sys.path[:0] = [os.path.join(TOP, "tests"), os.path.join(TOP, "runs", "hives")]
import power_cuts  # noqa: E402
import reader  # noqa: E402
from cases import number, value_of  # noqa: E402
from edit_model import Node  # noqa: E402
from file_stores import Stores  # noqa: E402
from maker import NEWEST, SEGMENT, Key, Value, head, hive, imported, mended, of_minor, u32  # noqa: E402
from other_hives import LACKING, wrong_hives  # noqa: E402
from scratch import expect, finish, limited, memory, noting_library, program_at, refusal_shim, shown, skip, tell  # noqa: E402

ID, ID_BYTES = "00112233-4455-6677-8899-aabbccddeeff", bytes.fromhex("00112233445566778899aabbccddeeff")
UNIT = "936da01f-9abd-4d9d-80c7-02af85c822a8"
OLDER = (3, 4)
HEAD, PAGE, GATE, MOST_BINS = 4_096, 512, 64, 67_108_864
OK = (b"ok\n", 0)
BIG = bytes(at % 251 for at in range(SEGMENT + 1))
# of one operation in a hive of 1.5; tests/edits.py has it of others
FEW = 16


def tree(*large):
    """A root with a large value and others of these data, and three keys."""
    values = [Value("big", 3, BIG), Value("t", 1, "text\0".encode("utf-16-le"))]
    values += [Value(f"large{at}", 3, data) for at, data in enumerate(large)]
    keys = [Key("a", 6, [], [Value("n", 4, b"\1\0\0\0")], descriptor=b"two"), Key("B", 7, [Key("c", 8)], descriptor=b"one")]
    return Key("ROOT", 5, keys, values, 4, b"one")


def made(program, folder, *files):
    """The name of a store of these files."""
    names = [program.put(f"{folder}-file{at}", file) for at, file in enumerate(files)]
    printed = program.run("import", folder, ID, *names)
    if printed != OK:
        raise SystemExit(f"import {folder}: {shown(printed)}")
    return folder


def content(program, *names):
    with open(program.at(*names), "rb") as file:
        return file.read()


def script(program, lines):
    return program.put("script", "".join(f"{line}\n" for line in lines).encode())


def wrong_run(program, folder, lines, wanted, status=0):
    """What is wrong with the replies to a run."""
    told = "".join(f"{line}\n" for line in wanted).encode(), status
    return expect(f"{folder}: {shown(lines)}", program.run("run", folder, script(program, lines)), told)


EXPORTED = ["Windows Registry Editor Version 5.00", "", "[HIVE0]", '"big"=hex:' + ",".join(f"{byte:02x}" for byte in BIG), '"t"="text"',
            "", "[HIVE0\\a]", '"n"=dword:00000001', "", "[HIVE0\\B]", "", "[HIVE0\\B\\c]", "", ""]


def printed(program):
    """Exports of a hive and of a store of it, and what is wrong with each. Lines that go on are put together."""
    for minor in (*OLDER, NEWEST):
        file = hive(tree(), minor=minor)[0]
        for source in (program.put(f"printed{minor}", file), made(program, f"store{minor}", file)):
            for word, encoding in (("export", "utf-16"), ("export-utf8", "ascii")):
                text, status = program.run(word, source)
                whole = re.sub(r",\\\r\n +", ",", text.decode(encoding)).split("\r\n")
                yield expect(f"1.{minor}: {word} {source}", (whole, status), (EXPORTED, 0))
            text, status = program.run("export-json", source)
            rows = [json.loads(line) for line in text.splitlines()]
            datas = {(row["key"], row["name"]): row["data"] for row in rows if "name" in row}
            wanted = {("", "big"): BIG.hex(), ("", "t"): "74006500780074000000", ("a", "n"): "01000000"}
            yield expect(f"1.{minor}: export-json {source}", (datas, status), (wanted, 0))
            text, status = program.run("export-tsv", source)
            fields = [line.split(b"\t")[:5] for line in text.splitlines()]
            yield expect(f"1.{minor}: export-tsv {source}", ([field[4] for field in fields if field[2] == b"big"], status),
                         ([BIG.hex().encode()], 0))


READS = (["keys 0:", "values 0:", "get 0: big", "get 0:a n", "info 0:B"],
         ["keys 2 a B", "values 2 big t", f"value 3 {BIG.hex()}", "value 4 01000000", "info 1 0 7"])
# a change that is rolled back, and others that are refused
UNDONE = ([f"begin t {UNIT}", "tx t set 0:a n 4 02000000", "tx t create 0:new", "rollback t", "delete 0:", "unset 0: none",
           "create 0:b\\C"], ["ok", "ok", "created 1", "ok", "E18 Fixed", "E2 NotFound", "opened"])


def commands(program, folder):
    """Commands that leave hive 0 of a store, which has another one, as it is; and what is wrong with each."""
    get = [["get", folder, "0:a", "n"], ["get", folder, "0:", "t"], ["get", folder, "0:B\\c"]]
    yield from (expect(shown(words), program.run(*words), wanted)
                for words, wanted in zip(get, [(b"dword 1\n", 0), (b"sz text\n", 0), (b"E2 NotFound\n", 1)]))
    yield wrong_run(program, folder, READS[0], ["opened 0", *READS[1]])
    yield wrong_run(program, folder, UNDONE[0], ["opened 0", *UNDONE[1]], 1)
    for words in (["ls", folder, "0:"], ["export", folder], ["export", folder, "0:a"], ["export-json", folder], ["export-tsv", folder],
                  ["check", folder], ["check", f"{folder}/hive00.dat"], ["dump", f"{folder}/hive00.dat"], ["run", folder, "/dev/null"],
                  ["import", f"{folder}-copy", ID, f"{folder}/hive00.dat"]):
        yield expect(f"{words}: status", program.run(*words)[1], 0)
    same = program.put("same.reg", b"Windows Registry Editor Version 5.00\n\n[HIVE0\\a]\n[-HIVE0\\none]\n")
    yield expect("what is so already", program.run("apply", folder, same), (b"applied 0\n", 0))
    # changes of the other hive, which are flushed
    yield expect("a value of hive 1", program.run("set", folder, "1:K", "v", "dword", "7"), (b"committed 1\n", 0))
    yield wrong_run(program, folder, ["create 1:L", "flush", *READS[0]], ["opened 1", "created 1 accepted 2", "flushed 2", *READS[1]])


def kept(program):
    """Stores whose hive 0 is of an older version, and what is wrong after each command that changes nothing of it."""
    for minor in OLDER:
        file = hive(tree(), minor=minor, primary=7, secondary=7, written=99, store=b"s" * 16, applied=5)[0]
        file = mended(file[:44] + u32(9) + b"name" * 16 + b"?" * 64 + file[176:])
        folder, wanted = made(program, f"kept{minor}", file + b"more", hive(Key("other"))[0]), imported(file, ID_BYTES)
        root = struct.unpack_from("<I", file, 36)[0]
        # in a block of the project's own form other fields are zeros
        block = head(root, len(file) - HEAD, minor=minor, primary=1, secondary=1, written=0, applied=0, store=ID_BYTES)
        found = content(program, folder, "hive00.dat")
        yield expect(f"1.{minor}: the block", found[:HEAD], block)
        yield expect(f"1.{minor}: the bins", found[HEAD:] == file[HEAD:], True)
        for number, wrong in enumerate(commands(program, folder)):
            is_kept = content(program, folder, "hive00.dat") == wanted and not os.path.exists(program.at(folder, "hive00.log"))
            yield wrong or (None if is_kept else f"1.{minor}: command {number} has changed the hive's files")
        # the change that `set` committed has an outcome, and the write alone after it has none
        wanted = [f"store {ID}", "number 2", "hives 2", "journal 65 of 67108864 bytes", "hive 0: applied 0, has all changes",
                  "hive 1: applied 2, has all changes", "outcomes: applied 1, has all changes", "whole", ""]
        yield expect(f"1.{minor}: a check", program.run("check", folder), ("\n".join(wanted).encode(), 0))


def changed(root, moment, data):
    """The tree after `at MOMENT` and `set 0:a n 4 DATA`, as it is read."""
    node = Node.of(root)
    node.key(["a"]).set(moment, "n", 4, data)
    return node.row()


def wrong_tree(title, file, wanted):
    """What is wrong with a hive that a flush has written, by the rules of written ones."""
    wrong = reader.wrong_tree(file, wanted)
    return f"{title}: {wrong}" if wrong else expect(f"{title}: version", file[24], NEWEST)


def segments(file):
    """How large the data of the root's first value are said to be, and the sizes and bytes of the cells that have them."""
    root = struct.unpack_from("<I", file, 36)[0]
    value = value_of(file, root)
    record = HEAD + number(file, value + 8) + 4
    letters, count, parts = struct.unpack_from("<2sHI", file, record)
    offsets = [number(file, parts + 4 + 4 * at) for at in range(count)]
    sizes = [2 ** 32 - number(file, at) for at in offsets]
    return letters, number(file, value + 4), sizes, [file[HEAD + at + 4:HEAD + at + size] for at, size in zip(offsets, sizes)]


def flushed(program):
    """Hives of older versions after their first flush and their second one, and what is wrong with them."""
    for minor in OLDER:
        for least in (0, 50 * HEAD, *([MOST_BINS] if minor == 3 else [])):
            folder, title = f"flushed{minor}-{least}", f"1.{minor}, {least} bytes"
            file = hive(tree(), minor=minor, least=least)[0]
            made(program, folder, file)
            yield wrong_run(program, folder, ["at 9", "set 0:a n 4 02000000"], ["opened 0", "ok", "accepted 1"])
            found, log = content(program, folder, "hive00.dat"), content(program, folder, "hive00.log")
            yield wrong_tree(title, found, changed(tree(), 9, b"\2\0\0\0"))
            yield expect(f"{title}: numbers, version of the log", (struct.unpack_from("<2I", found, 4), log[24]), ((2, 2), NEWEST))
            yield expect(f"{title}: is no shorter", struct.unpack_from("<I", found, 40)[0] >= len(file) - HEAD, True)
            letters, size, sizes, parts = segments(found)
            # to n bytes belongs a cell of n + 4 rounded up to a multiple of 8, or 8 more
            yield expect(f"{title}: big data", (letters, size, len(parts), sizes[0] in (16_352, 16_360), sizes[-1] in (8, 16)),
                         (b"db", SEGMENT + 1, 2, True, True))
            yield expect(f"{title}: segments", parts[0][:SEGMENT] + parts[-1][:1], BIG)
            yield wrong_run(program, folder, ["at 10", "get 0: big", "set 0:a n 4 03000000"],
                            ["opened 1", "ok", f"value 3 {BIG.hex()}", "accepted 2"])
            found, pages = content(program, folder, "hive00.dat"), reader.marked(content(program, folder, "hive00.log"))
            yield wrong_tree(f"{title}, again", found, changed(tree(), 10, b"\3\0\0\0"))
            yield None if 0 < len(pages) <= FEW else f"{title}: the second flush wrote {len(pages)} pages"


def several(program):
    """Stores of hives of several versions, and refused imports; and what is wrong with them."""
    minors = (3, 5, 4, 3, 5)
    files = [hive(Key(f"r{at}", at, [Key(f"K{at}", at, [], [Value("v", 3, BIG)])]), minor=minor)[0] for at, minor in enumerate(minors)]
    folder = made(program, "several", *files)
    for at, file in enumerate(files):
        yield expect(f"hive {at}", content(program, folder, f"hive{at:02}.dat") == imported(file, ID_BYTES), True)
    lines = [f"begin t {UNIT}", *[f"tx t create {at}:New" for at in (0, 1, 2)], "commit t", *[f"keys {at}:" for at in range(5)]]
    wanted = ["opened 0", "ok", *["created 1"] * 3, "committed 1", *[f"keys 2 K{at} New" for at in range(3)], "keys 1 K3", "keys 1 K4"]
    yield wrong_run(program, folder, lines, wanted)
    for at, (file, minor) in enumerate(zip(files, minors)):
        found, is_changed = content(program, folder, f"hive{at:02}.dat"), at < 3
        yield expect(f"hive {at}: version", found[24], NEWEST if is_changed else minor)
        yield expect(f"hive {at}: data", reader.read(found).keys[reader.folded(f"K{at}".encode("utf-16-le"))].values,
                     {(ord("V"),): ("v".encode("utf-16-le"), 3, BIG)})
        yield None if is_changed else expect(f"hive {at} as it was", found == imported(file, ID_BYTES), True)
    yield from refused(program)


def refused(program):
    """Imports that are refused for a file of an older version: the first of them is told, with its number, and nothing is left."""
    good, split = hive(tree(), minor=3)[0], of_minor(hive(tree())[0], 3)
    files = {"good": good, "split": split, "whole": of_minor(good, 5), "six": of_minor(good, 6), "two": of_minor(good, 2)}
    for name, file in files.items():
        program.put(name, file)
    bad = "E15 HiveDamaged {} BadRecord\n".format
    for number, (names, told) in enumerate([
            (["good", "split"], bad(1)), (["good", "split", "six"], bad(1)), (["good", "six", "split"], "E17 Unsupported\n"),
            (["split", "good"], bad(0)), (["good", "good", "whole", "two"], bad(2)), (["two", "whole"], "E17 Unsupported\n")]):
        folder = f"refused{number}"
        yield expect(f"import of {names}", program.run("import", folder, ID, *names), (told.encode(), 1))
        yield expect(f"import of {names}: files", os.listdir(program.at(folder)), [])
        yield expect(f"import of {names}, and then of others", program.run("import", folder, ID, "good", "good"), OK)


# data that take the bins data over two chunks of what one write takes
LARGE = (bytes(at * 3 % 253 for at in range(70_000)), bytes(at * 7 % 247 for at in range(60_000)))
SET = ["at 9", "set 0:a n 4 02000000"]
LOOK = b"get 0:a n\nget 0: big\nvalues 0:\nkeys 0:B\n"
NEST = 12


def looked(done):
    """What is printed of LOOK, before the change or after it."""
    told = [f"opened {int(done)}", f"value 4 0{1 + done}000000", f"value 3 {BIG.hex()}", "values 4 big large0 large1 t", "keys 1 c"]
    return "".join(f"{line}\n" for line in told).encode()


class Flush:
    """A run that makes one change of a hive of an older version, and flushes it: the store's files before, and the run's calls."""

    def __init__(self, program, stores, library, minor):
        self.minor, self.root, self.stores, folder = minor, tree(*LARGE), stores, f"traced{minor}"
        made(program, folder, hive(self.root, minor=minor)[0])
        self.before = self.stores.files(folder)
        self.told, _, self.calls = power_cuts.traced(program, library, "run", folder, script(program, SET))
        self.after = self.stores.files(folder)
        synced = [at for at, call in enumerate(self.calls) if (call.verb, call.name) == ("sync", "journal")]
        written = [at for at, call in enumerate(self.calls) if (call.verb, call.name) == ("write", "journal")]
        # the gate is opened by the journal's second write, and that is durable from the next sync on
        self.durable = min(at for at in synced if at > written[1]) + 1

    def is_done(self, files, count):
        """Whether the change is there if these files are left after so many calls."""
        return count >= self.durable or files["journal"][GATE:GATE + 1] == b"\xc3"

    def wrong_opening(self, title, files, count):
        """What is wrong with the opening of these files, or with those that the run behind it leaves."""
        done = self.is_done(files, count)
        printed, status, _ = self.stores.open(files, LOOK)
        wrong = expect(f"1.{self.minor}, {title}", (printed, status), (looked(done), 0))
        found = self.stores.files(self.stores.folder())["hive00.dat"]
        if not done:
            return wrong or expect(f"1.{self.minor}, {title}: the hive", found == self.before["hive00.dat"], True)
        return wrong or wrong_tree(f"1.{self.minor}, {title}", found, changed(self.root, 9, b"\2\0\0\0"))


def wrong_calls(flush):
    """What is wrong with the calls of a run: they make what is left, and come in their order."""
    title, calls = f"1.{flush.minor}: calls", [call for call in flush.calls if call.name.startswith("hive")]
    yield expect(f"{title}: replies", flush.told, b"opened 0\nok\naccepted 1\n")
    yield expect(f"{title}: what they leave", power_cuts.after(flush.before, flush.calls) == flush.after, True)
    writes = [call for call in calls if call.verb == "write" and call.name == "hive00.dat"]
    raised, last, log = writes[0], writes[-1], next(call for call in calls if call.verb == "write" and call.name == "hive00.log")
    old = flush.before["hive00.dat"][:PAGE]
    # but for the first number and the sum it is the sector before
    yield expect(f"{title}: the raised sector", (raised.at, raised.data), (0, mended(old[:4] + u32(2) + old[8:])))
    yield expect(f"{title}: the last sector", (last.at, len(last.data), struct.unpack_from("<2I", last.data, 4), last.data[24]),
                 (0, PAGE, (2, 2), NEWEST))
    yield expect(f"{title}: the log", (log.at, log.data[24], log.data[28]), (0, NEWEST, 1))
    order = [(call.verb, call.name) for call in calls]
    first = order.index(("write", "hive00.dat"))
    yield expect(f"{title}: synced before the raised sector", order[first - 1], ("sync", "hive00.log"))
    yield expect(f"{title}: synced after it", order[first + 1], ("sync", "hive00.dat"))
    sizes = [len(files["hive00.dat"]) for files in (flush.before, flush.after)]
    yield None if len(writes) > 3 and sizes[0] < sizes[1] else f"{title}: {len(writes)} writes and sizes {sizes}, wanted several, and more bytes"


def is_unclean(file):
    return file[4:8] != file[8:12] or mended(file) != file


def stops(program):
    """Power cuts within the first flush of a hive and within its repair, and what is wrong with what opens then."""
    library, stores = noting_library(program), Stores(program)
    yield from import_stops(program, stores, library)
    for minor in OLDER:
        flush = Flush(program, stores, library, minor)
        yield from wrong_calls(flush)
        states = list(power_cuts.states(flush.before, flush.calls))
        with ThreadPoolExecutor(max_workers=os.cpu_count()) as pool:
            yield from pool.map(lambda it: flush.wrong_opening(*it), states)
            unclean = [it for it in states if is_unclean(it[1]["hive00.dat"])]
            yield None if len(unclean) > NEST else f"1.{minor}: {len(unclean)} states whose hive is unclean"
            for title, files, count in unclean[::len(unclean) // NEST]:
                yield from repairs(program, library, pool, flush, title, files, count)


def import_stops(program, stores, library):
    """Power cuts within an import of hives of older versions, and what is wrong with what opens then: the store, if the journal's
    header and its gate are there, or none."""
    names = [program.put(f"stopped{minor}", hive(tree(*LARGE), minor=minor)[0]) for minor in OLDER]
    told, status, calls = power_cuts.traced(program, library, "import", "stopped", ID, *names)
    whole = power_cuts.after({}, calls)
    yield expect("an import", (told, status, whole == stores.files("stopped")), (*OK, True))
    for title, files, _ in power_cuts.states({}, calls):
        is_there = files.get("journal", b"")[:GATE] == whole["journal"][:GATE] and len(files["journal"]) > GATE
        printed, status, is_same = stores.open(files, LOOK + LOOK.replace(b" 0:", b" 1:"))
        wanted = (looked(False) + looked(False).partition(b"\n")[2], 0) if is_there else (b"E16 JournalDamaged\n", 1)
        yield expect(f"an import, {title}", (printed, status, is_same), (*wanted, True))


def repairs(program, library, pool, flush, title, files, count):
    """Power cuts within the repair of a hive, and what is wrong with what opens then; and what a check says before."""
    folder = flush.stores.folder()
    printed, status, is_same = flush.stores.ask(files, "check")
    pages = len(reader.marked(files["hive00.log"])) if "hive00.log" in files else None
    yield expect(f"1.{flush.minor}, {title}: a check", (f"half written in {pages} pages".encode() in printed, status, is_same), (True, 0, True))
    _, _, calls = power_cuts.traced(program, library, "run", folder, "/dev/null")
    states = power_cuts.states(files, calls)
    yield from pool.map(lambda it: flush.wrong_opening(f"{title}; of its repair {it[0]}", it[1], count), states)


def device(program):
    """First flushes whose log, or whose pages, meet the greatest size that a file may have; and what is wrong with them."""
    for minor in OLDER:
        for most, is_begun in ((100_000, False), (154_000, True)):
            title, folder = f"1.{minor}, {most} bytes", made(program, f"device{minor}-{most}", hive(tree(*LARGE), minor=minor)[0])
            given = limited(resource.RLIMIT_FSIZE, most)
            yield expect(title, program.run("run", folder, script(program, SET), **given), (b"opened 0\nok\naccepted 1\nE13 DiskFault\n", 1))
            told, status = program.run("check", folder)
            yield expect(f"{title}: a check", (b"half written" in told, status), (is_begun, 0))
            yield expect(f"{title}: the next run", program.run("run", folder, program.put("look", LOOK)), (looked(True), 0))
            yield wrong_tree(title, content(program, folder, "hive00.dat"), changed(tree(*LARGE), 9, b"\2\0\0\0"))


def refusals(program):
    """Runs on stores of older hives with refused allocations, and what is wrong with each."""
    shim, report = refusal_shim(), program.at("report")
    for minor in OLDER:
        folder, file = made(program, f"memory{minor}", hive(tree(), minor=minor)[0]), hive(tree(), minor=minor)[0]
        for mode in ("FAILALLOC_AT", "FAILALLOC_FROM"):
            number, refused = 0, 1
            while refused:
                number += 1
                place = shutil.copytree(program.at(folder), program.at(f"{folder}-{mode}-{number}"))
                given = {mode: str(number), "FAILALLOC_REPORT": report, "LD_PRELOAD": shim}
                replies, status = program.run("run", place, script(program, [*SET, "flush"]), environment=given)
                with open(report, encoding="ascii") as said:
                    refused = int(said.read().split("refused=")[1])
                yield wrong_without_memory(program, place, imported(file, ID_BYTES), replies, status, refused)
                shutil.rmtree(place)


def wrong_without_memory(program, place, before, replies, status, refused):
    """What is wrong with a run, some of whose allocations were refused, and with what the next one finds."""
    title, is_refused = f"{os.path.basename(place)}: {shown(replies)}", b"E1 NoMemory" in replies
    if not refused and replies != b"opened 0\nok\naccepted 1\nflushed 1\n" or status != int(is_refused):
        return f"{title}, status {status}, {refused} refused"
    if content(program, place, "hive00.dat")[24] != NEWEST and content(program, place, "hive00.dat") != before:
        return f"{title}: the hive is another one of its version"
    told = program.run("run", place, script(program, ["get 0:a n", "get 0: big"]))
    both = [(f"opened {done}\nvalue 4 0{1 + done}000000\nvalue 3 {BIG.hex()}\n".encode(), 0) for done in (0, 1)]
    wanted = both[1:] if b"flushed 1" in replies or not is_refused else both
    return None if told in wanted else f"{title}: then {shown(told)}"


def main():
    if len(sys.argv) != 2:
        sys.exit(__doc__)
    for name in LACKING:
        skip("others", f"{name} isn't there")
    parts = {"printed": printed, "kept": kept, "flushed": flushed, "several": several, "stops": stops, "device": device,
             "memory": refusals, "others": functools.partial(wrong_hives, identity=ID)}
    counts = []
    for title, results in parts.items():
        with program_at(sys.argv[1], "versions-", memory()) as program:
            counts.append(tell(title, list(results(program))))
    finish(counts)


main()
