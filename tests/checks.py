#!/usr/bin/env python3
"""Checks hives and stores with a built program, and compares its reports and statuses:

    tests/checks.py PROGRAM

- cases: the files of runs/hives/cases.py. Of each the lines of the base block and of the cells are those that this script reads
  in the file's bytes, and the verdict is that of the case; of whole ones the keys, values and weight are those of the dump.
- faults: hives with one rule broken at a known place: the refusal has its offset in the file and the path of its key.
- blocks: unclean, short and foreign files, with their lines and what to do.
- others: hives that hivexsh wrote; hivexml and reglookup count the same keys and values. It says which are installed.
- stores: new, changed, lagging, in use, read-only and damaged ones; with outcomes of commits, and of the layout that keeps none.
- memory: the program with each of its allocations refused in turn.

The last line is 'N passed, N failed', and the status is 0 if none failed.
"""
import os
import re
import shutil
import struct
import subprocess
import sys
import time
import xml.etree.ElementTree

TOP = os.path.dirname(os.path.dirname(os.path.abspath(__file__)))
sys.dont_write_bytecode = True
sys.path[:0] = [os.path.join(TOP, "tests"), os.path.join(TOP, "runs", "hives")]
import cases  # noqa: E402
from cases import number, offsets, patched, value_of  # noqa: E402
from maker import NONE, Key, Value, hive, mended, u16, u32  # noqa: E402
from reader import marked  # noqa: E402
from scratch import are_there, as_other, expect, finish, program_at, refusal_shim, tell  # noqa: E402

ID = "6ba7b810-9dad-11d1-80b4-00c04fd430c8"
LIMIT = 16_777_216
DAMAGED = "damaged: restore a backup; other programs may read what is left"
ADVICE = {
    "Truncated": "the file ends early: copy it again from its source, or restore a backup",
    "BadBase": "no hive begins here: check which file this is, or restore a backup",
    "NotClean": "not closed: open its store, or `recover` it by its logs; or restore a backup",
    "E17": "a version, type or flag that this program doesn't read: use a program that does",
    "E6": "over a limit of this program: use a program that reads it",
}
ALL = "has all changes"
# of a store in which no transaction has committed
NO_OUTCOMES = f"outcomes: applied 0, {ALL}"
A_LOG = "a log, not a hive: check the hive's own file, or `recover` it by its logs"
TOO_HEAVY = "too large for a store: `export` prints it"
NO_STORE = "no store, or a damaged journal: check the folder, or restore a backup"
BAD_HIVE = "a damaged hive: check its file alone, and restore a backup"
PLACE = re.compile(r" at 0x[0-9a-f]+( in \S+| in the root)?$")


def block_lines(file):
    """The lines of a base block, read by the published layout."""
    if len(file) < 512 or file[:4] != b"regf":
        return []
    primary, secondary, written, major, minor, kind, form, root, size = struct.unpack_from("<IIQIIIIII", file, 4)
    total, right = struct.unpack_from("<I", file, 508)[0], struct.unpack_from("<I", mended(file), 508)[0]
    clean = "clean" if primary == secondary and total == right else "not clean"
    lines = [f"version {major}.{minor}, type {kind}, format {form}", f"bins {size} bytes, root at {4_096 + root:#x}",
             f"sum {total:#x}" + ("" if total == right else f", should be {right:#x}"), f"numbers {primary} and {secondary}, {clean}",
             f"written {moment(written)}"]
    store, applied = file[176:192], struct.unpack_from("<Q", file, 192)[0]
    if any(store):
        digits = store.hex()
        name = "-".join([digits[:8], digits[8:12], digits[12:16], digits[16:20], digits[20:]])
        lines.append(f"store {name}, applied {applied}")
    return lines


def moment(ticks):
    """A FILETIME as a date of the Gregorian calendar: days are counted by hand, since Python's dates end early."""
    seconds, part = divmod(ticks, 10_000_000)
    days, seconds = divmod(seconds, 86_400)
    year, month = 1601, 1
    while days >= (length := 366 if is_leap(year) else 365):
        days, year = days - length, year + 1
        if year > 9_999:
            return str(ticks)
    for length in [31, 29 if is_leap(year) else 28, 31, 30, 31, 30, 31, 31, 30, 31, 30, 31]:
        if days < length:
            break
        days, month = days - length, month + 1
    return f"{year:04}-{month:02}-{days + 1:02}T{seconds // 3_600:02}:{seconds // 60 % 60:02}:{seconds % 60:02}.{part:07}Z"


def is_leap(year):
    return year % 4 == 0 and (year % 100 != 0 or year % 400 == 0)


def cells_line(file):
    """The line of the cells, by a walk over bins and cells."""
    bins, at, sizes = file[4_096:4_096 + struct.unpack_from("<I", file, 40)[0]], 0, []
    while at < len(bins):
        end = at + struct.unpack_from("<I", bins, at + 8)[0]
        at += 32
        while at < end:
            sizes.append(struct.unpack_from("<i", bins, at)[0])
            at += abs(sizes[-1])
    free = [size for size in sizes if size > 0]
    return f"{len(sizes)} cells, {len(free)} free with {sum(free)} bytes"


def dumped_lines(dump):
    """The lines of keys, values and weight, by a dump; the weight of a tree without classes and descriptors."""
    keys = [line.split()[1] for line in dump if line.startswith("key ")]
    values = [line.split() for line in dump if line.startswith("val ")]
    return [f"{len(keys)} keys, {len(values)} values"], sum(128 + 2 * units(word[1]) + data(word[3]) for word in values)


def units(name):
    return 0 if name == "@" else len(re.sub("%[0-9a-f]{4}", "x", name))


def data(word):
    return 0 if word == "-" else len(word) // 2


def check(program, file):
    """The lines of a report, and the status."""
    program.put("file", file)
    printed, status = program.run("check", "file")
    return printed.decode().split("\n")[:-1], status


def advice_on(refusal):
    words = refusal.split()
    return ADVICE.get(words[3] if words[0] == "E15" else words[0], DAMAGED)


def all_cases(program):
    return tell("cases", [wrong_case(program, case) for case in cases.all_cases()])


def wrong_case(program, case):
    """What is wrong with the report of a case, or None."""
    printed, status = check(program, case.file)
    block = block_lines(case.file)
    if printed[:len(block)] != block:
        return f"{case.title}: wanted {block}, printed {printed}"
    rest = printed[len(block):]
    texts = [text.decode() for text in case.texts]
    if case.status() == 0:
        dump = texts[0].split("\n")
        counts, values = dumped_lines(dump)
        weight = int(rest[2].split()[1]) if len(rest) == 4 and rest[2].startswith("weight ") else 0
        named = sum(192 + 2 * units(line.split()[1].rsplit(":", 1)[1].rsplit("\\", 1)[-1] or "@") for line in dump if line.startswith("key "))
        if weight < values + named:
            return f"{case.title}: a weight of {weight}, of values and names {values + named}"
        return expect(case.title, (rest, status), ([cells_line(case.file), *counts, f"weight {weight} of {LIMIT}", "whole"], 0))
    refusal = PLACE.sub("", rest[-2])
    if refusal == TOO_HEAVY or rest[-1] == TOO_HEAVY:
        return None if "E6 TooLarge\n" in texts and status == 1 else f"{case.title}: {printed}"
    advice = A_LOG if refusal.startswith("E17") and case.file[28:32] in (u32(1), u32(2)) else advice_on(refusal)
    if refusal + "\n" not in texts or rest[-1] != advice or status != 1:
        return f"{case.title}: wanted {texts}, printed {printed}, status {status}"
    tiled = rest[0].endswith(" bytes")
    return expect(case.title, rest[:-2], [cells_line(case.file)] if tiled else [])


def spoiled():
    """A hive with a rule broken at a known place, and the refusal's line."""
    tree = Key("root", 5, [Key("Software", 6, [Key("a b", 7, [], [Value("v", 3, b"five!")])]), Key("Z")], [Value("w", 4, b"1234")])
    file, places = hive(tree)
    deep, soft, root = places["a b"], places["Software"], places["root"]
    leaf, value = offsets(file, root) - 4, value_of(file, deep)
    at = "E15 HiveDamaged 0 {} at {:#x}{}".format
    free = root + 88
    for title, where, some, line in [
            ("a bin", 0, b"hbim", at("BadBin", 4_096, "")),
            ("a cell", 32, u32(12), at("BadCell", 4_096 + 32, "")),
            ("a key's letters", deep + 4, b"nx", at("BadRecord", 4_096 + deep, " in Software")),
            ("a value's letters", value, b"vx", at("BadRecord", 4_096 + deep, " in Software")),
            ("a value's data elsewhere", value + 8, u32(NONE - 7), at("BadOffset", 4_096 + deep, " in Software")),
            ("a leaf's letters", leaf + 4, b"lx", at("BadList", 4_096 + root, " in the root")),
            ("a subkey nowhere", leaf + 8, u32(4), at("BadOffset", 4_096 + 4, " in the root")),
            ("a subkey twice", leaf + 16, u32(soft), at("Shared", 4_096 + soft, " in the root")),
            ("a backslash in a name", deep + 4 + 76, b"\\", at("BadName", 4_096 + deep, " in Software")),
            ("a flag", soft + 4 + 2, u16(0x60), f"E17 Unsupported at {4_096 + soft:#x} in the root"),
            ("a name like another's", places["Z"] + 4 + 72, u16(0), at("BadName", 4_096 + root, " in the root")),
            ("the root's letters", root + 4, b"xx", at("BadRecord", 4_096 + root, " in the root"))]:
        assert free
        yield title, patched(file, where, some), line
    cut = file[:4_096 + 4_000]
    yield "a file that ends early", cut, "E15 HiveDamaged 0 Truncated"
    spelled, at_key = hive(Key("", 0, [Key("a b", 0, [Key("\u00e4", 0, [Key("x")])])]))
    yield "names as in replies", patched(spelled, at_key["x"] + 4, b"nx"), at("BadRecord", 4_096 + at_key["x"], " in a%0020b\\%00e4")
    names, at_key = hive(Key("", 0, [Key("k", 0, [Key("same"), Key("sama")])]))
    yield "two names alike", patched(names, at_key["sama"] + 4 + 79, b"E"), at("BadName", 4_096 + at_key["k"], " in k")


def faults(program):
    results = []
    for title, file, line in spoiled():
        printed, status = check(program, file)
        wanted = [line, advice_on(PLACE.sub("", line))]
        results.append(expect(title, (printed[-2:], status), (wanted, 1)))
        results.append(expect(f"{title}: the block", printed[:len(block_lines(file))], block_lines(file)))
    return tell("faults", results)


def blocks(program):
    file, _ = hive(Key("r", 9), written=133_536_384_001_234_567, store=bytes(range(16)), applied=26)
    results = [expect("a whole hive", check(program, file), ([
        "version 1.5, type 0, format 1", f"bins 4096 bytes, root at {4_096 + struct.unpack_from('<I', file, 36)[0]:#x}",
        f"sum {struct.unpack_from('<I', file, 508)[0]:#x}", "numbers 1 and 1, clean", "written 2024-02-29T00:00:00.1234567Z",
        "store 00010203-0405-0607-0809-0a0b0c0d0e0f, applied 26", cells_line(file), "1 keys, 0 values", f"weight 194 of {LIMIT}", "whole"], 0))]
    for title, file, cause in [
            ("two numbers", mended(file[:8] + u32(7) + file[12:]), "NotClean"), ("a wrong sum", file[:300] + b"\1" + file[301:], "NotClean"),
            ("a wrong sum and a wrong bin", file[:508] + bytes(4) + file[512:4_096] + b"x" + file[4_097:], "NotClean"),
            ("no signature", mended(b"regx" + file[4:]), "BadBase"), ("a size of 0", mended(file[:40] + u32(0) + file[44:]), "BadBase"),
            ("half a sector", file[:511], "Truncated"), ("no file", b"", "Truncated"), ("the block alone", file[:4_096], "Truncated"),
            ("a part of the block", file[:4_095], "Truncated")]:
        wanted = [*block_lines(file), f"E15 HiveDamaged 0 {cause}", ADVICE[cause]]
        results.append(expect(title, check(program, file), (wanted, 1)))
    for title, at, some in [("another version", 24, 2), ("a log", 28, 1), ("another log", 28, 2), ("a new log", 28, 6), ("another type", 28, 3), ("another format", 32, 2)]:
        other = mended(file[:at] + u32(some) + file[at + 4:])
        wanted = A_LOG if title.endswith("log") else ADVICE["E17"]
        results.append(expect(title, check(program, other), ([*block_lines(other), "E17 Unsupported", wanted], 1)))
    for kind in (1, 2, 6):
        unequal = mended(file[:8] + u32(7) + file[12:28] + u32(kind) + file[32:])
        results.append(expect(f"a log of type {kind} that was being written", check(program, unequal), (
            [*block_lines(unequal), "E15 HiveDamaged 0 NotClean", A_LOG], 1)))
    late = mended(file[:12] + bytes([255] * 8) + file[20:])
    results.append(expect("the last moment", check(program, late)[0][4], f"written {2 ** 64 - 1}"))
    heavy, _ = hive(Key("", 0, [Key(f"{number:05}") for number in range(90_000)], many=500))
    printed, status = check(program, heavy)
    results.append(expect("a heavy tree", (printed[-4:], status), (
        [cells_line(heavy), "90001 keys, 0 values", f"weight {192 + 90_000 * 202} of {LIMIT}", TOO_HEAVY], 1)))
    results.append(expect("no such file", program.run("check", "none"), (b"cannot read file\n", 1)))
    results.append(expect("no word", program.run("check"), (b"wrong words\n", 2)))
    return tell("blocks", results)


def others(program):
    tools = are_there("others", "hivexsh", "hivexml", "reglookup")
    if "hivexsh" not in tools:
        return tell("others", [])
    # of four keys and three values
    shutil.copy(os.path.join(TOP, "examples", "by_hivex.dat"), program.at("base"))
    results = []
    for many in (1, 40, 700):
        script = "cd System\n"
        for number in range(many):
            script += f"add K{number}\ncd K{number}\nsetval 2\na\nstring:{number}\nb\nhex:3:{','.join(['00'] * (number + 1))}\ncd ..\n"
        script += f"commit {program.at('hivex')}\n"
        subprocess.run(["hivexsh", "-w", program.at("base")], input=script.encode(), check=True, stdout=subprocess.DEVNULL)
        with open(program.at("hivex"), "rb") as held:
            file = held.read()
        printed, status = check(program, file)
        wanted = [*block_lines(file), cells_line(file), f"{many + 4} keys, {2 * many + 3} values"]
        results.append(expect(f"{many} keys of hivexsh", (printed[:len(wanted)], printed[-1], status), (wanted, "whole", 0)))
        counts = printed[-3]
        if "hivexml" in tools:
            text = subprocess.run(["hivexml", program.at("hivex")], stdout=subprocess.PIPE, check=True).stdout
            tree = xml.etree.ElementTree.fromstring(text.decode(errors="replace"))
            results.append(expect("hivexml", counts, f"{len(list(tree.iter('node')))} keys, {len(list(tree.iter('value')))} values"))
        if "reglookup" in tools:
            text = subprocess.run(["reglookup", "-H", program.at("hivex")], stdout=subprocess.PIPE, stderr=subprocess.DEVNULL).stdout
            kinds = [line.split(b",")[1] for line in text.splitlines()]
            results.append(expect("reglookup", counts, f"{kinds.count(b'KEY')} keys, {len(kinds) - kinds.count(b'KEY')} values"))
    return tell("others", results)


def report(program, name="s"):
    printed, status = program.run("check", name)
    return printed.decode().split("\n")[:-1], status


def whole(number, used, *hives, outcomes=0):
    """The report of a store whose outcomes of commits are those at a number."""
    lines = [f"hive {at}: applied {applied}, {rest}" for at, (applied, rest) in enumerate(hives)] + [f"outcomes: applied {outcomes}, {ALL}"]
    return [f"store {ID}", f"number {number}", f"hives {len(hives)}", f"journal {used} of 67108864 bytes", *lines, "whole"], 0


def stores(program):
    results = []
    program.run("new", "s", ID, "2")
    results.append(expect("a new store", report(program), whole(0, 65, (0, ALL), (0, ALL))))
    program.put("script", b"create 0:A\nset 0:A v 3 00\ncreate 1:B\n")
    program.run("run", "s", "script")
    results.append(expect("a changed store", report(program), whole(3, 65, (3, ALL), (3, ALL))))
    results.append(expect("its hive", check(program, content(program, "s", "hive00.dat"))[0][-1], "whole"))
    os.remove(program.at("s", "hive01.log"))
    os.mkdir(program.at("s", "hive01.log"))
    program.put("script", b"create 0:C\ncreate 1:D\nset 1:D v 3 00\ncreate 0:E\n")
    program.run("run", "s", "script")
    before = folder(program, "s")
    printed, status = report(program)
    lag = printed[5] if len(printed) == 8 else None
    results.append(expect("a hive that lags", (lag, printed[-1], status), ("hive 1: applied 3, lacks 2 changes; the next run moves them in", "whole", 0)))
    results.append(expect("nothing is written", folder(program, "s"), before))
    os.rmdir(program.at("s", "hive01.log"))
    program.put("none", b"")
    program.run("run", "s", "none")
    results.append(expect("the next run", report(program)[0][-4:],
                          [f"hive 0: applied 7, {ALL}", f"hive 1: applied 7, {ALL}", NO_OUTCOMES, "whole"]))
    results += kept_outcomes(program)
    results += first_layout(program)
    shutil.copytree(program.at("s"), program.at("r"))
    for name in os.listdir(program.at("r")):
        os.chmod(program.at("r", name), 0o444)
    os.chmod(program.at("r"), 0o555)
    results.append(expect("a store that can't be written", program.run("check", "r", **as_other())[1], 0))
    os.chmod(program.at("r"), 0o755)
    results += half_written(program)
    results += in_use(program)
    results += damaged_stores(program)
    return tell("stores", results)


def kept_outcomes(program):
    """A commit; then one whose outcome is in the journal alone, and the run that moves it."""
    shutil.copytree(program.at("s"), program.at("o"))
    program.put("script", f"begin t {ID}\ntx t create 0:F\ncommit t\n".encode())
    program.run("run", "o", "script")
    results = [expect("a commit", report(program, "o"), whole(8, 65, (8, ALL), (7, ALL), outcomes=8))]
    os.remove(program.at("o", "hive02.log"))
    os.mkdir(program.at("o", "hive02.log"))
    program.put("script", f"begin t {ID}\ntx t create 0:G\ncommit t\n".encode())
    program.run("run", "o", "script")
    printed, status = report(program, "o")
    lag = "outcomes: applied 8, lacks 1 change; the next run moves it in"
    results.append(expect("outcomes that lag", (printed[-2:], status), ([lag, "whole"], 0)))
    os.rmdir(program.at("o", "hive02.log"))
    program.run("run", "o", "none")
    return results + [expect("outcomes after the next run", report(program, "o")[0][-2:], [f"outcomes: applied 9, {ALL}", "whole"])]


def first_layout(program):
    """A store of the layout that keeps no outcomes: no line tells of them."""
    program.run("new", "f", ID, "1")
    program.put("f/journal", b"KTMJRNL1" + content(program, "f", "journal")[8:])
    os.remove(program.at("f", "hive01.dat"))
    lines, status = whole(0, 65, (0, ALL))
    return [expect("a store without outcomes", report(program, "f"), ([line for line in lines if line != NO_OUTCOMES], status))]


def half_written(program):
    """A hive whose last write was not ended: the log of that write has the pages that are to be repaired."""
    shutil.copytree(program.at("s"), program.at("h"))
    file, log = content(program, "h", "hive00.dat"), content(program, "h", "hive00.log")
    pages = len(marked(log))
    program.put("h/hive00.dat", mended(file[:4] + u32(struct.unpack_from("<I", file, 4)[0] + 1) + file[8:]))
    results = [expect("a hive half written", report(program, "h")[0][4], f"hive 0: applied 7, half written in {pages} pages, {ALL}"),
               expect("its file alone", check(program, content(program, "h", "hive00.dat"))[0][-2], "E15 HiveDamaged 0 NotClean")]
    program.run("run", "h", "none")
    return results + [expect("after a run", report(program, "h")[0][4], f"hive 0: applied 7, {ALL}"), *half_written_without_pages(program)]


def half_written_without_pages(program):
    """A hive whose last write changed nothing but its number, and was not ended: only the first sector is to be repaired."""
    program.run("new", "p", ID, "1")
    program.put("script", b"at 5\ncreate 0:A\nset 0:A v 3 00\n")
    for _ in range(2):
        program.run("run", "p", "script")
    file, log = content(program, "p", "hive00.dat"), content(program, "p", "hive00.log")
    results = [expect("a log without pages", marked(log), [])]
    program.put("p/hive00.dat", mended(file[:4] + u32(struct.unpack_from("<I", file, 4)[0] + 1) + file[8:]))
    results.append(expect("a hive half written in no page", report(program, "p")[0][4], f"hive 0: applied 3, half written, {ALL}"))
    program.run("run", "p", "none")
    return results + [expect("after a run, too", report(program, "p")[0][4], f"hive 0: applied 3, {ALL}")]


def content(program, *names):
    with open(program.at(*names), "rb") as file:
        return file.read()


def folder(program, name):
    return {file: content(program, name, file) for file in os.listdir(program.at(name)) if os.path.isfile(program.at(name, file))}


def in_use(program):
    run = subprocess.Popen([program.path, "run", "s", "/dev/stdin"], cwd=program.home, stdin=subprocess.PIPE, stdout=subprocess.PIPE)
    run.stdout.readline()
    results = [expect("a store in use", program.run("check", "s"), (b"cannot open store\n", 1))]
    waiting = subprocess.Popen([program.path, "wait", "20", "check", "s"], cwd=program.home, stdout=subprocess.PIPE)
    time.sleep(0.3)
    run.communicate()
    return results + [expect("a wait", waiting.communicate()[0].splitlines()[-1:], [b"whole"])]


def damaged_stores(program):
    results = [expect("no store", report(program, program.home), (["E16 JournalDamaged", NO_STORE], 1))]
    file = content(program, "s", "hive00.dat")
    for title, spoil, cause in [
            ("a hive that is gone", None, "BadLog"), ("a hive of another store", mended(file[:176] + bytes(16) + file[192:]), "BadStore"),
            ("a number that is too great", mended(file[:192] + bytes(7) + b"\x80" + file[200:]), "BadStore"),
            ("a bin", file[:4_096] + b"x" + file[4_097:], "BadBin"), ("a short hive", file[:8_000], "Truncated")]:
        shutil.rmtree(program.at("d"), ignore_errors=True)
        shutil.copytree(program.at("s"), program.at("d"))
        if spoil is None:
            os.remove(program.at("d", "hive00.dat"))
        else:
            program.put("d/hive00.dat", spoil)
        printed, status = report(program, "d")
        results.append(expect(title, (printed, status), ([f"E15 HiveDamaged 0 {cause}", BAD_HIVE], 1)))
    program.put("s/journal", content(program, "s", "journal")[:64])
    return results + [expect("a journal cut off", report(program), (["E16 JournalDamaged", NO_STORE], 1))]


def memory(program):
    shim, results = refusal_shim(), []
    program.put("file", hive(Key("r", 9, [Key("a", 1, [], [Value("v", 3, bytes(20_000))]), Key("b")]))[0])
    program.run("new", "m", ID, "1")
    for source in ("file", "m"):
        ample = program.run("check", source)[0]
        for at in range(1, 400):
            printed, status = program.run("check", source, environment={"LD_PRELOAD": shim, "FAILALLOC_AT": str(at)})
            if printed == ample and status == 0:
                break
            ends = printed.endswith(b"E1 NoMemory\nmemory was wanting: give more and check again\n")
            if not (printed == b"E1 NoMemory\n" or ends) or status != 1:
                results.append(f"{source}: allocation {at} refused: {printed}, {status}")
            else:
                results.append(None)
    return tell("memory", results)


def main():
    with program_at(sys.argv[1], "checks-") as program:
        finish([part(program) for part in (all_cases, faults, blocks, others, stores, memory)])


if __name__ == "__main__":
    main()
