#!/usr/bin/env python3
"""Opens stores whose files are damaged with a built program, in folders that go with the run:

    tests/damage.py PROGRAM

Files are made by the rules of docs/FORMATS.md and by nothing of this project's code. Each part tells what passed; the last line is
'N passed, N failed', and the status is 0 if none failed. A run that is refused changes no file.

- hives: the files of runs/hives/cases.py, each as a hive of a store: what opens of it, or the refusal with the hive's number. Those
  that are refused are opened, checked and dumped in little memory: nothing is taken by a length alone.
- logs, journals: logs and journals with lengths, numbers and operations that lie, in little memory too.
- outcomes: stores whose last hive, which no call names, should keep outcomes of commits and does not, by itself or after the journal's
  changes; and a journal of the layout that has no such hive.
- commands: each command that opens a store, on damaged ones: the same refusal.
- pieces: journals whose changes and gates lie at the edges of the pieces in which they are read.
- spoiled: a small store with a hive that was cut within its flush. One byte at a time is 0x00 and 0xff instead, those of a first
  sector also with the sum mended, but for bytes within long runs of zeros. What opens is what the rules say, by
  runs/hives/reader.py and a reader of journals in this script.
"""
import itertools
import os
import re
import resource
import struct
import sys
import uuid
from concurrent.futures import ThreadPoolExecutor

TOP = os.path.dirname(os.path.dirname(os.path.abspath(__file__)))
sys.dont_write_bytecode = True
sys.path[:0] = [os.path.join(TOP, "tests"), os.path.join(TOP, "runs", "hives")]
import cases  # noqa: E402
import reader  # noqa: E402
from cases import patched  # noqa: E402
from file_stores import Stores  # noqa: E402
from maker import NONE, Key, Value, head, hive, log, mended, u16, u32, u64  # noqa: E402
from scratch import expect, finish, limited, program_at, shown, tell  # noqa: E402
from transcript import listed  # noqa: E402

ID = bytes.fromhex("00112233445566778899aabbccddeeff")
PAGE, HEAD = 512, 4_096
PIECE, MOST_BINS = 65_536, 67_108_864
SHUT, OPEN = b"\0", b"\xc3"
# bytes of address space: the program needs a third of them, and a length that lies asks for more
LITTLE = 16_777_216
DAMAGED = b"E16 JournalDamaged\n"
# what tells of damage in files
TOLD = re.compile(rb"(E15 HiveDamaged [01] (Truncated|BadBase|BadBin|BadCell|BadOffset|BadRecord|BadList|BadName|Shared|BadLog"
                  rb"|BadStore|TooLarge)|E16 JournalDamaged|E17 Unsupported)\n\Z")


def header(hives, letters=b"KTMJRNL1", rest=bytes(36)):
    return letters + ID + u32(hives) + rest


def journal(*bodies, hives=2, last=SHUT):
    """A journal of these bodies, each after an open gate, with this gate after the last one."""
    return header(hives) + b"".join(OPEN + body for body in bodies) + last


def body(first, *changes, **lies):
    """A body of these changes, whose numbers begin here."""
    text = b"".join(changes)
    return u32(lies.get("length", 16 + len(text))) + u64(first) + u32(lies.get("count", len(changes))) + text


def change(*operations, **lies):
    text = b"".join(operations)
    return u32(lies.get("length", 16 + len(text))) + u64(lies.get("moment", 0)) + u32(lies.get("count", len(operations))) + text


def operation(kind, at, *names, rest=b"", **lies):
    """An operation on a key of a hive."""
    path = b"".join(bytes([len(name)]) + name for name in names)
    return bytes([kind, at]) + u16(lies.get("names", len(names))) + path + rest


def create(at, *names, **lies):
    return operation(1, at, *names, **lies)


def set_value(at, names, name, kind, data, **lies):
    rest = u16(len(name)) + name + u32(kind, lies.pop("size", len(data))) + data
    return operation(3, at, *names, rest=rest, **lies)


def of_store(file):
    """The file as a hive of the store, at number 0; its sum is right if it was."""
    other = file[:176] + ID + u64(0) + file[200:]
    return file if len(file) < PAGE else mended(other) if mended(file) == file else other


def is_clean(file):
    return file[4:8] == file[8:12] and mended(file) == file


def reads_of(text, at):
    """Lines that read a hive's root, and what is printed of them if this is the hive's dump."""
    lines = text.decode().splitlines()[2:]
    keys = [line.split()[1].split(":")[1] for line in lines if line.startswith("key ")]
    values = [line.split()[1:] for line in itertools.takewhile(lambda line: line.startswith("val "), lines)]
    pairs = [(f"keys {at}:", listed("keys", [name for name in keys if "\\" not in name])),
             (f"values {at}:", listed("values", [name for name, *_ in values]))]
    pairs += [(f"get {at}: {name}", f"value {kind} {data}") for name, kind, data in values if is_ascii(name)]
    told = ["opened 0", *[told for _, told in pairs]]
    return "".join(f"{asked}\n" for asked, _ in pairs).encode(), "".join(f"{line}\n" for line in told).encode()


def is_ascii(name):
    """Whether a printed name may be handed to a call: others are only listed."""
    return all(0x20 <= int(unit, 16) <= 0x7e for unit in re.findall("%([0-9a-f]{4})", name))


def refusals_of(case, at):
    """The refusals one of which an opening tells of a case that no dump prints. Of a hive that isn't clean the log is read, which
    isn't there. Over a limit a hive is damaged."""
    told = []
    for text in case.texts:
        text = text.replace(b"HiveDamaged 0", f"HiveDamaged {at}".encode()).replace(b"NotClean", b"BadLog")
        told.append(f"E15 HiveDamaged {at} TooLarge\n".encode() if text == cases.TOO_LARGE else text)
    if len(case.file) < PAGE or not is_clean(case.file):
        told.append(f"E15 HiveDamaged {at} BadLog\n".encode())
    return told


def wrong_hive(stores, number, case):
    """What is wrong with the opening of a store, one of whose hives has the file of a case; or None."""
    at = number % 2
    files = {"journal": journal(), "hive00.dat": GOOD, "hive01.dat": GOOD}
    files[f"hive0{at}.dat"] = of_store(case.file)
    if case.status() == 0:
        script, wanted = reads_of(case.texts[0], at)
        return expect(case.title, stores.open(files, script), (wanted, 0, True))
    # a large file needs more memory itself
    given = limited(resource.RLIMIT_AS, LITTLE) if len(case.file) < LITTLE // 16 else {}
    printed, status, is_same = stores.open(files, b"keys 0:\n", **given)
    if printed not in refusals_of(case, at) or status != 1 or not is_same:
        wanted = refusals_of(case, at)
        return f"{case.title}, as hive {at}: {shown(printed)}, {status}, files kept {is_same}; wanted {shown(wanted)}"
    checked, status = stores.check(**given)
    if not checked.startswith(printed) or status != 1:
        return f"{case.title}, checked: {shown(checked)}, wanted {shown(printed)}"
    dumped, status = stores.dump(case.file, **given)
    if dumped not in case.texts or status != 1:
        return f"{case.title}, dumped: {shown(dumped)}, wanted {shown(case.texts)}"
    return None


def hives(stores, pool):
    return list(pool.map(lambda it: wrong_hive(stores, *it), enumerate(cases.all_cases())))


def logs(stores, pool):
    """Logs that are unread, and logs that don't repair their hive, and what is wrong with the opening of each."""
    return [*unread_logs(stores), *short_logs(stores)]


def unread_logs(stores):
    """Logs beside a clean primary file, whatever they are of."""
    file, places = hive(Key("r", 0, [Key("now")]), primary=3, secondary=3, store=ID, applied=5)
    older, at = hive(Key("r", 0, [Key("older")]))
    bins = older[HEAD:]
    results = []
    for title, text in [("none", b""), ("a byte", b"?"), ("an older one", log(at["r"], bins, range(8), primary=2, secondary=2, store=ID)),
                        ("a newer one", log(at["r"], bins, range(8), primary=4, secondary=4, store=ID, applied=9)),
                        ("one that is cut", log(at["r"], bins, range(8), primary=3, secondary=3, store=ID)[:-1])]:
        files = {"journal": journal(hives=1), "hive00.dat": file, "hive00.log": text}
        found = stores.open(files, b"keys 0:\n")
        results.append(expect(f"beside a clean primary file: {title}", found, (b"opened 5\nkeys 1 now\n", 0, True)))
    return results


def short_logs(stores):
    """Logs of the greatest bins data beside a short primary file."""
    file, places = hive(Key("r"))
    unclean = head(places["r"], HEAD, primary=2, store=ID) + file[HEAD:]
    block = head(places["r"], MOST_BINS, primary=2, secondary=2, kind=1, store=ID)[:PAGE]
    marks, start = MOST_BINS // HEAD, 17_408
    results, page = [], file[HEAD:HEAD + PAGE]
    for title, text in [("no bitmap", b""), ("no marks", b"DIRT"), ("a part of the bitmap", b"DIRT" + b"\xff" * 9_999),
                        ("one page, and not the others", (b"DIRT\1" + bytes(marks - 1)).ljust(start - PAGE, b"\0") + page),
                        ("every page marked, and one there", (b"DIRT" + b"\xff" * marks).ljust(start - PAGE, b"\0") + page)]:
        files = {"journal": journal(hives=1), "hive00.dat": unclean, "hive00.log": block + text}
        found = stores.open(files, b"keys 0:\n", **limited(resource.RLIMIT_AS, LITTLE))
        results.append(expect(title, found, (b"E15 HiveDamaged 0 BadLog\n", 1, True)))
    return results


UNITS = [str(uuid.uuid5(uuid.UUID(bytes=ID), str(number))) for number in range(4_097)]
QWORD, MOST_OUTCOMES = 11, 4_096
# the least that an opening of 4,096 outcomes needs is more than a damaged store is given elsewhere
ROOM = 8 * LITTLE


def outcome(unit, number, kind=QWORD, data=None, **given):
    """The value that keeps the number of a unit of work."""
    return Value(unit, kind, u64(number) if data is None else data, **given)


def of_outcomes(values, keys=(), applied=2):
    """The file of a hive with these values of its root."""
    return hive(Key("", 0, list(keys), list(values)), store=ID, applied=applied)[0]


def sound_outcomes():
    """Hives of outcomes at number 2, each with what it is, and the numbers of the first units, 0 for none."""
    yield "none", of_outcomes([]), [0, 0]
    yield "one", of_outcomes([outcome(UNITS[0], 2)]), [2, 0]
    yield "two", of_outcomes([outcome(UNITS[1], 2), outcome(UNITS[0], 1)]), [1, 2]
    yield "a name in UTF-16", of_outcomes([outcome(UNITS[0], 1, wide=True)]), [1, 0]
    many = [outcome(unit, number) for number, unit in enumerate(UNITS[:MOST_OUTCOMES], 1)]
    yield "as many as are kept", of_outcomes(many, applied=MOST_OUTCOMES), [1, 2]


def false_outcomes():
    """Hives that keep no outcomes at number 2, each with what it is."""
    for title, unit in [("upper case", UNITS[0].upper()), ("one letter in upper case", UNITS[0].replace("a", "A", 1)),
                        ("braces", f"{{{UNITS[0]}}}"), ("no hyphens", UNITS[0].replace("-", "")), ("the name is empty", ""),
                        ("a digit less", UNITS[0][:-1]), ("a digit more", f"{UNITS[0]}0"), ("no hex digit", f"g{UNITS[0][1:]}"),
                        ("a hyphen that is none", UNITS[0].replace("-", "_", 1)), ("a unit past ASCII", f"\u0130{UNITS[0][1:]}")]:
        yield title, of_outcomes([outcome(unit, 1)])
    for kind in (0, 1, 3, 4, 5, 12, QWORD + 2 ** 31):
        yield f"type {kind}", of_outcomes([outcome(UNITS[0], 1, kind)])
    for size in (0, 1, 4, 7, 9, 16):
        yield f"{size} bytes", of_outcomes([outcome(UNITS[0], 1, data=u64(1).ljust(size, b"\0")[:size])])
    for number in (0, 3, 2 ** 32 + 1, 2 ** 63, 2 ** 64 - 1):
        yield f"number {number}", of_outcomes([outcome(UNITS[0], 1), outcome(UNITS[1], number)])
    yield "two equal numbers", of_outcomes([outcome(UNITS[0], 2), outcome(UNITS[1], 2)])
    yield "a second key", of_outcomes([outcome(UNITS[0], 1)], [Key("K")])
    yield "a second key alone", of_outcomes([], [Key("K")])
    yield "one too many", of_outcomes([outcome(unit, number) for number, unit in enumerate(UNITS, 1)], applied=len(UNITS))


def set_outcome(at, unit, number):
    return set_value(at, [], unit.encode(), QWORD, u64(number))


def journals_of_outcomes(hives):
    """Journals on stores of so many hives without changes, each with what it is, and the numbers of the first units or None."""
    first, second = set_outcome(hives, UNITS[0], 1), set_outcome(hives, UNITS[1], 2)
    gone = operation(4, hives, rest=u16(36) + UNITS[0].encode())
    for title, changes, numbers in [
            ("one commit", [change(A, first)], [1, 0]), ("two commits", [change(A, first), change(SET, second)], [1, 2]),
            ("a unit that commits again", [change(A, first), change(SET, set_outcome(hives, UNITS[0], 2))], [2, 0]),
            ("one is deleted", [change(A, first), change(SET, second, gone)], [0, 2]),
            ("a number of a later change", [change(A, set_outcome(hives, UNITS[0], 2)), change(SET)], [2, 0]),
            ("a number above the last", [change(A, set_outcome(hives, UNITS[0], 2))], None),
            ("the number 0", [change(A, set_outcome(hives, UNITS[0], 0))], None),
            ("one number twice", [change(A, first), change(SET, set_outcome(hives, UNITS[1], 1))], None),
            ("a name in upper case", [change(A, set_outcome(hives, UNITS[0].upper(), 1))], None),
            ("another type", [change(A, set_value(hives, [], UNITS[0].encode(), 4, u64(1)))], None),
            ("a key", [change(A, create(hives, b"K"))], None)]:
        bodies = [OPEN + body(number, text) for number, text in enumerate(changes, 1)]
        yield title, header(hives, b"KTMJRNL2") + b"".join(bodies) + SHUT, numbers


def wrong_outcomes(stores, title, files, hives, numbers, opened):
    """What is wrong with the opening of a store: it tells the numbers of the first units, or which hive is damaged."""
    title = f"{title}, {hives} hives"
    script = "".join(f"kept {unit}\n" for unit in UNITS[:2]).encode()
    found, status, is_same = stores.open(files, script, **limited(resource.RLIMIT_AS, ROOM))
    if numbers is not None:
        told = "".join(f"committed {number}\n" if number else "E2 NotFound\n" for number in numbers)
        return expect(title, (found, status), (f"opened {opened}\n{told}".encode(), 0 if all(numbers) else 1))
    refusal = f"E15 HiveDamaged {hives} BadStore\n".encode()
    checked, checked_status = stores.check(**limited(resource.RLIMIT_AS, ROOM))
    return (expect(title, (found, status, is_same), (refusal, 1, True))
            or expect(f"{title}, checked", (checked.startswith(refusal), checked_status), (True, 1)))


def outcomes(stores, pool):
    """Hives that keep outcomes, and that don't, and what is wrong with the opening of each."""
    new, results = of_store(hive(Key("", 0))[0]), []
    for hives in (1, 2, 16):
        named = {f"hive{at:02}.dat": new for at in range(hives)}
        last, empty = f"hive{hives:02}.dat", {"journal": header(hives, b"KTMJRNL2") + SHUT}
        made = [(title, {**named, **empty, last: file}, numbers, MOST_OUTCOMES if title.startswith("as many") else 2)
                for title, file, numbers in sound_outcomes()]
        made += [(title, {**named, **empty, last: file}, None, 0) for title, file in false_outcomes()]
        made += [(title, {**named, "journal": text, last: new}, numbers, text.count(OPEN))
                 for title, text, numbers in journals_of_outcomes(hives)]
        results += list(pool.map(lambda it: wrong_outcomes(stores, it[0], it[1], hives, *it[2:]), made))
        files = {**named, **empty}
        refusal = f"E15 HiveDamaged {hives} BadLog\n".encode()
        results.append(expect(f"no hive of outcomes, {hives} hives", stores.open(files, b"keys 0:\n"), (refusal, 1, True)))
        files["journal"] = header(hives) + SHUT
        wanted = (b"opened 0\nkeys 0\nE17 Unsupported\n", 1)
        found = stores.open(files, f"keys 0:\nkept {UNITS[0]}\n".encode())[:2]
        results.append(expect(f"the layout without outcomes, {hives} hives", found, wanted))
    return results


COMMANDS = [("get", "0:A", "v"), ("get-raw", "0:A", "v"), ("ls", "0:"), ("set", "0:A", "v", "dword", "1"),
            ("set-raw", "0:A", "v", "dword", "file.reg"), ("create", "0:B"), ("del", "0:A"), ("del-tree", "0:A"), ("export",),
            ("export-utf8",), ("export-json",), ("export-tsv",), ("check",), ("follow", "0"), ("apply", "file.reg", "HKEY_LOCAL_MACHINE=0"),
            ("apply-check", "file.reg", "HKEY_LOCAL_MACHINE=0")]


def damages():
    """Files of a store that replace sound ones, and the refusal of them."""
    unclean = mended(GOOD[:4] + u32(2) + GOOD[8:])
    yield {"journal": header(2, letters=b"KTMJRNL9") + SHUT}, DAMAGED
    yield {"journal": journal(body(2, change(A), length=NONE))}, DAMAGED
    for at in range(2):
        for cause, file in [("Truncated", GOOD[:600]), ("BadBin", patched(GOOD, 0, b"bins")), ("BadCell", patched(GOOD, 32, u32(12))),
                            ("BadOffset", mended(GOOD[:36] + u32(36) + GOOD[40:])), ("BadLog", unclean),
                            ("BadStore", mended(GOOD[:176] + bytes(16) + GOOD[192:])),
                            ("BadStore", mended(GOOD[:199] + b"\x80" + GOOD[200:])),
                            ("TooLarge", mended(GOOD[:40] + u32(MOST_BINS + HEAD) + GOOD[44:]))]:
            yield {f"hive0{at}.dat": file}, f"E15 HiveDamaged {at} {cause}\n".encode()
        yield {f"hive0{at}.dat": mended(GOOD[:24] + u32(6) + GOOD[28:])}, b"E17 Unsupported\n"


# the words that read hive 0 alone
READS_OF_ONE = ("get", "get-raw", "ls")


def commands(stores, pool):
    """What is wrong with each command on a damaged store, which is refused by an opening; and with a read of a sound hive of it."""
    sound = {"journal": journal(), "hive00.dat": GOOD, "hive01.dat": GOOD}
    stores.program.put("file.reg", b"Windows Registry Editor Version 5.00\r\n\r\n[HKEY_LOCAL_MACHINE\\B]\r\n")
    results = []
    for words in COMMANDS:
        told = stores.ask(sound, *words)
        results.append(expect(f"{words} on a sound store", told[1], 0))
        for files, refusal in damages():
            printed, status, is_same = stores.ask({**sound, **files}, *words)
            if words[0] in READS_OF_ONE and "hive01.dat" in files:
                results.append(expect(f"{words} beside {list(files)}", (printed, status, is_same), told))
                continue
            first, _, rest = printed.partition(b"\n")
            is_alone = not rest or words[0] == "check"
            results.append(expect(f"{words} on {list(files)}", (first + b"\n", is_alone, status, is_same), (refusal, True, 1, True)))
    return results


GOOD = of_store(hive(Key("r", 3, [Key("a", 4, [], [Value("v", 1, b"12345")])]))[0])
A, B, SET = create(0, b"A"), create(1, b"B"), set_value(0, [b"A"], b"v", 4, u32(1))


def lies():
    """Journals that are sound but for one thing, each with what it is."""
    both = [body(1, change(A)), body(2, change(B))]
    yield "letters", header(2, letters=b"KTMJRNL9") + SHUT
    for count in (0, 17, NONE):
        yield f"{count} hives", header(count) + SHUT
    yield "a byte of the header", header(2, rest=bytes(35) + b"\1") + SHUT
    yield "63 bytes", header(2)[:63]
    yield "no gate", header(2)
    yield "no gate after a body", journal(*both, last=b"")
    for length in (0, 15, 16, len(both[0]) - 1, len(both[0]) + 1, 8_388_608, 8_388_609, 0x4000_0000, 0x7fff_ffff, NONE):
        yield f"a body of {length} bytes", journal(body(1, change(A), length=length))
        yield f"a second body of {length} bytes", journal(both[0], body(2, change(B), length=length))
    for count in (0, 2, 0x4000_0000, NONE):
        yield f"{count} changes that are one", journal(body(1, change(A), count=count))
    for number in (0, 1, 3, 2 ** 63 - 1, 2 ** 63, 2 ** 64 - 1):
        yield f"a second body's number {number}", journal(both[0], body(number, change(B)))
    for number in (0, 2 ** 63, 2 ** 64 - 1):
        yield f"the first number {number}", journal(body(number, change(A)))
    for length in (0, 15, 16, 21, 23, 4_194_304, 4_194_305, 0x7fff_ffff, NONE):
        yield f"a change of {length} bytes", journal(body(1, change(A, length=length)))
    for count in (0, 2, 0x4000_0000, NONE):
        yield f"{count} operations that are one", journal(body(1, change(A, count=count)))
    for kind in (0, 5, 6, 255):
        yield f"an operation of kind {kind}", journal(body(1, change(operation(kind, 0, b"A"))))
    for at in (2, 3, 16, 255):
        yield f"an operation on hive {at}", journal(body(1, change(create(at, b"A"))))
    for names in (0, 2, 512, 513, 65_535):
        yield f"{names} names that are one", journal(body(1, change(create(0, b"A", names=names))))
    for name in (b"", b"\\", b"\x1f", b"\x7f", b"\x80"):
        yield f"the name {name}", journal(body(1, change(create(0, name))))
    for size in (3, 5, 1_048_576, 1_048_577, 0x4000_0000, 0x7fff_ffff, NONE):
        lying = set_value(0, [b"A"], b"v", 4, u32(1), size=size)
        yield f"data of {size} bytes that are 4", journal(body(1, change(A), change(lying)))
    yield "513 names", journal(body(1, change(create(0, *[b"A"] * 513))))
    for title, other in [("a value of no key", set_value(0, [b"X"], b"v", 4, b"")), ("33 levels", create(1, *[b"A"] * 33)),
                         ("the removal of no key", operation(2, 0, b"X")), ("the removal of the root", operation(2, 0)),
                         ("the removal of no value", operation(4, 0, b"A", rest=u16(1) + b"v"))]:
        yield f"a change that isn't legal: {title}", journal(body(1, change(A), change(other)))


def journals(stores, pool):
    """Journals that lie, and what is wrong with the opening of each."""
    new = of_store(hive(Key("", 0))[0])
    files = {"hive00.dat": new, "hive01.dat": new}

    def wrong(title, content, wanted, script=b"keys 0:\nkeys 1:\n"):
        found = stores.open({"journal": content, **files}, script, **limited(resource.RLIMIT_AS, LITTLE))
        return expect(title, found[:2], wanted) or (None if found[2] or wanted[1] == 0 else f"{title}: a file has changed")

    sound = journal(body(1, change(A)), body(2, change(B), change(SET)))
    results = [wrong("a sound journal", sound, (b"opened 3\nkeys 1 A\nkeys 1 B\n", 0)),
               wrong("what follows a closed gate is free", sound + OPEN + b"?" * 99, (b"opened 3\nkeys 1 A\nkeys 1 B\n", 0))]
    return results + list(pool.map(lambda it: wrong(*it, (DAMAGED, 1)), lies()))


def data_up_to(end, at=65):
    """Data of a value of the root without a name, whose change alone makes a journal's body, from a gate up to this offset."""
    return bytes(number % 251 for number in range(end - at - 16 - 30))


def pieces(stores, pool):
    """Journals at the edges of the pieces, and what is wrong with the opening of each."""
    files = {"hive00.dat": of_store(hive(Key("", 0))[0])}

    def wrong(title, bodies, number, data, keys, last=SHUT):
        text = journal(*bodies, hives=1, last=last)
        wanted = f"opened {number}\nvalue 3 {data.hex()}\nkeys {' '.join([str(len(keys)), *keys])}\n".encode()
        found = stores.open({"journal": text, **files}, b"get 0: @\nkeys 0:\n")
        return expect(f"{title}: journal of {len(text)} bytes", found[:2], (wanted, 0))

    results = []
    for over in range(-40, 40):
        # the gate after the first body is the first byte of the second piece if it is over the edge by none
        end = PIECE + over
        data = data_up_to(end)
        first = body(1, change(set_value(0, [], b"", 3, data)))
        text = header(1) + OPEN + first
        results.append(None if len(text) == end else f"a body that ends at {len(text)}, wanted {end}")
        results.append(wrong("a gate at the edge", [first], 1, data, []))
        results.append(wrong("a body at the edge", [first, body(2, change(A))], 2, data, ["A"]))
        small = change(A)
        results.append(wrong("a change at the edge", [body(1, change(set_value(0, [], b"", 3, data)), small)], 2, data, ["A"]))
        text = journal(first, hives=1, last=b"")
        found = stores.open({"journal": text, **files}, b"keys 0:\n")
        results.append(expect(f"no gate behind {len(text)} bytes", found, (DAMAGED, 1, True)))
        text = journal(first, hives=1, last=OPEN)
        found = stores.open({"journal": text, **files}, b"keys 0:\n")
        results.append(expect(f"an open gate at the end, behind {len(text)} bytes", found, (DAMAGED, 1, True)))
    return results


SCRIPT = b"keys 0:\nkeys 1:\nvalues 0:A\nget 0:A v\nget 0:A w\n"
WHOLE = b"opened 4\nkeys 2 A C\nkeys 2 B D\nvalues 2 v w\nvalue 3 6669766521\nvalue 4 01000000\n"
BAD_LOG = b"E15 HiveDamaged 1 BadLog\n"
LINES = re.compile(rb"opened \d+\n(((keys|values) \d+( \S+)*|value \d+ (-|([0-9a-f]{2})+)|E2 NotFound)\n){5}\Z")


def small_store():
    """The files of a store of two hives, with four changes in its journal. Hive 0 has the first one, and the log of the flush that
    brought it. Hive 1 has the first two, once its log has repaired it; of its one dirty page nothing is left."""
    first, at_first = hive(Key("r", 0, [Key("A", 0, [], [Value("v", 3, b"five!")])], [], 0, b"descriptor"), store=ID, applied=1)
    second, at_second = hive(Key("r", 0, [Key("B")], [Value("d", 1, b"data of a cell")]))
    (bins, root), (others, other) = (first[HEAD:], at_first["r"]), (second[HEAD:], at_second["r"])
    return {
        "journal": journal(body(1, change(A), change(B)), body(3, change(create(0, b"C"), create(1, b"D")), change(SETTING))) + b"rest",
        "hive00.dat": first,
        "hive00.log": log(root, bins, [0], store=ID, applied=1),
        "hive01.dat": head(other, len(others), primary=2, store=ID, applied=1) + b"\xee" * PAGE + others[PAGE:],
        "hive01.log": log(other, others, [0], primary=2, secondary=2, store=ID, applied=2),
    }


# the numbers of the hives
APPLIED = [1, 2]
SETTING = set_value(0, [b"A"], b"w", 4, u32(1))


def used_end(bins):
    """Where the free cell at the end of the bins data begins, whose bytes but for its size are unread."""
    at, end = 32, 32
    while at < len(bins):
        size = struct.unpack_from("<i", bins, at)[0]
        at, end = at + abs(size), at
    return end + 4


def wanted_of(files, name, at, new):
    """What may be printed if a byte of a file is another; None if the files have to be read to know it."""
    first, second = files["hive00.dat"][HEAD:], files["hive01.log"][2 * PAGE:] + files["hive01.dat"][HEAD + PAGE:]
    end = used_end(first if name.startswith("hive00") else second)
    if name == "journal":
        if 8 <= at < 24:
            # the hives are of another store
            return [f"E15 HiveDamaged {hive} BadStore\n".encode() for hive in range(2)]
        return [DAMAGED] if at < 64 else None
    if name == "hive00.dat":
        # an unclean block has its log; the rest of the head is unread
        return [WHOLE] if at < HEAD or at >= HEAD + end else None
    if name in ("hive00.log", "hive01.dat"):
        return [WHOLE]
    if at < 516:
        return [BAD_LOG]
    if at == 516:
        # each page is marked and not there, or none is and the spoiled one stays
        return [BAD_LOG] if new else [b"E15 HiveDamaged 1 BadBin\n"]
    return None if 2 * PAGE <= at < 2 * PAGE + end else [WHOLE]


def tree_of(primary, its_log=None):
    """The tree of a hive's file, or of one whose first page is in its log; None if other code than the program's reads none."""
    bins = primary[HEAD:] if its_log is None else its_log[2 * PAGE:3 * PAGE] + primary[HEAD + PAGE:]
    try:
        return reader.read((primary if its_log is None else its_log)[:PAGE] + bytes(HEAD - PAGE) + bins)
    except (reader.WrongHive, KeyError, struct.error):
        return None


def spelled(name):
    """A name of these units, as it is printed."""
    text = "".join(chr(unit) if 0x21 <= unit <= 0x7e and unit != 0x25 else f"%{unit:04x}" for unit in reader.units(name))
    return {"": "@", "@": "%0040"}.get(text, text)


class Bytes:
    """Bytes that are taken from their front."""

    def __init__(self, text):
        self.text = text

    def take(self, count):
        taken, self.text = self.text[:count], self.text[count:]
        if len(taken) < count:
            raise ValueError
        return taken

    def number(self, size):
        return int.from_bytes(self.take(size), "little")

    def name(self, size):
        """A name with its length before it, of the letters that names have in calls."""
        taken = self.take(self.number(size))
        if any(not 0x20 <= letter <= 0x7e for letter in taken):
            raise ValueError
        return taken

    def key(self):
        name = self.name(1)
        if not name or b"\\" in name:
            raise ValueError
        return name


def decoded(text):
    """The changes of a journal whose header is sound, by their numbers. A ValueError comes if it is damaged."""
    rest, changes = Bytes(text[64:]), {}
    while rest.take(1) == OPEN:
        its = Bytes(rest.take(rest.number(4) - 4))
        first, count = its.number(8), its.number(4)
        if not 0 < first < 2 ** 63 or not count or changes and first != max(changes) + 1:
            raise ValueError
        for number in range(first, first + count):
            element = Bytes(its.take(its.number(4) - 4))
            element.take(8)
            changes[number] = [decoded_operation(element) for _ in range(element.number(4))]
            if element.text or not changes[number]:
                raise ValueError
        if its.text:
            raise ValueError
    return changes


def decoded_operation(rest):
    """The kind of an operation, its hive and the names of its path; and the value that it sets."""
    kind, at, path = rest.number(1), rest.number(1), [rest.key() for _ in range(rest.number(2))]
    if kind not in (1, 3) or at > 1 or len(path) != 1:
        raise ValueError
    return kind, at, path[0], (rest.name(2), rest.number(4), rest.take(rest.number(4))) if kind == 3 else None


def replayed(trees, applied, text):
    """What is printed of these trees after the changes of a journal that they lack, or that it is damaged."""
    keys = [{at: key.name for at, key in tree.keys.items()} for tree in trees]
    below = trees[0].keys.get(folded(b"A"))
    values = dict(below.values) if below else {}
    try:
        changes = decoded(text)
        for number, operations in changes.items():
            for kind, at, name, value in operations:
                if number > applied[at]:
                    carry_out(keys[at], values, kind, name, value)
    except ValueError:
        return DAMAGED
    lines = [f"opened {max(changes, default=max(applied))}", *[listed("keys", [spelled(its[at]) for at in sorted(its)]) for its in keys],
             listed("values", [spelled(values[at][0]) for at in sorted(values)]) if folded(b"A") in keys[0] else "E2 NotFound"]
    for name in (b"v", b"w"):
        _, kind, data = values.get(folded(name), (None, None, None))
        lines.append("E2 NotFound" if kind is None else f"value {kind} {data.hex() or '-'}")
    return "".join(f"{line}\n" for line in lines).encode()


def carry_out(keys, values, kind, name, value):
    """An operation on a hive with these keys; the only values are those of the key A of hive 0."""
    if (kind == 1) == (folded(name) in keys):
        raise ValueError
    if kind == 1:
        keys[folded(name)] = wide(name)
    else:
        values[folded(value[0])] = (values.get(folded(value[0]), (wide(value[0]),))[0], *value[1:])


def wide(name):
    return b"".join(bytes([letter, 0]) for letter in name)


def folded(name):
    return reader.folded(wide(name))


def spoils(files):
    """The file, offset and new byte of each spoiled store, and its files."""
    for name, content in files.items():
        for at, byte in enumerate(content):
            if not any(content[max(at - 24, 0):at + 24]):
                continue
            for new in {0x00, 0xff} - {byte}:
                spoiled = content[:at] + bytes([new]) + content[at + 1:]
                yield f"{name}: byte {at} is {new:#04x}", {**files, name: spoiled}, wanted_of(files, name, at, new)
                if at < 508 and name != "journal":
                    yield f"{name}: byte {at} is {new:#04x}, and the sum is right", {**files, name: mended(spoiled)}, None


def wrong_spoiled(stores, title, files, wanted):
    """What is wrong with the opening of a spoiled store, or None."""
    printed, status, is_same = stores.open(files, SCRIPT)
    is_refused = TOLD.match(printed) is not None
    if wanted is not None and printed not in wanted:
        return f"{title}: printed {shown(printed)}, wanted {shown(wanted)}"
    if wanted is None and "sum" not in title and (title.startswith("journal") or not is_refused):
        # which hives are refused, reader.py doesn't tell
        trees = [tree_of(files["hive00.dat"]), tree_of(files["hive01.dat"], files["hive01.log"])]
        if None in trees or printed != replayed(trees, APPLIED, files["journal"]):
            return f"{title}: printed {shown(printed)}, but other code reads other trees"
    if is_refused:
        return None if status == 1 and is_same else f"{title}: {shown(printed)}, status {status}, files kept {is_same}"
    is_read = LINES.match(printed) and status == (1 if b"E2" in printed else 0)
    return None if is_read else f"{title}: {shown(printed)}, status {status}"


def spoiled(stores, pool):
    files = small_store()
    results = [expect("the store", stores.open(files, SCRIPT)[:2], (WHOLE, 0))]
    return results + list(pool.map(lambda it: wrong_spoiled(stores, *it), spoils(files)))


def main():
    if len(sys.argv) != 2:
        sys.exit(__doc__)
    counts = []
    parts = [("hives", hives), ("logs", logs), ("journals", journals), ("outcomes", outcomes), ("commands", commands),
             ("pieces", pieces), ("spoiled", spoiled)]
    for title, part in parts:
        with program_at(sys.argv[1], "damage-") as program, ThreadPoolExecutor(max_workers=os.cpu_count()) as pool:
            counts.append(tell(title, part(Stores(program), pool)))
    finish(counts)


main()
