#!/usr/bin/env python3
"""Makes stores with a built program, by `new`, `import` and `upgrade`, in folders that go with the run:

    tests/stores.py PROGRAM

What is printed, the status and the files that are there then are compared with what the rules say. Each part tells what passed;
the last line is 'N passed, N failed', and the status is 0 where none failed.

- new: stores of empty hives, whatever the folder had; ids in each form; folders in which none can be made.
- import: the files of runs/hives/cases.py, 16 at a time. A hive's dump is that of its file, and its bins data, root and minor
  version are the file's, below a new block; a file that is refused is told with the number of its place, and nothing is made.
- upgrade: stores of the same files in the first layout. Each hive's dump stays, the old store's files do too, and a store that
  keeps outcomes is refused.
- written: the trees of hives that are made anew, by `new` and by the first flush of a hive of an older minor version, as
  runs/hives/reader.py reads them: what no dump tells is kept too, and records, lists and cells are what the rules ask of written
  ones. An import of such hives keeps them.
- order: which fault is told where there are several.
- device: a device that fails, by the greatest size that a file may have and by how many may be open; and a limit on that size as
  a shell sets it, whose signal ends the program. Then a store can be
  made in the folder; but where it failed behind the making of the journal's file, as on a full device, the journal is there, and
  none can. That takes the right to mount, and is left out without it.
- memory: the program with each of its allocations refused in turn, and it with all later ones.
"""
import fcntl
import os
import resource
import shutil
import signal
import struct
import sys

TOP = os.path.dirname(os.path.dirname(os.path.abspath(__file__)))
sys.dont_write_bytecode = True
sys.path[:0] = [os.path.join(TOP, "tests"), os.path.join(TOP, "runs", "hives")]
import cases  # noqa: E402
import reader  # noqa: E402
from edit_model import is_callable, spelled  # noqa: E402
from maker import NEWEST, SPLITS_FROM, Key, Value, hive, imported, mended, of_minor  # noqa: E402
from scratch import as_other, ended_at, expect, finish, limited, mounted, program_at, refusal_shim, shown, tell  # noqa: E402

MOST_HIVES = 16
ID, ID_BYTES = "00112233-4455-6677-8899-aabbccddeeff", bytes.fromhex("00112233445566778899aabbccddeeff")
OK, UNMADE, UNREAD, WORDS = (b"ok\n", 0), (b"cannot make store\n", 1), (b"cannot read file\n", 1), (b"wrong words\n", 2)
FAULT, WANT = (b"E13 DiskFault\n", 1), (b"E1 NoMemory\n", 1)
EMPTY_HIVE = b"hive 0\nkey 0: 0\n"
PAGE = 4_096


def names_of(count):
    """The names of the files of a store whose calls name so many hives: one more keeps the outcomes of commits. The logs are
    made by the first flush."""
    return sorted(["journal"] + [f"hive{number:02}.dat" for number in range(count + 1)])


def journal_of(count):
    """A journal without a change: its header, and a closed gate."""
    return b"KTMJRNL2" + ID_BYTES + struct.pack("<I", count) + bytes(36) + b"\0"


def wrong_store(program, title, folder, dumps):
    """What is wrong with the store in a folder, of which calls name hives with these dumps; or None."""
    there = sorted(os.listdir(program.at(folder)))
    if there != names_of(len(dumps)):
        return f"{title}: files {shown(there)}"
    with open(program.at(folder, "journal"), "rb") as file:
        wrong = expect(f"{title}: journal", file.read(), journal_of(len(dumps)))
    for number, texts in enumerate([*dumps, [EMPTY_HIVE]]):
        name = os.path.join(folder, f"hive{number:02}.dat")
        with open(program.at(name), "rb") as file:
            head = file.read(PAGE)
        # numbers 1 and 1, the store's id, nothing applied, the right sum
        fields = (head[:4], head[4:12], head[176:192], head[192:200], mended(head) == head)
        wrong = wrong or expect(f"{title}: {name}", fields, (b"regf", struct.pack("<2I", 1, 1), ID_BYTES, bytes(8), True))
        printed = program.run("dump", name)
        if printed[1] != 0 or printed[0] not in texts:
            wrong = wrong or f"{title}: {name} is dumped as {shown(printed)}"
    return wrong


def new_stores(program):
    """Stores of empty hives, and what is wrong with each."""
    for count in range(1, MOST_HIVES + 1):
        folder = f"new{count}"
        yield (expect(folder, program.run("new", folder, ID, f"{count:03}"), OK)
               or wrong_store(program, folder, folder, [[EMPTY_HIVE]] * count))
    for number, form in enumerate([ID.upper(), ID.replace("-", ""), "{" + ID + "}", "urn:uuid:" + ID]):
        folder = f"id{number}"
        yield expect(form, program.run("new", folder, form, "2"), OK) or wrong_store(program, form, folder, [[EMPTY_HIVE]] * 2)
    for title, folder in [("a folder that is there", "there"), ("with a slash behind it", "slash/"), ("in another", "there/inner"),
                          ("by its whole path", program.at("whole")), ("whose name has a blank", "a b")]:
        if title == "a folder that is there":
            os.mkdir(program.at(folder))
        wrong = expect(title, program.run("new", folder, ID, "1"), OK)
        if folder == "there/inner":
            shutil.move(program.at(folder), program.at("inner"))
            folder = "inner"
        yield wrong or wrong_store(program, title, folder, [[EMPTY_HIVE]])
    yield wrong_beside_others(program)


def wrong_beside_others(program):
    """What is wrong with a store that is made where files of a store without a journal lie, and others."""
    os.mkdir(program.at("beside"))
    for name in ["hive00.dat", "hive00.log", "hive02.dat", "notes"]:
        program.put(os.path.join("beside", name), name.encode() * 9_999)
    wrong = expect("beside others", program.run("new", "beside", ID, "1"), OK)
    for name, wanted in [("hive00.log", b""), ("hive02.dat", b"hive02.dat" * 9_999), ("notes", b"notes" * 9_999)]:
        with open(program.at("beside", name), "rb") as file:
            wrong = wrong or expect(f"beside others: {name}", file.read(), wanted)
        os.remove(program.at("beside", name))
    return wrong or wrong_store(program, "beside others", "beside", [[EMPTY_HIVE]])


def unmade_stores(program, good):
    """Folders in which no store can be made, by both words; and what is wrong with each."""
    program.put("plain", b"")
    for folder in ["empty", "store", "folder", "link", "held"]:
        os.mkdir(program.at(folder))
    program.put("empty/journal", b"")
    program.put("store/journal", journal_of(1))
    os.mkdir(program.at("folder", "journal"))
    os.symlink("nowhere", program.at("link", "journal"))
    os.symlink("nowhere", program.at("dangling"))
    for title, folder in [("an empty journal", "empty"), ("a journal", "store"), ("a folder `journal`", "folder"),
                          ("a link `journal`", "link"), ("a file", "plain"), ("a link that leads nowhere", "dangling"), ("below a file", "plain/in"),
                          ("below a missing folder", "missing/in"), ("no name", "")]:
        for words in (["new", folder, ID, "1"], ["import", folder, ID, good]):
            yield expect(f"{words[0]}: {title}", program.run(*words), UNMADE)
    for folder in ["empty", "store", "folder", "link"]:
        yield expect(f"files of {folder}", os.listdir(program.at(folder)), ["journal"])
    yield expect("nothing is made", [os.path.exists(program.at(name)) for name in ("missing", "plain/in")], [False, False])
    handle = os.open(program.at("held"), os.O_RDONLY)
    fcntl.flock(handle, fcntl.LOCK_EX)
    yield expect("a folder that another program holds", program.run("new", "held", ID, "1"), UNMADE)
    os.close(handle)
    yield expect("and holds no more", program.run("new", "held", ID, "1"), OK)


def imports(program, good):
    """Stores of the files of cases, and what is wrong with each."""
    pool = list(cases.all_cases())
    whole = [case for case in pool if case.status() == 0]
    for at in range(0, len(whole), MOST_HIVES):
        part, folder = whole[at:at + MOST_HIVES], f"import{at}"
        files = [program.put(f"{folder}-{number}", case.file) for number, case in enumerate(part)]
        yield (expect(folder, program.run("import", folder, ID, *files), OK)
               or wrong_store(program, folder, folder, [case.texts for case in part]))
        yield from not_kept(program, folder, [(case.title, case.file) for case in part])
        for name in [*files, folder]:
            shutil.rmtree(program.at(name)) if name == folder else os.remove(program.at(name))
    for number, case in enumerate(case for case in pool if case.status() == 1):
        place = number % 3
        folder, file = f"refused{number}", program.put(f"spoiled{number}", case.file)
        files = [good] * place + [file] + [good] * (2 - place)
        texts = [text.replace(b"HiveDamaged 0", f"HiveDamaged {place}".encode()) for text in case.texts]
        printed = program.run("import", folder, ID, *files)
        wrong = None if printed[0] in texts and printed[1] == 1 else f"{case.title}, as hive {place}: {shown(printed)}, wanted {shown(texts)}"
        yield wrong or expect(f"{case.title}: files", os.listdir(program.at(folder)), [])
        os.remove(program.at(file))


def first_layout(program, folder, count):
    """Makes a store without a change one of the first layout: its journal says so, and it has no hive of outcomes."""
    with open(program.at(folder, "journal"), "r+b") as file:
        file.seek(7)
        file.write(b"1")
    os.remove(program.at(folder, f"hive{count:02}.dat"))


def contents(program, folder):
    """The files of a folder."""
    found = {}
    for name in os.listdir(program.at(folder)):
        with open(program.at(folder, name), "rb") as file:
            found[name] = file.read()
    return found


def upgrades(program, _good):
    """Stores of the files of cases that are upgraded from the first layout, and what is wrong with each."""
    whole = [case for case in cases.all_cases() if case.status() == 0]
    for at in range(0, len(whole), MOST_HIVES):
        part, old, new = whole[at:at + MOST_HIVES], f"old{at}", f"new{at}"
        files = [program.put(f"{old}-{number}", case.file) for number, case in enumerate(part)]
        wrong = expect(old, program.run("import", old, ID, *files), OK)
        first_layout(program, old, len(part))
        before = contents(program, old)
        yield (wrong or expect(f"upgrade {old}", program.run("upgrade", old, new), OK)
               or wrong_store(program, new, new, [case.texts for case in part]))
        yield None if contents(program, old) == before else f"files of {old} changed"
        yield expect(f"upgrade {new}", program.run("upgrade", new, f"{new}-again"), (b"E17 Unsupported\n", 1))
        yield expect(f"{new}-again: files", os.listdir(program.at(f"{new}-again")), [])
        for name in [*files, old, new]:
            shutil.rmtree(program.at(name)) if name in (old, new) else os.remove(program.at(name))
    for title, old in [("no store", "nothing"), ("a missing folder", "missing")]:
        if old == "nothing":
            os.mkdir(program.at(old))
        yield expect(title, program.run("upgrade", old, f"{old}-new"), (b"E16 JournalDamaged\n", 1))
        yield expect(f"{title}: files", os.listdir(program.at(f"{old}-new")), [])


def not_kept(program, folder, files):
    """What is wrong with each hive of a store that was made of these files, in their order, with their titles."""
    for number, (title, file) in enumerate(files):
        yield expect(f"{title}: imported", read(program, folder, number) == imported(file, ID_BYTES), True)


def read(program, folder, number=0):
    """The bytes of a store's hive."""
    with open(program.at(folder, f"hive{number:02}.dat"), "rb") as file:
        return file.read()


def written(program, good):
    """Hives that are made anew, read by other code than the program's; and what is wrong with each."""
    whole = [case for case in cases.all_cases() if case.status() == 0]
    for at in range(0, len(whole), MOST_HIVES):
        part, folder = whole[at:at + MOST_HIVES], f"anew{at}"
        rows = [reader.read(case.file) for case in part]
        yield from made_anew(program, folder, [case.file for case in part], rows)
        for number, (case, row) in enumerate(zip(part, rows)):
            yield wrong_tree(case.title, program, folder, number, row, edited=not own_value(row))
        again = f"{folder}-again"
        yield expect(again, program.run("import", again, ID, *[f"{folder}/hive{number:02}.dat" for number in range(len(part))]), OK)
        yield from not_kept(program, again, [(case.title, read(program, folder, number)) for number, case in enumerate(part)])
        for name in (folder, again):
            shutil.rmtree(program.at(name), ignore_errors=True)
    yield expect("fresh", program.run("new", "fresh", ID, "1"), OK)
    # a root that may not be deleted; a self-relative descriptor of revision 1, without owner, group and lists
    yield wrong_tree("a new hive", program, "fresh", 0, reader.Row(b"", 0, 0x0c, b"\1\0\0\x80" + bytes(16), b""))
    yield from written_lists(program)


def made_anew(program, folder, files, rows):
    """Makes a store of files with these trees, each as one of an older minor version, and flushes each hive; what is wrong with that.
    1.4 is read as 1.5 is."""
    older = [of_minor(file, min(file[24], SPLITS_FROM)) for file in files]
    names = [program.put(f"{folder}-{number}", file) for number, file in enumerate(older)]
    yield expect(folder, program.run("import", folder, ID, *names), OK)
    lines = [line for number, row in enumerate(rows) for line in same_again(number, row)]
    printed, status = program.run("run", folder, program.put("script", "".join(f"{line}\n" for line in lines).encode()))
    yield expect(f"{folder}: a run", (printed.count(b"\n"), status), (len(lines) + 1, 0))
    for number, file in enumerate(older):
        found = read(program, folder, number)
        # the flush's numbers are one more, and the bins data no shorter
        yield expect(f"{folder}: hive {number}", (found[4:12], found[24], len(found) >= len(imported(file, ID_BYTES))),
                     (struct.pack("<2I", 2, 2), NEWEST, True))
        os.remove(program.at(names[number]))


def own_value(row):
    """The shortest value of a root that a call may name: its length, name, type and data; or None."""
    values = [(len(data), name.decode("utf-16-le", "surrogatepass"), kind, data) for name, kind, data in row.values.values()]
    return min(filter(lambda value: is_callable(value[1]), values), default=None)


def same_again(number, row):
    """Lines that write a value of a hive's root as it is, at the moment of the root's last write: no byte of the image changes, and a
    flush has something to do. A root without one gets a value and loses it: the tree stays."""
    yield f"at {row.time}"
    if own_value(row):
        _, name, kind, data = own_value(row)
        yield f"set {number}: {spelled(name)} {kind} {data.hex() or '-'}"
    else:
        yield from (f"set {number}: new 4 01000000", f"unset {number}: new")


def wrong_tree(title, program, folder, number, wanted, edited=False):
    """What is wrong with the tree of a store's hive, by the rules of written files."""
    wrong = reader.wrong_tree(read(program, folder, number), wanted, edited)
    return f"{title}: {wrong}" if wrong else None


def written_lists(program):
    """Letters and hashes of lists: 37 * hash + unit, from 0, over the folded name."""
    descriptors = [Key("a", 1, [], [], 8, b"one", b"class"), Key("b", 2, [], [], 0, b"two"), Key("C", 3, [], [], 0x10, b"one")]
    many = [Key(f"k{number:04}") for number in range(1_001)]
    for number, (title, keys, lists, hashes) in enumerate([
            ("hashes", [Key("Software"), Key("a"), Key("Ab")], [(b"lh", 3)], [65, 37 * 65 + 66, 3_925_742_691]),
            ("descriptors, classes and flags", descriptors, [(b"lh", 3)], [65, 66, 67]),
            ("a last ASCII name", [Key("~\x7f")], [(b"lh", 1)], [37 * 126 + 127]),
            ("a first name past ASCII", [Key("a"), Key("\x80")], [(b"li", 2)], []),
            ("names of two bytes", [Key("\u0100"), Key("\xff")], [(b"li", 2)], []),
            # read as UTF-16, whose units are below 0x100
            ("a name that is Latin-1 and wasn't so", [Key("m\0\xff\0", 0, patch={2: bytes(2)})], [(b"li", 1)], []),
            ("500 keys", many[:500], [(b"lh", 500)], None), ("501 keys", many[:501], [(b"lh", 500), (b"lh", 1)], None),
            ("1,001 keys", many, [(b"lh", 500), (b"lh", 500), (b"lh", 1)], None),
            ("501 keys, one past ASCII", [*many[:500], Key("\xe4")], [(b"li", 500), (b"li", 1)], [])]):
        folder, file = f"listed{number}", hive(Key("r", 4, keys, [Value("v")]))[0]
        wanted = reader.read(file)
        yield from made_anew(program, folder, [file], [wanted])
        wrong = wrong_tree(title, program, folder, 0, wanted)
        yield wrong
        if not wrong:
            row = reader.read(read(program, folder))
            yield expect(title, (row.lists, row.hashes if hashes is not None else None), (lists, hashes))


def orders(program, good):
    """Runs with several faults, and what is wrong with each."""
    cut = program.put("cut", b"regf")
    unclean = program.put("unclean", hive(Key("r"), primary=2)[0])
    program.put("store/journal", journal_of(1))
    truncated = [(f"E15 HiveDamaged {place} Truncated\n".encode(), 1) for place in range(2)]
    for words, wanted in [
            (["new", "order", ID, "0"], WORDS), (["new", "order", ID, "17"], WORDS), (["new", "order", ID, "+1"], WORDS),
            (["new", "order", ID, "1", "1"], WORDS), (["new", "order", "1", "1"], WORDS), (["new", "store", ID, "17"], WORDS),
            (["import", "order", ID], WORDS), (["import", "order", ID, *[good] * 17], WORDS), (["import", "order", "x", good], WORDS),
            (["import", "store", ID, *["missing"] * 17], WORDS),
            (["import", "order", ID, "missing"], UNREAD), (["import", "order", ID, good, "missing", good], UNREAD),
            (["import", "order", ID, cut, "missing"], UNREAD), (["import", "store", ID, "missing"], UNREAD),
            (["import", "order", ID, "folder"], UNREAD), (["import", "order", ID, cut, "folder"], UNREAD)]:
        yield expect(shown(words[:5]), program.run(*words), wanted)
        yield expect(f"{shown(words[:5])}: no folder", os.path.exists(program.at("order")), False)
    yield expect("a spoiled file, and a folder with a store", program.run("import", "store", ID, cut), UNMADE)
    for files, wanted in [([cut, unclean], truncated[0]), ([good, cut, unclean], truncated[1]),
                          ([unclean, cut], (b"E15 HiveDamaged 0 NotClean\n", 1))]:
        yield expect(f"the first of {files}", program.run("import", "order", ID, *files), wanted)
    yield expect("and then a store", program.run("import", "order", ID, good), OK)
    os.mkdir(program.at("closed"), 0o700)
    program.put("secret", b"regf")
    os.chmod(program.at("secret"), 0)
    other = as_other()
    yield expect("a file without the right to read it", program.run("import", "order2", ID, "secret", **other), UNREAD)
    yield expect("a folder without the right to make one", program.run("new", "closed/in", ID, "1", **other),
                 UNMADE if other else OK)


def devices(program, good):
    """Runs over a device that fails, and what is wrong with each."""
    sizes = [0, 1, 511, 4_095, 4_096, 8_191]
    for number, size in enumerate(sizes):
        for words in (["new", f"size{number}", ID, "2"], ["import", f"size{number}", ID, good, good]):
            yield expect(f"{words[0]}: {size} bytes", program.run(*words, **limited(resource.RLIMIT_FSIZE, size)), FAULT)
            yield expect(f"{size} bytes: journal", os.path.exists(program.at(words[1], "journal")), False)
            yield expect(f"{words[0]}: {size} bytes, by the signal", program.run(*words, **ended_at(size)), (b"", -signal.SIGXFSZ))
            yield expect(f"{size} bytes, by the signal: journal", os.path.exists(program.at(words[1], "journal")), False)
        yield (expect(f"{size} bytes, and then enough", program.run("new", f"size{number}", ID, "2"), OK)
               or wrong_store(program, f"behind {size} bytes", f"size{number}", [[EMPTY_HIVE]] * 2))
    told = []
    for most in range(4, 32):
        folder = f"open{most}"
        told.append(program.run("new", folder, ID, "2", **limited(resource.RLIMIT_NOFILE, most)))
        if told[-1] == OK:
            break
        yield expect(f"{most} open files: journal", os.path.exists(program.at(folder, "journal")), False)
        yield expect(f"{most} open files, and then enough", program.run("new", folder, ID, "2"), OK)
    # the folder, three hives and the journal
    yield expect("so many open files make a store", told, [FAULT] * 4 + [OK])
    with mounted(program, 6 * PAGE) as full:
        if not full:
            print("device: no folder could be mounted, so none was full")
        else:
            yield expect("a full device", program.run("new", f"{full}/s", ID, "2"), FAULT)
            yield expect("a full device: files", sorted(os.listdir(program.at(full, "s"))), names_of(2))
            yield expect("a full device, again", program.run("new", f"{full}/s", ID, "2"), UNMADE)
            os.remove(program.at(full, "s", "journal"))
            yield expect("without the journal, a smaller one", program.run("new", f"{full}/s", ID, "1"), FAULT)
            os.remove(program.at(full, "s", "hive02.dat"))
            yield expect("nor the third hive", program.run("new", f"{full}/s", ID, "1"), UNMADE)
    yield expect("a reply that can't be written", program.status_to("/dev/full", "new", "unsaid", ID, "1"), 1)


def memories(program, good):
    """The program with each of its allocations refused in turn, and what is wrong then."""
    # it has records and lists of each kind, and data in segments
    shim, large = refusal_shim(), program.put("large", cases.every_kind())
    yield expect("old", program.run("import", "old", ID, good, large), OK)
    first_layout(program, "old", 2)
    for mode in ("FAILALLOC_AT", "FAILALLOC_FROM"):
        for word, *words in (["new", ID, "2"], ["import", ID, good, large], ["upgrade"]):
            number, refused = 0, 1
            while refused:
                number += 1
                folder, report = f"{mode}-{word}-{number}", program.at("report")
                given = {mode: str(number), "FAILALLOC_REPORT": report, "LD_PRELOAD": shim}
                made = ["old", folder] if word == "upgrade" else [folder, *words]
                printed = program.run(word, *made, environment=given)
                with open(report, encoding="ascii") as file:
                    refused = int(file.read().split("refused=")[1])
                yield wrong_for_memory(program, folder, printed, refused)
                shutil.rmtree(program.at(folder), ignore_errors=True)


def wrong_for_memory(program, folder, printed, refused):
    """What is wrong with a run, some of whose allocations were refused. Want of memory leaves no file; the disk calls it a failure."""
    files = os.listdir(program.at(folder)) if os.path.exists(program.at(folder)) else []
    if printed == OK:
        return expect(f"{folder}: files", sorted(files), names_of(2))
    if not refused or printed not in (WANT, FAULT):
        return f"{folder}: {shown(printed)}"
    return expect(f"{folder}: files", files, []) if printed == WANT else expect(f"{folder}: journal", "journal" in files, False)


def part(path, title, runs):
    """Runs a part in a folder of its own."""
    with program_at(path, "stores-") as program:
        good = program.put("good", hive(Key("r", 3, [Key("a", 4, [], [Value("v", 1, b"12345")])]))[0])
        for folder in (["store", "folder"] if title == "order" else []):
            os.mkdir(program.at(folder))
        return title, list(runs(program, good))


def main():
    if len(sys.argv) != 2:
        sys.exit(__doc__)
    parts = {"new": lambda program, good: [*new_stores(program), *unmade_stores(program, good)], "import": imports, "upgrade": upgrades,
             "written": written, "order": orders, "device": devices, "memory": memories}
    finish([tell(*part(sys.argv[1], *it)) for it in parts.items()])


main()
