#!/usr/bin/env python3
"""Runs scripts over stores in files with a built program, in folders that go with the run:

    tests/store_runs.py PROGRAM

What is printed, the status and what the next run finds are compared with what the rules say. Each part tells what passed; the last
line is 'N passed, N failed', and the status is 0 where none failed.

- runs: what one run leaves is what the next one finds, over 1 and over 16 hives, and in the hives' files.
- replayed: the transcripts of runs/ that are played, and those on seats, over stores in files: the same replies.
- folds: a run that folds the history: numbers and the moment go on, labels and sessions are gone, and the hives have all.
- ends: wrong lines, scripts that can't be read, replies that can't be written: what was accepted before is there.
- pipes: replies leave before the next line comes; and one program alone runs on a store.
- folders: what can't be opened, and which refusal tells so.
- numbers: hives whose number isn't that of the journal's last change.
- room: a run that uses the journal's room up several times.
- device: a device that fails within a run, by the greatest size that a file may have and by a full folder: what was
  acknowledged is there once there is room, also if the signal of that size ends the run.
- hives: a device on which only a hive's part of a run fails: the run says so and ends with status 1, what `dump` says of the
  hive's file is what stands there, and the next run moves the changes into it.
- memory: a run with each of its allocations refused in turn, and with all later ones: what was acknowledged is there with memory.
"""
import os
import re
import resource
import shutil
import signal
import struct
import subprocess
import sys
from collections import Counter

TOP = os.path.dirname(os.path.dirname(os.path.abspath(__file__)))
sys.dont_write_bytecode = True
sys.path[:0] = [os.path.join(TOP, "tests"), os.path.join(TOP, "runs", "hives")]
import transcript  # noqa: E402
from folder_runs import ID, SCRIPT, UNOPENED, Talk, bytes_of, made, ran, replies, script_of, wrong_run  # noqa: E402
from maker import Key, Value, hive, mended, u32, u64  # noqa: E402
from scratch import SECONDS, as_other, ended_at, expect, finish, limited, mounted, program_at, refusal_shim, shown, tell  # noqa: E402

UNIT = "00000000-0000-0000-0000-000000000001"
MOST_HIVES = 16
MOST_DATA = 1_048_576
MOST_BINS = 67_108_864
GREATEST_NUMBER = 9_223_372_036_854_775_807
# one over half of the journal's 64 changes of a mebibyte each
MANY_LARGE = 150
DAMAGED = (b"E16 JournalDamaged\n", 1)
FAULT, FAULTED = "E13 DiskFault", "E14 Faulted"


def runs(program):
    """Runs one after another, and what is wrong with each."""
    folder = made(program, "one")
    for lines, wanted in [
            (["create 0:A"], ["opened 0", "created 1 accepted 1"]),
            (["keys 0:"], ["opened 1", "keys 1 A"]),
            ([f"begin t {UNIT}", "tx t create 0:B", "commit t", "keys 0:"],
             ["opened 1", "ok", "created 1", "committed 2", "keys 2 A B"]),
            (["at 7", "set 0:a v 3 00ff", "flush", "info 0:A"], ["opened 2", "ok", "accepted 3", "flushed 3", "info 0 1 7"]),
            (["get 0:A V", "unset 0:A v", "delete 0:A", "keys 0:"],
             ["opened 3", "value 3 00ff", "accepted 4", "accepted 5", "keys 1 B"]),
            # the moment, labels and sessions are those of one run, and what no commit accepted goes with it
            ([f"begin t {UNIT}", "at 9", "tx t create 0:C"], ["opened 5", "ok", "ok", "created 1"]),
            (["keys 0:", "create 0:D", "info 0:D"], ["opened 5", "keys 1 B", "created 1 accepted 6", "info 0 0 0"]),
            (["flush"], ["opened 6", "flushed 6"]),
            ([], ["opened 6"])]:
        yield wrong_run(program, folder, lines, wanted)
    yield wrong_run(program, folder, ["commit t", "session 0"], ["opened 6", "E9 NoSuchHandle", "ok"], 1)
    # the commit's outcome is in a second hive
    yield expect("files of one", sorted(os.listdir(program.at(folder))), ["hive00.dat", "hive00.log", "hive01.dat", "hive01.log", "journal"])
    yield expect("one's hive", program.run("dump", "one/hive00.dat"), replies(["hive 0", "key 0: 0", "key 0:B 0", "key 0:D 0"]))
    yield from runs_over_all(program)
    yield from runs_over_imported(program)
    yield wrong_when_moved(program)


def runs_over_all(program):
    """Transactions over the most hives that a store may have."""
    folder, every = made(program, "all", MOST_HIVES), range(MOST_HIVES)
    lines, wanted = [], []
    for number in range(1, 4):
        lines += [f"begin t {UNIT}", *[f"tx t create {hive}:K{number}" for hive in every], "commit t"]
        wanted += ["ok", *["created 1" for hive in every], f"committed {number}"]
    yield wrong_run(program, folder, lines, ["opened 0", *wanted])
    yield wrong_run(program, folder, [f"keys {hive}:" for hive in every], ["opened 3", *["keys 3 K1 K2 K3" for hive in every]])
    dropped = [f"begin t {UNIT}", *[f"tx t delete {hive}:K2" for hive in every], "rollback t"]
    yield wrong_run(program, folder, [*dropped, f"keys {MOST_HIVES}:"],
                    ["opened 3", "ok", *["ok" for hive in every], "ok", "E2 NotFound"], 1)
    for number in every:
        yield expect(f"all: hive {number}", program.run("dump", f"{folder}/hive{number:02}.dat"),
                     replies(["hive 0", "key 0: 0", "key 0:K1 0", "key 0:K2 0", "key 0:K3 0"]))


def runs_over_imported(program):
    """Changes to a hive that was imported, beside one that stays as it was."""
    file = program.put("imported", hive(Key("r", 3, [Key("a", 4, [], [Value("v", 1, b"12345")])]))[0])
    yield expect("import", program.run("import", "imports", ID, file, file), replies(["ok"]))
    yield wrong_run(program, "imports", ["at 11", "get 0:A v", "set 0:A w 4 01000000", "create 0:a\\b"],
                    ["opened 0", "ok", "value 1 3132333435", "accepted 1", "created 1 accepted 2"])
    yield expect("imported: hive 0", program.run("dump", "imports/hive00.dat"), replies(
        ["hive 0", "key 0: 3", "key 0:a 11", "val v 1 3132333435", "val w 4 01000000", "key 0:a\\b 11"]))
    yield expect("imported: hive 1", program.run("dump", "imports/hive01.dat"), program.run("dump", file))


def wrong_when_moved(program):
    """What is wrong with a store's files in another folder."""
    shutil.copytree(program.at("all"), program.at("elsewhere"))
    return wrong_run(program, "elsewhere", ["keys 15:", "create 15:K4"], ["opened 3", "keys 3 K1 K2 K3", "created 1 accepted 4"])


def replayed(program):
    """Transcripts of plays over a store in files, and what is wrong with each."""
    names = sorted(name for name in os.listdir(f"{TOP}/runs") if name.endswith(".run"))
    seats = [run for run in transcript.read(f"{TOP}/runs/limits.py") if run.title.startswith("there are ")]
    plays = [run for name in names for run in transcript.read(f"{TOP}/runs/{name}") if run.command == "play" and run.script]
    if len(seats) != 2:
        yield "replayed: runs/limits.py has no runs on seats"
    plays += seats
    for number, run in enumerate(plays):
        if len(run.replies) < 2 or run.replies[1] != [b"ok\n"]:
            continue  # no store is made
        if any(line.split()[:1] in ([b"history"], [b"fold"]) for line in run.script):
            continue  # a store on a disk folds its history in another way
        words = run.script[0].decode().split()
        folder = made(program, f"replayed{number}", int(words[1]))
        program.put(SCRIPT, b"".join(run.script[1:]))
        # the lines that come after the first one, whose reply is another
        told = b"opened 0\n" + b"".join(b"".join(lines) for lines in run.replies[2:])
        wanted = re.sub(rb"(?m)^line (\d+): ", lambda line: b"line %d: " % (int(line[1]) - 1), told), run.status
        yield expect(f"{run.where} {run.title}", program.run("run", folder, SCRIPT), wanted)
        shutil.rmtree(program.at(folder))


def folds(program):
    """Runs that fold the history, and what is wrong with each."""
    folder = made(program, "folds", 2)
    for lines, wanted, status in [
            # a fold of nothing, and one after another
            (["fold", "create 0:A", "fold", "fold", "flush", "keys 0:"],
             ["opened 0", "folded 0", "created 1 accepted 1", "folded 1", "folded 1", "flushed 1", "keys 1 A"], 0),
            # the moment stays; transactions that weren't committed are gone, and with them their labels
            (["at 9", f"begin t {UNIT}", "tx t create 0:B", f"begin u {UNIT}", "tx u create 1:C", "commit u", "fold",
              "commit t", "tx t create 0:B", "outcome u", "set 0:A v 1 31", "info 0:A", "keys 1:"],
             ["opened 1", "ok", "ok", "created 1", "ok", "created 1", "committed 2", "folded 2", "E9 NoSuchHandle",
              "E9 NoSuchHandle", "E9 NoSuchHandle", "accepted 3", "info 0 1 9", "keys 1 C"], 1),
            # a label may name another transaction then
            ([f"begin t {UNIT}", "tx t create 0:D", "fold", f"begin t {UNIT}", "tx t create 0:E", "commit t", "keys 0:"],
             ["opened 3", "ok", "created 1", "folded 3", "ok", "created 1", "committed 4", "keys 2 A E"], 0),
            # sessions are gone, and session 0 is open
            (["session 3", "end 0", "fold", "end 3", "end 0", "keys 0:", "session 0", "keys 0:"],
             ["opened 4", "ok", "ok", "folded 4", "E9 NoSuchHandle", "ok", "E9 NoSuchHandle", "ok", "keys 2 A E"], 1),
            (["session 3", "fold", "keys 0:", "session 3", "keys 0:"],
             ["opened 4", "ok", "folded 4", "keys 2 A E", "ok", "keys 2 A E"], 0),
            # lines are counted through the run, and what ends one is no part of another
            (["create 0:F", "fold", "create 0:G", "fold", "no such line"],
             ["opened 4", "created 1 accepted 5", "folded 5", "created 1 accepted 6", "folded 6", "line 5: not understood"], 2),
            (["get 0: none", "fold", "keys 1:"], ["opened 6", "E2 NotFound", "folded 6", "keys 1 C"], 1),
            # no script sets the limit of a store on a disk
            (["history 5", "keys 0:"], ["opened 6", "line 1: not understood"], 2),
            (["keys 1:", "history 5"], ["opened 6", "keys 1 C", "line 2: not understood"], 2),
            (["fold now"], ["opened 6", "line 1: not understood"], 2),
            (["keys 0:", "get 0:A v"], ["opened 6", "keys 4 A E F G", "value 1 31"], 0)]:
        yield wrong_run(program, folder, lines, wanted, status)
    talk = Talk(program, folder)
    yield expect("folds: opened", talk.opened, "opened 6")
    yield expect("folds: a change", talk.ask("create 1:H"), "created 1 accepted 7")
    yield expect("folds: folded", talk.ask("fold"), "folded 7")
    yield expect("folds: hive 1 of a run that goes on", program.run("dump", f"{folder}/hive01.dat"),
                 replies(["hive 0", "key 0: 0", "key 0:C 9", "key 0:H 0"]))
    yield expect("folds: a further change", talk.ask("create 1:I"), "created 1 accepted 8")
    yield expect("folds: the end", talk.end(), replies([]))
    yield wrong_run(program, folder, ["keys 1:"], ["opened 8", "keys 3 C H I"])


def ends(program):
    """Runs that end before their script does, and what is wrong with each."""
    folder = made(program, "ends")
    for number, line in enumerate(["no such line", "hives 1", "", "keys 0: ", "crash old", "keys  0:"]):
        yield wrong_run(program, folder, [f"create 0:Key{number}", line, "create 0:unread"],
                        [f"opened {number}", f"created 1 accepted {number + 1}", "line 2: not understood"], 2)
    yield wrong_run(program, folder, ["E", "keys 0:"], ["opened 6", "line 1: not understood"], 2)
    yield wrong_run(program, folder, ["keys 7:", "keys"], ["opened 6", "E2 NotFound", "line 2: not understood"], 2)
    yield wrong_run(program, folder, ["keys 0:"], ["opened 6", "keys 6 Key0 Key1 Key2 Key3 Key4 Key5"])
    for missing in ["missing", "ends", "ends/journal/in"]:
        yield expect(f"script {missing}", program.run("run", folder, missing), replies(["opened 6", "cannot read script"], 1))
    script_of(program, ["create 0:without\\LF"])
    os.truncate(program.at(SCRIPT), os.path.getsize(program.at(SCRIPT)) - 1)
    yield expect("no LF at the end", program.run("run", folder, SCRIPT), replies(["opened 6", "created 2 accepted 7"]))
    # one reply, and more than a buffer takes
    script_of(program, ["create 0:unsaid"])
    yield expect("replies to a full device", program.status_to("/dev/full", "run", folder, SCRIPT), 1)
    yield wrong_run(program, folder, ["keys 0:unsaid"], ["opened 8", "keys 0"])
    script_of(program, ["create 0:unsaid\\a", f"set 0: large 3 {'00' * MOST_DATA}", "get 0: large", "keys 0:"])
    yield expect("many replies to a full device", program.status_to("/dev/full", "run", folder, SCRIPT), 1)
    yield wrong_run(program, folder, ["keys 0:unsaid"], ["opened 10", "keys 1 a"])
    for words in (["run"], ["run", folder], ["run", folder, SCRIPT, SCRIPT], ["run", "--help"], ["Run", folder, SCRIPT]):
        yield expect(shown(words), program.run(*words), (b"wrong words\n", 2))


def pipes(program):
    """Runs whose lines come through a pipe, and what is wrong with them."""
    folder = made(program, "held")
    first = Talk(program, folder)
    yield expect("opened, before a line comes", first.opened, "opened 0")
    yield expect("a reply, before the next line comes", first.ask("create 0:A"), "created 1 accepted 1")
    files = {name: bytes_of(program, folder, name) for name in os.listdir(program.at(folder))}
    yield expect("another run", ran(program, folder, ["create 0:B"]), UNOPENED)
    yield expect("another run, without a script", program.run("run", folder, "missing"), UNOPENED)
    yield expect("another store in the folder", program.run("new", folder, ID, "1"), (b"cannot make store\n", 1))
    yield expect("what they changed", {name: bytes_of(program, folder, name) for name in os.listdir(program.at(folder))}, files)
    yield expect("the first one goes on", first.ask("flush"), "flushed 1")
    yield expect("and ends", first.end(), (b"", 0))
    yield wrong_run(program, folder, ["keys 0:"], ["opened 1", "keys 1 A"])
    last = Talk(program, folder)
    yield expect("a wrong line from a pipe", last.ask("create 0:B"), "created 1 accepted 2")
    yield expect("a wrong line from a pipe", last.ask("what"), "line 2: not understood")
    yield expect("ends the run, while the pipe is open", last.child.wait(timeout=SECONDS), 2)
    last.child.communicate()
    yield wrong_run(program, folder, ["keys 0:"], ["opened 2", "keys 2 A B"])
    yield from written_out(program)


def written_out(program):
    """Replies of a script in a plain file leave once a flush or a commit is acknowledged, and before the disk is waited for."""
    folder, larges = made(program, "written-out"), 48
    large = f"set 0: v 3 {'5a' * MOST_DATA}"
    lines = ["create 0:A", "flush", f"begin t {UNIT}", "tx t create 0:B", "commit t", *[large] * larges]
    wanted = b"opened 0\ncreated 1 accepted 1\nflushed 1\nok\ncreated 1\ncommitted 2\n"
    with open(program.at("replies"), "w+b") as told:
        words = [program.path, "run", folder, script_of(program, lines)]
        child = subprocess.Popen(words, cwd=program.home, stdin=subprocess.DEVNULL, stdout=told)
        seen = b""
        while seen != wanted and child.poll() is None:
            seen = os.pread(told.fileno(), len(wanted), 0)
        child.kill()
        yield None if child.wait() and seen == wanted else f"acknowledged, and not written out: {shown(seen)}"
    text, status = ran(program, folder, ["keys 0:"])
    yield expect("what was written out is there", (text.splitlines()[1:], status), ([b"keys 2 A B"], 0))


def folders(program):
    """Folders without a store or with a spoiled one, and what is wrong with runs on them."""
    os.mkdir(program.at("empty"))
    program.put("plain", b"regf")
    for title, folder in [("no files", "empty"), ("no folder", "missing")]:
        yield expect(title, ran(program, folder, ["create 0:A"]), DAMAGED)
    yield expect("a file", ran(program, "plain", ["create 0:A"]), UNOPENED)
    yield expect("nothing is made", (os.listdir(program.at("empty")), os.path.exists(program.at("missing")),
                                     bytes_of(program, "plain")), ([], False, b"regf"))
    closed = made(program, "closed")
    os.chmod(program.at(closed), 0)
    if as_other():
        yield expect("no right to the folder", ran(program, closed, ["create 0:A"], **as_other()), UNOPENED)
    os.chmod(program.at(closed), 0o755)
    if as_other():
        for name in ("journal", "hive00.dat"):
            os.chmod(program.at(closed, name), 0o600)
            yield expect(f"no right to {name}", ran(program, closed, ["create 0:A"], **as_other()), replies([FAULT], 1))
            os.chmod(program.at(closed, name), 0o666)
    whole = made(program, "whole", 2)
    yield wrong_run(program, whole, ["create 1:A"], ["opened 0", "created 1 accepted 1"])
    half = shutil.copytree(program.at(whole), program.at("half-flushed"))
    spoiled("hive01.dat", unclean)(half)
    yield wrong_run(program, half, ["keys 1:"], ["opened 1", "keys 1 A"])
    for title, spoil, wanted in SPOILED:
        folder = shutil.copytree(program.at(whole), program.at(title.replace(" ", "-")))
        spoil(folder)
        before = {name: bytes_of(program, folder, name) for name in os.listdir(folder)}
        printed = ran(program, folder, ["create 0:B"])
        yield None if printed[0].decode().startswith(wanted) and printed[1] == 1 else f"{title}: {shown(printed)}, wanted {wanted}"
        yield expect(f"{title}: files", {name: bytes_of(program, folder, name) for name in os.listdir(folder)}, before)


def spoiled(name, change, *others):
    """What changes a file of a folder, and others behind it."""
    def spoil(folder):
        path = os.path.join(folder, name)
        with open(path, "rb") as file:
            content = file.read()
        with open(path, "wb") as file:
            file.write(change(content))
        for other in others:
            other(folder)
    return spoil


def unclean(content):
    """A primary file that a flush has begun to write to."""
    return mended(content[:4] + u32(int.from_bytes(content[4:8], "little") + 1) + content[8:])


def without_marks(content):
    """A log that marks none of its first eight pages."""
    return content[:516] + bytes(1) + content[517:]


def logged_whole(folder):
    """Makes a hive whose log has each page, and whose primary file has no first sector."""
    primary, log = os.path.join(folder, "hive01.dat"), os.path.join(folder, "hive01.log")
    with open(primary, "rb") as file:
        bins = file.read()[4_096:]
    with open(log, "rb") as file:
        front = file.read()[:516]
    with open(log, "wb") as file:
        file.write((front + b"\xff" * (len(bins) // 4_096)).ljust(1_024, b"\0") + bins)
    os.truncate(primary, 511)


def other_hive(key):
    """What makes of a hive one of the same store at number 0, with this key below its root."""
    def changed_to(content):
        file, _ = hive(Key("", 0, [key]))
        return mended(file[:176] + content[176:192] + u64(0) + file[200:])
    return changed_to


def deep_key():
    """A key with a path of 513 names in it."""
    key = Key("k", 5)
    for _ in range(512):
        key = Key("k", 5, [key])
    return key


SPOILED = [
    ("no journal", lambda folder: os.remove(os.path.join(folder, "journal")), "E16 JournalDamaged\n"),
    ("a cut journal", spoiled("journal", lambda content: content[:63]), "E16 JournalDamaged\n"),
    ("another journal", spoiled("journal", lambda content: b"KTMJRNL9" + content[8:]), "E16 JournalDamaged\n"),
    ("a journal of another store", spoiled("journal", lambda content: content[:8] + bytes(16) + content[24:]), "E15 HiveDamaged "),
    ("a journal of three hives", spoiled("journal", lambda content: content[:24] + struct.pack("<I", 3) + content[28:]),
     # hive 3 keeps outcomes then, and is missing; hive 2 has none, which is no fault of a hive that calls name
     "E15 HiveDamaged 3 BadLog\n"),
    ("a hive of another store", spoiled("hive01.dat", lambda content: mended(content[:176] + bytes(16) + content[192:])),
     "E15 HiveDamaged 1 BadStore\n"),
    ("no hive", lambda folder: os.remove(os.path.join(folder, "hive01.dat")), "E15 HiveDamaged 1 "),
    ("a cut hive", spoiled("hive00.dat", lambda content: content[:-1]), "E15 HiveDamaged 0 Truncated\n"),
    ("a spoiled bin", spoiled("hive01.dat", lambda content: content[:4_096] + b"nibh" + content[4_100:]), "E15 HiveDamaged 1 BadBin\n"),
    ("no first sector", logged_whole, "E15 HiveDamaged 1 Truncated\n"),
    ("a cut log", spoiled("hive01.dat", unclean, spoiled("hive01.log", lambda content: content[:-1])), "E15 HiveDamaged 1 BadLog\n"),
    ("a page in neither", spoiled("hive01.dat", lambda content: unclean(content)[:-1], spoiled("hive01.log", without_marks)),
     "E15 HiveDamaged 1 BadLog\n"),
    ("another minor version", spoiled("hive00.dat", lambda content: mended(content[:24] + u32(6) + content[28:])), "E17 Unsupported\n"),
    ("too many bins", spoiled("hive00.dat", lambda content: mended(content[:40] + u32(MOST_BINS + 4_096) + content[44:])),
     "E15 HiveDamaged 0 TooLarge\n"),
    ("a deep key", spoiled("hive00.dat", other_hive(deep_key())), "E15 HiveDamaged 0 TooLarge\n"),
]


def renumbered(number):
    """What gives a hive another number."""
    return lambda content: mended(content[:192] + u64(number) + content[200:])


def journaled(content):
    """The journal with one change, the first: the creation of the key A in both hives, at moment 0."""
    operations = b"".join(bytes([1, hive]) + struct.pack("<H", 1) + b"\1A" for hive in range(2))
    change = u32(4 + 8 + 4 + len(operations)) + u64(0) + u32(2) + operations
    body = u32(4 + 8 + 4 + len(change)) + u64(1) + u32(1) + change
    return content[:64] + b"\xc3" + body + b"\0"


def numbered(program, numbers, *spoils):
    """The name of a store whose hives were given these numbers, and whose files were changed so after that."""
    folder = made(program, "-".join(["numbers", *map(str, numbers), str(len(spoils))]), len(numbers))
    for hive, number in enumerate(numbers):
        spoiled(f"hive{hive:02}.dat", renumbered(number))(program.at(folder))
    for spoil in spoils:
        spoil(program.at(folder))
    return folder


def numbers(program):
    """Runs on hives with other numbers than the journal's, and what is wrong with them.

    A store's number is the number of the last change that its journal decodes to or, without one, the greatest of a hive. A hive above
    it, or above the greatest of all numbers, is of no store. A change up to a hive's own number is not replayed on it."""
    with_change = spoiled("journal", journaled)
    none, both = ["keys 0", "keys 0"], ["keys 1 A", "keys 1 A"]
    for before, spoils, opened, keys in [
            ((0, 0), [], 0, none), ((5, 3), [], 5, none), ((3, 5), [], 5, none), ((0, GREATEST_NUMBER), [], GREATEST_NUMBER, none),
            ((0, 0), [with_change], 1, both), ((0, 1), [with_change], 1, ["keys 1 A", "keys 0"]),
            ((1, 0), [with_change], 1, ["keys 0", "keys 1 A"]), ((1, 1), [with_change], 1, none)]:
        yield wrong_run(program, numbered(program, before, *spoils), ["keys 0:", "keys 1:"], [f"opened {opened}", *keys])
    for before, spoils, hive in [((2, 1), [with_change], 0), ((0, 2), [with_change], 1), ((0, GREATEST_NUMBER + 1), [], 1),
                                 ((2 ** 64 - 1, 0), [], 0)]:
        yield wrong_run(program, numbered(program, before, *spoils), ["keys 0:"], [f"E15 HiveDamaged {hive} BadStore"], 1)
    # the hive has the key that the change creates, and not the change
    has_key = spoiled("hive00.dat", other_hive(Key("A")))
    yield wrong_run(program, numbered(program, (0, 0), with_change, has_key), ["keys 0:"], ["E16 JournalDamaged"], 1)
    yield from next_numbers(program)


def next_numbers(program):
    """Changes go on after the greatest number of a hive, and end with the greatest of all numbers."""
    folder = numbered(program, (4, 5))
    yield wrong_run(program, folder, ["create 0:A"], ["opened 5", "created 1 accepted 6"])
    yield wrong_run(program, folder, ["keys 0:"], ["opened 6", "keys 1 A"])
    folder = numbered(program, (GREATEST_NUMBER - 1, 0))
    yield wrong_run(program, folder, ["create 0:A", "create 0:B"],
                    [f"opened {GREATEST_NUMBER - 1}", f"created 1 accepted {GREATEST_NUMBER}", "E12 HistoryFull"], 1)
    yield wrong_run(program, folder, ["keys 0:", "create 0:B"], [f"opened {GREATEST_NUMBER}", "keys 1 A", "E12 HistoryFull"], 1)


def room(program):
    """Runs of more changes than the journal has room for, and what is wrong with them."""
    folder = made(program, "room", 2)
    datas = [bytes([number]).hex() * MOST_DATA for number in range(MANY_LARGE)]
    lines = [f"set {number % 2}: v{number % 10} 3 {data}" for number, data in enumerate(datas)]
    wanted = [f"accepted {number + 1}" for number in range(MANY_LARGE)]
    yield wrong_run(program, folder, lines, ["opened 0", *wanted])
    last = [f"get {number % 2}: v{number % 10}" for number in range(MANY_LARGE - 10, MANY_LARGE)]
    yield wrong_run(program, folder, last, [f"opened {MANY_LARGE}", *[f"value 3 {data}" for data in datas[-10:]]])
    # each of its changes is in the hives, so the journal's first gate is closed
    yield expect("the journal's first gate", bytes_of(program, folder, "journal")[64], 0)
    longest = os.path.getsize(program.at(folder, "journal"))
    yield None if longest <= 67_108_864 else f"the journal has {longest} bytes"


def devices(program):
    """Runs over a device that fails, and what is wrong with them."""
    for size in [8_192, 10_000, 12_288, 20_000, 40_000, 100_000]:
        folder = made(program, f"size{size}")
        yield from failed_run(program, folder, size, **limited(resource.RLIMIT_FSIZE, size))
    for size in [8_192, 12_288, 40_000]:
        yield from ended_run(program, size)
    with mounted(program, 100_000) as full:
        if full:
            yield from failed_run(program, made(program, "full/s"), 100_000, behind="full/s")
        else:
            print("device: no folder could be mounted, so none was full")
    yield from unsynced_end(program)


def failed_run(program, folder, size, behind=None, **given):
    """A run that meets the end of the device, and one with room behind it. What is committed is in the journal or in hives."""
    each = 1_000
    most = size // each + 2
    lines = []
    for number in range(1, most + 1):
        lines += [f"begin t {UNIT}", f"tx t set 0: v{number} 3 {'5a' * each}", "commit t"]
    text, status = ran(program, folder, lines, **given)
    printed = text.decode().splitlines()
    acknowledged = sum(line.startswith("committed ") for line in printed)
    good = []
    for number in range(1, acknowledged + 1):
        good += ["ok", "ok", f"committed {number}"]
    # the commit that meets it tells so, and all lines behind it, and the flush of the end, that the device has failed
    wanted = ["opened 0", *good, "ok", "ok", FAULT, *[FAULTED] * (len(lines) - len(good) - 3), FAULTED]
    yield expect(f"{folder}: {acknowledged} acknowledged", (status, shorter(printed)), (1, shorter(wanted)))
    if behind:
        shutil.copytree(program.at(behind), program.at("roomy"))
        folder = "roomy"
    text, status = ran(program, folder, ["values 0:", "create 0:K"])
    printed = text.decode().splitlines()
    found = int(printed[0].removeprefix("opened ")) if printed and printed[0].startswith("opened ") else -1
    names = sorted((f"v{number}" for number in range(1, found + 1)), key=str.upper)
    yield None if found in (acknowledged, acknowledged + 1) else f"{folder}: {acknowledged} acknowledged, found {shown(printed)}"
    yield expect(f"{folder}: found", (printed, status), ([f"opened {found}", " ".join([f"values {found}", *names]),
                                                        f"created 1 accepted {found + 1}"], 0))


def ended_run(program, size):
    """A run that is ended by the signal of a limit on the size of files, as a shell's `ulimit -f` sets it: the next one finds whole
    changes, in their order, and each that was acknowledged."""
    folder, each = made(program, f"signal{size}"), 1_000
    lines = []
    for number in range(1, size // each + 3):
        lines += [f"begin t {UNIT}", f"tx t set 0: v{number} 3 {'5a' * each}", "commit t"]
    text, status = ran(program, folder, lines, **ended_at(size))
    acknowledged = sum(line.startswith("committed ") for line in text.decode().splitlines())
    yield expect(f"{folder}: status", status, -signal.SIGXFSZ)
    text, status = ran(program, folder, ["values 0:", "create 0:K"])
    printed = text.decode().splitlines()
    found = int(printed[0].removeprefix("opened ")) if printed and printed[0].startswith("opened ") else -1
    names = sorted((f"v{number}" for number in range(1, found + 1)), key=str.upper)
    yield None if acknowledged <= found <= acknowledged + 1 else f"{folder}: {acknowledged} acknowledged, found {shown(printed)}"
    yield expect(f"{folder}: found", (printed, status), ([f"opened {found}", " ".join([f"values {found}", *names]),
                                                        f"created 1 accepted {found + 1}"], 0))


def shorter(lines):
    """How many lines there are, and how often each."""
    return len(lines), Counter(lines)


def unsynced_end(program):
    """A run whose last flush alone meets the end of the device: it is told, also behind a wrong line."""
    folder = made(program, "last")
    limit = limited(resource.RLIMIT_FSIZE, 8_192)
    large = f"set 0: v 3 {'5a' * 10_000}"
    yield wrong_run(program, folder, [large], ["opened 0", "accepted 1", FAULT], 1, **limit)
    yield wrong_run(program, folder, [large, "what"], ["opened 0", "accepted 1", "line 2: not understood", FAULT], 2, **limit)
    yield expect("no script", program.run("run", folder, "missing", **limit), replies(["opened 0", "cannot read script"], 1))
    yield wrong_run(program, folder, [large, "get 0: v"], ["opened 0", "accepted 1", f"value 3 {'5a' * 10_000}"])


OLD, NEW = ["hive 0", "key 0: 0"], ["hive 0", "key 0: 0", "key 0:A 0"]
TORN = ["E15 HiveDamaged 0 NotClean"]


def hive_parts(program):
    """Runs of which only the hive's part fails, and what is wrong with them."""
    yield from without_log(program)
    yield from between_lines(program)
    if as_other():
        yield from in_closed_folder(program)
    yield from in_full_folder(program)


def moved_later(program, folder, number, hive):
    """What is wrong where nothing hinders the next run from moving the changes into the hive."""
    yield wrong_run(program, folder, [], [f"opened {number}"])
    yield expect(f"{folder}: the hive then", program.run("dump", f"{folder}/hive00.dat"), replies(hive))


def without_log(program):
    """The hive's log can't be made: a folder has its name."""
    folder = made(program, "without-log")
    os.mkdir(program.at(folder, "hive00.log"))
    yield wrong_run(program, folder, ["create 0:A"], ["opened 0", "created 1 accepted 1", FAULT], 1)
    yield wrong_run(program, folder, [], ["opened 1", FAULT], 1)
    yield wrong_run(program, folder, ["what"], ["opened 1", "line 1: not understood", FAULT], 2)
    yield expect("without-log: no script", program.run("run", folder, "missing"),
                 replies(["opened 1", "cannot read script", FAULT], 1))
    yield expect("without-log: the hive", program.run("dump", f"{folder}/hive00.dat"), replies(OLD))
    os.rmdir(program.at(folder, "hive00.log"))
    yield from moved_later(program, folder, 1, NEW)


def between_lines(program):
    """The hive's log can't be made, and half of the journal's room is used: the steps between two lines fail."""
    folder, most = made(program, "between-lines"), 32
    os.mkdir(program.at(folder, "hive00.log"))
    lines = [f"set 0: v 3 {'5a' * MOST_DATA}"] * (most + 2)
    wanted = ["opened 0", *[f"accepted {number + 1}" for number in range(most)], FAULTED, FAULTED, FAULTED, FAULT]
    yield wrong_run(program, folder, lines, wanted, 1)
    yield expect("between-lines: the hive", program.run("dump", f"{folder}/hive00.dat"), replies(OLD))
    os.rmdir(program.at(folder, "hive00.log"))
    text, status = ran(program, folder, ["values 0:", "set 0: v 3 -", "create 0:A"])
    opened = text.decode().splitlines()[0]
    number = int(opened.removeprefix("opened "))
    # nothing was acknowledged before the device failed, so any first ones may be there
    yield None if number <= most and status == 0 else f"between-lines: {opened}, status {status}"
    yield from moved_later(program, folder, number + 2, [*NEW[:2], "val v 3 -", *NEW[2:]])


def in_closed_folder(program):
    """No file can be made in the folder, though those that are there may be written."""
    folder = made(program, "closed-folder")
    for name in os.listdir(program.at(folder)):
        os.chmod(program.at(folder, name), 0o666)
    os.chmod(program.at(folder), 0o555)
    yield wrong_run(program, folder, ["create 0:A"], ["opened 0", "created 1 accepted 1", FAULT], 1, **as_other())
    yield expect("closed-folder: the hive", program.run("dump", f"{folder}/hive00.dat"), replies(OLD))
    os.chmod(program.at(folder), 0o777)
    yield from moved_later(program, folder, 1, NEW)


def in_full_folder(program):
    """The folder is full as the hive's log is written, or as its primary file is."""
    large = f"val v 3 {'5a' * 100_000}"
    with mounted(program, 1 << 20) as full:
        if not full:
            print("hives: no folder could be mounted, so none was full")
            return
        for title, left, lines, told, hive, later in [
                ("no room", 0, ["create 0:A"], ["created 1 accepted 1"], OLD, NEW),
                # the journal and the log have room, and the hive has none
                ("some room", 240_000, [f"set 0: v 3 {'5a' * 100_000}"], ["accepted 1"], TORN, [*OLD, large])]:
            folder = made(program, f"{full}/{title.replace(' ', '-')}")
            fill(program.at(full, "filler"), left)
            yield wrong_run(program, folder, lines, ["opened 0", *told, FAULT], 1)
            yield expect(f"{title}: the hive", program.run("dump", f"{folder}/hive00.dat"), replies(hive, int(hive == TORN)))
            os.remove(program.at(full, "filler"))
            yield from moved_later(program, folder, 1, later)
            shutil.rmtree(program.at(folder))


def fill(path, left):
    """Fills a device with a file, but for so many bytes."""
    status = os.statvfs(os.path.dirname(path))
    with open(path, "wb") as file:
        file.write(bytes(max(0, status.f_bavail * status.f_frsize - left)))


# the value lies in segments, in bins data of several pages
CHANGES = ["create 0:A", f"begin t {UNIT}", f"tx t set 0:A v 3 {'00ff' * 10_000}", "tx t create 1:B", "commit t", "create 0:C", "flush",
           "keys 0:"]


def memories(program):
    """Runs with refused allocations on a store that has a change, and what is wrong with each."""
    folder = made(program, "whole", 2)
    yield wrong_run(program, folder, ["create 1:Z"], ["opened 0", "created 1 accepted 1"])
    shim = refusal_shim()
    for mode in ("FAILALLOC_AT", "FAILALLOC_FROM"):
        number, refused = 0, 1
        while refused:
            number += 1
            place, report = shutil.copytree(program.at(folder), program.at(f"{mode}-{number}")), program.at("report")
            given = {mode: str(number), "FAILALLOC_REPORT": report, "LD_PRELOAD": shim}
            printed = ran(program, place, CHANGES, environment=given)
            with open(report, encoding="ascii") as file:
                refused = int(file.read().split("refused=")[1])
            yield wrong_without_memory(program, place, printed, refused)
            shutil.rmtree(place)


def states_after(lines):
    """What keys and values there may be after each change, by the replies to CHANGES: one list, or two where a refused commit may
    have been accepted."""
    histories, private = [[(set(), {"Z"}, set())]], []
    for request, reply in zip(CHANGES, lines[1:]):
        is_done = not reply.startswith("E")
        words = request.split(" ")
        if words[0] == "tx" and is_done:
            private.append(words[2:])
        elif words[0] == "create" and is_done:
            histories = [[*states, changed(states[-1], [words])] for states in histories]
        elif words[0] == "commit" and private:
            with_it = [[*states, changed(states[-1], private)] for states in histories]
            histories = with_it if is_done else histories + with_it
    return histories


def changed(state, requests):
    """The keys of hive 0 and of hive 1, and the values of A, after requests of CHANGES."""
    hives, values = [set(state[0]), set(state[1])], set(state[2])
    for request in requests:
        hive, path = request[1].split(":")
        (values if request[0] == "set" else hives[int(hive)]).add(request[2] if request[0] == "set" else path)
    return (*hives, values)


def listed(word, names):
    return " ".join([word, str(len(names)), *sorted(names)])


def wrong_without_memory(program, place, printed, refused):
    """What is wrong with a run, some of whose allocations were refused, and with what the next one finds."""
    lines = printed[0].decode().splitlines()
    title = f"{os.path.basename(place)}: {shown(lines)}"
    if not refused and printed != replies(["opened 1", "created 1 accepted 2", "ok", "ok", "created 1", "committed 3",
                                           "created 1 accepted 4", "flushed 4", "keys 2 A C"]):
        return f"{title}: nothing was refused"
    if printed[1] != (1 if any(line.startswith("E") for line in lines) else 0):
        return f"{title}: status {printed[1]}"
    opened, *found = ran(program, place, ["keys 0:", "keys 1:", "values 0:A"])[0].decode().splitlines()
    number = int(opened.removeprefix("opened "))
    acknowledged = max([1] + [int(line.split(" ")[1]) for line in lines if line.startswith(("committed ", "flushed "))])
    for states in states_after(lines):
        # what a run accepts is there, unless its end tells a refusal
        least = acknowledged if lines[-1].startswith("E") else len(states)
        if least <= number <= len(states):
            keys, others, values = states[number - 1]
            wanted = [listed("keys", keys), listed("keys", others), listed("values", values) if "A" in keys else "E2 NotFound"]
            if found == wanted:
                return None
    return f"{title}: then {opened}, {shown(found)}"


def main():
    if len(sys.argv) != 2:
        sys.exit(__doc__)
    parts = {"runs": runs, "replayed": replayed, "folds": folds, "ends": ends, "pipes": pipes, "folders": folders, "numbers": numbers, "room": room,
             "device": devices, "hives": hive_parts, "memory": memories}
    counts = []
    for title, results in parts.items():
        with program_at(sys.argv[1], "store-runs-") as program:
            counts.append(tell(title, list(results(program))))
    finish(counts)


main()
