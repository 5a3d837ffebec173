#!/usr/bin/env python3
"""Follows stores that no program has, by `follow DIR N` of a built program:

    tests/followed_stores.py PROGRAM [SEED]

- killed: random histories of a run that is killed. Followed after each number, they are told from there on, each change once and in
  order; what is told makes the store, of an empty one and of stores as of numbers. Nothing is told that wasn't durable.
- ended: after a run's orderly end nothing is kept; after another run that is killed, what that one made.
- lagging: a store one of whose hives lacks changes that the others have.
- first_layout: a store that keeps no outcomes of commits.
- refused: folders that aren't stores, damaged ones, and words; a device that can't be read or written to.
- shared: a store that a run has, and one that others read.
- memory: the program with each of its allocations refused in turn.

What is told of a random history is compared with what the same lines make in another store, by `export`. No file of a store
changes as it is followed. The seed is printed. The last line is 'N passed, N failed'; status 0 if none failed.
"""
import fcntl
import os
import random
import shutil
import signal
import subprocess
import sys
import time

TOP = os.path.dirname(os.path.dirname(os.path.abspath(__file__)))
sys.dont_write_bytecode = True
sys.path.insert(0, os.path.join(TOP, "tests"))
from scratch import as_other, expect, finish, memory as in_memory, program_at, refusal_shim, tell  # noqa: E402
from served_following import changes_in, exported, moments, requests, script_of, told_of  # noqa: E402
from served_store import ID, SECONDS, replies_of, transaction, unit  # noqa: E402

HISTORIES, TURNS = 3, 14
DAMAGED, UNREAD, WORDS = (b"E16 JournalDamaged\n", 1), (b"E13 DiskFault\n", 1), (b"wrong words\n", 2)
GREATEST = (1 << 64) - 1


def contents(program, store):
    """What each file of a store has, and when it was written last."""
    found = {}
    for name in sorted(os.listdir(program.at(store))):
        path = program.at(store, name)
        if os.path.isfile(path):
            with open(path, "rb") as file:
                found[name] = file.read(), os.stat(path).st_mtime_ns
    return found


def followed(program, store, after):
    """The changes that are told after a number, and what is told at last with the status; or what is wrong."""
    before = contents(program, store)
    printed, status = program.run("follow", store, str(after))
    changes, lines = changes_in(printed.decode())
    if contents(program, store) != before:
        lines.insert(0, "a file has changed")
    return changes, lines[0] if lines[1:] == [""] else lines, status


def numbers(program, store, after):
    """The same, of changes their numbers alone."""
    changes, last, status = followed(program, store, after)
    return [change.number for change in changes], last, status


def new(program, store):
    program.run("new", store, ID, "2")
    return program.at(store)


def killed_run(program, store, lines):
    """The replies of a run on a store that is killed once it has answered these lines."""
    run = subprocess.Popen([program.path, "run", store, "/dev/stdin"], cwd=program.home, stdin=subprocess.PIPE, stdout=subprocess.PIPE)
    try:
        run.stdin.write("".join(f"{line}\n" for line in lines).encode())
        run.stdin.flush()
        return [run.stdout.readline().decode().rstrip("\n") for _ in range(len(lines) + 1)]
    finally:
        run.send_signal(signal.SIGKILL)
        run.communicate()


def history(chance, at, turns):
    """The lines of a random history: writes alone and in transactions, some of which are rolled back."""
    for turn in range(turns):
        yield f"at {chance.randrange(1 << 63)}"
        if chance.random() < 0.4:
            yield from requests(chance, 2)
            continue
        lines = transaction(unit("history", at, turn), *requests(chance, chance.randrange(1, 6)))
        if chance.random() < 0.2:
            lines[-2] = "rollback t"
        yield from lines


def numbers_told(replies):
    """For each change the place of the line after which it is there, by the replies, the first of which is that to the opening."""
    found = {}
    for place, reply in enumerate(replies[1:], 1):
        words = reply.split(" ")
        if words[-2:-1] in (["accepted"], ["committed"]) and words[-1] != "0":
            found[int(words[-1])] = place
    return found


def as_of(program, name, lines, places, number):
    """A store as of a change: one on which the lines up to that of the change were run."""
    store = new(program, name)
    replies_of(program, store, *lines[:places.get(number, 0)])
    return store


def killed(program, chance):
    for at in range(HISTORIES):
        store = new(program, f"killed{at}")
        lines = [*history(chance, at, TURNS), "flush"]
        # what is accepted and not durable is lost with the run
        lost = ["create 0:Lost", "set 0:Lost v 4 00000000"]
        replies = killed_run(program, store, lines + lost)
        places, last = numbers_told(replies), int(replies[-3].split(" ")[1])
        yield expect("some changes", (replies[-3], last > 5), (f"flushed {last}", True))
        changes, end, status = followed(program, store, 0)
        yield expect("the end", (end, status), (f"followed {last}", 0))
        yield expect("each once, in order", [change.number for change in changes], list(range(1, last + 1)))
        units = {change.unit: change.number for change in changes if change.unit}
        for after in range(last + 1):
            told, end, status = followed(program, store, after)
            yield expect(f"after {after}", (told_of(told), end, status), (told_of(changes[after:]), f"followed {last}", 0))
        for after in (last + 1, GREATEST):
            yield expect(f"after {after}", numbers(program, store, after), ([], f"E2 NotFound after {last}", 1))
        for after in sorted({0, 1, last - 1, last, *(chance.randrange(last) for _ in range(3))}):
            copy = as_of(program, f"copy{at}-{after}", lines, places, after)
            told = followed(program, store, after)[0]
            answers = replies_of(program, copy, *script_of(told))
            yield expect(f"from {after}: no line is refused", [reply for reply in answers if reply.startswith(("E", "line "))], [])
            yield expect(f"from {after}: the same text", exported(program, copy), exported(program, store))
            yield expect(f"from {after}: the same units", replies_of(program, copy, *(f"kept {each}" for each in units))[1:],
                         [f"committed {number}" for number in units.values()])
            copied = program.at(f"moments{at}-{after}")
            shutil.copytree(store, copied)
            yield expect(f"from {after}: the same moments", moments(program, copy), moments(program, copied))


def ended(program, chance):
    store = new(program, "ended")
    yield expect("a new store", numbers(program, store, 0), ([], "followed 0", 0))
    yield expect("a new store, after 1", numbers(program, store, 1), ([], "E2 NotFound after 0", 1))
    lines = [*history(chance, "ended", TURNS), "flush"]
    replies = replies_of(program, store, *lines)
    first = int(replies[-1].split(" ")[1])
    yield expect("some changes", first > 1, True)
    for after in (0, 1, first - 1, first + 1, GREATEST):
        yield expect(f"after {after}", numbers(program, store, after), ([], f"E2 NotFound after {first}", 1))
    yield expect("after the last", numbers(program, store, first), ([], f"followed {first}", 0))
    replies = killed_run(program, store, ["create 0:Once\\More", "create 1:And\\More", "set 1:And v 3 -", "flush"])
    last = first + 3
    yield expect("the run that is killed", replies[-1], f"flushed {last}")
    for after in (0, first - 1):
        yield expect(f"after {after}, once more", numbers(program, store, after), ([], f"E2 NotFound after {first}", 1))
    for after in range(first, last + 1):
        yield expect(f"after {after}, once more", numbers(program, store, after), (list(range(after + 1, last + 1)), f"followed {last}", 0))
    told = followed(program, store, first)[0]
    yield expect("its lines", [change.lines for change in told],
                 [["create 0:Once\\More"], ["create 1:And\\More"], ["set 1:And v 3 -"]])
    yield expect("a run after it", replies_of(program, store, "keys 9:")[0], f"opened {last}")
    yield expect("and then", numbers(program, store, first), ([], f"E2 NotFound after {last}", 1))


def lagging(program, _):
    """The changes of a hive whose log can't be made are in the journal alone, with those that the other hive has, too."""
    store = new(program, "lagging")
    replies_of(program, store, "create 0:A", "create 1:B")
    os.remove(program.at("lagging", "hive01.log"))
    os.mkdir(program.at("lagging", "hive01.log"))
    replies_of(program, store, "create 0:C", "create 1:D", "create 0:E")
    yield expect("which hive lags", program.run("check", store)[0].decode().split("\n")[4:6],
                 ["hive 0: applied 5, has all changes", "hive 1: applied 2, lacks 1 change; the next run moves it in"])
    for after in (0, 1):
        yield expect(f"after {after}", numbers(program, store, after), ([], "E2 NotFound after 2", 1))
    for after in (2, 3, 4, 5):
        changes, last, status = followed(program, store, after)
        yield expect(f"after {after}", ([change.lines for change in changes], last, status),
                     ([["create 0:C"], ["create 1:D"], ["create 0:E"]][after - 2:], "followed 5", 0))
    os.rmdir(program.at("lagging", "hive01.log"))
    replies_of(program, store, "keys 0:")
    yield expect("after the next run", numbers(program, store, 2), ([], "E2 NotFound after 5", 1))


def first_layout(program, _):
    """A store of the layout that keeps no outcomes: a commit has no unit."""
    store = new(program, "first")
    with open(program.at("first", "journal"), "rb") as file:
        program.put("first/journal", b"KTMJRNL1" + file.read()[8:])
    os.remove(program.at("first", "hive02.dat"))
    replies = killed_run(program, store, [*transaction(unit("first"), "create 0:A", "create 1:B"), "create 0:C", "flush"])
    yield expect("the run", replies[-1], "flushed 2")
    for after in (0, 1, 2):
        changes, last, status = followed(program, store, after)
        yield expect(f"after {after}", ([(change.unit, change.lines) for change in changes], last, status),
                     ([(None, ["create 0:A", "create 1:B"]), (None, ["create 0:C"])][after:], "followed 2", 0))


def spoiled(program, name, change):
    """A copy of a store with a file's content changed."""
    shutil.copytree(program.at("whole"), program.at("spoiled"))
    with open(program.at("spoiled", name), "rb") as file:
        content = file.read()
    program.put(f"spoiled/{name}", change(content))


def refused(program, _):
    for words in ([], ["whole"], ["whole", "0", "0"], *(["whole", word] for word in ("", "-1", "+1", "1x", "0x1", " 1", "1 ", str(GREATEST + 1)))):
        yield expect(f"follow {' '.join(words)}", program.run("follow", *words), WORDS)
    store = new(program, "whole")
    killed_run(program, store, ["create 0:A", "set 0:A v 3 00", "create 1:B", "flush"])
    for word, wanted in (("000", "followed 3"), ("0003", "followed 3"), (str(GREATEST), "E2 NotFound after 3")):
        yield expect(f"follow whole {word}", program.run("follow", "whole", word)[0].decode().split("\n")[-2], wanted)
    yield expect("no folder", program.run("follow", "none", "0"), DAMAGED)
    os.mkdir(program.at("empty"))
    yield expect("an empty folder", program.run("follow", "empty", "0"), DAMAGED)
    program.put("file", b"text")
    yield expect("a file", program.run("follow", "file", "0")[1], 1)
    for title, name, change, wanted in [
            ("a journal cut off", "journal", lambda text: text[:64], DAMAGED), ("no journal's header", "journal", lambda text: b"X" + text[1:], DAMAGED),
            ("a batch that is too long", "journal", lambda text: text[:65] + b"\xff" * 4 + text[69:], DAMAGED),
            ("a damaged hive", "hive01.dat", lambda text: text[:8_000], (b"E15 HiveDamaged 1 Truncated\n", 1))]:
        spoiled(program, name, change)
        for after in ("0", "3", "4"):
            yield expect(f"{title}, after {after}", program.run("follow", "spoiled", after), wanted)
        shutil.rmtree(program.at("spoiled"))
    yield expect("replies that can't be written", program.status_to("/dev/full", "follow", "whole", "0"), 1)
    yield from unreadable(program)


def unreadable(program):
    """Files that can't be written are followed all the same; those that can't be read are not."""
    shutil.copytree(program.at("whole"), program.at("shut"))
    for name in os.listdir(program.at("shut")):
        os.chmod(program.at("shut", name), 0o444)
    os.chmod(program.at("shut"), 0o555)
    yield expect("files that can't be written", program.run("follow", "shut", "2", **as_other())[0].decode().split("\n")[-2], "followed 3")
    os.chmod(program.at("shut", "hive00.dat"), 0o000)
    yield expect("a file that can't be read", program.run("follow", "shut", "2", **as_other()), UNREAD)
    os.chmod(program.at("shut"), 0o755)


def shared(program, _):
    store = new(program, "shared")
    killed_run(program, store, ["create 0:A", "flush"])
    run = subprocess.Popen([program.path, "run", store, "/dev/stdin"], stdin=subprocess.PIPE, stdout=subprocess.PIPE)
    yield expect("a run", run.stdout.readline(), b"opened 1\n")
    yield expect("a store in use", program.run("follow", store, "0"), (b"cannot open store\n", 1))
    waiting = subprocess.Popen([program.path, "wait", "60", "follow", store, "1"], stdout=subprocess.PIPE)
    time.sleep(0.1)
    run.communicate(b"create 0:B\n", timeout=SECONDS)
    yield expect("who waits for it", waiting.communicate(timeout=SECONDS)[0], b"E2 NotFound after 2\n")
    killed_run(program, store, ["create 0:C", "flush"])
    with open(program.at("shared", "journal"), "rb") as journal:
        fcntl.flock(journal, fcntl.LOCK_SH)
        readers = [subprocess.Popen([program.path, "follow", store, "2"], stdout=subprocess.PIPE) for _ in range(4)]
        for reader in readers:
            yield expect("readers at once", reader.communicate(timeout=SECONDS)[0].split(b"\n")[-3:], [b"create 0:C", b"followed 3", b""])


def memory(program, _):
    """Where memory is wanting, the first of the changes are told, or none; and that it is wanting."""
    shim, store = refusal_shim(), new(program, "memory")
    killed_run(program, store, [*transaction(unit("memory"), "create 0:A", "set 0:A v 3 " + 3_000 * "ab"), "create 1:B\\C", "flush"])
    ample = program.run("follow", store, "0")
    yield expect("with ample memory", (len(ample[0].split(b"\n")), ample[1]), (7, 0))
    heads = [ample[0][:at] for at in range(len(ample[0])) if ample[0][at:].startswith(b"change ")]
    for at in range(1, 2_000):
        told = program.run("follow", store, "0", environment={"LD_PRELOAD": shim, "FAILALLOC_AT": str(at)})
        if told == ample:
            return
        yield expect(f"allocation {at} refused", (told[0].removesuffix(b"E1 NoMemory\n") in heads, told[0][-12:], told[1]), (True, b"E1 NoMemory\n", 1))


def main():
    seed = int(sys.argv[2]) if len(sys.argv) > 2 else 20_267
    print(f"seed {seed}")
    with program_at(sys.argv[1], "followed-", in_memory()) as program:
        counts = [tell(part.__name__, list(part(program, random.Random(f"{seed} {part.__name__}"))))
                  for part in (killed, ended, lagging, first_layout, refused, shared, memory)]
    finish(counts)


main()
