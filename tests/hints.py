#!/usr/bin/env python3
"""Runs a built program `regtx` with a terminal as its standard error, or with REGTX_HINTS, and reads what is told beside the fixed texts:

    tests/hints.py PROGRAM

What is printed, the status and what the terminal shows are compared with what the rules say. Each part tells what passed; the last line
is 'N passed, N failed', and the status is 0 where none failed.

- words: how a command is used, if the words are wrong, and which word is.
- files: why a script or a hive can't be read.
- stores: why a store can't be made or opened, and what the system refused of its files.
- keys: which command deletes a key that has subkeys.
- replies: why they can't be written.
- asked: the same without a terminal, if REGTX_HINTS is 1, and nothing if it is anything else.
- silence: nothing is told where all goes well, or where a line or a hive is refused by name.
"""
import fcntl
import os
import pty
import resource
import subprocess
import sys

TOP = os.path.dirname(os.path.dirname(os.path.abspath(__file__)))
sys.dont_write_bytecode = True
sys.path[:0] = [os.path.join(TOP, "tests"), os.path.join(TOP, "tools"), os.path.join(TOP, "runs", "hives")]
from maker import Key, hive  # noqa: E402
from product import usages  # noqa: E402
from scratch import SECONDS, as_other, expect, finish, limited, program_at, tell  # noqa: E402

ID = "00112233-4455-6677-8899-aabbccddeeff"
COMMANDS = [name for name, _, _ in usages()]
# the commands that ask for no word
BARE = [name for name, call, _ in usages() if all(word.startswith("[") for word in call.split()[1:])]
UNREAD, NO_SCRIPT, UNMADE = b"cannot read file\n", b"cannot read script\n", b"cannot make store\n"
UNOPENED, FAULT, NO_JOURNAL = b"cannot open store\n", b"E13 DiskFault\n", b"E16 JournalDamaged\n"
MISSING, FOLDER, DENIED = "No such file or directory", "Is a directory", "Permission denied"


def shown(program, *words, printed=subprocess.PIPE, **given):
    """What is printed, the status, and what stands on the terminal that is standard error."""
    ours, theirs = pty.openpty()
    ended = subprocess.run([program.path, *words], cwd=program.home, stdin=subprocess.DEVNULL, stdout=printed or theirs,
                           stderr=theirs, timeout=SECONDS, **given)
    os.close(theirs)
    text = b""
    while piece := piece_of(ours):
        text += piece
    os.close(ours)
    return ended.stdout, ended.returncode, text.decode().replace("\r\n", "\n")


def piece_of(terminal):
    """What a terminal shows next; nothing if nobody writes to it any more."""
    try:
        return os.read(terminal, 65_536)
    except OSError:
        return b""


def hints(*lines):
    return "".join(f"regtx: {line}\n" for line in lines)


def made(program, folder, lines=("create 0:A",)):
    """The name of a new store, on which these lines were run."""
    program.put("first", "".join(f"{line}\n" for line in lines).encode())
    for words in (["new", folder, ID, "1"], ["run", folder, "first"]):
        if program.run(*words)[1] != 0:
            raise SystemExit(f"{words} failed")
    for name in os.listdir(program.at(folder)):
        os.chmod(program.at(folder, name), 0o666)
    os.chmod(program.at(folder), 0o777)
    return folder


def words(program):
    """Wrong words, and what is wrong with what is told of them."""
    for name in COMMANDS:
        # after `wait` stands another command
        for given in [] if name == "wait" else [[name, "--help"]] if name in BARE else [[name], [name, "--help"]]:
            printed, status, text = shown(program, *given)
            yield expect(f"{given}", (printed, status, text.count("\n")), (b"wrong words\n", 2, 1))
            yield None if text.startswith(f"usage: regtx {name} ") else f"{given}: {text!r}"
    for given in ([], ["help"], ["--version"], ["Dump", "file"], [""]):
        printed, status, text = shown(program, *given)
        yield expect(f"{given}", (printed, status), (b"wrong words\n", 2))
        yield expect(f"{given}: commands", [line.split(" ")[2] for line in text.splitlines()], COMMANDS)
    store = made(program, "words")
    for given, word in [(["get", store, "nokey"], "nokey"), (["ls", store, "Software"], "Software"), (["new", "none", "1", "1"], "1"),
                        (["new", "none", ID, "17"], "17"), (["usage", "nothing"], "nothing"), (["get", store, "0:A", "50%"], "50%"),
                        (["recover-to", "all", "hive", "log", "out"], "all"), (["recover-from", "+1", "hive", "log", "out"], "+1")]:
        printed, status, text = shown(program, *given)
        yield expect(f"{given}", (printed, status), (b"wrong words\n", 2))
        told = f"regtx: {word}: not understood\nusage: regtx {given[0]} "
        yield None if text.startswith(told) and text.count("\n") == 2 else f"{given}: {text!r}"
    printed, status, text = shown(program, "run", printed=None)
    yield expect("the text, and then the usage", (status, text.split(" ")[:5]), (2, ["wrong", "words\nusage:", "regtx", "run", "DIR"]))


def files(program):
    """Scripts and hives that can't be read."""
    store, secret = made(program, "read"), program.put("secret", b"hives 1\n")
    good = f"{store}/hive00.dat"
    os.chmod(program.at(secret), 0)
    os.mkdir(program.at("folder"))
    wrong = [("missing", MISSING), ("folder", FOLDER), (f"{good}/in", "Not a directory")]
    for path, reason in wrong + ([(secret, DENIED)] if as_other() else []):
        told = hints(f"{path}: {reason}")
        for command in ("play", "lab", "sweep"):
            yield expect(f"{command} {path}", shown(program, command, path, **as_other()), (NO_SCRIPT, 1, told))
        yield expect(f"run {path}", shown(program, "run", store, path, **as_other()), (b"opened 1\n" + NO_SCRIPT, 1, told))
        yield expect(f"dump {path}", shown(program, "dump", path, **as_other()), (UNREAD, 1, told))
        yield expect(f"import {path}", shown(program, "import", "none", ID, good, path, **as_other()), (UNREAD, 1, told))


def stores(program):
    """Stores that can't be made or opened."""
    program.put("plain", b"")
    script = program.put("script", b"create 0:B\n")
    for path, reason in [("plain", "not a directory"), ("missing/in", MISSING), (made(program, "there") + "/journal", "not a directory")]:
        yield expect(f"new {path}", shown(program, "new", path, ID, "1"), (UNMADE, 1, hints(f"{path}: {reason}")))
    yield expect("new there", shown(program, "new", "there", ID, "1"), (UNMADE, 1, hints("there/journal: is there already")))
    yield expect("new: full", shown(program, "new", "full", ID, "1", **limited(resource.RLIMIT_FSIZE, 100)),
                 (FAULT, 1, hints("full/hive00.dat: File too large")))
    yield expect("import: full", shown(program, "import", "full", ID, "there/hive00.dat", **limited(resource.RLIMIT_FSIZE, 100)),
                 (FAULT, 1, hints("full/hive00.dat: File too large")))
    yield expect("run missing", shown(program, "run", "missing", script), (NO_JOURNAL, 1, hints("missing: no such folder")))
    yield expect("run plain", shown(program, "run", "plain", script), (UNOPENED, 1, hints("plain: not a directory")))
    handle = os.open(program.at("there"), os.O_RDONLY)
    fcntl.flock(handle, fcntl.LOCK_EX)
    for given, printed in [(["run", "there", script], UNOPENED), (["new", "there", ID, "1"], UNMADE)]:
        yield expect(f"{given[0]}: in use", shown(program, *given), (printed, 1, hints("there: another program has it")))
    yield from served(program, script)
    os.close(handle)
    yield expect("served, and not in use", shown(program, "get", "there", "0:A", "v"), (b"E2 NotFound\n", 1, ""))
    os.remove(program.at("there", "served"))
    yield from missing_files(program, script)
    yield from refused_files(program, script)


def served(program, script):
    """What is told of a store that another program has, by the file of a broker in its folder."""
    for content, where in [(b"/run/app.sock\n", "/run/app.sock"), ("/run/ä b.sock\n".encode(), "/run/ä b.sock"), (b"/no/end", "/no/end"),
                           (b"", None), (b"\n", None), (b"/one\n/two\n", None), (b"/a\x1b[2J\n", None), (b"/\xff\n", None),
                           (b"/" + b"a" * 5_000 + b"\n", None)]:
        program.put("there/served", content)
        told = "there: another program has it" + (f", served at {where}" if where else "")
        for given in (["run", "there", script], ["get", "there", "0:A", "v"], ["set", "there", "0:A", "v", "sz", "text"], ["ls", "there", "0:"],
                      ["export", "there"], ["check", "there"]):
            yield expect(f"{given[0]}: served at {content[:20]}", shown(program, *given), (UNOPENED, 1, hints(told)))
    # whoever has no right to read it is told no less than without it
    if as_other():
        os.chmod(program.at("there", "served"), 0)
        yield expect("unreadable", shown(program, "ls", "there", "0:", **as_other())[2], hints("there: another program has it"))


def missing_files(program, script):
    """Files of a store that aren't there, and folders in their places."""
    for name, printed in [("journal", NO_JOURNAL), ("hive00.dat", b"E15 HiveDamaged 0 BadLog\n")]:
        folder = made(program, f"no-{name}")
        os.remove(program.at(folder, name))
        yield expect(f"no {name}", shown(program, "run", folder, script), (printed, 1, hints(f"{folder}/{name}: no such file")))
        os.mkdir(program.at(folder, name))
        yield expect(f"a folder {name}", shown(program, "run", folder, script), (FAULT, 1, hints(f"{folder}/{name}: {FOLDER}")))
    # what is printed of a log that can't be had is a matter of tests/store_runs.py
    folder = made(program, "no-log")
    os.remove(program.at(folder, "hive00.log"))
    os.mkdir(program.at(folder, "hive00.log"))
    yield expect("a folder hive00.log", shown(program, "run", folder, script)[2], hints(f"{folder}/hive00.log: {FOLDER}"))


def refused_files(program, script):
    """Files of a store that the system refuses."""
    folder = made(program, "few")
    # standard streams, the folder and its journal: nothing can be opened beside
    printed = shown(program, "run", folder, script, **limited(resource.RLIMIT_NOFILE, 5))
    reason = "Too many open files"
    yield expect("five open files", printed, (FAULT, 1, hints(f"{folder}/hive00.dat: {reason}", f"{script}: {reason}")))
    if not as_other():
        return
    for name in ["journal", "hive00.dat", "hive00.log"]:
        os.chmod(program.at(folder, name), 0o600)
        printed = shown(program, "run", folder, script, **as_other())
        yield expect(f"no right to {name}", printed[2], hints(f"{folder}/{name}: {DENIED}"))
        os.chmod(program.at(folder, name), 0o666)
    os.remove(program.at(folder, "hive00.log"))
    os.chmod(program.at(folder), 0o555)
    printed = shown(program, "run", folder, program.put("more", b"create 0:C\n"), **as_other())
    yield expect("no right to make a log", printed[2], hints(f"{folder}/hive00.log: {DENIED}"))
    os.chmod(program.at(folder), 0)
    printed = shown(program, "run", folder, script, **as_other())
    yield expect("no right to the folder", printed, (UNOPENED, 1, hints(f"{folder}: {DENIED}")))


def keys(program):
    """A key with subkeys, which `del` leaves."""
    folder = made(program, "keys", ("create 0:A\\B", "set 0:A v 3 07"))
    told = hints("0:A: has subkeys; del-tree deletes all of it")
    for given, printed, status, text in [
            (["del", folder, "0:A"], b"E3 HasSubkeys\n", 1, told), (["del", folder, "0:C"], b"E2 NotFound\n", 1, ""),
            (["del", folder, "0:"], b"E18 Fixed\n", 1, ""), (["del", folder, "0:A", "v"], b"committed 3\n", 0, ""),
            (["del-tree", folder, "0:A"], b"committed 4\n", 0, ""), (["del", folder, "0:A"], b"E2 NotFound\n", 1, "")]:
        yield expect(f"{given}", shown(program, *given), (printed, status, text))


def replies(program):
    """Replies that can't be written."""
    folder, play = made(program, "unsaid"), program.put("play", b"hives 1\nkeys 0:\n")
    script = program.put("script", b"keys 0:\n")
    for given in [["play", play], ["lab", play], ["sweep", play], ["run", folder, script], ["dump", f"{folder}/hive00.dat"],
                  ["new", "unsaid2", ID, "1"], ["import", "unsaid3", ID, f"{folder}/hive00.dat"], ["help"]]:
        with open("/dev/full", "wb") as full:
            status, text = shown(program, *given, printed=full)[1:]
        yield expect(f"{given} to a full device", (status, text), (1, hints("replies can't be written: No space left on device")))


def asked(program):
    """What a pipe is told as standard error, with each value of the variable."""
    for words, printed, status, line in [(["run", "missing", "/dev/null"], NO_JOURNAL, 1, "missing: no such folder"),
                                         (["dump", "missing"], UNREAD, 1, f"missing: {MISSING}")]:
        for value, wanted in [("1", hints(line)), ("", ""), ("0", ""), ("11", ""), (None, "")]:
            environment = {name: text for name, text in os.environ.items() if name != "REGTX_HINTS"}
            environment |= {} if value is None else {"REGTX_HINTS": value}
            ended = subprocess.run([program.path, *words], cwd=program.home, stdin=subprocess.DEVNULL, capture_output=True,
                                   timeout=SECONDS, env=environment)
            found = ended.stdout, ended.returncode, ended.stderr.decode()
            yield expect(f"{words}, REGTX_HINTS={value}", found, (printed, status, wanted))


def silence(program):
    """Runs of which a person is told nothing more."""
    folder = made(program, "well")
    program.put("spoiled", hive(Key("r"), primary=2)[0])
    program.put("play", b"hives 1\nkeys 0:A\n")
    program.put("refused", b"keys 0:B\n")
    program.put("wrong", b"what\n")
    for given, printed, status in [
            (["run", folder, "refused"], b"opened 1\nE2 NotFound\n", 1), (["run", folder, "wrong"], b"opened 1\nline 1: not understood\n", 2),
            (["play", "play"], b"ok\nE2 NotFound\n", 1), (["dump", "spoiled"], b"E15 HiveDamaged 0 NotClean\n", 1),
            (["import", "other", ID, "spoiled"], b"E15 HiveDamaged 0 NotClean\n", 1), (["new", "fresh", ID, "1"], b"ok\n", 0),
            (["run", folder, "/dev/null"], b"opened 1\n", 0), (["dump", f"{folder}/hive00.dat"], b"hive 0\nkey 0: 0\nkey 0:A 0\n", 0)]:
        yield expect(f"{given}", shown(program, *given), (printed, status, ""))


def part(path, title, runs):
    """Runs a part in a folder of its own."""
    with program_at(path, "hints-") as program:
        os.chmod(program.home, 0o777)
        return title, list(runs(program))


def main():
    if len(sys.argv) != 2:
        sys.exit(__doc__)
    finish([tell(*part(sys.argv[1], runs.__name__, runs)) for runs in (words, files, stores, keys, replies, asked, silence)])


main()
