#!/usr/bin/env python3
"""Runs a built program on stores that other programs use too, and on scripts that come from standard input:

    tests/shared_stores.py PROGRAM

What is printed, the status and what the next run finds are compared with what the rules say. Each part tells what passed; the last
line is 'N passed, N failed', and the status is 0 if none failed.

- input: a script, a hive and a registration file from standard input: from a pipe, a plain file and a socket.
- typed: a line that isn't understood doesn't end a run whose script is typed at a terminal.
- readers: programs that only read a store share it; one that writes has it alone.
- moved: a store is moved during a run, and another is put at its path: neither loses a change that was acknowledged.
"""
import fcntl
import os
import pty
import shutil
import socket
import subprocess
import sys
import termios

TOP = os.path.dirname(os.path.dirname(os.path.abspath(__file__)))
sys.dont_write_bytecode = True
sys.path[:0] = [os.path.join(TOP, "tests")]
from folder_runs import UNOPENED, Talk, bytes_of, made, ran, replies, wrong_run  # noqa: E402
from scratch import SECONDS, expect, finish, program_at, tell  # noqa: E402

REG = b"Windows Registry Editor Version 5.00\r\n\r\n[HIVE0\\A]\r\n\"v\"=dword:00000007\r\n"


def given(program, source, *words):
    """What a command prints whose standard input is a file, and its status."""
    ended = subprocess.run([program.path, *words], cwd=program.home, stdin=source, stdout=subprocess.PIPE, timeout=SECONDS)
    return ended.stdout, ended.returncode


def piped(program, content, *words):
    """The same of a pipe with this content."""
    ended = subprocess.run([program.path, *words], cwd=program.home, input=content, stdout=subprocess.PIPE, timeout=SECONDS)
    return ended.stdout, ended.returncode


def talked(program, line, *words):
    """What a command whose standard streams are a socket sends first, after this line, and after its end; and its status."""
    ours, theirs = socket.socketpair()
    child = subprocess.Popen([program.path, *words], cwd=program.home, stdin=theirs, stdout=theirs)
    theirs.close()
    ours.settimeout(SECONDS)
    with ours, ours.makefile("rwb") as talk:
        first = talk.readline()
        talk.write(line)
        talk.flush()
        told = talk.readline()
        ours.shutdown(socket.SHUT_WR)
        return first, told, talk.read(), child.wait(timeout=SECONDS)


def inputs(program):
    """What comes from standard input, by `-` and by its path, and what is wrong with what is done with it."""
    folder, number = made(program, "input"), 0
    for word in ("-", "/dev/stdin"):
        kind = word.strip("-/").replace("/", "") or "hyphen"
        yield expect(f"a pipe, {word}", piped(program, f"create 0:P{kind}\n".encode(), "run", folder, word),
                     replies([f"opened {number}", f"created 1 accepted {number + 1}"]))
        with open(program.at(program.put("plain", f"create 0:F{kind}\n".encode())), "rb") as file:
            yield expect(f"a plain file, {word}", given(program, file, "run", folder, word),
                         replies([f"opened {number + 1}", f"created 1 accepted {number + 2}"]))
        yield expect(f"a socket, {word}", talked(program, f"create 0:S{kind}\n".encode(), "run", folder, word),
                     (f"opened {number + 2}\n".encode(), f"created 1 accepted {number + 3}\n".encode(), b"", 0))
        number += 3
    yield expect("play -", piped(program, b"hives 1\nkeys 0:\n", "play", "-"), replies(["ok", "keys 0"]))
    yield expect("lab -", piped(program, b"hives 1\nkeys 0:\n", "lab", "-"), replies(["ok", "keys 0"]))
    yield expect("apply -", piped(program, REG, "apply", folder, "-"), replies([f"applied {number + 1}"]))
    yield expect("get", program.run("get", folder, "0:A", "v"), replies(["dword 7"]))
    hive = bytes_of(program, folder, "hive00.dat")
    for command in ("dump", "check", "export", "export-json"):
        yield expect(f"{command} -", piped(program, hive, command, "-"), program.run(command, f"{folder}/hive00.dat"))
    yield expect("import -", piped(program, hive, "import", "imported", "00112233-4455-6677-8899-aabbccddeeff", "-"), replies(["ok"]))
    yield expect("what it has", program.run("get", "imported", "0:A", "v"), replies(["dword 7"]))
    program.put("-", b"hives 2\n")
    yield expect("a file called -", program.run("play", "./-"), replies(["ok"]))


def typed(program):
    """Scripts that are typed at a terminal, and what is wrong with what is replied."""
    folder = made(program, "typed")
    ours, theirs = pty.openpty()
    attributes = termios.tcgetattr(theirs)
    # what is typed isn't shown again
    attributes[3] &= ~termios.ECHO
    termios.tcsetattr(theirs, termios.TCSANOW, attributes)
    # an empty line counts too
    wrong = [f"line {number}: not understood" for number in (1, 3, 4, 6)]
    for word, first in [("-", ["opened 0", wrong[0], "created 1 accepted 1"]), ("/dev/stdin", ["opened 1", wrong[0], "opened"])]:
        child = subprocess.Popen([program.path, "run", folder, word], cwd=program.home, stdin=theirs, stdout=subprocess.PIPE)
        os.write(ours, b"creat 0:A\ncreate 0:A\nhives 1\n\nkeys 0:\ncrash\n")
        # Ctrl-D
        os.write(ours, b"\x04")
        told = child.communicate(timeout=SECONDS)[0].decode().splitlines()
        yield expect(f"a typed script, {word}", (told, child.returncode), ([*first, *wrong[1:3], "keys 1 A", wrong[3]], 0))
    os.close(theirs)
    os.close(ours)


def held(program, folder):
    """A folder's handle with the lock of a program that only reads."""
    handle = os.open(program.at(folder), os.O_RDONLY)
    fcntl.flock(handle, fcntl.LOCK_SH)
    return handle


def readers(program):
    """Programs that only read a store at once, and beside a run that has it."""
    folder = made(program, "read")
    yield expect("set", program.run("set", folder, "0:A", "v", "dword", "7"), replies(["committed 1"]))
    words = [["get", folder, "0:A", "v"], ["ls", folder, "0:"], ["check", folder], ["export-json", folder, "0:A"]]
    wanted = [program.run(*each) for each in words]
    yield expect("each by itself", [status for _, status in wanted], [0] * len(words))
    handle = held(program, folder)
    for each, found in zip(words, wanted):
        yield expect(f"{each[0]} beside a reader", program.run(*each), found)
    yield expect("set beside a reader", program.run("set", folder, "0:A", "v", "dword", "8"), UNOPENED)
    yield expect("run beside a reader", ran(program, folder, []), UNOPENED)
    os.close(handle)
    children = [subprocess.Popen([program.path, *words[0]], cwd=program.home, stdout=subprocess.PIPE) for _ in range(20)]
    found = [(child.communicate(timeout=SECONDS)[0], child.returncode) for child in children]
    yield expect("20 at once", found, [wanted[0]] * 20)
    run = Talk(program, folder)
    for each in words:
        yield expect(f"{each[0]} beside a run", program.run(*each), UNOPENED)
    yield expect("the run ends", run.end(), (b"", 0))
    handle = held(program, folder)
    child = subprocess.Popen([program.path, "wait", str(SECONDS), "set", folder, "0:A", "v", "dword", "9"], cwd=program.home,
                             stdout=subprocess.PIPE)
    os.close(handle)
    yield expect("a writer that waits", (child.communicate(timeout=SECONDS)[0], child.returncode), replies(["committed 2"]))


def files_of(program, folder):
    return {name: bytes_of(program, folder, name) for name in os.listdir(program.at(folder))}


def moved(program):
    """A store is moved while a run has it, and a copy of before is put at its path, as a backup is restored."""
    folder = made(program, "store", 2)
    yield wrong_run(program, folder, ["create 0:First"], ["opened 0", "created 1 accepted 1"])
    for name in [name for name in os.listdir(program.at(folder)) if name.endswith(".log")]:
        os.remove(program.at(folder, name))
    backup = shutil.copytree(program.at(folder), program.at("backup"))
    talk = Talk(program, folder)
    yield expect("a change", talk.ask("create 0:Forgotten"), "created 1 accepted 2")
    yield expect("a change of another hive", talk.ask("create 1:Forgotten"), "created 1 accepted 3")
    yield expect("they are durable", talk.ask("flush"), "flushed 3")
    os.rename(program.at(folder), program.at("away"))
    os.rename(backup, program.at(folder))
    yield expect("a commit at the path", program.run("set", folder, "0:Kept", "v", "dword", "1"), replies(["committed 2"]))
    before = files_of(program, folder)
    yield expect("the forgotten run", talk.end(), (b"E13 DiskFault\n", 1))
    after = files_of(program, folder)
    yield expect("the other store's files", [name for name in sorted(before | after) if before.get(name) != after.get(name)], [])
    yield expect("the other store's change", program.run("get", folder, "0:Kept", "v"), replies(["dword 1"]))
    yield wrong_run(program, "away", ["keys 0:", "keys 1:"], ["opened 3", "keys 2 First Forgotten", "keys 1 Forgotten"])
    # the same without another folder at the path; it may have opened its logs before
    talk = Talk(program, "away")
    yield expect("a change before the folder goes", talk.ask("create 1:Last"), "created 1 accepted 4")
    yield expect("it is durable", talk.ask("flush"), "flushed 4")
    os.rename(program.at("away"), program.at("farther"))
    talk.end()
    yield expect("what is at the path", os.path.exists(program.at("away")), False)
    yield wrong_run(program, "farther", ["keys 1:"], ["opened 4", "keys 2 Forgotten Last"])


def main():
    if len(sys.argv) != 2:
        sys.exit(__doc__)
    counts = []
    for title, results in {"input": inputs, "typed": typed, "readers": readers, "moved": moved}.items():
        with program_at(sys.argv[1], "shared-stores-") as program:
            counts.append(tell(title, list(results(program))))
    finish(counts)


main()
