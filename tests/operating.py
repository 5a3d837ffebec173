#!/usr/bin/env python3
"""Carries out the commands of docs/OPERATING.md, in their order and in one shell, and compares what they print:

    tests/operating.py PROGRAM

- session: each command of the page. What is begun in the background is waited for.
- ill: what the page says of a server that isn't well: no server, no place, a store that is served, a damaged copy, a disk that is full.
- upgraded: new files of the program under a server that goes on with the old ones, and a store of an earlier version.
- denied: a permission that is missing, at the start and amid the service: the log names the file.

The last line is 'N passed, N failed'; status 0 if none failed.
"""
import os
import re
import shutil
import subprocess
import sys

TOP = os.path.dirname(os.path.dirname(os.path.abspath(__file__)))
sys.dont_write_bytecode = True
sys.path.insert(0, os.path.join(TOP, "tests"))
from broker_build import built  # noqa: E402
from scratch import NOBODY, as_other, expect, finish, mounted, program_at, skip, tell  # noqa: E402
from served_store import ID, broker_in, served, short_folder  # noqa: E402

PAGE = os.path.join(TOP, "docs", "OPERATING.md")
BLOCK = re.compile(r"^```\n(\$ .*?)^```$", re.MULTILINE | re.DOTALL)
SECONDS, MARK = 120, "-- command"
# a disk so full that a store of some kilobytes fits, and little more
ROOM, LARGE = 1 << 20, 400_000


def commands():
    """Each command of the page, with the lines that it prints."""
    with open(PAGE, encoding="utf-8") as file:
        lines = "".join(BLOCK.findall(file.read())).splitlines()
    found = []
    for line in lines:
        if line.startswith("$ "):
            found.append((line[2:], []))
        else:
            found[-1][1].append(line)
    return found


def environment(program):
    """The programs by their names."""
    folder = program.at("bin")
    if not os.path.exists(folder):
        os.mkdir(folder)
        for name, path in (("regtx", program.path), ("regtxd", broker_in(program)), ("regtxc", built("regtxc", program.home))):
            os.symlink(path, os.path.join(folder, name))
    return dict(os.environ, PATH=f"{folder}:{os.environ['PATH']}", LC_ALL="C.UTF-8")


def session(program):
    """The page's commands, as one shell carries them out."""
    place, shown = program.at("service"), commands()
    os.mkdir(place, 0o755)
    waits = {True: "until regtxc run/app.sock flush >/dev/null 2>&1; do sleep 0.05; done", False: ""}
    script = "\n".join(f"{command}\n{waits[command.endswith('&')]}\necho '{MARK}'" for command, _ in shown)
    ran = subprocess.run(["bash", "-mc", f"{script}\nkill %1; wait %1"], cwd=place, stdin=subprocess.DEVNULL, capture_output=True, text=True,
                         timeout=SECONDS, env=environment(program))
    told = [part.strip("\n").splitlines() for part in ran.stdout.split(f"{MARK}\n")]
    for (command, wanted), found in zip(shown, told):
        yield expect(command, found, wanted)
    yield expect("its end", (ran.returncode, len(told)), (0, len(shown) + 1))
    with open(os.path.join(place, "log"), encoding="utf-8") as file:
        log = file.read()
    yield expect("who came", bool(re.search(rf"^regtxd: place \d+: taken by process \d+ of user {os.geteuid()}$", log, re.MULTILINE)), True)
    yield expect("who went", "its session has ended\n" in log, True)
    # of one that was killed the broker tells nothing
    others = [line for line in log.splitlines() if not re.fullmatch(r"regtxd: place \d+: (?:taken by process \d+ of user \d+|its session has ended)", line)]
    yield expect("other lines", others, [])


def asked(program, path, *words):
    """What one who asks by `regtxc` is told, and the status."""
    ran = subprocess.run(["timeout", "60", os.path.join(program.at("bin"), "regtxc"), path, *words], stdin=subprocess.DEVNULL,
                         capture_output=True, text=True, timeout=SECONDS)
    return ran.stdout, ran.returncode


def ill(program):
    """Servers that aren't well, as the page tells them."""
    environment(program)
    yield expect("no server", asked(program, program.at("no-socket"), "flush"), ("", 1))
    # root's client takes a place of all, so that none is left for it
    with served(program, broker_in(program), "taken", "-n", "1") as it, it.lines():
        yield expect("no place", asked(program, it.path, "flush"), ("E10 NoSeat\n", 1))
        ran = program.run("check", it.store)
        yield expect("check of a store that is served", ran, (b"cannot open store\n", 1))
    os.mkdir(program.at("copies"))
    with served(program, broker_in(program), "copied", backups=program.at("copies")) as it:
        yield expect("a backup", asked(program, it.path, "backup", "one"), ("saved 0\n", 0))
    hive = program.at("copies", "one", "hive00.dat")
    with open(hive, "r+b") as file:
        file.seek(4_096)
        file.write(b"\xff" * 8)
    printed, status = program.run("check", program.at("copies", "one"))
    yield expect("a damaged copy", (status, b"whole" in printed.splitlines(), b"E15 HiveDamaged" in printed), (1, False, True))
    yield from full_disk(program)


def full_disk(program):
    """A disk that is full: writes are refused, reads go on; after a restart with room all is well, and what was acknowledged is there."""
    with mounted(program, ROOM) as folder:
        if folder is None:
            skip("ill", "no file system can be mounted")
            return
        with served(program, broker_in(program), "short", store=program.at(folder, "store")) as it:
            yield expect("a write", asked(program, it.path, "create", "0:A")[1], 0)
            yield expect("flush", asked(program, it.path, "flush"), ("flushed 1\n", 0))
            with open(program.at(folder, "filler"), "wb") as file:
                try:
                    file.write(b"\0" * ROOM)
                except OSError:
                    pass
            with it.lines() as connected:
                connected.ask(f"set 0:A v 3 {'00' * LARGE}")
                told, status = asked(program, it.path, "flush")
                yield expect("flush on a full disk", (told in ("E13 DiskFault\n", "E14 Faulted\n"), status), (True, 1))
                yield expect("a read of one who is connected", connected.ask("keys 0:"), "keys 1 A")
            yield expect("one who comes", asked(program, it.path, "keys", "0:"), ("E14 Faulted\n", 1))
            status, printed, told = it.end()
            yield expect("the stop", (status, "E13 DiskFault" in printed + told or "E14 Faulted" in printed + told), (1, True))
            os.remove(program.at(folder, "filler"))
            yield expect("with room", it.start(), "ready\n")
            yield expect("what was acknowledged", asked(program, it.path, "keys", "0:"), ("keys 1 A\n", 0))
            yield expect("flush with room", asked(program, it.path, "flush")[1], 0)
            # its program has to let go of the file system, too
            yield expect("the stop with room", it.end()[0], 0)


def runs(process):
    """The file of a process's program, which may be there no longer."""
    return os.readlink(f"/proc/{process}/exe")


def served_replies(program, store, *lines):
    """What a server of a store answers to lines, and its status."""
    with served(program, broker_in(program), f"{os.path.basename(store)}-served", store=store, make=False) as it:
        with it.lines() as connected:
            replies = [connected.ask(line) for line in lines]
        return replies, it.end()[0]


def upgraded(program):
    """The steps of an upgrade, with a copy of the program as the new one; and an upgrade of a store that keeps no outcomes."""
    new = program.at("new-regtx")
    with served(program, broker_in(program), "upgraded") as it:
        with it.lines() as connected:
            yield expect("a change by the old one", connected.ask("create 0:A", "flush"), ["created 1 accepted 1", "flushed 1"])
            shutil.copy(program.path, new)
            os.replace(new, program.path)
            yield expect("what is installed then", runs(it.server), f"{program.path} (deleted)")
            yield expect("the old one goes on", connected.ask("create 0:B", "flush"), ["created 1 accepted 2", "flushed 2"])
        yield expect("the stop", it.end(), (0, "", ""))
        yield expect("the start", (it.start(), runs(it.server)), ("ready\n", program.path))
        with it.lines() as connected:
            yield expect("what the new one has", connected.ask("keys 0:", "flush"), ["keys 2 A B", "flushed 2"])
    store = program.at("earlier")
    program.run("new", store, ID, "1")
    with open(os.path.join(store, "journal"), "r+b") as file:
        file.write(b"KTMJRNL1")
    os.remove(os.path.join(store, "hive01.dat"))
    told = served_replies(program, store, f"kept {ID}", "create 0:Old", "flush")
    yield expect("an earlier store", told, (["E17 Unsupported", "created 1 accepted 1", "flushed 1"], 0))
    yield expect("regtx upgrade", program.run("upgrade", store, program.at("later")), (b"ok\n", 0))
    told = served_replies(program, program.at("later"), f"kept {ID}", "keys 0:")
    yield expect("the store that it makes", told, (["E2 NotFound", "keys 1 Old"], 0))


def denied(program):
    """A file that may not be read, and a folder in which no log may be made."""
    other = as_other()
    with served(program, broker_in(program), "denied", start=False, **other) as it:
        hive, log = (os.path.join(it.store, f"hive00.{ending}") for ending in ("dat", "log"))
        for path in [it.home, it.store, *(os.path.join(it.store, name) for name in os.listdir(it.store))]:
            os.chown(path, *([NOBODY] * 2 if other else [-1, -1]))
        os.chmod(hive, 0)
        yield expect("a hive that may not be read", it.start(), "E13 DiskFault\n")
        yield expect("what its log says", it.wait(), (1, "", f"regtx: {hive}: Permission denied\n"))
        os.chmod(hive, 0o600)
        os.chmod(it.store, 0o555)
        yield expect("no log may be made", it.start(), "ready\n")
        with it.lines() as connected:
            yield expect("what goes into the journal", connected.ask("create 0:A", "flush"), ["created 1 accepted 1", "flushed 1"])
        yield expect("its stop", it.end(), (1, "E13 DiskFault\n", f"regtx: {log}: Permission denied\n"))
        os.chmod(it.store, 0o700)
        yield expect("with the permission", it.start(), "ready\n")
        with it.lines() as connected:
            yield expect("what was acknowledged", (connected.first, connected.ask("keys 0:")), ("opened 1", "keys 1 A"))
        yield expect("a good stop", it.end(), (0, "", ""))


def main():
    if len(sys.argv) != 2:
        sys.exit(__doc__)
    with program_at(sys.argv[1], "operating-", short_folder(None)) as program:
        finish([tell(part.__name__, list(part(program))) for part in (session, ill, upgraded, denied)])


main()
