#!/usr/bin/env python3
"""Reads one hive of stores by `get`, `ls` and `get-raw`, and the outcomes of commits by `kept`:

    tests/store_reads.py PROGRAM [SEED]

No read changes a file. What is wanted comes from scripts that were run, or from `run`, which opens all hives.

- each: every one of 16 hives, and hives that calls don't name.
- beside: each file of a store spoiled or missing in turn. What needs it is refused with its cause, and all else is read as before.
- pending: changes of the journal that no hive has yet, of the asked hive and of others, and what a hive lacks that is behind another.
- cuts: stores as power cuts leave them: each hive is read as `run` opens it in a copy, a half-written one by its log.
- kept: outcomes of commits beside spoiled hives, also pending ones; stores that keep none.
- memory: each allocation refused in turn: nothing but that is printed.
- devices: files that can't be read, and replies that can't be written.

The seed is printed. The last line is 'N passed, N failed', and the status is 0 if none failed.
"""
import os
import random
import sys
import uuid
from concurrent.futures import ThreadPoolExecutor

TOP = os.path.dirname(os.path.dirname(os.path.abspath(__file__)))
sys.dont_write_bytecode = True
sys.path[:0] = [os.path.join(TOP, "tests"), os.path.join(TOP, "runs", "hives")]
import power_cuts  # noqa: E402
from file_stores import Stores  # noqa: E402
from maker import mended, u32  # noqa: E402
from scratch import as_other, expect, finish, noting_library, program_at, refusal_shim, tell  # noqa: E402

ID = "00112233-4455-6677-8899-aabbccddeeff"
HIVES, OUTCOMES, MOST = 3, 3, 16
NAMES = ["a", "b", "c"]
MOST_STATES, LIVES = 120, 6
NOT_FOUND, DAMAGED = (b"E2 NotFound\n", 1), (b"E16 JournalDamaged\n", 1)


def new(stores, folder, hives, *lines):
    """A new store in which these lines were run: its files."""
    assert stores.program.run("new", folder, ID, str(hives)) == (b"ok\n", 0)
    ran(stores.program, folder, *lines)
    return stores.files(folder)


def ran(program, folder, *lines):
    program.put("script", "".join(f"{line}\n" for line in ["at 7", *lines]).encode())
    printed, status = program.run("run", folder, "script")
    assert status == 0, printed


def in_each(hives):
    """Lines that write a value of the hive's own into a key of each."""
    return [line for hive in range(hives) for line in (f"create {hive}:K", f"set {hive}:K v 3 {hive:02x}")]


def binary(data):
    """How a value of these hexadecimal bytes is printed."""
    return (f"hex {data}\n".encode(), 0)


def asked(stores, files, *words):
    """What a read prints, and its status; or that it changed a file."""
    printed, status, is_same = stores.ask(files, *words)
    return (printed, status) if is_same else (b"a file was changed", printed, status)


def each(stores):
    lines = [line for hive in range(MOST) for line in (f"create {hive}:K", f"set {hive}:K v 3 {hive:02x}ff")]
    files, results = new(stores, "each", MOST, *lines), []
    for hive in range(MOST):
        results.append(expect(f"get {hive}", asked(stores, files, "get", f"{hive}:K", "v"), binary(f"{hive:02x}ff")))
        results.append(expect(f"get-raw {hive}", asked(stores, files, "get-raw", f"{hive}:K", "v"), (bytes([hive, 255]), 0)))
        results.append(expect(f"ls {hive}", asked(stores, files, "ls", f"{hive}:"), (b"key K\n", 0)))
        results.append(expect(f"ls {hive}:K", asked(stores, files, "ls", f"{hive}:k"), (f"value v hex {hive:02x}ff\n".encode(), 0)))
    small = new(stores, "small", 2, "set 1: v 3 00")
    for words in [("get", "2:", "v"), ("ls", "2:"), ("get", "255:", "v"), ("get", "0:None", "v"), ("get", "1:", "w"), ("ls", "1:None")]:
        results.append(expect(" ".join(words), asked(stores, small, *words), NOT_FOUND))
    return tell("each", results)


def spoils(files, name):
    """A hive's two files by which an opening refuses the hive, each with what is told of it."""
    number, file, log = int(name[4:6]), files[name], name.replace(".dat", ".log")
    for cause, content in [("Truncated", file[:4_200]), ("BadBin", file[:4_096] + b"bins" + file[4_100:]), ("BadLog", mended(file[:4] + u32(99) + file[8:])),
                           ("BadStore", mended(file[:176] + bytes(16) + file[192:])), ("BadLog", b"")]:
        yield {name: content, log: b""}, f"E15 HiveDamaged {number} {cause}\n".encode()
    yield {name: mended(file[:24] + u32(6) + file[28:])}, b"E17 Unsupported\n"


def beside(stores):
    files, results = new(stores, "beside", HIVES, *in_each(HIVES), "flush"), []
    for spoiled in range(HIVES + 1):
        name = f"hive{spoiled:02}.dat"
        for spoiled_files, refusal in spoils(files, name):
            changed, title = {**files, **spoiled_files}, f"{name}, {refusal}"
            results.append(expect(f"{title}, all", stores.open(changed, b"at 1\n")[:2], (refusal, 1)))
            for hive in range(HIVES):
                wanted = (refusal, 1) if hive == spoiled else binary(f"{hive:02x}")
                results.append(expect(f"{title}, get {hive}", asked(stores, changed, "get", f"{hive}:K", "v"), wanted))
            results.append(expect(f"{title}, ls of none", asked(stores, changed, "ls", f"{HIVES}:"), NOT_FOUND))
        gone = {other: content for other, content in files.items() if other[:6] != name[:6]}
        for hive in range(HIVES):
            wanted = (f"E15 HiveDamaged {hive} BadLog\n".encode(), 1) if hive == spoiled else (f"value v hex {hive:02x}\n".encode(), 0)
            results.append(expect(f"without {name}, {hive}", asked(stores, gone, "ls", f"{hive}:K"), wanted))
    journal = files["journal"]
    for title, content in [("letters", b"x" + journal[1:]), ("cut", journal[:40]), ("hives", journal[:24] + u32(17) + journal[28:])]:
        for hive in range(HIVES + 1):
            results.append(expect(f"journal, {title}, {hive}", asked(stores, {**files, "journal": content}, "get", f"{hive}:K", "v"), DAMAGED))
        # the journal is told first
        both = {**files, "journal": content, "hive01.dat": files["hive01.dat"][:4_200]}
        results.append(expect(f"journal, {title}, and a hive", asked(stores, both, "ls", "1:"), DAMAGED))
    return tell("beside", results)


def journaled(stores, folder, *lines):
    """The files of a store whose last run was cut off once its lines were durable, before any hive took them in."""
    program, before = stores.program, stores.files(folder)
    program.put("script", "".join(f"{line}\n" for line in ["at 8", *lines]).encode())
    printed, status, calls = power_cuts.traced(program, noting_library(program), "run", folder, "script")
    assert status == 0, printed
    first = next((at for at, call in enumerate(calls) if call.name.startswith("hive") and call.verb != "sync"), len(calls))
    return power_cuts.after(before, calls[:first])


def pending(stores):
    program, results = stores.program, []
    new(stores, "pending", HIVES, *in_each(HIVES), "flush")
    lines = ["set 1:K v 3 aa", "create 1:N\\M", "set 2:K w 3 bb", "set 1:K u 3 cc", "unset 2:K v"]
    files = journaled(stores, "pending", *lines)
    for hive, words, wanted in [(0, ("get", "0:K", "v"), binary("00")), (1, ("get", "1:K", "v"), binary("aa")), (1, ("get", "1:K", "u"), binary("cc")),
                                (1, ("ls", "1:"), (b"key K\nkey N\n", 0)), (1, ("ls", "1:N"), (b"key M\n", 0)), (2, ("get", "2:K", "v"), NOT_FOUND),
                                (2, ("ls", "2:K"), (b"value w hex bb\n", 0))]:
        results.append(expect(f"{words}", asked(stores, files, *words), wanted))
        for spoiled in range(HIVES + 1):
            changed = {**files, f"hive{spoiled:02}.dat": b""}
            if spoiled != hive:
                results.append(expect(f"{words} beside {spoiled}", asked(stores, changed, *words), wanted))
    # a number above that of the journal's last change: the hive of one store of this id, the journal of another
    ran(program, "pending", "set 1:K v 3 dd")
    ahead = {**files, "hive01.dat": stores.files("pending")["hive01.dat"]}
    results.append(expect("a hive ahead", asked(stores, ahead, "get", "1:K", "v"), (b"E15 HiveDamaged 1 BadStore\n", 1)))
    results.append(expect("beside a hive ahead", asked(stores, ahead, "get", "2:K", "w"), binary("bb")))
    # a change that isn't legal on the asked hive's tree, and one that isn't on another's
    other = new(stores, "other", HIVES)
    wrong = {**files, "hive02.dat": other["hive02.dat"]}
    results.append(expect("illegal changes", asked(stores, wrong, "get", "2:K", "w"), DAMAGED))
    results.append(expect("beside illegal changes", asked(stores, wrong, "get", "1:K", "v"), binary("aa")))
    return tell("pending", results)


def some_lines(chances):
    """Lines of a script by chance."""
    for _ in range(chances.randint(1, 12)):
        hive, name = chances.randrange(HIVES), chances.choice(NAMES)
        kind = chances.random()
        if kind < 0.6:
            yield f"set {hive}: {name} 3 {chances.randbytes(chances.choice([1, 4, 40, 3_000])).hex()}"
        elif kind < 0.8:
            yield f"create {hive}:{chances.choice(NAMES)}{chances.randrange(40)}"
        elif kind < 0.9:
            yield "flush"
        else:
            label, unit = f"t{chances.randrange(1 << 30)}", uuid.UUID(int=chances.getrandbits(128))
            yield f"begin {label} {unit}"
            for other in range(HIVES):
                yield f"tx {label} set {other}: {name} 3 {chances.randbytes(6).hex()}"
            yield f"commit {label}"
            yield f"close {label}"


def opened(stores, files, hive):
    """What `ls` prints of a hive's root if a run that opens all of the store finds this there."""
    script = f"keys {hive}:\nvalues {hive}:\n" + "".join(f"get {hive}: {name}\n" for name in NAMES)
    printed, status, _ = stores.open(files, script.encode())
    first, *replies = printed.decode().splitlines()
    if not first.startswith("opened "):
        return printed, status
    lines = [f"key {name}\n" for name in replies[0].split(" ")[2:]]
    lines += [f"value {name} hex {told.split(' ')[2]}\n" for name, told in zip(NAMES, replies[2:]) if told.startswith("value 3 ")]
    return "".join(lines).encode(), 0


def wrong_state(stores, title, files):
    """What is wrong with the reads of each hive of a store that a power cut left."""
    for hive in range(HIVES):
        wrong = expect(f"{title}, hive {hive}", asked(stores, files, "ls", f"{hive}:"), opened(stores, files, hive))
        if wrong:
            return wrong
    return None


def cuts(stores, seed):
    program, chances, results = stores.program, random.Random(seed), []
    library = noting_library(program)
    new(stores, "cuts", HIVES)
    for life in range(LIVES):
        before = stores.files("cuts")
        program.put("lines", "".join(f"{line}\n" for line in ["at 9", *some_lines(chances)]).encode())
        printed, status, calls = power_cuts.traced(program, library, "run", "cuts", "lines")
        states = list(power_cuts.states(before, calls))
        chosen = chances.sample(states, min(MOST_STATES, len(states)))
        with ThreadPoolExecutor(max_workers=os.cpu_count()) as pool:
            results += pool.map(lambda it: wrong_state(stores, f"seed {seed}, life {life}, {it[0]}", it[1]), chosen)
        unclean = sum(files[name][4:8] != files[name][8:12] for _, files, _ in chosen for name in files if name.endswith(".dat"))
        results.append(None if unclean else f"life {life}: no half-written hive in {len(chosen)} states")
    return tell("cuts", results)


def kept(stores):
    results, units = [], [str(uuid.UUID(int=at)) for at in range(1, 4)]
    commits = [line for at, unit in enumerate(units[:2]) for line in (f"begin t {unit}", f"tx t set {at}: v 3 0{at}", "commit t", "close t")]
    files = new(stores, "kept", HIVES, *commits, "flush")
    later = journaled(stores, "kept", f"begin t {units[2]}", "tx t set 0: w 3 07", "commit t", "close t")
    for title, its, numbers in [("at rest", files, [1, 2, None]), ("pending", later, [1, 2, 3])]:
        for spoiled in [None, 0, 1, 2]:
            changed = its if spoiled is None else {**its, f"hive{spoiled:02}.dat": b"regf"}
            for unit, number in zip(units, numbers):
                wanted = (f"committed {number}\n".encode(), 0) if number else (b"E2 NotFound\n", 3)
                results.append(expect(f"{title}, {spoiled}, {number}", asked(stores, changed, "kept", unit), wanted))
        gone = {**its, f"hive{OUTCOMES:02}.dat": its["hive00.dat"]}
        results.append(expect(f"{title}, no outcomes", asked(stores, gone, "kept", units[0]), (f"E15 HiveDamaged {OUTCOMES} BadStore\n".encode(), 1)))
        cut = {**its, f"hive{OUTCOMES:02}.dat": its[f"hive{OUTCOMES:02}.dat"][:5_000]}
        results.append(expect(f"{title}, cut", asked(stores, cut, "kept", units[0]), (f"E15 HiveDamaged {OUTCOMES} Truncated\n".encode(), 1)))
        results.append(expect(f"{title}, the journal", asked(stores, {**its, "journal": b""}, "kept", units[0]), DAMAGED))
    alone = {**files, "journal": files["journal"].replace(b"KTMJRNL2", b"KTMJRNL1", 1)}
    results.append(expect("no outcomes", asked(stores, alone, "kept", units[0]), (b"E17 Unsupported\n", 1)))
    return tell("kept", results)


def memory(stores):
    program, shim, results = stores.program, refusal_shim(), []
    report, unit = program.at("report"), str(uuid.UUID(int=9))
    new(stores, "memory", 2, "create 0:K", "set 0:K v 3 " + "ab" * 20_000, "flush")
    files = journaled(stores, "memory", "set 0:K w 3 01", f"begin t {unit}", "tx t set 1: v 3 00", "commit t", "close t")
    for name in stores.files("memory"):
        os.remove(program.at("memory", name))
    for name, content in files.items():
        program.put(os.path.join("memory", name), content)
    for words in [("get", "memory", "0:K", "v"), ("get-raw", "memory", "0:K", "w"), ("ls", "memory", "0:K"), ("kept", "memory", unit)]:
        wanted = program.run(*words)
        results.append(expect(f"{words[0]}", wanted[1], 0))
        for number in range(1, 3_000):
            told = program.run(*words, environment={"LD_PRELOAD": shim, "FAILALLOC_AT": str(number), "FAILALLOC_REPORT": report})
            with open(report, encoding="ascii") as file:
                if "refused=0" in file.read():
                    results.append(expect(f"{words[0]}, no allocation refused", told, wanted))
                    break
            if told != wanted:
                results.append(expect(f"{words[0]}, allocation {number}", told, (b"E1 NoMemory\n", 1)))
        else:
            results.append(f"{words[0]}: each allocation was refused")
    results.append(expect("the files", stores.files("memory") == files, True))
    return tell("memory", results)


def devices(stores):
    program, results = stores.program, []
    new(stores, "devices", 2, "set 0: v 3 01", "set 1: v 3 02")
    for words in [("get", "devices", "0:", "v"), ("get", "devices", "0:", "w"), ("ls", "devices", "1:"), ("kept", "devices", ID)]:
        results.append(expect(f"{words[0]}, a full device", program.status_to("/dev/full", *words), 1))
    for name, hive in [("hive00.dat", 0), ("hive01.dat", 1)]:
        path = program.at("devices", name)
        os.chmod(path, 0)
        told = program.run("get", "devices", f"{hive}:", "v", **as_other())
        results.append(expect(f"{name} of others", told[1], 1))
        os.chmod(path, 0o644)
    return tell("devices", results)


def main():
    seed = int(sys.argv[2]) if len(sys.argv) > 2 else random.randrange(1 << 30)
    print(f"seed {seed}")
    with program_at(sys.argv[1], "regtx-reads-") as program:
        stores = Stores(program)
        finish([each(stores), beside(stores), pending(stores), cuts(stores, seed), kept(stores), memory(stores), devices(stores)])


main()
