"""Hives of version 1.3 that programs of others write, and how a built program reads and changes them.

Each gets a hive of a root alone, and writes keys and values into it; samba's library also makes one of nothing. What three of them wrote
is in runs/hives.
"""
import glob
import gzip
import os
import shutil
import subprocess
import sys

from edit_model import Node
from maker import Key, free_bin, hive, imported
from other_readers import READERS_OF_PLAIN, wrong_reading
from reader import read, wrong_tree
from scratch import TOP, expect

MINOR, HEAD, BINARY = 3, 4_096, 3
SAMBA = (glob.glob("/usr/lib/*/samba/libregistry-samba4.so.0") or [None])[0]
LARGE = bytes(at * 7 % 251 for at in range(20_000))
# paths with their values, those above first; names in their order
KEYS = {"Software": [], "Software\\Vendor": [("bytes", 3, bytes(range(60))), ("Number", 4, b"\x10\0\0\0"), ("Text", 1, "a text\0")],
        "Software\\Vendor\\Sub": [], "System": [("Select", 4, b"\1\0\0\0"), ("x", 3, bytes(1_000))]}
WITH_LARGE = {**KEYS, "Zeta": [("large", 3, LARGE)]}


def data_of(data):
    return data.encode("utf-16-le") if isinstance(data, str) else data


def registration(keys):
    """The keys as a registration file."""
    lines = ["Windows Registry Editor Version 5.00", ""]
    for path, values in keys.items():
        lines.append(f"[HKEY_X\\{path}]")
        for name, kind, data in values:
            spelled = {1: lambda: f'"{data[:-1]}"', 4: lambda: f"dword:{int.from_bytes(data, 'little'):08x}",
                       3: lambda: "hex:" + ",".join(f"{byte:02x}" for byte in data)}[kind]()
            lines.append(f'"{name}"={spelled}')
        lines.append("")
    return lines


def by_hivexregedit(path, keys):
    with open(f"{path}.reg", "w", encoding="ascii") as file:
        file.write("\n".join(registration(keys)) + "\n")
    run(["hivexregedit", "--merge", path, f"{path}.reg", "--prefix", "HKEY_X"])


def by_reged(path, keys):
    with open(f"{path}.reg", "w", encoding="ascii", newline="") as file:
        file.write("\r\n".join(registration(keys)) + "\r\n")
    # its status is 2 if it has changed the hive
    run(["reged", "-C", "-I", path, "HKEY_X", f"{path}.reg"], 2)


def by_hivexsh(path, keys):
    """It takes lines of 1,000 characters at most."""
    lines = []
    for place, values in keys.items():
        above, _, name = place.rpartition("\\")
        lines += [f"cd \\{above}", f"add {name}", f"cd {name}", f"setval {len(values)}"]
        for value, kind, data in values:
            spelled = "hex:3:" + ",".join(f"{byte:02x}" for byte in data[:300]) if kind == BINARY else {
                1: f"string:{data[:-1]}", 4: f"dword:{int.from_bytes(data_of(data), 'little')}"}[kind]
            lines += [value, spelled]
    run(["hivexsh", "-w", path], text="\n".join([*lines, "commit", ""]))


def by_samba(path, keys, how="edit"):
    lines = []
    for place, values in keys.items():
        lines += [place, *["\t".join([place, name, str(kind), data_of(data).hex()]) for name, kind, data in values]]
    run([sys.executable, os.path.join(TOP, "tests", "samba_hive.py"), how, path, SAMBA], text="\n".join(lines) + "\n")


def run(words, status=0, text=""):
    ended = subprocess.run(words, input=text.encode(), stdout=subprocess.DEVNULL, stderr=subprocess.PIPE)
    if ended.returncode != status:
        raise SystemExit(f"{words[0]}: status {ended.returncode}: {ended.stderr.decode(errors='replace')[-300:]}")


SHORT = {**KEYS, "System": [("Select", 4, b"\1\0\0\0"), ("x", 3, bytes(300))]}
# the program, what it writes, and what it makes a hive have
ALL_WRITERS = {"hivexregedit": (by_hivexregedit, WITH_LARGE), "reged": (by_reged, KEYS), "hivexsh": (by_hivexsh, SHORT),
               "samba": (by_samba, KEYS)}
WRITERS = {name: how for name, how in ALL_WRITERS.items() if (SAMBA if name == "samba" else shutil.which(name))}
LACKING = [name for name in ALL_WRITERS if name not in WRITERS]


# files of runs/hives, written so
HELD = {"hivex-1.3": WITH_LARGE, "reged-1.3": KEYS, "samba-1.3": KEYS}


def model(keys):
    """What tests/other_readers.py has of a hive with these keys."""
    paths = {(), *(tuple(path.split("\\")) for path in keys)}
    return paths, {(tuple(path.split("\\")), name): data if kind == BINARY else None for path, values in keys.items()
                   for name, kind, data in values}


def lines_of(keys):
    """The lines of a dump of a hive with these keys, without times."""
    lines = ["hive 0", "key 0:"]
    for path, values in keys.items():
        lines += [f"key 0:{path}", *[f"val {name} {kind} {data_of(data).hex()}" for name, kind, data in values]]
    return lines


def base(program, name):
    """The path of a hive of a root alone, of version 1.3."""
    program.put(name, hive(Key("ROOT", 5, flags=4, descriptor=b"\1\0\4\x80" + bytes(16)), minor=MINOR)[0])
    return program.at(name)


def wrong_hives(program, identity):
    """What is wrong with each hive that is held, and with each of a program that is there."""
    for name, keys in HELD.items():
        with gzip.open(os.path.join(TOP, "runs", "hives", f"{name}.hive.gz")) as file:
            program.put(f"{name}.dat", file.read())
        yield from wrong_hive(program, f"runs/hives/{name}", f"{name}.dat", keys, identity)
    for name, (writes, keys) in WRITERS.items():
        path = base(program, f"{name}.dat")
        writes(path, keys)
        yield from wrong_hive(program, name, f"{name}.dat", keys, identity)
    if "samba" in WRITERS:
        yield from of_nothing(program, identity)
    if "reged" in WRITERS:
        yield from split(program, identity)


def wrong_hive(program, title, name, keys, identity):
    """What is wrong with the dump of a hive with these keys, with its import, and with it after a first flush."""
    with open(program.at(name), "rb") as file:
        content = file.read()
    yield expect(f"{title}: version", content[24], MINOR)
    printed, status = program.run("dump", name)
    found = [line.rpartition(" ")[0] if line.startswith("key ") else line for line in printed.decode().splitlines()]
    yield expect(f"{title}: dump", (found, status), (lines_of(keys), 0))
    for reader in READERS_OF_PLAIN:
        yield expect(f"{title}: {reader.__name__}", reader(program.at(name)), model(keys))
    folder, store = f"{name}-store", bytes.fromhex(identity.replace("-", ""))
    yield expect(f"{title}: import", program.run("import", folder, identity, name), (b"ok\n", 0))
    with open(program.at(folder, "hive00.dat"), "rb") as file:
        yield expect(f"{title}: imported", file.read() == imported(content, store), True)
    root, flushed = Node.of_row(read(content)), program.at(folder, "hive00.dat")
    root.key(["System"]).set(9, "new", BINARY, LARGE)
    program.put("script", f"at 9\nset 0:System new {BINARY} {LARGE.hex()}\n".encode())
    yield expect(f"{title}: a run", program.run("run", folder, "script"), (b"opened 0\nok\naccepted 1\n", 0))
    with open(flushed, "rb") as file:
        wrong = wrong_tree(file.read(), root.row())
    yield f"{title}, flushed: {wrong}" if wrong else wrong_reading(flushed, root)


def of_nothing(program, identity):
    """A hive that samba made of nothing: its block counts a page more than it writes, so that it is cut off as it stands."""
    by_samba(program.at("new.dat"), KEYS, "new")
    yield expect("samba, of nothing", program.run("dump", "new.dat"), (b"E15 HiveDamaged 0 Truncated\n", 1))
    with open(program.at("new.dat"), "rb") as file:
        content = file.read()
    program.put("new.dat", content + free_bin(len(content) - HEAD, 4_096))
    yield from wrong_hive(program, "samba, of nothing, and a free bin", "new.dat", KEYS, identity)


def split(program, identity):
    """A hive with large data that reged wrote: it knows no versions, and writes a record of big data, which is too short for data."""
    by_reged(base(program, "split.dat"), WITH_LARGE)
    yield expect("reged, large data", program.run("import", "split", identity, "split.dat"), (b"E15 HiveDamaged 0 BadRecord\n", 1))
