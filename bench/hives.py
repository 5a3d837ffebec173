"""Hives of a size that the programs of bench/ read: keys in a tree of fan-out 10, each with three values, or subkeys of one key. The
built program makes them, or runs/hives/maker.py, for which no tree weighs too much.
"""
import os
import shutil
import struct
import subprocess
import sys

import measured

sys.path.append(os.path.join(measured.TOP, "runs", "hives"))
from maker import Key, Value, hive, mended  # noqa: E402

HEAD, BIN_HEAD, ID = 4_096, 32, "00000000-0000-0000-0000-000000000000"
# the bytes of a key's largest value, what such a key takes of the file, and how many keys weigh no more than a tree may
CONTENTS = [(600, 870, 13_000), (6_000, 6_280, 2_500)]
# where a key at offset 0 of the bins has its parent's offset in the file
PARENT = HEAD + 4 + 16


def lines(keys, largest):
    """The script that makes so many keys, whose largest value has so many bytes."""
    for number in range(keys):
        place = "0:" + "\\".join("k" + digit for digit in str(number + 1))
        yield f"create {place}"
        for size in (4, 40, largest):
            data = bytes((number + at) % 251 for at in range(size))
            yield f"set {place} value{size} {4 if size == 4 else 3} {data.hex()}"


def made(program, folder, size, content):
    """The path of a hive of about so many bytes, and its number of keys."""
    largest, key_bytes, most = content
    keys, path, store, script = min(size // key_bytes, most), f"{folder}/{size}.dat", f"{folder}/store", f"{folder}/script"
    with open(script, "w", encoding="ascii") as file:
        file.writelines(line + "\n" for line in lines(keys, largest))
    for words in (["new", store, ID, "1"], ["run", store, script]):
        subprocess.run([program, *words], stdout=subprocess.DEVNULL, check=True)
    with open(f"{store}/hive00.dat", "rb") as file:
        hive = padded(file.read(), size)
    shutil.rmtree(store)
    with open(path, "wb") as file:
        file.write(hive)
    return path, keys


def padded(hive, size):
    """The hive's file with a last bin of one free cell, if it has less than so many bytes."""
    left = (size - len(hive)) // HEAD * HEAD
    if left <= 0:
        return hive
    at = len(hive) - HEAD
    free = struct.pack("<4sII20xI", b"hbin", at, left, left - BIN_HEAD)
    return mended(hive[:40] + struct.pack("<I", at + left) + hive[44:]) + free + bytes(left - len(free))


def tree(keys):
    """The file of a hive with so many keys below its root, in a tree of fan-out 10."""
    root, nodes, parents = Key("root"), [], {}
    for number in range(keys):
        values = [Value(f"value{size}", 4 if size == 4 else 3, bytes((number + at) % 251 for at in range(size))) for size in (4, 40, 600)]
        nodes.append(Key(f"k{number}", values=values))
        parent = nodes[number // 10 - 1] if number >= 10 else root
        parent.keys.append(nodes[number])
        parents[f"k{number}"] = parent.name
    return with_parents(root, parents)


def flat(keys):
    """The file of a hive with so many subkeys of one key, each with a value of 4 bytes; their names are in no order."""
    names = [f"k{number * 7_919 % 100_003}" for number in range(keys)]
    subkeys = [Key(name, values=[Value("value", 4, number.to_bytes(4, "little"))]) for number, name in enumerate(names)]
    parents = {**dict.fromkeys(names, "parent"), "parent": "root"}
    return with_parents(Key("root", keys=[Key("parent", keys=subkeys, many=500)]), parents)


def with_parents(root, parents):
    """The file of a tree whose keys have the offsets of their parents: this project's programs read none, and libhivex does."""
    file, places = hive(root)
    file = bytearray(file)
    for name, parent in parents.items():
        struct.pack_into("<I", file, PARENT + places[name], places[parent])
    return file
