#!/usr/bin/env python3
"""Counts the looks at cells that loads of hives take, with the built program `trials`:

    tests/looks.py TRIALS

Files are made by runs/hives/maker.py. A load looks at most four times at each allocated cell, and four times more, however often
lists, keys and values name a cell. The last line is 'N passed, N failed', and the status is 0 if none failed.
"""
import os
import struct
import sys

TOP = os.path.dirname(os.path.dirname(os.path.abspath(__file__)))
sys.dont_write_bytecode = True
sys.path[:0] = [os.path.join(TOP, "tests"), os.path.join(TOP, "runs", "hives")]
from cases import number, offsets, patched, values_of  # noqa: E402
from maker import Key, Value, hive, u32  # noqa: E402
from scratch import finish, program_at, shown, tell  # noqa: E402

LOADED, SHARED, BAD_LIST = "loaded", "E15 HiveDamaged 0 Shared", "E15 HiveDamaged 0 BadList"
# so many values, each with a cell of its record and one of its data
MANY = 50_000


def many_values():
    return [Value(f"{number:05}", 3, b"five!") for number in range(MANY)]


def looped():
    """A key whose subkeys' list of lists is to name itself."""
    return Key("looped", 0, [Key("below")], many=1)


def named_by_itself(keys):
    """A hive of these keys, the one of which has a list of lists that names itself."""
    file, places = hive(Key("r", 0, keys))
    first = offsets(file, places["looped"])
    return patched(file, first + 4, u32(first - 4))


def hives():
    """Hives with how their load ends, and how many looks it takes at least."""
    full = Key("full", 0, [], many_values())
    yield "100,000 cells in use", hive(Key("r", 0, [full, Key("other")]))[0], [LOADED], 2 * MANY
    # keys are loaded in the order of their list, or against it: in one of these two all values come first
    yield "a list in itself, of the first key", named_by_itself([looped(), full]), [BAD_LIST, SHARED], 0
    yield "a list in itself, of the last key", named_by_itself([full, looped()]), [BAD_LIST, SHARED], 0
    file, places = hive(Key("r", 0, [Key(f"{number:05}") for number in range(20_000)], leaf=b"li"))
    first, key = offsets(file, places["r"]), places["00000"]
    yield "20,000 subkeys that are one", patched(file, first + 4, u32(key) * 20_000), [SHARED], 0
    yield "20,000 subkeys that are the root", patched(file, first + 4, u32(places["r"]) * 20_000), [SHARED], 0
    file, places = hive(Key("r", 0, [Key(f"{number:05}") for number in range(20_000)], many=1))
    above = offsets(file, places["r"])
    yield "20,000 lists that are one", patched(file, above + 4, u32(number(file, above + 4)) * 20_000), [SHARED], 0
    yield "20,000 lists that are theirs", patched(file, above + 4, u32(above - 4) * 20_000), [BAD_LIST, SHARED], 0
    file, places = hive(Key("r", 0, [], many_values()))
    yield "values that are one", patched(file, values_of(file, places["r"]), u32(number(file, values_of(file, places["r"]))) * MANY), [SHARED], 0
    file, places = hive(Key("r", 0, [], [Value("v", 3, bytes(1_048_576))]))
    record = number(file, number(file, values_of(file, places["r"])) + 4 + 8) + 4
    segments = number(file, record + 4) + 4
    yield "segments that are one", patched(file, segments, u32(number(file, segments)) * 65), [SHARED], 0
    keys = [Key(f"{number:05}", 0, [], [], 0, b"descriptor") for number in range(20_000)]
    yield "a descriptor of 20,000 keys", hive(Key("r", 0, keys, many=500))[0], [LOADED], 20_000


def cells(file):
    """How many cells of a hive's bins data are allocated."""
    bins, at, count = file[4_096:], 0, 0
    while at < len(bins):
        end = at + struct.unpack_from("<I", bins, at + 8)[0]
        at += 32
        while at < end:
            size = struct.unpack_from("<i", bins, at)[0]
            at, count = at + abs(size), count + (size < 0)
    return count


def results(program):
    """What is wrong with each load, and whether a hive with a list in itself has its other cells looked at."""
    most = 0
    for title, file, endings, least in hives():
        printed, status = program.run("looks", program.put("hive", file))
        taken, _, ending = printed.decode().rstrip("\n").partition(" ")
        held = cells(file)
        is_right = status == 0 and ending in endings and least <= int(taken) <= 4 * held + 4
        yield None if is_right else f"{title}, {held} cells: {shown(printed)}, status {status}"
        if title.startswith("a list in itself"):
            most = max(most, int(taken))
    yield None if most >= 2 * MANY else f"a list in itself beside 100,000 cells in use: {most} looks"


def main():
    if len(sys.argv) != 2:
        sys.exit(__doc__)
    with program_at(sys.argv[1], "looks-") as program:
        finish([tell("looks", list(results(program)))])


main()
