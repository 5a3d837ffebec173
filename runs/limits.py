"""Prints runs at the limits, and one past them: too long to be kept as text."""
import os
import sys

sys.path.insert(0, os.path.join(os.path.dirname(os.path.dirname(os.path.abspath(__file__))), "tests"))
from transcript import write  # noqa: E402

MEBIBYTE = 1_048_576
ID = "00000000-0000-0000-0000-000000000001"


def path(names):
    """A path of so many names."""
    return "0:" + "\\".join(["k"] * names)


def data(count):
    """HEX of so many bytes."""
    return "a5" * count if count else "-"


def creations(levels):
    """Lines that create a key of so many levels, 32 at a time."""
    deep = range(32, levels + 1, 32)
    return [(f"create {path(count)}", f"created 32 accepted {number}") for number, count in enumerate(deep, 1)]


print("# Limits: what is allowed at each, and one past it.\n")

write(
    "one creation makes at most 32 levels, wherever it begins",
    [
        (f"create {path(33)}", "E5 TooDeep"),
        (f"create {path(32)}", "created 32 accepted 1"),
        (f"create {path(65)}", "E5 TooDeep"),
        (f"create {path(64)}", "created 32 accepted 2"),
        (f"keys {path(63)}", "keys 1 k"),
        (f"keys {path(64)}", "keys 0"),
    ],
    1,
)

write(
    "a tree has 512 levels; a path of 513 names is too deep, also where a hive is missing or it is only read",
    [
        *creations(512),
        (f"set {path(512)} v 1 01", "accepted 17"),
        (f"create {path(513)}", "E5 TooDeep"),
        (f"get {path(513)} v", "E5 TooDeep"),
        (f"get 9{path(513)[1:]} v", "E5 TooDeep"),
        (f"get {path(513)}\\ v", "E4 BadName"),
        (f"get {path(512)} v", "value 1 01"),
        (f"delete {path(512)}", "accepted 18"),
        (f"keys {path(511)}", "keys 0"),
    ],
    1,
)

# each write claims a key below all that were claimed before
write(
    "a transaction makes 500 keys, each below the one before, and writes into each",
    [
        (f"begin t {ID}", "ok"),
        (f"begin u {ID}", "ok"),
        *[(f"tx t create {path(count)}", "created 1") for count in range(1, 501)],
        *[(f"tx t set {path(count)} v 4 01000000", "ok") for count in range(1, 501)],
        ("tx u create 0:k", "E7 Conflict"),
        (f"tx u create {path(32)}", "E7 Conflict"),
        ("tx u create 0:l", "created 1"),
        ("commit t", "committed 1"),
        (f"get {path(500)} v", "value 4 01000000"),
        (f"keys {path(500)}", "keys 0"),
        ("commit u", "committed 2"),
    ],
    1,
)

write(
    "a key's name has at most 255 units, a value's at most 16,383",
    [
        (f"create 0:{'~' * 256}", "E4 BadName"),
        (f"create 0:{'~' * 255}", "created 1 accepted 1"),
        ("keys 0:", f"keys 1 {'~' * 255}"),
        (f"set 0: {'~' * 16_384} 1 -", "E4 BadName"),
        (f"set 0: {'~' * 16_383} 1 -", "accepted 2"),
        ("values 0:", f"values 1 {'~' * 16_383}"),
    ],
    1,
)

write(
    "a value has at most 1,048,576 bytes; a key that isn't there is told before they are counted",
    [
        (f"set 0: v 3 {data(MEBIBYTE + 1)}", "E6 TooLarge"),
        (f"set 0:K v 3 {data(MEBIBYTE + 1)}", "E2 NotFound"),
        (f"set 0: v 3 {data(MEBIBYTE)}", "accepted 1"),
        ("get 0: v", f"value 3 {data(MEBIBYTE)}"),
    ],
    1,
)

# the root weighs 192 and 20 bytes of descriptor; a value 128, twice the units of its name, and its bytes
HEAVY = [(f"set 0: {name} 3 {data(MEBIBYTE)}", f"accepted {number}") for number, name in enumerate("abcdefghijklmno", 1)]
ROOM = 16_777_216 - (192 + 20) - 15 * (128 + 2 + MEBIBYTE) - (128 + 2)

write(
    "a tree weighs at most 16,777,216",
    [
        *HEAVY,
        (f"set 0: p 3 {data(ROOM + 1)}", "E6 TooLarge"),
        (f"set 0: p 3 {data(ROOM)}", "accepted 16"),
        (f"set 0: P 3 {data(ROOM + 1)}", "E6 TooLarge"),
        (f"set 0: P 4 {data(ROOM)}", "accepted 17"),
        ("create 0:K", "E6 TooLarge"),
        ("unset 0: a", "accepted 18"),
        ("create 0:K", "created 1 accepted 19"),
    ],
    1,
)

# three writes of 1,048,576 bytes leave a transaction's change no room for a fourth
write(
    "a transaction's change has at most 4,194,304 bytes, which is told before a conflict",
    [
        ("create 0:K\\L", "created 2 accepted 1"),
        (f"begin t {ID}", "ok"),
        (f"begin u {ID}", "ok"),
        ("tx u set 0:K\\L v 1 -", "ok"),
        *[(f"tx t set 0:K {name} 3 {data(MEBIBYTE)}", "ok") for name in "abc"],
        (f"tx t set 0:K\\L v 3 {data(MEBIBYTE)}", "E6 TooLarge"),
        ("tx t set 0:K\\L v 3 -", "E7 Conflict"),
        ("commit t", "committed 2"),
    ],
    1,
)

write(
    "a commit is weighed after each of its writes, also where the last tree fits again",
    [
        ("create 0:K", "created 1 accepted 1"),
        ("create 0:L", "created 1 accepted 2"),
        (f"begin t {ID}", "ok"),
        *[(f"tx t set 0:K {name} 3 {data(MEBIBYTE)}", "ok") for name in "abc"],
        ("tx t unset 0:K a", "ok"),
        *[
            (f"set 0:L {name} 3 {data(MEBIBYTE)}", f"accepted {number}")
            for number, name in enumerate("abcdefghijklm", 3)
        ],
        ("commit t", "E6 TooLarge"),
        ("outcome t", "active"),
        ("unset 0:L a", "accepted 16"),
        ("commit t", "committed 17"),
    ],
    1,
)

# one that is open takes no further seat, and a refused session leaves the current one
write(
    "there are 32 sessions",
    [
        *[(f"session {number}", "ok") for number in range(1, 32)],
        ("session 32", "E10 NoSeat"),
        ("keys 0:", "keys 0"),
        ("session 5", "ok"),
        ("end 7", "ok"),
        ("session 32", "ok"),
        ("session 7", "E10 NoSeat"),
    ],
    1,
)

# a refused begin leaves its label; a transaction that has ended is held until it is closed
write(
    "there are 1,024 transactions",
    [
        *[(f"begin t{number} {ID}", "ok") for number in range(1024)],
        ("tx t5 create 0:A", "created 1"),
        (f"begin t5 {ID}", "E10 NoSeat"),
        ("commit t5", "committed 1"),
        (f"begin x {ID}", "E10 NoSeat"),
        ("outcome x", "E9 NoSuchHandle"),
        ("close t5", "ok"),
        (f"begin x {ID}", "ok"),
        ("outcome x", "active"),
    ],
    1,
)
