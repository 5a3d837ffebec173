"""Prints runs of a laboratory that fill the journal's room and free it again: too long to be kept as text.

The room is 67,108,864 bytes. Its beginning takes 65 of them, and a change 17 and its encoded length. That length is 16, and 6 more
for a creation of the key K, or 17 and the data for a value v of K. The last value takes what is left, to the byte.
"""
import os
import sys

sys.path.insert(0, os.path.join(os.path.dirname(os.path.dirname(os.path.abspath(__file__))), "tests"))
from transcript import write  # noqa: E402

MEBIBYTE = 1_048_576
ID = "00000000-0000-0000-0000-000000000001"
WHOLE = 63
LAST = 67_108_864 - 65 - (17 + 16 + 6) - (WHOLE + 1) * (17 + 16 + 17) - WHOLE * MEBIBYTE
FULL = "E11 JournalFull"


def value(size):
    """HEX of a value of so many bytes."""
    return "a5" * size


def set_line(size):
    """A line that writes a value of so many bytes."""
    return f"set 0:K v 3 {value(size)}"


# the room is filled but for a value of LAST bytes, and then that is written
FILLED = [
    ("create 0:K", "created 1 accepted 1"),
    *[(set_line(MEBIBYTE), f"accepted {number}") for number in range(2, WHOLE + 2)],
    (set_line(LAST + 1), FULL),
    (set_line(LAST), f"accepted {WHOLE + 2}"),
]
NO_ROOM = ("set 0:K w 1 -", FULL)

# the journal's changes are durable; a trim alone frees their room, and may not be made before the hive has them
FREED = [
    ("flush", f"flushed {WHOLE + 2}"),
    NO_ROOM,
    ("tstep", "idle"),
    NO_ROOM,
    ("fall 0", "done"),
    NO_ROOM,
    ("tstep", "more"),
    NO_ROOM,
    ("tstep", "done"),
    (set_line(LAST + 1), f"accepted {WHOLE + 3}"),
]

print("# The journal's room in the laboratory.\n\ncommand: lab\n")

write(
    "a full journal takes no change until a trim has freed its room, and leaves transactions as they are",
    [
        (f"begin t {ID}", "ok"),
        (f"begin u {ID}", "ok"),
        *FILLED,
        ("values 0:K", "values 1 v"),
        ("tx t set 0:K w 1 -", "ok"),
        NO_ROOM,
        ("outcome t", "active"),
        ("commit t", FULL),
        ("outcome t", "active"),
        ("commit u", "committed 0"),
        ("outcome u", "committed"),
        *FREED,
        ("accept t", "E8 NotActive"),
        ("outcome t", "rolledback"),
    ],
    1,
)

write(
    "what an opened journal decodes to uses its room",
    [
        *FILLED,
        ("flush", f"flushed {WHOLE + 2}"),
        ("crash old", f"opened {WHOLE + 2}\nhive 0\nkey 0: 0\nkey 0:K 0\nval v 3 {value(LAST)}"),
        *FREED,
    ],
    1,
)
