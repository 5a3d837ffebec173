"""Prints a run over a key whose subkeys lie in groups of groups of leaves, and its values in leaves, changed in each; tests/memory.py plays it
too."""
import os
import sys

sys.path.insert(0, os.path.join(os.path.dirname(os.path.dirname(os.path.abspath(__file__))), "tests"))
from transcript import listed, write  # noqa: E402

ID = "00000000-0000-0000-0000-000000000001"
# as many as are listed by groups of groups where they come in order
SUBKEYS = 150
# more than one leaf has
VALUES = 20

KEYS = [f"k{number:03}" for number in range(SUBKEYS)]
NAMES = [f"v{number:02}" for number in range(VALUES)]
BEFORE = SUBKEYS + VALUES

print("# Many subkeys and values of one key.\n")

write(
    "subkeys and values of one key are added, replaced and deleted, alone and in a transaction",
    [
        *[(f"create 0:{name}", f"created 1 accepted {number}") for number, name in enumerate(KEYS, 1)],
        *[(f"set 0: {name} 4 01", f"accepted {number}") for number, name in enumerate(NAMES, SUBKEYS + 1)],
        (f"set 0:{KEYS[70]} x 4 02", f"accepted {BEFORE + 1}"),
        (f"delete 0:{KEYS[100]}", f"accepted {BEFORE + 2}"),
        (f"unset 0: {NAMES[11]}", f"accepted {BEFORE + 3}"),
        (f"begin t {ID}", "ok"),
        ("tx t create 0:k0705", "created 1"),
        (f"tx t delete 0:{KEYS[3]}", "ok"),
        (f"tx t set 0: {NAMES[5]} 4 -", "ok"),
        ("tx t info 0:", f"info {SUBKEYS - 1} {VALUES - 1} 0"),
        ("commit t", f"committed {BEFORE + 4}"),
        ("keys 0:", listed("keys", sorted([*KEYS[:3], *KEYS[4:100], *KEYS[101:], "k0705"]))),
        ("values 0:", listed("values", [*NAMES[:11], *NAMES[12:]])),
        (f"get 0: {NAMES[5]}", "value 4 -"),
        (f"get 0:{KEYS[70]} x", "value 4 02"),
    ],
    0,
)
