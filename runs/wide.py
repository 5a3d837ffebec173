"""Prints runs over keys with thousands of subkeys and values: too long to be kept as text."""
import os
import sys

sys.path.insert(0, os.path.join(os.path.dirname(os.path.dirname(os.path.abspath(__file__))), "tests"))
from transcript import listed, write  # noqa: E402

# more than three levels of groups list where they come in order
SUBKEYS = 20_000
VALUES = 5_000
# without a divisor in common with how many there are, so that all come up, and not in order
STRIDE = 2_399


def accepted(lines, first, told="accepted"):
    """Lines that are accepted, from this number on."""
    return [(line, f"{told} {number}") for number, line in enumerate(lines, first)]


def strided(names):
    """The same names in another order."""
    return [names[place * STRIDE % len(names)] for place in range(len(names))]


KEYS = [f"k{number:05}" for number in range(SUBKEYS)]
NAMES = [f"v{number:04}" for number in range(VALUES)]

print("# Keys with thousands of subkeys and values.\n")

write(
    "thousands of subkeys come in order, and most of them go in another",
    [
        *accepted([f"create 0:{name}" for name in KEYS], 1, "created 1 accepted"),
        ("create 0:K04711", "opened"),
        ("keys 0:", listed("keys", KEYS)),
        *accepted([f"delete 0:{name}" for name in strided(KEYS)[:SUBKEYS - 3]], SUBKEYS + 1),
        ("keys 0:", listed("keys", sorted(strided(KEYS)[SUBKEYS - 3:]))),
        *accepted([f"delete 0:{name}" for name in strided(KEYS)[SUBKEYS - 3:]], 2 * SUBKEYS - 2),
        ("keys 0:", "keys 0"),
        (f"delete 0:{KEYS[0]}", "E2 NotFound"),
    ],
    1,
)

write(
    "thousands of values come in no order, and are each written anew",
    [
        *accepted([f"set 0: {name} 4 01" for name in strided(NAMES)], 1),
        ("values 0:", listed("values", NAMES)),
        *accepted([f"set 0: {name.upper()} 4 02" for name in NAMES], VALUES + 1),
        ("values 0:", listed("values", NAMES)),
        *[(f"get 0: {name}", "value 4 02") for name in NAMES[::97]],
        ("info 0:", f"info 0 {VALUES} 0"),
        *accepted([f"unset 0: {name}" for name in NAMES[::2]], 2 * VALUES + 1),
        ("values 0:", listed("values", NAMES[1::2])),
    ],
    0,
)
