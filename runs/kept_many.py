"""Prints runs in which more units of work commit than a store keeps, 4,096: too long to be kept as text."""
import os
import sys

sys.path.insert(0, os.path.join(os.path.dirname(os.path.dirname(os.path.abspath(__file__))), "tests"))
from transcript import write  # noqa: E402

MOST = 4_096


def unit(number):
    """The UUID of a unit of work."""
    return f"00000000-0000-0000-0000-{number:012x}"


def commit(number, of):
    """Lines by which a unit of work commits as the change of this number."""
    return [
        (f"begin t {unit(of)}", "ok"),
        (f"tx t set 0: v 4 {number.to_bytes(4, 'little').hex()}", "ok"),
        ("commit t", f"committed {number}"),
        ("close t", "ok"),
    ]


def kept(of, number):
    """A line that asks for the last commit of a unit of work, which has this number; or for one that isn't kept."""
    return (f"kept {unit(of)}", f"committed {number}" if number else "E2 NotFound")


FULL = [line for number in range(1, MOST + 1) for line in commit(number, number)]

print("# More units of work commit than are kept.\n")

write(
    "the unit whose last commit has the least number is forgotten first",
    [
        *FULL,
        kept(1, 1),
        *commit(MOST + 1, MOST + 1),
        kept(1, None),
        kept(2, 2),
        kept(MOST + 1, MOST + 1),
        *commit(MOST + 2, MOST + 2),
        kept(2, None),
        kept(3, 3),
        # a unit that was forgotten commits again
        *commit(MOST + 3, 1),
        kept(1, MOST + 3),
        kept(3, None),
        kept(4, 4),
    ],
    1,
)

write(
    "a unit that commits again takes the place of no other, and is forgotten after those that did not",
    [
        *FULL,
        *commit(MOST + 1, 1),
        kept(1, MOST + 1),
        kept(2, 2),
        *commit(MOST + 2, MOST + 1),
        kept(2, None),
        kept(1, MOST + 1),
        kept(3, 3),
    ],
    1,
)
