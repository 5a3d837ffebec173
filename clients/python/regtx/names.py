"""Keys, names and times, and how they stand in lines."""
from __future__ import annotations

import re
import time
import uuid
from dataclasses import dataclass
from datetime import datetime, timedelta, timezone
from typing import List, Sequence

from .errors import shown

MOST_HIVE = 255
YEAR_1601 = datetime(1601, 1, 1, tzinfo=timezone.utc)
# 100 nanoseconds from 1601 to 1970
MOMENT_1970 = 116_444_736_000_000_000
# what a name may have as it is; each other unit is `%` and four digits, so that no name ends a word or a line
_SPELLED = re.compile(r"[^!-$&-~]")
_KEY = re.compile(r"([0-9]{1,3}):(.*)", re.DOTALL)


def _spell(name: str) -> str:
    def units(found: "re.Match[str]") -> str:
        data = found[0].encode("utf-16-be", "surrogatepass").hex()
        return "".join(f"%{data[at:at + 4]}" for at in range(0, len(data), 4))
    return _SPELLED.sub(units, name)


def read_name(word: str) -> str:
    if word == "@":
        return ""
    units = re.sub("%([0-9a-f]{4})", lambda found: chr(int(found[1], 16)), word)
    # two surrogates that belong together become one letter
    return units.encode("utf-16-le", "surrogatepass").decode("utf-16-le", "surrogatepass")


def value_name_word(name: str) -> str:
    if not isinstance(name, str):
        raise TypeError(f"the name of a value is a str, and not {type(name).__name__}")
    return {"": "@", "@": "%0040"}.get(name) or _spell(name)


def key_word(key: str) -> str:
    if not isinstance(key, str):
        raise TypeError(f"a key is a str such as '0:Software', and not {type(key).__name__}")
    told = _KEY.fullmatch(key)
    if not told or int(told[1]) > MOST_HIVE:
        raise ValueError(f"a key begins with a hive's number, 0 to 255, and a colon: {shown(repr(key))}")
    return f"{int(told[1])}:{_spell(told[2])}"


def unit_word(unit: uuid.UUID) -> str:
    if not isinstance(unit, uuid.UUID):
        raise TypeError(f"a uuid.UUID is wanted, and not {type(unit).__name__}")
    return str(unit)


def key_path(hive: int, *names: str) -> str:
    r"""The key of these names below the root of a hive: `key_path(0, "Software", "Vendor")` is `0:Software\Vendor`.

    A name that would be none or two, as it is empty or has a backslash, is a ValueError.
    """
    for name in names:
        if not name or "\\" in name:
            raise ValueError(f"a key's name is not empty and has no backslash: {shown(repr(name))}")
    return f"{int(hive)}:" + "\\".join(names)


def below(key: str, names: Sequence[str]) -> List[str]:
    """The keys of these names below a key, the last one first."""
    above = f"{key}\\" if key.partition(":")[2] else key
    return [above + name for name in reversed(names)]


def moment_of(when: datetime) -> int:
    """A time as the registry counts it: 100 nanoseconds since 1601. A time without a zone is one of this machine's."""
    return (when.astimezone(timezone.utc) - YEAR_1601) // timedelta(microseconds=1) * 10


def moment_now() -> int:
    """The millisecond of now, as the registry counts it."""
    return time.time_ns() // 1_000_000 * 10_000 + MOMENT_1970


@dataclass(frozen=True)
class ServerStats:
    """How full a server's store is: the numbers of the last change and of the last durable one, and how many bytes of the journal's
    67,108,864 are used. And how many clients have a place, and wait until a change is durable."""

    number: int
    durable: int
    room: int
    clients: int
    waiting: int


@dataclass(frozen=True)
class KeyInfo:
    """How many subkeys and values a key has, and when it was written last: 100 nanoseconds since 1601."""

    subkeys: int
    values: int
    written: int

    @property
    def written_at(self) -> datetime:
        return YEAR_1601 + timedelta(microseconds=self.written // 10)
