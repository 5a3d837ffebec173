#!/usr/bin/env python3
"""Prints the keys and values of an offline hive, sets one number in it, and writes the new hive:

    hive_edit.py IN OUT KEY NAME NUMBER

The head of hive_edit.c says what is printed, and what becomes of OUT. REGTX_LIBRARY names the folder of libregtx.so.0.
"""
import os
import re
import sys
from contextlib import contextmanager
from typing import Iterator, List, Optional, Tuple

sys.path.insert(0, os.path.join(os.path.dirname(os.path.dirname(os.path.realpath(__file__))), "bindings", "python"))
from regtx_hive import Hive, HiveError, Value  # noqa: E402

MOST_NUMBER = 0xffff_ffff


class Failure(Exception):
    """What went wrong, and with what."""


@contextmanager
def told(what: str) -> Iterator[None]:
    """Tells a refusal together with what it is about: a key or a file, which an error of the system names itself."""
    try:
        yield
    except HiveError as why:
        raise Failure(f"{what}: {why.text}") from why
    except OSError as why:
        raise Failure(f"{why.filename2 or why.filename or what}: {why.strerror}") from why


def spelled(name: str) -> str:
    """A name as it is printed: what would not be seen, a percent sign and half a surrogate pair as their numbers."""
    return re.sub("[\x00-\x1f\x7f-\x9f%\ud800-\udfff]", lambda unit: f"%{ord(unit[0]):04x}", name)


def spelled_value(name: str) -> str:
    """A value's name as it is printed: the default value has none."""
    return {"": "@", "@": "%0040"}.get(name) or spelled(name)


def print_tree(hive: Hive) -> None:
    # this stream keeps nothing that would be written again at the end, after a failure
    with told("standard output"), open(1, "wb", closefd=False) as to:
        for entry in hive.walk():
            to.write(f"[{spelled(entry.path)}]\n".encode())
            for name, value in entry.values.items():
                to.write(f"  {spelled_value(name)} {int(value.kind)} {value.data.hex() or '-'}\n".encode())


def edit(source: str, out: str, key: str, name: str, number: int) -> None:
    """Carries out what the words ask for."""
    with told(source):
        hive = Hive.open(source)
    with hive:
        print_tree(hive)
        with told(key):
            hive[key].values[name] = Value.dword(number)
        with told(out):
            hive.write(out)


def words_of(words: List[str]) -> Optional[Tuple[str, str, str, str, int]]:
    """The words of an edit; None if they are wrong."""
    try:
        source, out, key, name, number = words
        key, name = (os.fsencode(word).decode() for word in (key, name))
    except ValueError:
        return None
    is_number = re.fullmatch("[0-9]{1,10}", number) and int(number) <= MOST_NUMBER
    return (source, out, key, name, int(number)) if is_number else None


def main() -> int:
    words = words_of(sys.argv[1:])
    if words is None:
        print("usage: hive_edit IN OUT KEY NAME NUMBER", file=sys.stderr)
        return 2
    try:
        edit(*words)
    except Failure as why:
        print(f"hive_edit: {why}", file=sys.stderr)
        return 1
    return 0


if __name__ == "__main__":
    sys.exit(main())
