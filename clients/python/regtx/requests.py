"""Requests as lines, and writes that are sent together: `regtx` has `Writes`."""
from __future__ import annotations

from typing import List

from .names import key_word, value_name_word
from .values import Value


def create_line(key: str) -> str:
    return f"create {key_word(key)}"


def delete_line(key: str) -> str:
    return f"delete {key_word(key)}"


def set_line(key: str, name: str, value: Value) -> str:
    if not isinstance(value, Value):
        raise TypeError(f"a Value is wanted, such as Value.sz('1.0'), and not {type(value).__name__}")
    return f"set {key_word(key)} {value_name_word(name)} {int(value.kind)} {value.data.hex() or '-'}"


def unset_line(key: str, name: str) -> str:
    return f"unset {key_word(key)} {value_name_word(name)}"


class Writes:
    """Writes that are gathered, and are sent together by `transact`, by `once` or by a transaction's `write_all`.

    It can be used again. Nothing is refused before it is sent, but what is no key, name or value.
    """

    def __init__(self) -> None:
        self.lines: List[str] = []

    def create_key(self, key: str) -> None:
        """Creates the key, and the keys that are missing above it."""
        self.lines.append(create_line(key))

    def delete_key(self, key: str) -> None:
        """Deletes a key without subkeys."""
        self.lines.append(delete_line(key))

    def set_value(self, key: str, name: str, value: Value) -> None:
        """Writes a value. The name "" is the default value's."""
        self.lines.append(set_line(key, name, value))

    def delete_value(self, key: str, name: str) -> None:
        """Deletes a value."""
        self.lines.append(unset_line(key, name))

    def __len__(self) -> int:
        return len(self.lines)
