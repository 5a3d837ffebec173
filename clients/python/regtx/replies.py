"""What replies to requests tell."""
from __future__ import annotations

from typing import List

from .names import KeyInfo, ServerStats, read_name
from .values import Value


def number_of(reply: str) -> int:
    """The number after the first word."""
    return int(reply.split(" ")[1])


def created_of(reply: str) -> int:
    """How many keys were created."""
    words = reply.split(" ")
    return int(words[1]) if words[0] == "created" else 0


def value_of(reply: str) -> Value:
    _, kind, data = reply.split(" ")
    return Value(int(kind), b"" if data == "-" else bytes.fromhex(data))


def names_of(reply: str) -> List[str]:
    return [read_name(word) for word in reply.split(" ")[2:]]


def info_of(reply: str) -> KeyInfo:
    return KeyInfo(*map(int, reply.split(" ")[1:]))


def stats_of(reply: str) -> ServerStats:
    words = reply.split(" ")
    return ServerStats(**dict(zip(words[1::2], map(int, words[2::2]))))
