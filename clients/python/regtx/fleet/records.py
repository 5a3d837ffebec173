"""What is published, as text: changes, the head of their history, and where a snapshot is. The text of a change is that of `follow`."""
from __future__ import annotations

import re
import uuid
from dataclasses import dataclass, replace
from typing import List, Optional

from ..errors import shown
from ..follow import Change
from ..run import MOST_MOMENT
from .errors import FleetError

FORM = "1"
_UUID = "[0-9a-f]{8}(?:-[0-9a-f]{4}){3}-[0-9a-f]{12}"
_HEAD = re.compile(rf"regtx-fleet ([0-9]+) ({_UUID}) ({_UUID}) ([0-9]{{1,20}}) ([0-9]{{1,20}})\n")
_SNAPSHOT = re.compile(rf"regtx-snapshot ([0-9]+) ({_UUID}) ([0-9]{{1,20}}) ([A-Za-z0-9._-]+) ([^\n]*)\n")
_ROLE = re.compile(rf"regtx-replica ([0-9]+) ({_UUID}) ({_UUID}) ([0-9]{{1,20}}) ([0-9]{{1,20}})\n")
_CHANGE = re.compile(rf"change ([0-9]{{1,20}}) ([0-9]{{1,20}}) ([0-9]{{1,10}}) (-|{_UUID})")
# one blank between words, and none within: a line can be no other than it seems
_KEY = "[0-9]{1,3}:[!-~]*"
_LINE = re.compile(rf"(?:create|delete) {_KEY}|set {_KEY} [!-~]+ [0-9]{{1,10}} (?:-|(?:[0-9a-f]{{2}})+)|unset {_KEY} [!-~]+")


def _read(pattern: "re.Pattern[str]", text: str, what: str) -> "re.Match[str]":
    told = pattern.fullmatch(text)
    if not told:
        raise FleetError(f"what is there isn't {what}: {shown(repr(text))}")
    if told[1] != FORM:
        raise FleetError(f"{what} has form {told[1]}, and this program reads form {FORM}: upgrade it")
    return told


@dataclass(frozen=True)
class Head:
    """Which changes are published: those after number `first`, up to number `last`.

    A history is one line of numbers of a store. A store that was restored, so that its numbers began anew, gets another one.
    """

    store: uuid.UUID
    history: uuid.UUID
    first: int
    last: int

    def text(self) -> str:
        return f"regtx-fleet {FORM} {self.store} {self.history} {self.first} {self.last}\n"

    @staticmethod
    def read(text: str) -> Head:
        told = _read(_HEAD, text, "the head of a history")
        head = Head(uuid.UUID(told[2]), uuid.UUID(told[3]), int(told[4]), int(told[5]))
        if head.first > head.last:
            raise FleetError(f"what is there isn't the head of a history: {shown(repr(text))}")
        return head

    def to(self, last: int) -> Head:
        return replace(self, last=last)

    def since(self, first: int) -> Head:
        return replace(self, first=first)

    def unit(self, number: int) -> uuid.UUID:
        """The unit of work as which a replica applies the change of a number."""
        return unit_of(self.store, self.history, number)


def unit_of(store: uuid.UUID, history: uuid.UUID, number: int) -> uuid.UUID:
    return uuid.uuid5(store, f"regtx-fleet {history} {number}")


@dataclass(frozen=True)
class Snapshot:
    """A copy of the store as of a number. `name` is that of its folder, and `where` says to people where it is."""

    history: uuid.UUID
    number: int
    name: str
    where: str

    def text(self) -> str:
        return f"regtx-snapshot {FORM} {self.history} {self.number} {self.name} {self.where}\n"

    @staticmethod
    def read(text: str) -> Snapshot:
        told = _read(_SNAPSHOT, text, "a snapshot's record")
        if told[4].startswith("."):
            raise FleetError(f"what is there isn't a snapshot's record: {shown(repr(text))}")
        return Snapshot(uuid.UUID(told[2]), int(told[3]), told[4], told[5])


@dataclass(frozen=True)
class Role:
    """What a replica's folder says of it: of which store and history it is, and at which number it began.

    `own` is the number that its folder had then: the same one, if it is a copy of the store.
    """

    store: uuid.UUID
    history: uuid.UUID
    begun: int
    own: int

    def text(self) -> str:
        return f"regtx-replica {FORM} {self.store} {self.history} {self.begun} {self.own}\n"

    @staticmethod
    def read(text: str) -> Role:
        told = _read(_ROLE, text, "a replica's role")
        return Role(uuid.UUID(told[2]), uuid.UUID(told[3]), int(told[4]), int(told[5]))

    def unit(self, number: int) -> uuid.UUID:
        return unit_of(self.store, self.history, number)


@dataclass(frozen=True)
class Published:
    """A change with its text."""

    number: int
    text: str

    def is_whole(self) -> bool:
        """Whether it has as many lines as it says: a copy of a file may be under way."""
        told = _CHANGE.match(self.text)
        return told is not None and self.text.endswith("\n") and self.text.count("\n") > int(told[3])

    def change(self) -> Change:
        """The change, if its text is one of its number and has nothing but writes."""
        head, *lines = self.text.split("\n")
        told = _CHANGE.fullmatch(head)
        if not told or int(told[1]) != self.number or int(told[2]) > MOST_MOMENT or lines.pop() or len(lines) != int(told[3]) or not lines:
            raise FleetError(f"what is published as change {self.number} isn't that: {shown(repr(self.text))}")
        wrong = next((line for line in lines if not _LINE.fullmatch(line)), None)
        if wrong is not None:
            raise FleetError(f"change {self.number} has a line that is no write: {shown(repr(wrong))}")
        return Change(self.number, int(told[2]), None if told[4] == "-" else uuid.UUID(told[4]), lines)


def published(change: Change) -> Published:
    lines = "".join(f"{line}\n" for line in change.lines)
    return Published(change.number, f"change {change.number} {change.moment} {len(change.lines)} {change.unit or '-'}\n{lines}")


def told_of(store: uuid.UUID, head: Optional[Head]) -> Head:
    """The head, if there is one and it is of this store."""
    if head is None:
        raise FleetError(f"nothing of store {store} is published there: begin with `regtx-replicate publish`")
    if head.store != store:
        raise FleetError(f"what is published there is of store {head.store}, and this one is {store}")
    return head


def next_of(after: int, found: List[Published]) -> List[Published]:
    """The first of these that follow on a number one by one."""
    taken: List[Published] = []
    for each in found:
        if each.number != after + 1 + len(taken):
            break
        taken.append(each)
    return taken
