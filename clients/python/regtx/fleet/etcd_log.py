"""Changes that are published in etcd.

    PREFIX/STORE/head                  the head of the present history
    PREFIX/STORE/changes/HISTORY/N     each change; or `parts COUNT`, if its text is long
    PREFIX/STORE/parts/HISTORY/N/P     the parts of such a text
    PREFIX/STORE/snapshot              where a snapshot is
    PREFIX/STORE/replicas/NAME         which number a replica has

A transaction that writes changes compares the head, and writes the next one. So each number is written once, whoever writes.
"""
from __future__ import annotations

import re
import uuid
from typing import Any, Dict, Iterator, List, Optional, Sequence, Tuple

from ..errors import shown
from .errors import FleetError, Unavailable
from .etcd import Answer, Etcd, decode, encode
from .log import MOST_AT_ONCE, MOST_BYTES, Log
from .records import Head, Published, Snapshot

# a request of etcd has 1.5 MiB at most, if nothing else is set there
MOST_TEXT, PART, MOST_REQUEST = 262_144, 1_000_000, 524_288
_PARTS = re.compile(r"parts ([0-9]{1,4})\n")


def _digits(number: int) -> str:
    return f"{number:020}"


class EtcdLog(Log):
    """Changes in etcd."""

    def __init__(self, etcd: Etcd, prefix: str, store: uuid.UUID, compacts: bool = False):
        super().__init__(store)
        self._etcd, self._root, self._compacts = etcd, f"{prefix}/{store}", compacts
        # the revision of etcd at the last answer, and at the last reading, after which a watch goes on
        self._revision = self._read_at = 0

    def _key(self, *words: str) -> str:
        return "/".join((self._root, *words))

    def _change_key(self, history: uuid.UUID, number: int) -> str:
        return self._key("changes", str(history), _digits(number))

    def _range(self, key: str, end: str = "", limit: int = 0) -> Answer:
        told = {"key": encode(key), "range_end": encode(end)} if end else {"key": encode(key)}
        return {"request_range": {**told, "limit": str(limit)} if limit else told}

    def _changes(self, history: uuid.UUID, after: int) -> Tuple[str, str]:
        # `:` comes after each digit
        return self._change_key(history, after + 1), self._key("changes", str(history), ":")

    def _is(self, head: Optional[Head]) -> List[Answer]:
        """That a head is the present one."""
        key = encode(self._key("head"))
        if head is None:
            return [{"key": key, "target": "CREATE", "result": "EQUAL", "create_revision": "0"}]
        return [{"key": key, "target": "VALUE", "result": "EQUAL", "value": encode(head.text())}]

    def _put(self, key: str, text: str) -> Answer:
        return {"request_put": {"key": encode(key), "value": encode(text)}}

    def _commit(self, compare: List[Answer], success: List[Answer]) -> Tuple[bool, List[Answer]]:
        answer = self._etcd.ask("/v3/kv/txn", {"compare": compare, "success": success})
        self._revision = int(answer["header"]["revision"])
        return bool(answer.get("succeeded")), answer.get("responses", [])

    def head(self) -> Optional[Head]:
        return self._head_of(self._kvs(self._commit([], [self._range(self._key("head"))])[1][0]))

    @staticmethod
    def _kvs(response: Answer) -> List[Tuple[str, str]]:
        return [(decode(kv["key"]), decode(kv.get("value", ""))) for kv in response["response_range"].get("kvs", [])]

    def _head_of(self, kvs: List[Tuple[str, str]]) -> Optional[Head]:
        return Head.read(kvs[0][1]) if kvs else None

    def begin(self, before: Optional[Head], head: Head, snapshot: Optional[Snapshot] = None) -> bool:
        puts = [self._put(self._key("head"), head.text())]
        if before is not None and before.history != head.history:
            puts += self._removals(before.history)
        if snapshot is not None:
            puts.append(self._put(self._key("snapshot"), snapshot.text()))
        return self._commit(self._is(before), puts)[0]

    def append(self, head: Head, changes: Sequence[Published]) -> bool:
        left = list(changes)
        while left:
            count, size = 1, len(left[0].text)
            while count < min(len(left), MOST_AT_ONCE) and size + len(left[count].text) <= MOST_REQUEST:
                size += len(left[count].text)
                count += 1
            if not self._append_some(head, left[:count]):
                return False
            head, left = head.to(left[count - 1].number), left[count:]
        return True

    def _append_some(self, head: Head, changes: Sequence[Published]) -> bool:
        puts = []
        for each in changes:
            text = each.text
            if len(text) > MOST_TEXT:
                text = self._put_parts(head, each)
                if not text:
                    return False
            puts.append(self._put(self._change_key(head.history, each.number), text))
        puts.append(self._put(self._key("head"), head.to(changes[-1].number).text()))
        return self._commit(self._is(head), puts)[0]

    def _part_key(self, history: uuid.UUID, number: int, part: int) -> str:
        return self._key("parts", str(history), _digits(number), f"{part:04}")

    def _put_parts(self, head: Head, change: Published) -> str:
        """Writes a long text in parts; answers what stands in its place, or "" if the head isn't the present one."""
        parts = [change.text[at:at + PART] for at in range(0, len(change.text), PART)]
        for number, part in enumerate(parts):
            if not self._commit(self._is(head), [self._put(self._part_key(head.history, change.number, number), part)])[0]:
                return ""
        return f"parts {len(parts)}\n"

    def _whole(self, history: uuid.UUID, number: int, text: str) -> str:
        told = _PARTS.fullmatch(text)
        if not told:
            return text
        ranges = [self._range(self._part_key(history, number, part)) for part in range(int(told[1]))]
        found = [kv for each in ranges for kv in self._kvs(self._commit([], [each])[1][0])]
        if len(found) != int(told[1]):
            # they were removed meanwhile, which the head tells
            raise Unavailable(f"change {number} has {len(found)} of its {told[1]} parts")
        return "".join(text for _, text in found)

    def _published(self, history: uuid.UUID, key: str, text: str) -> Published:
        digits = key.rpartition("/")[2]
        if not digits.isdigit():
            raise FleetError(f"among the changes is another key: {shown(key)}")
        return Published(int(digits), self._whole(history, int(digits), text))

    def _removals(self, history: uuid.UUID, end: str = ":") -> List[Answer]:
        """What removes the changes of a history before a number, or all."""
        return [{"request_delete_range": {"key": encode(self._key(what, str(history), "")), "range_end": encode(self._key(what, str(history), end))}}
                for what in ("changes", "parts")]

    def trim(self, head: Head, first: int) -> bool:
        puts = [self._put(self._key("head"), head.since(first).text()), *self._removals(head.history, _digits(first + 1))]
        is_done, _ = self._commit(self._is(head), puts)
        if is_done and self._compacts:
            self._etcd.ask("/v3/kv/compaction", {"revision": str(self._revision)})
        return is_done

    def read(self, history: uuid.UUID, after: int) -> Tuple[Optional[Head], List[Published]]:
        _, (head, changes) = self._commit([], [self._range(self._key("head")), self._range(*self._changes(history, after), MOST_AT_ONCE)])
        self._read_at = self._revision
        found: List[Published] = []
        for key, text in self._kvs(changes):
            if sum(len(each.text) for each in found) < MOST_BYTES:
                found.append(self._published(history, key, text))
        return self._head_of(self._kvs(head)), found

    def watch(self, history: uuid.UUID, after: int, seconds: float) -> Iterator[List[Published]]:
        key, end = self._changes(history, after)
        body: Dict[str, Any] = {"key": encode(key), "range_end": encode(end), "start_revision": str(self._read_at + 1)}
        for told in self._etcd.watch(body, seconds):
            events = told.get("events", [])
            if any(event.get("type") == "DELETE" for event in events):
                return
            if events:
                yield [self._published(history, decode(event["kv"]["key"]), decode(event["kv"].get("value", ""))) for event in events]

    def snapshot(self) -> Optional[Snapshot]:
        kvs = self._kvs(self._commit([], [self._range(self._key("snapshot"))])[1][0])
        return Snapshot.read(kvs[0][1]) if kvs else None

    def put_snapshot(self, snapshot: Snapshot) -> None:
        self._commit([], [self._put(self._key("snapshot"), snapshot.text())])

    def report(self, name: str, number: int) -> None:
        self._commit([], [self._put(self._key("replicas", name), f"{number}\n")])

    def reports(self) -> Dict[str, int]:
        kvs = self._kvs(self._commit([], [self._range(self._key("replicas", ""), self._key("replicas0"))])[1][0])
        return {key.rpartition("/")[2]: int(text) for key, text in kvs if text.strip().isdigit()}

    def close(self) -> None:
        self._etcd.close()
