"""Publishes the changes of a store: follows it, and writes each change under its number."""
from __future__ import annotations

import itertools
import os
import time
import uuid
from dataclasses import dataclass
from typing import List, Optional, Sequence

from ..errors import CannotFollow, NotTrusted, RegtxError
from ..store import Store
from .agreement import check_agreement
from .errors import FleetError, Unavailable
from .log import MOST_AT_ONCE, Log
from .pauses import Ending, Pauses, say
from .records import Head, Published, Snapshot, published, told_of
from .sources import Feed, Source


@dataclass(frozen=True)
class Rules:
    """What is kept of the changes, and how snapshots are made.

    `keep` changes are kept at most. Every `look` seconds those are removed that a snapshot and each replica have. `snapshots` is the
    server's folder of backups, None if there is none; `where` is what is told in its place. `every` is after how many changes a new
    snapshot is made, 0 for never.
    """

    keep: int = 100_000
    look: float = 30.0
    snapshots: Optional[str] = None
    where: Optional[str] = None
    every: int = 0


class Publisher:
    """Publishes a store's changes, after what is published already. Two of one store do each change once."""

    def __init__(self, source: Source, log: Log, rules: Rules, ending: Ending, after: Optional[int] = None, is_anew: bool = False):
        self._source, self._log, self._rules, self._ending = source, log, rules, ending
        self._after, self._is_anew, self._is_told = after, is_anew, False
        self._looked = time.monotonic()

    def run(self, is_once: bool = False) -> int:
        """Publishes until it is told to end; once all that can be told now, and answers up to which number."""
        pauses = Pauses(self._ending)
        while True:
            try:
                with self._ending.waiting():
                    last = self._turn(is_once, pauses)
                if last is not None:
                    return last
            except (FleetError, NotTrusted):
                raise
            except (RegtxError, OSError) as why:
                pauses.after(why)

    def _turn(self, is_once: bool, pauses: Pauses) -> Optional[int]:
        """Follows until that ends. Once: up to which number all is published."""
        store = self._source.connect()
        if store is None:
            head = self._publish_at_rest()
            if is_once:
                return head.last
            raise Unavailable(f"nobody serves the store; up to {head.last} all is published")
        try:
            head = self._ready(store.opened_at, store)
            pauses.over()
            return self._follow(head, store, store.opened_at if is_once else None, pauses)
        finally:
            # the connection alone: its end is no failure of what was published
            try:
                store.close()
            except RegtxError:
                pass

    def _follow(self, head: Head, store: Store, up_to: Optional[int], pauses: Pauses) -> Optional[int]:
        """Publishes what the server tells, up to a number, if one is given. While it can't, changes wait in memory."""
        if up_to is not None and head.last >= up_to:
            return head.last
        with store.follow(head.last) as follower:
            feed = Feed(follower)
            try:
                while batch := feed.take(MOST_AT_ONCE):
                    head = self._publish_patiently(head, batch, pauses)
                    head = self._look_after(head, store)
                    if up_to is not None and head.last >= up_to:
                        return head.last
            except CannotFollow as why:
                self._leap(head, store, why.after)
                raise Unavailable(f"changes after {head.last} weren't kept; published a snapshot in their place") from why
            finally:
                feed.close()
        raise Unavailable("the server has stopped")

    def _publish_at_rest(self) -> Head:
        """Publishes what the journal of a store at rest holds."""
        head = self._ready(self._number_at_rest(), None)
        changes = self._source.at_rest(head.last)
        try:
            while batch := [published(change) for change in itertools.islice(changes, MOST_AT_ONCE)]:
                head = self._publish(head, batch)
        except CannotFollow as why:
            raise FleetError(self._lacking(head, why.after)) from why
        return head

    def _number_at_rest(self) -> int:
        try:
            # no store has this number, and the refusal tells which it has
            list(self._source.at_rest((1 << 64) - 1))
        except CannotFollow as why:
            return why.after
        raise Unavailable("regtx follow told of changes that can't be")

    def _ready(self, number: int, store: Optional[Store]) -> Head:
        """The head after which this store's changes are published. A store that isn't the one that was published is refused."""
        while True:
            head = self._log.head()
            if head is not None and not self._is_anew:
                break
            begun = self._begin(head, number, store)
            if begun is not None:
                head, self._is_anew = begun, False
                break
        told_of(self._source.id, head)
        if number < head.last:
            raise FleetError(f"the store has {number} changes, and {head.last} are published: it was restored from a backup. "
                             "Publish a new history by --anew; its replicas begin anew")
        if store is not None:
            check_agreement(store, self._log, head, number)
        if not self._is_told:
            say(f"publishes store {head.store} after {head.last}")
            self._is_told = True
        return head

    def _begin(self, before: Optional[Head], number: int, store: Optional[Store]) -> Optional[Head]:
        """Begins a history; None if another publisher was first."""
        after = number if self._after is None else self._after
        if after > number:
            raise FleetError(f"the store has {number} changes, and none after {after}")
        history, snapshot = uuid.uuid4(), None
        if store is not None and self._rules.snapshots is not None and self._after is None:
            snapshot = self._make_snapshot(store, history)
            after = snapshot.number
        head = Head(self._source.id, history, after, after)
        return head if self._log.begin(before, head, snapshot) else None

    def _publish_patiently(self, head: Head, changes: List[Published], pauses: Pauses) -> Head:
        while True:
            try:
                head = self._publish(head, changes)
                pauses.over()
                return head
            except Unavailable as why:
                pauses.after(why)

    def _publish(self, head: Head, changes: List[Published]) -> Head:
        """Publishes changes that follow on a head; answers the next one. What is there already has to be the same."""
        # another publisher may have been first with these
        changes = self._beyond(head, changes)
        while changes:
            if changes[0].number != head.last + 1:
                raise FleetError(f"change {changes[0].number} was told after {head.last}")
            if self._log.append(head, changes):
                return head.to(changes[-1].number)
            # another publisher was first, or this one, whose reply was lost
            now = told_of(head.store, self._log.head())
            if now.history != head.history or now.last < head.last:
                raise FleetError("another history of the store was begun: end one of the two publishers")
            changes = self._beyond(now, changes)
            head = now
        return head

    def _beyond(self, head: Head, changes: Sequence[Published]) -> List[Published]:
        """Those of the changes that aren't published yet. The others are compared with what is."""
        left = [each for each in changes if each.number > head.last]
        same = {each.number: each.text for each in changes if head.first < each.number <= head.last}
        after = min(same, default=0) - 1
        while same:
            _, found = self._log.read(head.history, after)
            if not found:
                # they were trimmed meanwhile
                break
            for each in found:
                if same.pop(each.number, each.text) != each.text:
                    raise FleetError(f"change {each.number} is published with other contents: two stores have the id {head.store}")
            after = found[-1].number
        return left

    def _lacking(self, head: Head, after: int) -> str:
        return (f"changes {head.last + 1} to {after} aren't kept by the store any more. Publish a snapshot in their place by "
                "--snapshots FOLDER, the folder of backups of its server; replicas begin anew from it")

    def _leap(self, head: Head, store: Store, after: int) -> None:
        """Publishes a snapshot in the place of changes that aren't kept."""
        if after < head.last:
            raise FleetError(f"the store has {after} changes, and {head.last} are published: publish a new history by --anew")
        if self._rules.snapshots is None:
            raise FleetError(self._lacking(head, after))
        snapshot = self._make_snapshot(store, head.history)
        now = told_of(head.store, self._log.head())
        if now == head:
            self._log.begin(head, Head(head.store, head.history, snapshot.number, snapshot.number), snapshot)

    def _make_snapshot(self, store: Store, history: uuid.UUID) -> Snapshot:
        folder = self._rules.snapshots
        assert folder is not None
        name = f"fleet-{time.strftime('%Y%m%d-%H%M%S', time.gmtime())}-{uuid.uuid4().hex[:8]}"
        number = store.backup(name)
        if not os.path.isdir(os.path.join(folder, name)):
            raise FleetError(f"the server made a backup, and {os.path.join(folder, name)} isn't there: --snapshots is its folder of backups")
        where = os.path.join(os.path.abspath(folder), name) if self._rules.where is None else f"{self._rules.where}/{name}"
        say(f"snapshot at {number}: {where}")
        return Snapshot(history, number, name, where)

    def _look_after(self, head: Head, store: Store) -> Head:
        """Makes a snapshot if it is time, and removes changes that nobody needs."""
        is_over = head.last - head.first > self._rules.keep + self._rules.keep // 10
        if not is_over and time.monotonic() - self._looked < self._rules.look:
            return head
        self._looked = time.monotonic()
        snapshot = self._present_snapshot(head)
        made = head.first if snapshot is None else snapshot.number
        if self._rules.snapshots is not None and self._rules.every and head.last - made >= self._rules.every:
            snapshot = self._make_snapshot(store, head.history)
            self._log.put_snapshot(snapshot)
        return self._trimmed(head, snapshot)

    def _trimmed(self, head: Head, snapshot: Optional[Snapshot]) -> Head:
        try:
            first = max(head.last - self._rules.keep, self._needless(head, snapshot))
            if first > head.first and self._log.trim(head, first):
                return head.since(first)
        except Unavailable as why:
            # the next look does it
            say(str(why))
        return head

    def _present_snapshot(self, head: Head) -> Optional[Snapshot]:
        snapshot = self._log.snapshot()
        return snapshot if snapshot is not None and snapshot.history == head.history else None

    def _needless(self, head: Head, snapshot: Optional[Snapshot]) -> int:
        """Up to which number the snapshot and each replica that told of itself have all."""
        reports = self._log.reports()
        return min(*reports.values(), snapshot.number, head.last) if reports and snapshot is not None else 0
