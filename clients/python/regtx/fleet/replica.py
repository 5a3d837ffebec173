"""A replica: a store that is a copy of another one as of a number, and is changed by what is published alone.

It has the id of the store that it is a copy of, and each change has the same number in both; one that was made of an export has numbers
of its own, at a fixed distance. So where it stands is told by the store itself: by its number, which arrives with the change. And that the
last change is one of ours is told by its unit of work, which is made of the store's id, the history and the number.
"""
from __future__ import annotations

import os
from typing import Optional

from ..errors import BadName, Fixed, HasSubkeys, HiveDamaged, JournalDamaged, NotFound, RegtxError, TooDeep, TooLarge, Unsupported
from ..requests import Writes
from ..store import Store
from .errors import Behind, FleetError
from .folder_log import read_whole
from .openings import Opening
from .records import Published, Role
from .sources import store_id

ROLE = "replica"
# what no try again makes good
DAMAGED, OTHER = (HiveDamaged, JournalDamaged, Unsupported), (NotFound, HasSubkeys, TooDeep, TooLarge, BadName, Fixed)
# after how many changes a run's history is emptied: it holds 1,048,576
MOST_HISTORY = 500_000
ANEW = "Begin it anew by `regtx-replicate begin`, from a backup or a snapshot"


class Replica:
    """A replica in a folder, open for one program."""

    def __init__(self, folder: str, opening: Opening):
        self._folder, self._opening = os.path.abspath(folder), opening
        self._store: Optional[Store] = None
        self._applied = 0
        self.number = 0

    @property
    def is_open(self) -> bool:
        return self._store is not None

    def role(self) -> Role:
        """What the folder says that it is."""
        if not os.path.exists(self._folder):
            raise Behind(f"{self._folder} isn't there. {ANEW}")
        text = read_whole(os.path.join(self._folder, ROLE))
        if text is None:
            raise FleetError(f"{self._folder} is no replica: {ANEW}")
        role = Role.read(text)
        if store_id(self._folder) != role.store:
            raise FleetError(f"{self._folder} has store {store_id(self._folder)}, and says that it is a replica of {role.store}")
        return role

    def open(self) -> Role:
        """Opens it, and looks whether its last change is one that was applied here."""
        role = self.role()
        try:
            store = self._opening.open()
        except DAMAGED as why:
            raise FleetError(f"{self._folder}: {why}. {ANEW}") from why
        self._store, self.number, self._applied = store, store.opened_at - role.own + role.begun, 0
        try:
            self._check_last(store, role)
        except BaseException:
            self.drop()
            raise
        return role

    def _check_last(self, store: Store, role: Role) -> None:
        number = store.opened_at
        if number < role.own:
            raise FleetError(f"{self._folder} is at {number}, and began at {role.own}: its files are of two backups. {ANEW}")
        if number > role.own and store.kept(role.unit(self.number)) != number:
            raise FleetError(f"change {number} of {self._folder} was made by another program, and nothing is applied after it. {ANEW}")

    def apply(self, role: Role, each: Published) -> None:
        """Applies the next change, whole and once. It is durable then."""
        change, writes = each.change(), Writes()
        if self._store is None or change.number != self.number + 1:
            raise FleetError(f"change {change.number} doesn't follow on {self.number}")
        writes.lines = change.lines
        if self._opening.folds and self._applied == MOST_HISTORY:
            self._store.fold()
            self._applied = 0
        self._store.at(change.moment)
        try:
            number = self._store.once(role.unit(change.number), writes)
        except OTHER as why:
            raise FleetError(f"change {change.number} can't be made in {self._folder}, which is no copy as of {self.number}: {why}. {ANEW}") from why
        if number - role.own != change.number - role.begun:
            raise FleetError(f"change {change.number} became change {number} of {self._folder}, to which another program writes. {ANEW}")
        self.number, self._applied = change.number, self._applied + 1

    def close(self) -> None:
        """Ends it in order. What fails of that is raised."""
        store, self._store = self._store, None
        try:
            if store is not None:
                store.close()
        finally:
            self._opening.close()

    def drop(self) -> None:
        """Ends it, whatever fails: the next opening repairs it."""
        try:
            self.close()
        except (RegtxError, OSError):
            pass
