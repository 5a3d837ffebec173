"""Whether a store is the one whose changes are published, as of a number."""
from __future__ import annotations

from ..store import Store
from .errors import FleetError
from .log import Log
from .records import Head

# how many of the last changes are looked at, and how many units of work a store keeps
LAST, KEPT = 8, 4_096


def check_agreement(store: Store, log: Log, head: Head, number: int) -> None:
    """The units of work of the last published changes up to a number are kept by the store, at that number or a later one.

    A store that was restored from a backup, and has gone on since, has others in their place.
    """
    last = min(head.last, number)
    _, found = log.read(head.history, max(head.first, last - LAST))
    for change in (each.change() for each in found if each.number <= last):
        if change.unit is None:
            continue
        kept = store.kept(change.unit)
        if kept is None and store.number - change.number < KEPT or kept is not None and kept < change.number:
            raise FleetError(f"the store hasn't got change {change.number} that is published, but another one: it was restored from a backup, "
                             "or changed by others. If it is the one to follow, publish a new history by --anew; its replicas begin anew")
