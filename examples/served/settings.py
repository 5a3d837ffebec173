#!/usr/bin/env python3
"""Keeps the settings of a product's parts in a store that is served: gives each new part a port.

    examples/served/settings.py SOCKET COUNT

It ends once so many parts have one. If the server goes it waits for the next one, and goes on. Settings are in hive 1, and one value
there counts how often they changed, so that others see whether what they read belongs together.
"""
import os
import sys
import time

sys.path.insert(0, os.path.join(os.path.dirname(os.path.abspath(__file__)), "..", "..", "clients", "python"))
import regtx  # noqa: E402
from regtx import Value  # noqa: E402

PRODUCT, SETTINGS, REVISION, LAST = "0:Vendor", "1:Settings", "Revision", "Last"
FIRST_PORT, PAUSE, SERVER_SECONDS = 8_000, 0.01, 60


def parts(store):
    """The names of the parts that are installed."""
    try:
        return store.subkeys(PRODUCT)
    except regtx.NotFound:
        return []


def value_of(place, name, default):
    try:
        return place.get_value(SETTINGS, name).value
    except regtx.NotFound:
        return default


def give_port(t, part):
    """Gives a part the next port, unless it has one by now."""
    t.create_key(SETTINGS)
    # the first write of a value claims all values of the key: what is read after it stays
    t.set_value(SETTINGS, LAST, Value.sz(part))
    if value_of(t, part, None) is not None:
        t.rollback()
        return
    revision = value_of(t, REVISION, 0)
    t.set_value(SETTINGS, part, Value.dword(FIRST_PORT + revision))
    t.set_value(SETTINGS, REVISION, Value.dword(revision + 1))


def keep(store, count):
    """Gives ports until so many parts have one."""
    while True:
        names = parts(store)
        new = [part for part in names if value_of(store, part, None) is None]
        for part in new:
            store.transact(lambda t: give_port(t, part), tries=15)
            print(f"{part}: port {value_of(store, part, None)}", flush=True)
        if not new and len(names) >= count:
            return
        time.sleep(0 if new else PAUSE)


def main():
    if len(sys.argv) != 3:
        sys.exit(__doc__)
    socket, count, end = sys.argv[1], int(sys.argv[2]), time.monotonic() + SERVER_SECONDS
    while True:
        try:
            with regtx.Store.connect(socket, timeout=60) as store:
                return keep(store, count)
        except (regtx.RunEnded, regtx.CommitUnknown, regtx.NoSeat, OSError):
            # a port whose commit is unknown is there or not, as a look at the store tells
            if time.monotonic() > end:
                raise
            time.sleep(1)


main()
