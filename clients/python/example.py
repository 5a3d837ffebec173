#!/usr/bin/env python3
"""Installs a product into a store, once, though this or the program is killed: begun again, it goes on.

    clients/python/example.py FOLDER [PROGRAM]

The store is in FOLDER, and is made if that isn't there. PROGRAM is the path of regtx, else the `regtx` of the PATH.
"""
import os
import sys
import uuid

import regtx
from regtx import Value

STORE = uuid.UUID("00112233-4455-6677-8899-aabbccddeeff")
# the unit of work has the same UUID whenever this begins
INSTALL = uuid.uuid5(STORE, "install Vendor 1.0")
SOFTWARE, SYSTEM = 0, 1
PRODUCT, SERVICE = regtx.key_path(SOFTWARE, "Vendor", "Product"), regtx.key_path(SYSTEM, "Services", "Product")


def install(t: regtx.Transaction) -> None:
    """Writes into both hives."""
    t.create_key(PRODUCT)
    t.set_value(PRODUCT, "Version", Value.sz("1.0"))
    t.set_value(PRODUCT, "Paths", Value.multi_sz(["bin", "lib"]))
    t.create_key(SERVICE)
    t.set_value(SERVICE, "Port", Value.dword(8080))


def install_once(folder: str, program: str, tries: int = 5) -> None:
    """Installs what isn't installed. If a run ends, so that it isn't known, another run tells."""
    for left in reversed(range(tries)):
        try:
            with regtx.Store(folder, program, wait=30) as store:
                number = store.kept(INSTALL)
                print(f"installed by change {store.transact(install, INSTALL)}" if number is None else f"was installed by change {number}")
            return
        except (regtx.RunEnded, regtx.CommitUnknown):
            if not left:
                raise


def main() -> None:
    if len(sys.argv) not in (2, 3):
        sys.exit(__doc__)
    folder, program = sys.argv[1], sys.argv[2] if len(sys.argv) == 3 else "regtx"
    if not os.path.exists(folder):
        regtx.Store.create(folder, STORE, hives=2, program=program)
    install_once(folder, program)
    install_once(folder, program)
    with regtx.Store(folder, program, wait=30) as store:
        for name, value in store.items(PRODUCT):
            print(f"{name}: {regtx.Kind(value.kind).name} {value.value!r}")
        try:
            with store.transaction() as t:
                t.set_value(PRODUCT, "Version", Value.sz("2.0"))
                t.delete_key(regtx.key_path(SYSTEM, "Services"))
        except regtx.Refused as error:
            print(f"rolled back: {error.name}")
        print(f"version {store.get_value(PRODUCT, 'Version').text}, port {store.get_value(SERVICE, 'Port').value!r}")


main()
