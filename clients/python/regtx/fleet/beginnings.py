"""How a replica begins: from a copy of the store, or from an export of one."""
from __future__ import annotations

import os
import re
import shutil
import subprocess
from typing import Callable, Tuple

from ..errors import CannotOpen
from ..program import Folder
from ..store import Store
from .agreement import check_agreement
from .errors import FleetError
from .folder_log import sync_folder, write_whole
from .log import Log
from .records import Head, Role, told_of
from .replica import DAMAGED, ROLE
from .sources import store_id


def begin(folder: str, backup: str, log: Log, program: Folder) -> int:
    """Makes a replica of a copy of the store, in the place of one that is behind; answers its number."""
    head = told_of(log.store, log.head())
    if store_id(backup) != head.store:
        raise FleetError(f"{backup} has store {store_id(backup)}, and what is published is of {head.store}")

    def make(part: str) -> Tuple[int, int]:
        shutil.copytree(backup, part, ignore=shutil.ignore_patterns("served", ROLE, "*.part"))
        number = _opened(part, log, head, program)
        return number, number
    return _put(folder, head, make)


def begin_from_export(folder: str, file: str, number: int, hives: int, log: Log, program: Folder) -> int:
    """Makes a replica of a registration file that was exported from the store as of a number; answers that."""
    head = told_of(log.store, log.head())
    if not head.first <= number <= head.last:
        raise FleetError(f"an export as of {number} doesn't fit: changes after {head.first}, up to {head.last}, are published")

    def make(part: str) -> Tuple[int, int]:
        Store.create(part, head.store, hives, program)
        return number, _applied(part, file, program)
    return _put(folder, head, make)


def _applied(part: str, file: str, program: Folder) -> int:
    """Applies a registration file to a new store; answers at which number that is then."""
    words = [os.fspath(program), "apply", part, os.path.abspath(file)]
    ended = subprocess.run(words, stdin=subprocess.DEVNULL, stdout=subprocess.PIPE, check=False)
    told = re.fullmatch(r"applied ([0-9]+)\n", ended.stdout.decode(errors="replace"))
    if not told or ended.returncode:
        raise FleetError(f"{file} can't be applied: {ended.stdout.decode(errors='replace').strip()}")
    return int(told[1])


def _put(folder: str, head: Head, make: Callable[[str], Tuple[int, int]]) -> int:
    """Puts a replica into its place, once it is whole. What was there before is kept as FOLDER.before.

    One that was cut off is FOLDER.part, which the next beginning removes.
    """
    folder = os.path.abspath(folder)
    part, before = f"{folder}.part", f"{folder}.before"
    shutil.rmtree(part, ignore_errors=True)
    number, own = make(part)
    write_whole(os.path.join(part, ROLE), Role(head.store, head.history, number, own).text())
    _sync_all(part)
    if os.path.lexists(folder):
        shutil.rmtree(before, ignore_errors=True)
        os.rename(folder, before)
    os.rename(part, folder)
    sync_folder(os.path.dirname(folder))
    return number


def _opened(part: str, log: Log, head: Head, program: Folder) -> int:
    """The number at which a copy opens, if it is one of the store that is published, and not behind what is."""
    try:
        with Store(part, program) as store:
            number = store.opened_at
            if number < head.first:
                raise FleetError(f"the copy is at {number}, and changes after {head.first} alone are published: take a newer one")
            check_agreement(store, log, head, number)
    except (*DAMAGED, CannotOpen) as why:
        raise FleetError(f"the copy can't be opened: {why}") from why
    return number


def _sync_all(folder: str) -> None:
    for name in os.listdir(folder):
        file = os.open(os.path.join(folder, name), os.O_RDONLY)
        try:
            os.fsync(file)
        finally:
            os.close(file)
    sync_folder(folder)
