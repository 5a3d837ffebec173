r"""Stores of registry keys and values, changed in transactions by the program `regtx`.

    with regtx.Store("store", program="./regtx") as store:
        with store.transaction() as t:
            t.create_key(r"0:Software\Vendor")
            t.set_value(r"0:Software\Vendor", "Version", regtx.Value.sz("1.0"))

A `Store` starts `regtx run FOLDER /dev/stdin`, or connects to a server that has the store; it sends lines, and reads the reply to
each. README.md above this folder is its page; docs/SCRIPTS.md has the lines and what each does.

A key is given as `HIVE:PATH`, such as `0:Software\Vendor`; `key_path` makes one of a hive's number and names. The name "" is
that of the default value.
"""
from .errors import (
    BadName, CannotFollow, CannotMake, CannotOpen, CannotRead, CommandFailed, CommitUnknown, Conflict, DecodeError, DiskFault, Faulted,
    Fixed, HasSubkeys, HistoryFull, HiveDamaged, JournalDamaged, JournalFull, NoMemory, NoSeat, NoSuchHandle, NotActive, NotFound,
    NotTrusted, OtherProcess, Refused, RegtxError, RunEnded, ScopeEnded, TooDeep, TooLarge, Unsupported)
from .follow import Change, Follower, Watcher
from .names import KeyInfo, ServerStats, key_path, moment_of
from .pool import Pool
from .requests import Writes
from .store import Session, Store, Transaction, Work
from .values import Kind, Value

__version__ = "0.9.0"
__all__ = [
    "BadName", "CannotFollow", "CannotMake", "CannotOpen", "CannotRead", "Change", "CommandFailed", "CommitUnknown", "Conflict",
    "DecodeError", "DiskFault", "Faulted", "Fixed", "Follower", "HasSubkeys", "HistoryFull", "HiveDamaged", "JournalDamaged", "JournalFull",
    "KeyInfo", "Kind", "NoMemory", "NoSeat", "NoSuchHandle", "NotActive", "NotFound", "NotTrusted", "OtherProcess", "Pool", "Refused", "RegtxError", "RunEnded",
    "ScopeEnded", "ServerStats", "Session", "Store", "TooDeep", "TooLarge", "Transaction", "Unsupported", "Value", "Watcher", "Work", "Writes", "key_path",
    "moment_of",
]
# whichever file has it, a user knows it by this module
for _name in __all__:
    if isinstance(globals()[_name], type):
        globals()[_name].__module__ = __name__
