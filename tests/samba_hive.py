#!/usr/bin/env python3
"""Writes keys and values into a hive by samba's library, in a process of its own:

    tests/samba_hive.py new|edit FILE LIBRARY < LINES

`new` makes a hive of version 1.3 first. A line is PATH, or PATH, NAME, TYPE and HEX with tabs between; a key follows those above it.
"""
import ctypes
import sys

STATUS, POINTER, TEXT = ctypes.c_uint32, ctypes.c_void_p, ctypes.c_char_p


class Blob(ctypes.Structure):
    _fields_ = [("data", POINTER), ("length", ctypes.c_size_t)]


CALLS = {"reg_create_regf_file": [POINTER, TEXT, ctypes.c_int, POINTER], "reg_open_regf_file": [POINTER, TEXT, POINTER],
         "hive_key_add_name": [POINTER, POINTER, TEXT, TEXT, POINTER, POINTER],
         "hive_key_set_value": [POINTER, TEXT, ctypes.c_uint32, Blob], "hive_key_flush": [POINTER]}


def asked(library, name, *words):
    """Makes a call, and ends this if it is refused."""
    call = getattr(library, name)
    call.restype, call.argtypes = STATUS, CALLS[name]
    status = call(*words)
    if status:
        sys.exit(f"{name}: {status:#x}")


def main():
    how, file, path = sys.argv[1:]
    library, keys = ctypes.CDLL(path), {"": POINTER()}
    words = [3] if how == "new" else []
    asked(library, "reg_create_regf_file" if words else "reg_open_regf_file", None, file.encode(), *words, ctypes.byref(keys[""]))
    for line in sys.stdin.read().splitlines():
        place, *value = line.split("\t")
        if value:
            data = bytes.fromhex(value[2])
            held = ctypes.create_string_buffer(data, len(data))
            asked(library, "hive_key_set_value", keys[place], value[0].encode(), int(value[1]), Blob(ctypes.addressof(held), len(data)))
        else:
            above, _, name = place.rpartition("\\")
            keys[place] = POINTER()
            asked(library, "hive_key_add_name", None, keys[above], name.encode(), None, None, ctypes.byref(keys[place]))
    asked(library, "hive_key_flush", keys[""])


main()
