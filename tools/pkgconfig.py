#!/usr/bin/env python3
"""Prints the pkg-config file of a library:

    tools/pkgconfig.py NAME PREFIX FOLDER >NAME.pc     NAME is `regtx`, hives in memory, or `regtx-client`, the client for C.
                                                       FOLDER is the one below PREFIX that has the library
"""
import re
import sys

sys.dont_write_bytecode = True
from product import version  # noqa: E402

LIBRARIES = {
    "regtx": ("Windows registry hives in memory", "-lregtx"),
    "regtx-client": ("A store of Windows registry hives, by the program regtx or its server", "-lregtx_client"),
}
TEXT = """prefix={prefix}
includedir=${{prefix}}/include
libdir=${{prefix}}/{folder}

Name: {name}
Description: {description}
Version: {version}
Cflags: -I${{includedir}}
Libs: -L${{libdir}} {library}
"""
# a shell parts what pkg-config prints at blanks, and takes none of its quotes away
PLAIN = re.compile(r"[\w/.,:@%+=~-]*")


def main():
    if len(sys.argv) != 4 or sys.argv[1] not in LIBRARIES:
        sys.exit(__doc__)
    name, prefix, folder = sys.argv[1:]
    if not PLAIN.fullmatch(prefix) or not prefix.startswith("/"):
        sys.exit(f"regtx: PREFIX must begin with / and have no blanks or quotes, which pkg-config can't print: {prefix!r}")
    if not PLAIN.fullmatch(folder):
        sys.exit(f"regtx: LIBRARIES must have no blanks or quotes, which pkg-config can't print: {folder!r}")
    description, library = LIBRARIES[name]
    print(TEXT.format(prefix=prefix, folder=folder, name=name, description=description, version=version(), library=library), end="")


main()
