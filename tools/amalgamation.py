#!/usr/bin/env python3
"""Makes one header and one source of the client for C:

    tools/amalgamation.py FOLDER     writes regtx_client.h and regtx_client.c to a folder

The source has all files of clients/c, each once. What they share among themselves is `static` there, so that an object made of it
exports the calls of regtx_client.h alone. Two files that define one name for themselves can't be joined: the compiler says so.
"""
import glob
import os
import re
import sys

sys.dont_write_bytecode = True
from graph import TOP  # noqa: E402
from product import version  # noqa: E402

CLIENT, HEADER = f"{TOP}/clients/c", "regtx_client.h"
HEAD = """/* The client for C of regtx {version} in one file, beside which regtx_client.h belongs. It is made by tools/amalgamation.py of the files of
 * clients/c, whose pages and tests are those of regtx. */
#define _GNU_SOURCE

"""
INCLUDE = re.compile(r'^#include (?:"(\w+\.h)"|(<[\w/]+\.h>)).*\n', re.MULTILINE)
FEATURE = re.compile(r"^#define _(?:GNU|POSIX_C)_SOURCE\b.*\n", re.MULTILINE)
GUARD = re.compile(r"^#(?:ifndef|define) REGTX_\w+_H\n|^#endif\n\Z", re.MULTILINE)
# a function that a header declares: it begins a line, and its declaration ends with a semicolon
DECLARED = re.compile(r"^(?=\w[\w ]*[ *]+regtx_\w+\([^{}]*?\);)", re.MULTILINE)


def read(name):
    with open(os.path.join(CLIENT, name), encoding="utf-8") as file:
        return file.read()


def body(text):
    """A file without what stands once for all."""
    plain = INCLUDE.sub("", FEATURE.sub("", GUARD.sub("", text))).strip("\n")
    return re.sub(r"\n{3,}", "\n\n", plain) + "\n"


def inner_headers(names):
    """The headers that the sources share, each after those that it includes."""
    found = []

    def add(name):
        for inner, _ in INCLUDE.findall(read(name)):
            if inner and inner != HEADER:
                add(inner)
        if name not in found:
            found.append(name)
    for name in names:
        add(name)
    return [name for name in found if name.endswith(".h")]


def amalgamation():
    """The text of the source."""
    sources = sorted(os.path.basename(path) for path in glob.glob(f"{CLIENT}/regtx_*.c"))
    headers = inner_headers(sources)
    system = sorted({outer for name in [*sources, *headers] for _, outer in INCLUDE.findall(read(name)) if outer})
    parts = [HEAD.format(version=version()), f'#include "{HEADER}"\n\n', "".join(f"#include {name}\n" for name in system)]
    parts += [f"\n/* {name} */\n\n{DECLARED.sub('static ', body(read(name)))}" for name in headers]
    parts += [f"\n/* {name} */\n\n{body(read(name))}" for name in sources]
    return "".join(parts)


def main():
    if len(sys.argv) != 2 or sys.argv[1].startswith("-"):
        sys.exit(__doc__)
    os.makedirs(sys.argv[1], exist_ok=True)
    for name, text in [(HEADER, read(HEADER)), ("regtx_client.c", amalgamation())]:
        with open(os.path.join(sys.argv[1], name), "w", encoding="utf-8") as file:
            file.write(text)


main()
