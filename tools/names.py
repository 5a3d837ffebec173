#!/usr/bin/env python3
"""Holds the crates to one name for one thing:

    tools/names.py            tells each name that two crates define, unless it waits in tools/double_names.txt
    tools/names.py --write    writes that list anew

A name is that of a public type, or of a public predicate: a definition of specs/ that begins with a capital letter. A name in the
list waits for the next change of its crates. One that is double no more has to leave the list. Status 1 if a line is told.
"""
import re
import sys
from collections import defaultdict

sys.dont_write_bytecode = True
from graph import TOP  # noqa: E402
from sources import code, crate_files  # noqa: E402

LIST = f"{TOP}/tools/double_names.txt"
HEAD = """# Names that two crates or more define, each of which waits for the next change of its crates. tools/names.py --write makes this
# list; a name that isn't here yet is refused. `type` is a public type, `spec` a public predicate.
"""
TYPE = re.compile(r"^\s*pub (?:struct|enum|trait|union|type) (\w+)", re.MULTILINE)
PREDICATE = re.compile(r"^(?:abbrev|record|data|unfoldable|pub|\s)*\bpub\s+(?:abbrev |record |data )?([A-Z]\w*)\b", re.MULTILINE)


def doubles():
    """What is defined twice: a kind and a name, with the crates."""
    found = defaultdict(set)
    for kind, part, ending, pattern in [("type", "src", ".rt", TYPE), ("spec", "specs", ".antt", PREDICATE)]:
        for crate, path in crate_files(part, ending):
            for name in pattern.findall(code(path)):
                found[kind, name].add(crate)
    return {it: crates for it, crates in found.items() if len(crates) > 1}


def line_of(kind, name, crates):
    return f"{kind} {name}: {' '.join(sorted(crates))}"


def listed():
    with open(LIST, encoding="utf-8") as file:
        return [line.rstrip("\n") for line in file if line.strip() and not line.startswith("#")]


def main():
    lines = sorted(line_of(*it, crates) for it, crates in doubles().items())
    if sys.argv[1:] == ["--write"]:
        with open(LIST, "w", encoding="utf-8") as file:
            file.write(HEAD + "".join(f"{line}\n" for line in lines))
        return 0
    if sys.argv[1:]:
        sys.exit(__doc__)
    known = listed()
    for line in sorted(set(lines) - set(known)):
        print(f"tools/names.py: one name, two things: {line}")
    for line in sorted(set(known) - set(lines)):
        print(f"tools/names.py: tools/double_names.txt names what isn't double so: {line}")
    return 1 if lines != sorted(known) else 0


sys.exit(main())
