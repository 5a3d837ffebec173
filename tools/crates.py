#!/usr/bin/env python3
"""Compares crates.txt with what the crates' files cite, and tests/programs.txt with what those of the programs cite:

    tools/crates.py    tells each line that names too much or too little, or stands before what it names

A file cites a crate by a path that begins with its name: `reg_tree::Op`, `use refusals`, `Rattle.disk_model.specs`. Ends
with status 0 if each line has just what its crate cites.
"""
import os
import re
import sys

sys.dont_write_bytecode = True
sys.path.insert(0, os.path.dirname(os.path.abspath(__file__)))
from graph import TOP, crates, folder_of, programs  # noqa: E402

CITATION = re.compile(r"Rattle\.(\w+)|\buse (?!Rattle\.)(\w+)|(?<![\w.:])(\w+)::")
COMMENT = re.compile(r"^\s*(//|--).*$", re.MULTILINE)


def paths(name):
    """The first names of all paths in the files of a crate or a program, comments left out."""
    found = set()
    for folder, below, files in os.walk(folder_of(name)):
        below[:] = [name for name in below if name != "out"]
        for file in files:
            if file.endswith((".rt", ".antt", ".rs")):
                with open(os.path.join(folder, file), encoding="utf-8") as text:
                    found |= {name for names in CITATION.findall(COMMENT.sub("", text.read())) for name in names}
    return found


def wrong_line(name, named, graph):
    """What is wrong with the names on a line."""
    cited = paths(name)
    yield from (f"{name}: names {each}, and cites it nowhere" for each in named if each not in cited)
    yield from (f"{name}: cites {each}, and doesn't name it" for each in sorted(cited - {name}) if each in graph and each not in named)


def wrong_lines(graph):
    """What is wrong with each line, in the order of the lines."""
    before = set()
    for crate, named in graph.items():
        yield from wrong_line(crate, named, graph)
        yield from (f"{crate}: stands before {name}, which it names" for name in named if name in graph and name not in before)
        before.add(crate)
    yield from (f"crates/{name}: has no line" for name in sorted(os.listdir(f"{TOP}/crates")) if name not in graph)
    for program, named in programs().items():
        yield from wrong_line(program, named, graph)


def main():
    graph = crates()
    wrong = list(wrong_lines(graph))
    print("\n".join(wrong) if wrong else f"crates: {len(graph)} crates and {len(programs())} programs, each with what it cites")
    sys.exit(bool(wrong))


main()
