#!/usr/bin/env python3
"""Prints what the public calls of the crates promise:

    tools/promises.py [NAME..]          each public function with its clauses, and each type with what it keeps, crate by crate in
                                        the order of crates.txt
    tools/promises.py --count           how many functions, clauses and such types each crate has

A function is public if it is `pub` or a method of an `impl` of a trait. Its clauses are printed as they stand in the source, each on
a line; `ensures` without a label is printed as `ensures`. What a type keeps is the `ghost invariant` of its `impl Model`: whoever
has a value of it may rely on that.
"""
import os
import re
import sys

sys.dont_write_bytecode = True
sys.path.insert(0, os.path.dirname(os.path.abspath(__file__)))
from graph import TOP, crates  # noqa: E402

OWNER = re.compile(r"^(?:impl\b.*|pub trait\b.*)", re.MULTILINE)
FUNCTION = re.compile(r"^( *)(pub )?(?:const )?(?:unsafe )?(?:extern \"C\" )?fn (\w+)", re.MULTILINE)
KEPT = re.compile(r"^    ghost invariant = \{", re.MULTILINE)
CLAUSE = re.compile(r"\b(requires|ensures\*?|decreases)\s*(\w*)\s*\{")
BODY = re.compile(r"[{;]")


def block_end(text, start):
    """Where the block ends whose brace opens at `start`."""
    depth = 0
    for at in range(start, len(text)):
        depth += {"{": 1, "}": -1}.get(text[at], 0)
        if not depth:
            return at + 1
    return len(text)


def without_comments(text):
    return re.sub(r"^\s*//.*\n", "", text, flags=re.MULTILINE)


def clauses(text, start):
    """The clauses behind a function's name, each in one line."""
    # `;` of an array's type is no end
    text = re.sub(r"\[[^\[\]]*;[^\[\]]*\]", lambda found: "." * len(found.group()), text)
    found, at = [], start
    while True:
        body, clause = BODY.search(text, at), CLAUSE.search(text, at)
        if clause is None or (body and body.start() < clause.start()):
            return found
        at = block_end(text, clause.end() - 1)
        said = " ".join(text[clause.end():at - 1].split())
        found.append(f"{' '.join(filter(None, clause.groups()))}: {said}")


def sources(crate):
    """The files of a crate: the module of each, and its text without comments."""
    for folder, _, files in sorted(os.walk(f"{TOP}/crates/{crate}/src")):
        for file in sorted(files):
            with open(os.path.join(folder, file), encoding="utf-8") as source:
                yield file.removesuffix(".rt"), without_comments(source.read())


def owner_of(text, at):
    """The head of the `impl` or the trait that a place of a text is in."""
    owners = [it.group() for it in OWNER.finditer(text, 0, at)]
    return owners[-1].split("{")[0].strip() if owners else ""


def functions(crate):
    """The public functions of a crate, each with its clauses, in the order of files and lines."""
    for module, text in sources(crate):
        for found in FUNCTION.finditer(text):
            indent, is_public, name = found.groups()
            owner = owner_of(text, found.start()) if indent else ""
            if is_public or " for " in owner or owner.startswith("pub trait"):
                yield f"{crate}::{module}::{name}" + (f" of {owner}" if owner else ""), clauses(text, found.end())


def types(crate):
    """What values of the types of a crate keep, in the order of files and lines."""
    for module, text in sources(crate):
        for found in KEPT.finditer(text):
            said = " ".join(text[found.end():block_end(text, found.end() - 1) - 1].split())
            yield f"{crate}::{module}: {owner_of(text, found.start())}", [f"keeps: {said}"]


def told(count):
    """How many functions, clauses and types that is, in words."""
    return f"{count[0]} functions, {count[1]} clauses, {count[2]} types that keep something"


def main():
    graph, words = crates(), sys.argv[1:]
    is_count = words[:1] == ["--count"]
    names = words[is_count:] or list(graph)
    if any(name not in graph for name in names):
        sys.exit(__doc__)
    total = [0, 0, 0]
    for crate in names:
        found, kept = list(functions(crate)), list(types(crate))
        count = len(found), sum(len(clauses) for _, clauses in found), len(kept)
        total = [old + new for old, new in zip(total, count)]
        if is_count:
            print(f"{crate}: {told(count)}")
            continue
        for name, said in [*kept, *found]:
            print(name, *(f"    {clause}" for clause in said), sep="\n")
    if is_count:
        print(told(total))


main()
