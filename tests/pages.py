#!/usr/bin/env python3
"""Tries the examples of the crates' pages:

    tests/pages.py             runs the example of each crates/NAME/README.md
    tests/pages.py NAME..      the examples of these crates alone

An example is a block that begins with a line ```rust. It is run as the body of a test: `rt` and `alloc` are there, `?` ends it
with a failure, and its lines `use ..;` stand above the test. All examples are one crate of tests, which `rt try` compiles without
proofs, in two minutes. A block of docs/ that a line `<!-- FILE -->` precedes has to be that file, which the gate proves and runs.
Ends with status 0 if each example passes.
"""
import glob
import os
import re
import shutil
import subprocess
import sys
import tempfile

sys.dont_write_bytecode = True
TOP = os.path.dirname(os.path.dirname(os.path.abspath(__file__)))
sys.path.insert(0, f"{TOP}/tools")
from graph import crates, is_program, static_libraries  # noqa: E402

QUOTE = re.compile(r"^<!-- (crates/\S+) -->\n```rust\n(.*?)^```$", re.MULTILINE | re.DOTALL)
EXAMPLE = re.compile(r"^```rust\n(.*?)^```$", re.MULTILINE | re.DOTALL)
TEST = """//! The examples of the page of `{crate}`.
{uses}
use std::test::Fail;

#[test]
fn {crate}_page(rt: HostRuntime) -> Result<(), Fail> {{
    let alloc = rt.alloc();
{body}
    Ok(())
}}
"""


def examples(crate):
    """The blocks of Rattle on a crate's page."""
    page = f"{TOP}/crates/{crate}/README.md"
    if not os.path.exists(page):
        return []
    with open(page, encoding="utf-8") as file:
        return EXAMPLE.findall(file.read())


def quotes():
    """The files that pages of docs/ show, and whether they show them as they are."""
    for page in sorted(glob.glob(f"{TOP}/docs/*.md")):
        with open(page, encoding="utf-8") as file:
            for path, text in QUOTE.findall(file.read()):
                with open(f"{TOP}/{path}", encoding="utf-8") as source:
                    yield os.path.relpath(page, TOP), path, source.read() == text


def module(crate, blocks):
    """A module whose test runs the blocks, each in a scope of its own."""
    uses, bodies = {}, []
    for lines in map(str.splitlines, blocks):
        uses |= {line: None for line in lines if line.startswith("use ")}
        body = "\n".join(f"        {line}" for line in lines if not line.startswith("use "))
        bodies.append(f"    {{\n{body}\n    }}")
    return TEST.format(crate=crate, uses="\n".join(uses), body="\n".join(bodies))


def lay_out(found, graph, top):
    """Lays out a repository of the crates' sources with one crate more, whose tests are the examples."""
    shutil.copy(f"{TOP}/HANDLES", top)
    libraries = [crate for crate in graph if not is_program(crate) and crate not in static_libraries()]
    for crate in libraries:
        os.makedirs(f"{top}/crates/{crate}")
        os.symlink(f"{TOP}/crates/{crate}/src", f"{top}/crates/{crate}/src")
    kit = sorted({name for names in graph.values() for name in names if name not in graph})
    with open(f"{top}/crates.txt", "w", encoding="utf-8") as file:
        file.writelines(f"{crate}: {' '.join(graph[crate])}\n" for crate in libraries)
        file.write(f"examples: {' '.join([*libraries, *kit])}\n")
    source = f"{top}/crates/examples/src"
    os.makedirs(source)
    for crate, blocks in found.items():
        with open(f"{source}/{crate}_page.rt", "w", encoding="utf-8") as file:
            file.write(module(crate, blocks))
    with open(f"{source}/lib.rt", "w", encoding="utf-8") as file:
        file.write("//! The examples of the pages.\n#![tactic(auto)]\n\n")
        file.writelines(f"#[cfg(test)]\nmod {crate}_page;\n" for crate in found)


def main():
    graph = crates()
    names = sys.argv[1:] or list(graph)
    if any(name not in graph for name in names):
        sys.exit(__doc__)
    for page, path, same in quotes():
        if not same:
            sys.exit(f"pages: {page} doesn't show {path} as it is")
    found = {crate: blocks for crate in names if (blocks := examples(crate))}
    if not found:
        sys.exit("pages: no example")
    with tempfile.TemporaryDirectory(prefix="regtx-pages-") as top:
        lay_out(found, graph, top)
        ran = subprocess.run(["rt", "try", "--test"], cwd=f"{top}/crates/examples", capture_output=True, text=True)
    print(ran.stdout + ran.stderr if ran.returncode else f"pages: the examples of {len(found)} pages pass")
    sys.exit(ran.returncode != 0)


main()
