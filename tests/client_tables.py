#!/usr/bin/env python3
"""Compares the tables that all clients share with the sources of the clients:

    tests/client_tables.py

- errors: docs/ERRORS.md has each error of each client, and none that isn't one.
- calls: the table of clients/README.md has each call of each client, and none that isn't one.

The last line is 'N passed, N failed'; status 0 if none failed.
"""
import inspect
import os
import re
import sys

TOP = os.path.dirname(os.path.dirname(os.path.abspath(__file__)))
sys.dont_write_bytecode = True
sys.path[:0] = [os.path.join(TOP, "tests"), os.path.join(TOP, "clients", "python")]
import regtx  # noqa: E402
from scratch import expect, finish, tell  # noqa: E402

HEADER = "clients/c/regtx_client.h"


def content(name):
    with open(os.path.join(TOP, name), encoding="utf-8") as file:
        return file.read()


def rows(page, head):
    """The rows of the table with this head, each as its cells."""
    lines = content(page).split(f"\n{head}\n", 1)[1].split("\n")[1:]
    return [[cell.strip() for cell in line.strip("|").split("|")] for line in lines[:lines.index("")]]


def names(cells):
    """What stands in backquotes in some cells: the words before brackets."""
    return [word for cell in cells for word in re.findall(r"`([A-Za-z_:.]+)", cell)]


def python_errors():
    return {name for name in regtx.__all__ if inspect.isclass(each := getattr(regtx, name)) and issubclass(each, regtx.RegtxError)}


def variants(name, path):
    """The variants of an enum of Rust."""
    body = re.search(rf"pub enum {name} {{\n(.*?)\n}}", content(path), re.DOTALL)[1]
    return set(re.findall(r"^    ([A-Z]\w+)", body, re.MULTILINE))


def codes():
    """The codes of the client for C: refusals by their numbers, and failures."""
    refusals, failures = re.findall(r"^enum {\n(.*?)^};", content(HEADER), re.MULTILINE | re.DOTALL)[:2]
    found = [re.findall(r"^    (REGTX_\w+)", each, re.MULTILINE) for each in (refusals, failures)]
    return found[0][1:], set(found[1])


def errors():
    """The page on errors beside the sources."""
    refusals, failures = codes()
    table = rows("docs/ERRORS.md", "| reply | C | means | do |")
    told = [re.fullmatch(r"`E(\d+) (\w+)`", row[0]).groups() for row in table]
    yield expect("numbers of refusals", [int(number) for number, _ in told], list(range(1, len(refusals) + 1)))
    yield expect("codes of refusals", [row[1].strip("`") for row in table], refusals)
    replies = {name for _, name in told}
    yield expect("refusals of Rust", variants("Refusal", "clients/rust/src/refusal.rs"), replies)
    ours = {name for name in python_errors() if getattr(regtx, name) in regtx.Refused.__subclasses__()}
    yield expect("refusals of Python", ours, replies)
    table = rows("docs/ERRORS.md", "| Python | Rust | C | means | do |")
    of_python = set(names(row[0] for row in table)) - {"ValueError", "TypeError", "FileNotFoundError", "OSError", "MemoryError"}
    yield expect("failures of Python", of_python, python_errors() - replies - {"Refused", "RegtxError"})
    of_rust = set(names(row[1] for row in table)) - {"None"}
    yield expect("failures of Rust", of_rust, variants("Error", "clients/rust/src/error.rs") - {"Refused"})
    yield expect("failures of C", set(names(row[2] for row in table)) - set(refusals), failures)
    yield expect("rows without what to do", [row for row in table if not row[-1]], [])


def of_python():
    """The calls of the package: methods and properties of its classes, and functions."""
    found = {"connect"}
    for name in regtx.__all__:
        each = getattr(regtx, name)
        if inspect.isfunction(each):
            found.add(name)
        elif inspect.isclass(each) and not issubclass(each, (regtx.RegtxError, regtx.Kind, regtx.KeyInfo, regtx.Change)):
            found.update(call for call, it in inspect.getmembers(each) if not call.startswith("_") and (callable(it) or isinstance(it, property)))
    return found - INNER


def of_rust():
    """The public functions of the crate, and those of its trait."""
    folder = os.path.join("clients", "rust", "src")
    texts = [content(os.path.join(folder, name)) for name in sorted(os.listdir(os.path.join(TOP, folder)))]
    found = {name for text in texts for name in re.findall(r"^(?:    )?pub (?:const )?fn (\w+)", text, re.MULTILINE)}
    trait = re.search(r"^pub trait Requests.*?^}", content(os.path.join(folder, "requests.rs")), re.MULTILINE | re.DOTALL)[0]
    return found | set(re.findall(r"^    fn (\w+)", trait, re.MULTILINE))


def of_c():
    return set(re.findall(r"^(?!typedef)\w[\w ]*[ *](regtx_\w+)\(", content(HEADER), re.MULTILINE))


# what `Pool` asks of a store alone, which users needn't
INNER = {"is_as_new"}
# what a table has beside calls of a client: types, parts of Python and of Rust
BESIDE = {"Store", "Options", "Pool", "Writes", "Value", "Key", "Uuid", "Change", "CommitUnknown", "with", "UUID", "uuid4", "uuid", "str", "__cause__",
          "parse", "source", "to_string", "error", "value", "store", "regtx", "aio", "follower", "hints", "code", "name", "text", "unit"}


def calls():
    """The table of calls beside the sources."""
    table = rows("clients/README.md", "| Python | Rust | C |")
    columns = [[row[at] if row[at] != "the same" else row[0] for row in table] for at in range(3)]
    told = [{part for word in re.findall(r"`([^`]*)`", " ".join(column)) for part in re.findall(r"(?<![\w&(,])[A-Za-z_]\w*", re.sub(r"\([^()]*\)", "", word))}
            for column in columns]
    for language, found, named in [("Python", of_python(), told[0]), ("Rust", of_rust(), told[1]), ("C", of_c(), told[2])]:
        yield expect(f"calls of {language} that the table lacks", sorted(found - named), [])
        yield expect(f"what is no call of {language}", sorted(named - found - BESIDE), [])


def main():
    if len(sys.argv) != 1:
        sys.exit(__doc__)
    finish([tell("errors", list(errors())), tell("calls", list(calls()))])


main()
