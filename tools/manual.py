#!/usr/bin/env python3
"""Makes the manual pages:

    tools/manual.py PAGE >PAGE     PAGE is regtx.1, regtxd.1, regtxc.1, regtx-replicate.1, regtx.3 or regtx_client.3

They are made of the repository's pages, of the program's usages in crates/regtx/src/usages.rt, and of headers. A table becomes a list:
its first column has the terms. A link becomes its words, since a page in a terminal has none. What has no known form in a page ends
this with status 1, so that nothing is left out in silence.
"""
import re
import sys

sys.dont_write_bytecode = True
from headers import parts  # noqa: E402
from markdown import Code, Heading, Paragraph, Table, blocks  # noqa: E402
from product import ABOUT, README, USAGES, changed, day, description, source, summary, usages, version  # noqa: E402
from roff import CODE_SIGNS, all_printed, code, escaped, filled, inline, printed  # noqa: E402

USING, SCRIPTS, SERVING, FLEET, SERVER, CLIENTS, CLIENT, LIBRARY = (
    "docs/USING.md", "docs/SCRIPTS.md", "docs/SERVING.md", "docs/FLEET.md", "server/README.md", "clients/README.md", "clients/c/README.md",
    "crates/regtx_c/README.md")
HEADER, CLIENT_HEADER = "crates/regtx_c/regtx.h", "clients/c/regtx_client.h"
# what other pages than the manual know by names of its own, and what parts the page moves to the places where a manual has them
ENDS, FILES = "How a run ends", ["file", "what"]
ALSO = [("regtxd", 1), ("regtxc", 1), ("uuidgen", 1), ("flock", 1), ("hivexsh", 1), ("hivexml", 1), ("hivexregedit", 1), ("reglookup", 1)]
SECTIONS = {"1": "User Commands", "3": "Library Functions Manual"}
WORDS = re.compile(r"[A-Z:]+(?:=[A-Z]+)?")


def page(name):
    """The blocks of a page after its title, and the title."""
    found = blocks(source(name))
    if not found or not isinstance(found[0], Heading) or found[0].level != 1:
        raise ValueError(f"{name} doesn't begin with a title")
    return found[0].text, found[1:]


def section(found, title):
    """Takes the section of this title out of a page, with those below it; answers its blocks and those that are left."""
    begins = [at for at, block in enumerate(found) if isinstance(block, Heading) and block.text == title]
    if len(begins) != 1:
        raise ValueError(f"{len(begins)} sections are called {title}")
    begin = begins[0]
    ends = [at for at in range(begin + 1, len(found)) if isinstance(found[at], Heading) and found[at].level <= found[begin].level]
    end = ends[0] if ends else len(found)
    return found[begin:end], [*found[:begin], *found[end:]]


def within(found, title):
    """What stands below a heading. Headings there are one level higher."""
    inner = section(found, title)[0][1:]
    return [Heading(block.level - 1, block.text) if isinstance(block, Heading) else block for block in inner]


def introduction(found):
    """What stands before the first heading of a page."""
    end = next((at for at, block in enumerate(found) if isinstance(block, Heading)), len(found))
    return found[:end]


def taken(found, kind, name):
    """Takes the first block of a kind; answers it and those that are left."""
    at = next((at for at, block in enumerate(found) if isinstance(block, kind)), None)
    if at is None:
        raise ValueError(f"{name} has no {kind.__name__}")
    return found[at], [*found[:at], *found[at + 1:]]


def files(found):
    """The table of a store's files, and the page with a word on where that is."""
    tables = [block for block in found if isinstance(block, Table) and block.head == FILES]
    if len(tables) != 1:
        raise ValueError(f"{USING} has {len(tables)} tables of files")
    return tables[0], [Paragraph("The files of a store are listed under FILES.") if block is tables[0] else block for block in found]


def words(call):
    """A command with its words: what is to be replaced is in italics."""
    name, *rest = call.split(" ")
    parts_of = [WORDS.sub(lambda word: rf"\fI{word[0]}\fR", part) for part in rest]
    return rf"\fBregtx {escaped(name, CODE_SIGNS)}\fR{''.join(f' {part}' for part in parts_of)}"


def synopsis():
    lines = []
    for _, call, _ in usages():
        lines += [words(call), ".br"]
    return lines[:-1]


def commands():
    lines = [*filled(description()), ".PP", "The commands:"]
    for _, call, does in usages():
        lines += [".TP", words(call), *filled(does)]
    return lines


def example():
    """The first session of README.md, and what is said of it."""
    found = blocks(source(README))
    at = next(at for at, block in enumerate(found) if isinstance(block, Code))
    if not isinstance(found[at + 1], Paragraph):
        raise ValueError(f"{README} says nothing of its first example")
    return all_printed(found[at:at + 2])


def also(*names):
    """Other manual pages."""
    lines = [rf"\fB{escaped(name, CODE_SIGNS)}\fR({number})," for name, number in names]
    return [*lines[:-1], lines[-1].rstrip(",")]


def head(name, number, does, sources):
    """The first lines of a page: what it is made of, its title and its name."""
    moment = day(changed(*sources, ABOUT))
    return [
        rf'.\" made by tools/manual.py of {", ".join(sources)}',
        f'.TH {name.upper()} {number} {moment} "regtx {version()}" "{SECTIONS[number]}"', ".if n .ad l",
        ".SH NAME", rf"{name} \- {inline(does)}",
    ]


def of_program():
    using_title, using = page(USING)
    scripts_title, scripts = page(SCRIPTS)
    list_of_files, using = files(using)
    ends, scripts = section(scripts, ENDS)
    text = ("The pages README.md and docs/USING.md, SCRIPTS.md, REGFILES.md, LAB.md and SWEEP.md are installed in `share/doc/regtx`. "
            "The clients for Python, Rust and C are in `share/regtx/clients`.")
    return [
        *head("regtx", "1", summary(), [README, USING, SCRIPTS, USAGES]),
        ".SH SYNOPSIS", *synopsis(),
        ".SH DESCRIPTION", *commands(),
        f".SH {using_title.upper()}", *all_printed(using),
        f".SH {scripts_title.upper()}", *all_printed(scripts),
        ".SH EXIT STATUS", *all_printed(ends),
        ".SH FILES", *printed(list_of_files),
        ".SH EXAMPLES", *example(),
        ".SH SEE ALSO", *also(*ALSO), ".PP", *filled(text),
    ]


def usage(found, name):
    """The usage of a program, which stands first of what its page says of it; and the rest."""
    call, rest = taken(found, Code, name)
    if len(call.lines) != 1:
        raise ValueError(f"{SERVER} has no line of {name}")
    return [words(call.lines[0]).replace("regtx ", "", 1)], rest


def of_broker():
    _, server = page(SERVER)
    title, serving = page(SERVING)
    call, text = usage(within(server, "regtxd"), "regtxd")
    session, _ = taken(server, Code, SERVER)
    return [
        *head("regtxd", "1", "serves a store to several programs", [SERVER, SERVING]),
        ".SH SYNOPSIS", *call,
        ".SH DESCRIPTION", *all_printed(text),
        f".SH {title.upper()}", *all_printed(serving),
        ".SH SYSTEMD", *all_printed(within(server, "systemd")),
        ".SH EXAMPLES", *all_printed([session]),
        ".SH SEE ALSO", *also(("regtx", 1), ("regtxc", 1), ("systemd.unit", 5), ("systemd.socket", 5)),
    ]


def of_shell_client():
    _, server = page(SERVER)
    call, text = usage(within(server, "regtxc"), "regtxc")
    return [
        *head("regtxc", "1", "sends lines to a store that is served", [SERVER]),
        ".SH SYNOPSIS", *call,
        ".SH DESCRIPTION", *all_printed(text),
        ".SH SEE ALSO", *also(("regtx", 1), ("regtxd", 1)),
    ]


def of_replication():
    title, fleet = page(FLEET)
    command, rest = section(fleet, "The command")
    calls, options = taken(command[1:], Code, FLEET)
    session, intro = taken(introduction(rest), Code, FLEET)
    synopsis_lines = [line for call in calls.lines for line in (words(call).replace("regtx ", "", 1), ".br")]
    return [
        *head("regtx-replicate", "1", "carries a store's changes to many machines", [FLEET]),
        ".SH SYNOPSIS", *synopsis_lines[:-1],
        ".SH DESCRIPTION", *all_printed([*intro, *options]),
        f".SH {title.upper()}", *all_printed(rest[len(introduction(rest)):]),
        ".SH EXAMPLES", *all_printed([session]),
        ".SH SEE ALSO", *also(("regtx", 1), ("regtxd", 1), ("etcd", 1), ("rsync", 1)),
    ]


def included(header, package):
    """How a program in C takes a library."""
    return code(Code([f"#include <{header}>", "", f"cc program.c $(pkg-config --cflags --libs {package})"]))[1:]


def declarations(found):
    """Each declaration of a header, and below it what its comment says."""
    lines = []
    for text, declared in found:
        told = [line for paragraph in text for line in (".PP", *filled(paragraph))]
        if declared:
            lines += [".PP", ".EX", *(escaped(line, CODE_SIGNS) for line in declared), ".EE"]
        lines += [".RS 4", *told[1:], ".RE"] if declared and told else told
    return lines[1:]


def of_library():
    _, found = page(LIBRARY)
    comment, declared = parts(source(HEADER))
    session, intro = taken(introduction(found), Code, LIBRARY)
    return [
        *head("regtx", "3", "Windows registry hives in memory", [LIBRARY, HEADER]),
        ".SH SYNOPSIS", *included("regtx.h", "regtx"),
        ".SH DESCRIPTION", *all_printed([*intro[:1], *map(Paragraph, comment)]),
        ".SH DECLARATIONS", *declarations(declared),
        ".SH PROMISES", *all_printed(within(found, "What callers rely on")),
        ".SH EXAMPLES", *all_printed([session]),
        ".SH SEE ALSO", *also(("regtx", 1), ("regtx_client", 3)),
    ]


def of_client():
    _, found = page(CLIENT)
    _, clients = page(CLIENTS)
    comment, declared = parts(source(CLIENT_HEADER))
    session, intro = taken(introduction(found), Code, CLIENT)
    titles = ["Calls", "A store that is served", "Names and values", "Codes", "When something is killed"]
    told = [block for title in titles for block in section(found, title)[0]]
    shared = [block for title in ("Writes", "When something is killed") for block in section(clients, title)[0]]
    return [
        *head("regtx_client", "3", "stores of registry keys and values, from C", [CLIENTS, CLIENT, CLIENT_HEADER]),
        ".SH SYNOPSIS", *included("regtx_client.h", "regtx-client"),
        ".SH DESCRIPTION", *all_printed([*intro[:1], *map(Paragraph, comment), *told]),
        ".SH STORES", *all_printed(shared),
        ".SH DECLARATIONS", *declarations(declared),
        ".SH EXAMPLES", *all_printed([session]),
        ".SH SEE ALSO", *also(("regtx", 1), ("regtxd", 1), ("regtx", 3)),
    ]


PAGES = {"regtx.1": of_program, "regtxd.1": of_broker, "regtxc.1": of_shell_client,
         "regtx-replicate.1": of_replication, "regtx.3": of_library, "regtx_client.3": of_client}


def main():
    if len(sys.argv) != 2 or sys.argv[1] not in PAGES:
        sys.exit(__doc__)
    try:
        print("\n".join(PAGES[sys.argv[1]]()))
    except ValueError as wrong:
        sys.exit(f"tools/manual.py: {wrong}")


main()
