#!/usr/bin/env python3
"""Compares what the pages name with what is there:

    tools/pages.py            tells each finding
    tools/pages.py --write    counts the long sentences anew, in tools/long_sentences.txt

- A file or a folder that a page names by its path is there, and a link leads somewhere.
- A crate's file that a page names, such as `engine/src/steps.rt` or `src/lib.rt` on the crate's own page, is there. So is an item that
  stands behind it in brackets: `engine/src/engine.rt` (`event`).
- A row of a table has as many cells as its head, and stands right below it.
- A page has no more sentences of over 25 words than tools/long_sentences.txt says, and the list has no page with fewer.

A pattern, such as `crates/NAME/src`, and what a command makes, such as `out/quick`, is left out. Status 1 if a line is told.
"""
import os
import re
import sys

sys.dont_write_bytecode = True
from graph import TOP, crates, programs  # noqa: E402
from sources import code, read, tracked  # noqa: E402

LIST = f"{TOP}/tools/long_sentences.txt"
HEAD = """# How many sentences of over 25 words each page has. tools/pages.py --write makes this list; a page may not have more.
"""
MOST_WORDS = 25
FENCE = re.compile(r"^(```|~~~).*?^\1[ \t]*$", re.MULTILINE | re.DOTALL)
LINK = re.compile(r"\]\(([^)#\s]*)(?:#[^)\s]*)?\)")
SPAN = re.compile(r"`([^`\n]+)`(?: \(((?:`[\w:]+`(?:, | and )?)+))?")
# a path without a pattern in it: of small letters, with an ending or a slash
PATH = re.compile(r"(?:\.\.?/)?[a-z0-9_.-]+(?:/[A-Za-z0-9_.-]+)+/?|[a-z0-9_]+\.(?:rt|antt|py|md|txt|rs|c|h)")
# a word such as NAME, for which others stand
PATTERN = re.compile(r"\b(?:NAME|FILE|FOLDER|PROGRAM|X|CRATE)\b|\.\.$")
MADE = ("out/", "store/", "target/", "packages/", "backup")
SENTENCE = re.compile(r"(?<=[.:;!?])\s+(?=[A-Z`*\[])")


def spans(text):
    """What a page's text has in backquotes, blocks left out, with the words in brackets behind it."""
    for found in SPAN.finditer(FENCE.sub("", text)):
        yield found[1], re.findall(r"`([\w:]+)`", found[2] or "")


def places(path, page, spoken):
    """Where the file may be that a path on a page names: below the top, beside the page, or in a crate of which is spoken."""
    beside = [path, f"crates/{path}", os.path.normpath(f"{os.path.dirname(page)}/{path}")]
    inside = [f"crates/{crate}/{part}{path}" for crate in spoken for part in ("", "src/", "specs/", "proofs/")]
    return [f"{it}{ending}" for it in beside + inside for ending in ("", ".antt")]


def has_to_be(path, page):
    """Whether a path has to name a file of ours, and nothing that a command makes."""
    first = path.removeprefix("./").removeprefix("../").split("/")[0]
    ours = {*crates(), *programs(), "crates", "docs", "tests", "tools", "bench", "runs", "examples", "clients", "bindings", "completions"}
    inner = {"src", "specs", "proofs"} if page.startswith(("crates/", "docs/")) else set()
    return (first in ours | inner or path.endswith((".rt", ".antt"))) and not path.startswith(MADE) and "/out/" not in f"{path}/"


def wrong_paths(page, text):
    """Files, and items of them, that a page names and that aren't there."""
    last = page.split("/")[1:2] if page.startswith("crates/") else []
    for part in re.split(r"\n\s*\n|\n(?=[|-]|\d+\. )", FENCE.sub("", text)):
        named = [found for span, _ in spans(part) if (found := re.match(r"(?:crates/)?(\w+)(?:/|$)", span)) and found[1] in crates()]
        spoken = list(dict.fromkeys([found[1] for found in named] + last))
        last = [named[-1][1]] if named and not page.startswith("crates/") else last
        for span, items in spans(part):
            path = span.split(" ")[0]
            if not PATH.fullmatch(path) or PATTERN.search(path):
                continue
            found = [it for it in places(path, page, spoken) if os.path.exists(f"{TOP}/{it}")]
            if not found and has_to_be(path, page):
                yield f"{page}: `{path}` isn't there"
            words = {word for it in found if os.path.isfile(f"{TOP}/{it}") for word in re.findall(r"\w+", code(it))}
            yield from (f"{page}: {path} has no `{item}`" for item in items if found and item.split("::")[-1] not in words)


def wrong_links(page, text):
    for target in LINK.findall(FENCE.sub("", text)):
        if target and "://" not in target and not os.path.exists(os.path.normpath(f"{TOP}/{os.path.dirname(page)}/{target}")):
            yield f"{page}: a link leads to {target}, which isn't there"


def cells(row):
    return len(re.findall(r"(?<!\\)\|", re.sub(r"`[^`]*`", "", row.strip().strip("|"))))


def wrong_rows(page, text):
    head, before = None, ""
    for line in FENCE.sub("", text).split("\n"):
        if line.startswith("|"):
            if head is None and not before.startswith("|"):
                head = cells(line)
            elif cells(line) != head:
                yield f"{page}: a row has {cells(line) + 1} cells, and the head {(head or 0) + 1}: {line[:60]}"
        else:
            head = None
        before = line


def headless(page, text):
    """Tables whose second line isn't the one of hyphens, such as rows after an empty line."""
    lines = FENCE.sub("", text).split("\n")
    for number, line in enumerate(lines):
        if line.startswith("|") and not lines[number - 1].startswith("|") and not re.fullmatch(r"\|[ :|-]*", "".join(lines[number + 1:number + 2])):
            yield f"{page}: a row stands in no table: {line[:60]}"


def long_sentences(text):
    """How many sentences and cells of a page have too many words."""
    plain = re.sub(r"<!--.*?-->", "", FENCE.sub("\n\n", text), flags=re.DOTALL)
    parts = []
    for block in re.split(r"\n\s*\n|\n(?=[|#>-]|\d+\. )", plain):
        parts += block.strip("|").split(" | ") if block.startswith("|") else [block]
    words = (len(sentence.split()) for part in parts for sentence in SENTENCE.split(" ".join(part.split())))
    return sum(1 for count in words if count > MOST_WORDS)


def listed():
    with open(LIST, encoding="utf-8") as file:
        lines = [line.split() for line in file if line.strip() and not line.startswith("#")]
    return {page: int(count) for count, page in lines}


def main():
    pages = {page: read(f"{TOP}/{page}") for page in tracked("*.md")}
    counts = {page: count for page, text in pages.items() if (count := long_sentences(text))}
    if sys.argv[1:] == ["--write"]:
        with open(LIST, "w", encoding="utf-8") as file:
            file.write(HEAD + "".join(f"{count} {page}\n" for page, count in sorted(counts.items())))
        return 0
    if sys.argv[1:]:
        sys.exit(__doc__)
    faults = [fault for page, text in pages.items() for kind in (wrong_paths, wrong_links, wrong_rows, headless) for fault in kind(page, text)]
    known = listed()
    for page in sorted({*counts, *known}):
        if counts.get(page, 0) != known.get(page, 0):
            faults.append(f"{page}: {counts.get(page, 0)} sentences of over {MOST_WORDS} words, {known.get(page, 0)} in tools/long_sentences.txt")
    for fault in faults:
        print(f"tools/pages.py: {fault}")
    return 1 if faults else 0


sys.exit(main())
