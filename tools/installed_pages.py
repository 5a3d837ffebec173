#!/usr/bin/env python3
"""Makes the links of installed pages lead to what is installed:

    tools/installed_pages.py FOLDER PAGE..     pages by their paths below FOLDER, which is share of an installation

A page that is doc/regtx/X or regtx/X there is a copy of X of the repository, and is written anew from that. A link to what is
installed leads there, and a picture that is installed is shown; of any other the words stay.
"""
import os
import re
import sys

sys.dont_write_bytecode = True
from graph import TOP  # noqa: E402

# where copies of the repository's files are: documents, and sources
PLACES = ["doc/regtx/", "regtx/"]
LINK = re.compile(r"(!?)\[([^\]]+)\]\(([^)#\s]+)((?:#[^)\s]*)?)\)")
FENCE = re.compile(r"(^(?:```|~~~).*?^(?:```|~~~)[ \t]*$)", re.MULTILINE | re.DOTALL)


def source_of(page):
    """The repository's file that an installed one is a copy of."""
    place = next(place for place in PLACES if page.startswith(place))
    return page.removeprefix(place)


def target(folder, page, link):
    """Where a link of a page leads once it is installed, or None."""
    named = os.path.normpath(os.path.join(os.path.dirname(source_of(page)), link))
    # what stands among the pages is for readers, and comes first
    found = next((place + named for place in PLACES if os.path.exists(os.path.join(folder, place + named))), None)
    return found and os.path.relpath(found, os.path.dirname(page))


def rewritten(folder, page, text):
    """The text of a page with such links."""
    def link(found):
        shows, words, named, part = found.groups()
        if "://" in named:
            return found[0]
        leads = target(folder, page, named)
        return f"{shows}[{words}]({leads}{part})" if leads else words
    # what is code stays as it is
    return "".join(part if FENCE.fullmatch(part) else LINK.sub(link, part) for part in FENCE.split(text))


def main():
    if len(sys.argv) < 2:
        sys.exit(__doc__)
    folder = sys.argv[1]
    for page in sys.argv[2:]:
        with open(os.path.join(TOP, source_of(page)), encoding="utf-8") as file:
            text = rewritten(folder, page, file.read())
        with open(os.path.join(folder, page), "w", encoding="utf-8") as file:
            file.write(text)


main()
