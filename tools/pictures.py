#!/usr/bin/env python3
"""Makes the pictures of docs/pictures:

    tools/pictures.py --check     tells each that isn't what its description and the figures make
    tools/pictures.py --write     writes them anew

NAME.svg is made of NAME.txt, whose line `kind:` tells what it is. Drawings are of steps (tools/steps_drawing.py) or of parts
(tools/parts_drawing.py). Plots are of tables of docs/MEASURED.md (bench/plot.py), and the programs of bench/ make theirs anew as they
write a table. Equal descriptions and figures make equal bytes. Status 1 if something is told.
"""
import os
import sys

sys.dont_write_bytecode = True
from described import WrongPicture  # noqa: E402
from graph import TOP  # noqa: E402
from picture_files import FOLDER, content, described, made, picture_of, write  # noqa: E402


def faults():
    """Each picture that isn't made of its description, or can't be; and each without a description."""
    for path in described():
        picture = picture_of(path)
        try:
            if made(path) != content(picture):
                name = os.path.relpath(picture, TOP)
                yield f"{name} isn't what its description and docs/MEASURED.md make: tools/pictures.py --write makes it"
        except WrongPicture as wrong:
            yield str(wrong)
    pictures = [f"{FOLDER}/{name}" for name in sorted(os.listdir(FOLDER)) if not name.endswith(".txt")]
    yield from (f"{os.path.relpath(path, TOP)} has no description" for path in pictures if path not in map(picture_of, described()))


def main():
    if sys.argv[1:] == ["--check"]:
        told = list(faults())
        for fault in told:
            print(f"tools/pictures.py: {fault}")
        return 1 if told else 0
    if sys.argv[1:] != ["--write"]:
        sys.exit(__doc__)
    try:
        for path in described():
            write(path)
    except WrongPicture as wrong:
        sys.exit(f"tools/pictures.py: {wrong}")
    return 0


sys.exit(main())
