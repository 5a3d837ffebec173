"""The pictures of docs/pictures: the description of each, what it is made into, and those that a table of docs/MEASURED.md makes."""
import os
import sys

from described import Description, WrongPicture
from graph import TOP
from parts_drawing import parts
from steps_drawing import steps

sys.path.append(f"{TOP}/bench")
import plot  # noqa: E402

FOLDER, FIGURES = f"{TOP}/docs/pictures", f"{TOP}/docs/MEASURED.md"
DRAWINGS, PLOTS = {"steps": steps, "parts": parts}, {"lines": plot.lines, "dots": plot.dots}


def content(path):
    """The text of a file; None if it isn't there."""
    try:
        with open(path, encoding="utf-8") as file:
            return file.read()
    except FileNotFoundError:
        return None


def picture_of(path):
    """The picture that belongs to a description."""
    return f"{path.removesuffix('.txt')}.svg"


def described(folder=FOLDER):
    """The paths of all descriptions."""
    return [f"{folder}/{name}" for name in sorted(os.listdir(folder)) if name.endswith(".txt")]


def made(path, figures=FIGURES):
    """What a description is made into."""
    description = Description(path)
    kind = description.one("kind")
    if kind.text in DRAWINGS:
        return DRAWINGS[kind.text](description)
    if kind.text in PLOTS:
        return PLOTS[kind.text](description, content(figures))
    raise kind.wrong(f"no picture is of the kind {kind.text}")


def write(path):
    """Writes the picture of a description."""
    text = made(path)
    with open(picture_of(path), "w", encoding="utf-8") as file:
        file.write(text)


def write_plots(place):
    """Writes the pictures of the tables of a program, which were just written."""
    try:
        for path in described():
            if any(line.text.split(" ")[0] == place for line in Description(path).all("table")):
                write(path)
    except WrongPicture as wrong:
        sys.exit(f"the table is written, and its picture can't be made: {wrong}")
