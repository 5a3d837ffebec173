#!/usr/bin/env python3
"""Tries the pictures of docs/pictures and the tools that make them:

    tests/pictures.py

- documents: each picture is a document of text and lines alone; its words lie within it, beside one another, and are those described.
- figures: what a reader measures off each plot, by its axes, are the figures of docs/MEASURED.md.
- stale: tools/pictures.py tells a picture that isn't what its description and the figures make; a bench makes its pictures anew.
- refused: descriptions that can't be drawn, each with its line.

The last line is 'N passed, N failed'; status 0 if none failed.
"""
import glob
import math
import os
import re
import subprocess
import sys
import tempfile
from xml.etree import ElementTree

TOP = os.path.dirname(os.path.dirname(os.path.abspath(__file__)))
sys.dont_write_bytecode = True
sys.path[:0] = [os.path.join(TOP, "tests"), os.path.join(TOP, "tools")]
from described import WrongPicture  # noqa: E402
from installation import content, copied  # noqa: E402
from picture_files import made  # noqa: E402
from scratch import expect, finish, tell  # noqa: E402
from svg import width_of  # noqa: E402

FOLDER, SPACE = os.path.join(TOP, "docs", "pictures"), "{http://www.w3.org/2000/svg}"
ELEMENTS = {"svg", "title", "desc", "style", "rect", "path", "circle", "text"}
ATTRIBUTES = {"class", "x", "y", "width", "height", "d", "cx", "cy", "r", "rx", "stroke-dasharray", "viewBox", "role", "aria-labelledby",
              "id"}
# the words of descriptions that are shown, and how much of their lines
SHOWN = {**dict.fromkeys(["title", "cuts", "part", "cut", "note"], r"(.*)"), "series": r"([^:]*): .*",
         **dict.fromkeys(["lane", "step", "box", "group", "group below", "arrow", "x", "y"], r"[^:]*: (.*)")}
# how far a figure may be from the one that is measured off, in units of the picture
NEAR = 0.06
# how far the foot of small letters is below a tick
BELOW = 4


def names():
    return sorted(os.path.basename(path)[:-4] for path in glob.glob(os.path.join(FOLDER, "*.txt")))


def text_of(name):
    with open(os.path.join(FOLDER, name), encoding="utf-8") as file:
        return file.read()


def lines_of(name):
    """The lines of a description, as word and text."""
    return [tuple(part.strip() for part in line.split(":", 1)) for line in text_of(f"{name}.txt").splitlines() if line and line[0] != "#"]


def box_of(text):
    """What a text takes: from left to right, and from top to bottom."""
    kind, x, y = text.get("class"), float(text.get("x")), float(text.get("y"))
    width = width_of(text.text, kind)
    left = x - (width / 2 if "middle" in kind else width if "end" in kind else 0)
    return left, left + width, y - 9, y + 2


def do_meet(one, other):
    return one[0] < other[1] and other[0] < one[1] and one[2] < other[3] and other[2] < one[3]


def joined(words):
    return re.sub(r"\s", "", words)


def shown_parts(name):
    """The words of a description that its picture shows."""
    found = [re.fullmatch(SHOWN[word], text) for word, text in lines_of(name) if word in SHOWN]
    return [part for words in found if words for part in words[1].split("|")]


def document(name):
    """What is wrong with a picture as a document."""
    root = ElementTree.fromstring(text_of(f"{name}.svg"))
    found = list(root.iter())
    yield expect(f"{name}: elements", {each.tag.removeprefix(SPACE) for each in found} - ELEMENTS, set())
    yield expect(f"{name}: attributes", {attribute for each in found for attribute in each.keys()} - ATTRIBUTES, set())
    style = root.find(f"{SPACE}style").text
    yield expect(f"{name}: files of others", [word for word in ("url", "import", "@font") if word in style], [])
    yield expect(f"{name}: dark pages", style.count("@media (prefers-color-scheme: dark)"), 1)
    classes = {kind for each in found for kind in each.get("class", "plain").split()} - {"plain"}
    yield expect(f"{name}: classes without a rule", {kind for kind in classes if not re.search(rf"\.{kind}\b", style)}, set())
    _, _, width, height = map(float, root.get("viewBox").split())
    texts = [(each.text, box_of(each)) for each in root.iter(f"{SPACE}text")]
    past = [words for words, (left, right, top, bottom) in texts if left < 0 or right > width or top < 0 or bottom > height]
    yield expect(f"{name}: words past its sides", past, [])
    over = [(words, other) for at, (words, box) in enumerate(texts) for other, beside in texts[:at] if do_meet(box, beside)]
    yield expect(f"{name}: words over words", over, [])
    told = joined("".join(words for words, _ in texts))
    yield expect(f"{name}: what isn't shown", [part for part in shown_parts(name) if joined(part) not in told], [])


def documents():
    yield expect("pictures", [name for name in names() if not os.path.exists(os.path.join(FOLDER, f"{name}.svg"))], [])
    for name in names():
        yield from document(name)


def rows_of(place, number):
    """The rows of a table of docs/MEASURED.md, each by the heads of its columns."""
    with open(os.path.join(TOP, "docs", "MEASURED.md"), encoding="utf-8") as file:
        block = file.read().split(f"<!-- {place} -->")[1].split(f"<!-- /{place} -->")[0]
    tables = [part for part in block.split("\n\n") if part.startswith("|")]
    heads, _, *rows = [[cell.strip() for cell in line.split("|")[1:-1]] for line in tables[int(number) - 1].strip().splitlines()]
    return [dict(zip(heads, row)) for row in rows]


def number(text):
    return float(text.replace(",", ""))


class Axis:
    """An axis, as its ticks say: their places and what stands there."""

    def __init__(self, ticks, is_log):
        self.is_log = is_log
        (self.at, self.value), (self.to, self.top) = ((place, number(text)) for place, text in (min(ticks), max(ticks)))

    def place(self, value):
        low, high, value = (math.log10(each) for each in (self.value, self.top, value)) if self.is_log else (self.value, self.top, value)
        return self.at + (self.to - self.at) * (value - low) / (high - low)


def marks(root, series):
    """Where the marks of a series are; that of the legend isn't among them."""
    found = []
    for each in root.iter():
        kind = each.get("class", "").split()
        if series not in kind or not {"full", "open"} & set(kind):
            continue
        if each.tag == f"{SPACE}circle":
            found.append((float(each.get("cx")), float(each.get("cy"))))
        elif each.tag == f"{SPACE}rect":
            found.append((float(each.get("x")) + float(each.get("width")) / 2, float(each.get("y")) + float(each.get("height")) / 2))
        else:
            x, y, rise = map(float, re.match(r"M(\S+) (\S+) m0 (\S+)", each.get("d")).groups())
            found.append((x, y))
            assert rise < 0, "a mark is drawn from its top on"
    return found[:-1]


def ticks(root, kind, along):
    """Where the ticks of an axis are, and what they say; letters stand as much below their middle."""
    down = BELOW if along == "y" else 0
    found = (each for each in root.iter(f"{SPACE}text") if each.get("class") == kind and re.fullmatch(r"[\d,.]+", each.text))
    return [(float(each.get(along)) - down, each.text) for each in found]


def off(found, wanted):
    """Whether marks are elsewhere than where figures are."""
    pairs = [pair for one, other in zip(sorted(found), sorted(wanted)) for pair in zip(one, other)]
    return len(found) != len(wanted) or any(abs(at - to) > NEAR for at, to in pairs)


def figures_of(name):
    """The figures of a plot, measured off."""
    told, root = dict(lines_of(name)), ElementTree.fromstring(text_of(f"{name}.svg"))
    place, which = told["table"].split(" ")
    across = Axis(ticks(root, "small middle", "x"), re.search(r"\blog:", told["x"]))
    if told["kind"] == "lines":
        up = Axis(ticks(root, "small end", "y"), re.search(r"\blog:", told["y"]))
        column = told["x"].split(", ")[0]
    else:
        column = told["rows"].split(":")[0]
        shown = dict(label.split(" = ") for label in told["rows"].split(": ")[1].split("; "))
        heights = {each.text: float(each.get("y")) - 4.5 for each in root.iter(f"{SPACE}text") if each.get("class") == "end"}
    for style, (_, text) in zip(("one", "two", "three", "four"), [line for line in lines_of(name) if line[0] == "series"]):
        figures, _, condition = text.split(": ", 1)[1].partition(" where ")
        where, _, wanted = condition.partition(" = ")
        rows = [row for row in rows_of(place, which) if row[where] == wanted]
        if told["kind"] == "lines":
            points = [(across.place(number(row[column])), up.place(number(row[figures]))) for row in rows]
        else:
            points = [(across.place(number(row[figures])), heights[shown.get(row[column], row[column])]) for row in rows]
        yield expect(f"{name}: {text}", (len(rows) > 2, off(marks(root, style), points)), (True, False))


def figures():
    for name in names():
        if dict(lines_of(name))["kind"] in ("lines", "dots"):
            yield from figures_of(name)


def checked(folder, seed):
    """What tools/pictures.py tells in a copy of the repository, and its status. Nothing hangs on the order of hashes."""
    ran = subprocess.run([os.path.join(folder, "tools", "pictures.py"), "--check"], capture_output=True, text=True, timeout=60,
                         env={**os.environ, "PYTHONHASHSEED": str(seed)})
    return sorted(re.findall(r"(\w+\.(?:svg|txt|png)\b)", line)[0] for line in (ran.stdout + ran.stderr).splitlines()), ran.returncode


def changed(folder, name, old, new):
    """Replaces words of a file of the copy."""
    path = os.path.join(folder, name)
    text = content(path).decode()
    assert old in text, f"{name} has no {old}"
    with open(path, "w", encoding="utf-8") as file:
        file.write(text.replace(old, new, 1))


def stale():
    with tempfile.TemporaryDirectory(prefix="pictures-") as home:
        folder = os.path.join(home, "copy")
        copied(["tools", "bench", "docs/pictures", "docs/MEASURED.md"], folder)
        for seed in (1, 2):
            yield expect("as they are", checked(folder, seed), ([], 0))
        # the head of a table tells the commit
        changed(folder, "docs/MEASURED.md", "`bench/threads.py` at commit ", "`bench/threads.py` at commit 1")
        yield expect("other figures", checked(folder, 1), (["commits.svg", "reads.svg"], 1))
        page = content(os.path.join(folder, "docs", "MEASURED.md")).decode()
        block = re.search(r"<!-- bench/threads.py -->\n(.*?)\n<!-- /", page, re.DOTALL)[1]
        code = "import sys; sys.path.insert(0, 'bench'); import measured; measured.put('bench/threads.py', sys.stdin.read().splitlines())"
        put = subprocess.run([sys.executable, "-Bc", code], cwd=folder, input=block, text=True, capture_output=True, timeout=60)
        yield expect("a bench writes its tables", (put.stderr, put.returncode, checked(folder, 1)), ("", 0, ([], 0)))
        block = block.replace("| LMDB |", "| another |")
        put = subprocess.run([sys.executable, "-Bc", code], cwd=folder, input=block, text=True, capture_output=True, timeout=60)
        yield expect("a bench without a series", ("LMDB" in put.stderr, put.returncode), (True, 1))
        copied(["tools", "bench", "docs/pictures", "docs/MEASURED.md"], folder)
        changed(folder, "docs/pictures/commit.txt", "committed N", "committed M")
        os.remove(os.path.join(folder, "docs/pictures/sizes.svg"))
        os.rename(os.path.join(folder, "docs/pictures/reads.txt"), os.path.join(folder, "docs/pictures/reading.txt"))
        wanted = ["commit.svg", "reading.svg", "reads.svg", "sizes.svg"]
        yield expect("another description, and files that lack the other", checked(folder, 1), (wanted, 1))
        written = subprocess.run([os.path.join(folder, "tools", "pictures.py"), "--write"], timeout=60).returncode
        yield expect("--write", (written, checked(folder, 1)), (0, (["reads.svg"], 1)))
        bare = subprocess.run([os.path.join(folder, "tools", "pictures.py")], capture_output=True, timeout=60)
        yield expect("no word", bare.returncode, 1)


STEPS = "kind: steps\ntitle: T\nabout: A\ncuts: C\nlane: a: A\nlane: b: B\n"
PARTS = "kind: parts\ntitle: T\nabout: A\nbox: a 0,0 5x2: A\nbox: b 9,9 5x2: B\n"
LINES = "kind: lines\ntitle: T\nabout: A\ntable: bench/t.py 1\nx: n, log: N\ny: log: Y\n"
DOTS = "kind: dots\ntitle: T\nabout: A\ntable: bench/t.py 1\nx: log: X\nrows: what\n"
TABLE = """<!-- bench/t.py -->
`bench/t.py` here.

| n | what | y |
|---|---|---|
| 1 | one | 3 |
| 10 | two | x |
| 20 | one | 9 |
<!-- /bench/t.py -->
"""
ONE = "series: S: y where what = one\n"
REFUSED = [
    ("a line without a word", "kind: steps\nno word\n", "d.txt:2: this isn't `word: text`"),
    ("no kind", "title: T\n", "d.txt: 0 lines begin with `kind:`, and one has to"),
    ("another kind", "kind: pie\n", "d.txt:1: no picture is of the kind pie"),
    ("a word of another kind", f"{STEPS}box: a 0,0 5x2: A\n", "d.txt:7: `box:` is unknown here"),
    ("no lane", "kind: steps\ntitle: T\nabout: A\ncuts: C\n", "d.txt: it has no lane"),
    ("another lane", f"{STEPS}step: a > c: go\ncut: all\n", "d.txt:7: no lane is called c"),
    ("a sync of no lane", f"{STEPS}sync: c\ncut: all\n", "d.txt:7: no lane is called c"),
    ("steps that leave nothing", f"{STEPS}step: a: go\n", "d.txt:7: no `cut:` comes after these steps"),
    ("a part amid them", f"{STEPS}step: a: go\npart: P\ncut: all\n", "d.txt:8: no `cut:` comes after the steps above"),
    ("a cut of nothing", f"{STEPS}cut: all\n", "d.txt:7: no step comes before it"),
    ("a step without words", f"{STEPS}step: a > b\ncut: all\n", "d.txt:7: this isn't `step: NAME > NAME: WORDS`"),
    ("two boxes of a name", f"{PARTS}box: a 0,9 5x2: A\n", "d.txt:6: a is there already"),
    ("a narrow box", f"{PARTS}box: c 0,9 1x2: wide words\n", "d.txt:6: the box is too narrow for `wide words`"),
    ("another box", f"{PARTS}arrow: a > c\n", "d.txt:6: no box is called c"),
    ("a slanted arrow", f"{PARTS}arrow: a > b\n", "d.txt:6: no straight arrow leads from one box to the other"),
    ("no such table", f"{LINES}series: S: y\n".replace("t.py 1", "t.py 2"), "d.txt:4: docs/MEASURED.md has 1 tables of bench/t.py"),
    ("a table of no bench", f"{LINES}series: S: y\n".replace("t.py 1", "u.py 1"), "d.txt:4: docs/MEASURED.md has 0 tables of bench/u.py"),
    ("no such column", f"{LINES}series: S: z\n", "d.txt:7: the table has no column z"),
    ("a cell that is no number", f"{LINES}series: S: y\n", "d.txt:7: a cell is no number: `x`"),
    ("no such row", f"{LINES}series: S: y where what = three\n", "d.txt:7: no row of the table has what = three"),
    ("no series", LINES, "d.txt: a plot has 1 to 4 series"),
    ("five series", LINES + ONE * 5, "d.txt: a plot has 1 to 4 series"),
    ("an axis without a scale", f"{LINES}series: S: y\n".replace("y: log: Y", "y: Y"), "d.txt:6: this isn't `y: SCALE: WORDS`"),
    ("an axis along no column", (LINES + ONE).replace("x: n, log", "x: log"), "d.txt:5: this isn't `x: COLUMN, SCALE: WORDS`"),
    ("rows of no column", (DOTS + ONE).replace("rows: what", "rows: who"), "d.txt:6: the table has no column who"),
]


def refused():
    with tempfile.TemporaryDirectory(prefix="pictures-") as home:
        path, page = os.path.join(home, "d.txt"), os.path.join(home, "page.md")
        for name, text in [(page, TABLE), (path, LINES + ONE)]:
            with open(name, "w", encoding="utf-8") as file:
                file.write(text)
        yield expect("one that can be drawn", made(path, page).count("<circle"), 3)
        for title, text, wanted in REFUSED:
            with open(path, "w", encoding="utf-8") as file:
                file.write(text)
            try:
                found = made(path, page)[:40]
            except WrongPicture as wrong:
                found = str(wrong)
            yield expect(title, found, wanted)


def main():
    if len(sys.argv) != 1:
        sys.exit(__doc__)
    finish([tell(part.__name__, list(part())) for part in (documents, figures, stale, refused)])


main()
