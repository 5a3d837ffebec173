"""Drawings of steps: each is a row with its words, an arrow between two lanes, and what it leaves.

    lane: NAME: HEAD                 a lane, from left to right
    cuts: HEAD                       the head of the column for what is left
    part: WORDS                      a band above the rows that follow
    step: NAME > NAME: WORDS         an arrow from lane to lane; or `step: NAME: WORDS`, which is a dot
    sync: NAME                       a sync of the file that the lane is
    cut: WORDS                       what the rows since the last `cut:` leave if they are cut off
"""
from dataclasses import dataclass, field

from described import WrongPicture
from svg import Document, wrapped

EDGE, WORDS, LANE, CUTS = 14, 332, 66, 216
HEAD, BAND, ROW, LINE, GAP = 34, 28, 25, 17, 8
# how far a row's middle is above the foot of its letters
FOOT = 4.5


@dataclass
class Row:
    """A step or a sync: its words, and the lanes that it touches."""
    kind: str
    lanes: list
    words: list = field(default_factory=list)

    @property
    def height(self):
        return max(ROW, ROW + LINE * (len(self.words) - 1))


class Steps:
    """Such a drawing, which is made from its top to its bottom."""

    def __init__(self, description):
        description.have_only("lane", "cuts", "part", "step", "sync", "cut")
        named = [line.match(r"(\w+): (.+)", "NAME: HEAD") for line in description.all("lane")]
        if not named:
            raise WrongPicture(f"{description.name}: it has no lane")
        self.lanes = {name: EDGE + WORDS + LANE * (at + 0.5) for at, (name, _) in enumerate(named)}
        self.cuts_at = EDGE + WORDS + LANE * len(named) + 12
        self.document = Document(self.cuts_at + CUTS + EDGE, description.one("title").text, description.one("about").text)
        self.document.text(EDGE, 28, self.document.title, "title")
        self.y = 44
        self.heads(named, description.one("cuts").text)
        self.under, self.end = len(self.document.parts), description.lines[-1]
        self.rows = []
        for line in description.lines:
            self.take(line)
        if self.rows:
            raise self.end.wrong("no `cut:` comes after these steps")
        self.lifelines()

    def heads(self, named, cuts):
        for name, head in named:
            self.document.lines(self.lanes[name], self.y + 14, wrapped(head, LANE - 4, "head"), "head middle", 15)
        self.document.text(self.cuts_at + GAP, self.y + 14, cuts, "head")
        self.y += HEAD

    def lane(self, line, name):
        if name not in self.lanes:
            raise line.wrong(f"no lane is called {name}")
        return self.lanes[name]

    def take(self, line):
        """Draws what a line says, or keeps it until its rows are known."""
        if line.word == "part":
            self.band(line)
        elif line.word == "step":
            begin, end, words = line.match(r"(\w+)(?: > (\w+))?: (.+)", "NAME > NAME: WORDS")
            lanes = [self.lane(line, name) for name in (begin, end) if name]
            self.rows.append(Row("step", lanes, wrapped(words, WORDS - GAP)))
        elif line.word == "sync":
            self.rows.append(Row("sync", [self.lane(line, line.text)]))
        elif line.word == "cut":
            self.cut(line)

    def band(self, line):
        if self.rows:
            raise line.wrong("no `cut:` comes after the steps above")
        self.y += GAP
        self.document.rect(0, self.y, self.document.width, BAND, "band")
        self.document.text(EDGE, self.y + BAND / 2 + FOOT, line.text, "head")
        self.y += BAND + GAP

    def cut(self, line):
        """Draws the rows that were kept, and beside them what they leave."""
        words = wrapped(line.text, CUTS - GAP)
        top, height = self.y, max(sum(row.height for row in self.rows), LINE * len(words) + GAP)
        if not self.rows:
            raise line.wrong("no step comes before it")
        for row in self.rows:
            self.row(row)
        self.y = top + height
        left, right = self.cuts_at - 6, self.cuts_at
        self.document.path([(left, top + 2), (right, top + 2), (right, self.y - 2), (left, self.y - 2)], "rule")
        first = top + height / 2 - LINE * (len(words) - 1) / 2 + FOOT
        self.document.lines(self.cuts_at + GAP, first, words, step=LINE)
        self.y += 3
        self.rows = []

    def row(self, row):
        middle = self.y + row.height / 2
        self.document.lines(EDGE, self.y + ROW / 2 + FOOT, row.words, step=LINE)
        if row.kind == "sync":
            self.document.rect(row.lanes[0] - 21, middle - 9, 42, 18, "solid", rx=3)
            self.document.text(row.lanes[0], middle + 4, "sync", "small on middle")
        elif len(row.lanes) == 2:
            self.document.arrow((row.lanes[0], middle), (row.lanes[1], middle))
        else:
            self.document.add("circle", "solid", cx=row.lanes[0], cy=middle, r=4)
        self.y += row.height

    def lifelines(self):
        """The lanes, under all that is drawn on them but the bands."""
        drawn, self.document.parts = self.document.parts, []
        for x in self.lanes.values():
            self.document.path([(x, 44 + HEAD - 6), (x, self.y)], "grid")
        bands = [part for part in drawn if 'class="band"' in part]
        self.document.parts += [*bands, *(part for part in drawn if part not in bands)]

    def made(self):
        return self.document.made(self.y + EDGE)


def steps(description):
    """The picture of a description."""
    return Steps(description).made()
