"""Drawings of parts: boxes and groups of boxes at places of a grid, and arrows between boxes.

    box: NAME X,Y WIDTHxHEIGHT: HEAD | WORDS     a box from its upper left corner on, in units of the grid
    group: X,Y WIDTHxHEIGHT: WORDS               a dashed frame around boxes, with words at its top; or at its foot by `group below:`
    arrow: NAME > NAME: WORDS                    from box to box, straight on; `<>` has a tip at each end, and words may be missing
"""
from dataclasses import dataclass

from svg import Document, width_of

UNIT, EDGE, TOP, STEP = 20, 14, 46, 17
FOOT = 4.5
# where the words of an arrow stand, as a part of its length
ALONG = 0.4
PLACE = r"(\d+),(\d+) (\d+)x(\d+)"


@dataclass
class Box:
    """A rectangle by its sides."""
    left: float
    top: float
    right: float
    bottom: float

    @staticmethod
    def at(*numbers):
        x, y, width, height = map(int, numbers)
        left, top = EDGE + UNIT * x, TOP + UNIT * y
        return Box(left, top, left + UNIT * width, top + UNIT * height)

    @property
    def middle(self):
        return (self.left + self.right) / 2, (self.top + self.bottom) / 2

    def draw(self, document, kind, **more):
        document.rect(self.left, self.top, self.right - self.left, self.bottom - self.top, kind, **more)


def between(line, begin, end):
    """Where a straight arrow from box to box begins and ends."""
    left, right = max(begin.left, end.left), min(begin.right, end.right)
    top, bottom = max(begin.top, end.top), min(begin.bottom, end.bottom)
    if left < right and begin.bottom < end.top:
        return ((left + right) / 2, begin.bottom), ((left + right) / 2, end.top)
    if left < right and end.bottom < begin.top:
        return ((left + right) / 2, begin.top), ((left + right) / 2, end.bottom)
    if top < bottom:
        (x, to_x), y = ((begin.right, end.left) if begin.right < end.left else (begin.left, end.right)), (top + bottom) / 2
        return (x, y), (to_x, y)
    raise line.wrong("no straight arrow leads from one box to the other")


class Parts:
    """Such a drawing."""

    def __init__(self, description):
        description.have_only("box", "group", "group below", "arrow")
        self.boxes, self.placed = {}, []
        for line in description.all("box"):
            name, *place, words = line.match(rf"(\w+) {PLACE}: (.+)", "NAME X,Y WIDTHxHEIGHT: WORDS")
            if name in self.boxes:
                raise line.wrong(f"{name} is there already")
            self.boxes[name] = Box.at(*place)
            self.placed.append((line, self.boxes[name], [part.strip() for part in words.split("|")]))
        groups = [*description.all("group"), *description.all("group below")]
        self.groups = [(line.word, *line.match(rf"{PLACE}: (.+)", "X,Y WIDTHxHEIGHT: WORDS")) for line in groups]
        frames = [*self.boxes.values(), *(Box.at(*group[1:5]) for group in self.groups)]
        self.bottom = max(frame.bottom for frame in frames)
        self.document = Document(max(frame.right for frame in frames) + EDGE, description.one("title").text, description.one("about").text)
        self.draw(description)

    def draw(self, description):
        self.document.text(EDGE, 28, self.document.title, "title")
        for word, *place, words in self.groups:
            frame = Box.at(*place)
            frame.draw(self.document, "group dashed", rx=6)
            self.document.text(frame.left + 12, frame.top + 21 if word == "group" else frame.bottom - 12, words, "quiet")
        for line in description.all("arrow"):
            self.arrow(line)
        for line, box, words in self.placed:
            self.box(line, box, words)

    def box(self, line, box, words):
        box.draw(self.document, "box", rx=4)
        x, y = box.middle
        for at, text in enumerate(words):
            kind = "head" if at == 0 else "small"
            if width_of(text, kind) > box.right - box.left - 8:
                raise line.wrong(f"the box is too narrow for `{text}`")
            self.document.text(x, y + FOOT + STEP * (at - (len(words) - 1) / 2), text, f"{kind} middle")

    def arrow(self, line):
        begin, tips, end, words = line.match(r"(\w+) (<?>) (\w+)(?:: (.+))?", "NAME > NAME: WORDS")
        for name in (begin, end):
            if name not in self.boxes:
                raise line.wrong(f"no box is called {name}")
        start, stop = between(line, self.boxes[begin], self.boxes[end])
        self.document.arrow(start, stop, tips == "<>")
        # nearer to its begin, since a frame's side is often in the middle
        x, y = (at + ALONG * (to - at) for at, to in zip(start, stop))
        if words and start[0] == stop[0]:
            self.document.text(x + 9, y + FOOT, words, "small")
        elif words:
            self.document.text(x, y - 6, words, "small middle")

    def made(self):
        return self.document.made(self.bottom + EDGE)


def parts(description):
    """The picture of a description."""
    return Parts(description).made()
