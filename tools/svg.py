"""SVG documents of text, lines and boxes: as bright or as dark as their reader's page, without scripts, fonts or files of others."""
from xml.sax.saxutils import escape, quoteattr

# what colours are for, on a bright page and on a dark one
COLOURS = {
    "PAGE": ("#ffffff", "#0d1117"), "INK": ("#1f2328", "#e6edf3"), "QUIET": ("#59636e", "#9ba3ad"), "RULE": ("#d1d9e0", "#3d444d"),
    "FILL": ("#f2f4f7", "#1c232c"), "ONE": ("#0b5ca8", "#66b3ff"), "TWO": ("#b45309", "#f0a44b"), "THREE": ("#187a52", "#4cc38a"),
    "FOUR": ("#8a3b8f", "#d698da"),
}
STYLE = """text { font-family: system-ui, "Segoe UI", "DejaVu Sans", Helvetica, Arial, sans-serif; font-size: 13px; }
.title { font-size: 16px; font-weight: 600; } .head { font-weight: 600; } .small { font-size: 11px; }
.middle { text-anchor: middle; } .end { text-anchor: end; }
.line, .rule, .grid { fill: none; stroke-width: 1.3; } .grid { stroke-width: 1; }
.dashed { stroke-dasharray: 5 4; } .series { fill: none; stroke-width: 2; }
"""
# what has these colours
COLOURED = """.page { fill: PAGE; } text { fill: INK; } text.quiet { fill: QUIET; } text.on { fill: PAGE; }
.line { stroke: INK; } .rule { stroke: QUIET; } .grid { stroke: RULE; } .solid { fill: INK; } .band { fill: FILL; }
.box { fill: FILL; stroke: INK; stroke-width: 1.3; } .group { fill: none; stroke: QUIET; stroke-width: 1.3; }
.one { stroke: ONE; } .two { stroke: TWO; } .three { stroke: THREE; } .four { stroke: FOUR; }
.full.one { fill: ONE; } .full.two { fill: TWO; } .full.three { fill: THREE; } .full.four { fill: FOUR; } .open { fill: PAGE; }
"""
SIZES = {"title": 16, "small": 11}
SIZE = 13
# the widths of letters in a broad font, in parts of its size
WIDTHS = {**dict.fromkeys("ijlI.,:;'|!`", 0.32), **dict.fromkeys("frt()[]/- \"", 0.40), **dict.fromkeys("mwMW@%", 0.95)}
CAPITAL, OTHER, BOLD = 0.70, 0.61, 1.08
# how long the tip of an arrow is
TIP = 9


def coloured(which):
    """The rules of colours for a bright page (0) or a dark one (1)."""
    rules = COLOURED
    for name, colours in COLOURS.items():
        rules = rules.replace(f"{name};", f"{colours[which]};")
    return rules


def width_of(words, kind=""):
    """How wide a text is at most, since nobody knows the reader's font."""
    size = SIZES.get(next((each for each in kind.split() if each in SIZES), ""), SIZE)
    broad = BOLD if {"title", "head"} & set(kind.split()) else 1
    return size * broad * sum(WIDTHS.get(letter, CAPITAL if letter.isupper() else OTHER) for letter in words)


def wrapped(words, width, kind=""):
    """The lines of a text, none of which is wider than this if its words aren't."""
    lines = []
    for word in words.split():
        longer = f"{lines[-1]} {word}" if lines else word
        if lines and width_of(longer, kind) <= width:
            lines[-1] = longer
        else:
            lines.append(word)
    return lines


def number(value):
    """A coordinate, which is the same on each machine."""
    return f"{value:.1f}".removesuffix(".0")


def drawn(points):
    """A line through points, as a path has it."""
    return "M" + " L".join(f"{number(x)} {number(y)}" for x, y in points)


class Document:
    """An SVG document that is being made. Its height is told at the end."""

    def __init__(self, width, title, about):
        self.width, self.title, self.about, self.parts = width, title, about, []

    def add(self, tag, kind, words=None, **attributes):
        """Adds an element with its class."""
        shown = {"class": kind, **{name.replace("_", "-"): value for name, value in attributes.items()}}
        told = " ".join(f"{name}={quoteattr(value if isinstance(value, str) else number(value))}" for name, value in shown.items())
        self.parts.append(f"<{tag} {told}/>" if words is None else f"<{tag} {told}>{escape(words)}</{tag}>")

    def text(self, x, y, words, kind=""):
        self.add("text", kind or "plain", words, x=x, y=y)

    def lines(self, x, y, lines, kind="", step=17):
        """Lines of text, the first of which stands at y."""
        for at, words in enumerate(lines):
            self.text(x, y + at * step, words, kind)

    def rect(self, x, y, width, height, kind, **more):
        self.add("rect", kind, x=x, y=y, width=width, height=height, **more)

    def path(self, points, kind, **more):
        """A line through points."""
        self.add("path", kind, d=drawn(points), **more)

    def arrow(self, start, end, has_both=False):
        """A straight line with a tip at its end, and at its start too if so asked."""
        (x, y), (to_x, to_y) = start, end
        length = ((to_x - x) ** 2 + (to_y - y) ** 2) ** 0.5
        along = (to_x - x) / length, (to_y - y) / length
        self.path([self.tip(start, (-along[0], -along[1])) if has_both else start, self.tip(end, along)], "line")

    def tip(self, point, along):
        """Draws a tip that leads to a point in a direction; answers where its line ends."""
        base = point[0] - TIP * along[0], point[1] - TIP * along[1]
        sides = [(base[0] - side * along[1], base[1] + side * along[0]) for side in (TIP / 2, -TIP / 2)]
        self.add("path", "solid", d=f"{drawn([point, *sides])} Z")
        return base

    def made(self, height):
        """The text of the document."""
        dark = "".join(f"  {line}\n" for line in coloured(1).splitlines())
        return (f'<svg xmlns="http://www.w3.org/2000/svg" width="{number(self.width)}" height="{number(height)}" '
                f'viewBox="0 0 {number(self.width)} {number(height)}" role="img" aria-labelledby="title about">\n'
                f'<title id="title">{escape(self.title)}</title>\n<desc id="about">{escape(self.about)}</desc>\n'
                f"<style>\n{STYLE}{coloured(0)}@media (prefers-color-scheme: dark) {{\n{dark}}}\n</style>\n"
                f'<rect class="page" width="100%" height="100%"/>\n' + "\n".join(self.parts) + "\n</svg>\n")
