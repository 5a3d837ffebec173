"""Plots of tables of docs/MEASURED.md, as tools/pictures.py describes them.

    kind: lines                               a line for each series; or `dots`, which has a row for each name
    table: PLACE N                            the Nth table of those of a program, such as `bench/play.py 1`
    x: COLUMN, SCALE: WORDS                   the column along the axis, linear or log, and what the axis says
    y: SCALE: WORDS                           of lines, whose series have the columns
    rows: COLUMN: NAME = LABEL; ..            of dots, whose series have the columns: what names the rows, and other labels of some
    series: LABEL: COLUMN where COLUMN = NAME     figures of a column, of all rows or of those with this name; `;` parts conditions
    exponent: COLUMN                          puts the last figure of this column behind the label of each series
    note: WORDS                               what a reader has to know of the figures
"""
import math
import re
from dataclasses import dataclass

from described import WrongPicture
from svg import Document, width_of, wrapped

WIDTH, TOP, EDGE, HEIGHT, LEGEND, LINE, ROW = 860, 76, 14, 300, 236, 17, 46
FOOT, TICK = 4.5, 5
# what tells series apart without colours: a mark that is full or open, and dashes
STYLES = [("one", "circle", "full", ""), ("two", "square", "open", "7 4"), ("three", "triangle", "full", "2 4"),
          ("four", "diamond", "open", "9 3 2 3")]
MOST_NAMED = 6


def cells(row):
    """The cells of a row of a table."""
    return [cell.strip() for cell in row.strip().strip("|").split(" | ")]


class Table:
    """A table of figures: its columns by their names."""

    def __init__(self, line, page):
        place, number = line.match(r"(\S+) (\d+)", "PLACE N")
        found = re.search(rf"<!-- {re.escape(place)} -->\n(.*?)<!-- /{re.escape(place)} -->", page, re.DOTALL)
        tables = re.findall(r"(?:^\|.*\n)+", found[1] if found else "", re.MULTILINE)
        if int(number) > len(tables) or number == "0":
            raise line.wrong(f"docs/MEASURED.md has {len(tables)} tables of {place}")
        self.place, self.source = place, " ".join(found[1].split("\n\n")[0].split()).replace("`", "")
        self.heads, _, *self.rows = map(cells, tables[int(number) - 1].splitlines())

    def column(self, line, name):
        if name not in self.heads:
            raise line.wrong(f"the table has no column {name}")
        return self.heads.index(name)


def figure(line, cell):
    """A cell as a number."""
    try:
        return float(cell.replace(",", ""))
    except ValueError:
        raise line.wrong(f"a cell is no number: `{cell}`") from None


@dataclass
class Series:
    """Figures of a column: each with what its row has in the column of names or along the axis."""
    label: str
    points: list


def series_of(line, table, along, exponent):
    """The series of a line. `along` is the column of what belongs to each figure, `exponent` that of the exponents."""
    label, column, conditions = line.match(r"([^:]+): (.+?)(?: where (.+))?", "LABEL: COLUMN where COLUMN = NAME")
    at, rows = table.column(line, column), table.rows
    for condition in (conditions or "").split("; ") if conditions else []:
        name, _, wanted = condition.partition(" = ")
        where = table.column(line, name)
        rows = [row for row in rows if row[where] == wanted]
    if not rows:
        raise line.wrong(f"no row of the table has {conditions}")
    told = next((row[exponent] for row in reversed(rows) if row[exponent]), None) if exponent is not None else None
    return Series(f"{label}: exponent {told}" if told else label, [(row[along], figure(line, row[at])) for row in rows])


class Scale:
    """Where figures stand on an axis."""

    def __init__(self, is_log, values, begin, end):
        self.is_log, self.begin, self.end = is_log, begin, end
        self.low, self.high, self.ticks = (log_ticks if is_log else linear_ticks)(min(values), max(values))

    def __call__(self, value):
        low, high, at = (math.log10(each) for each in (self.low, self.high, value)) if self.is_log else (self.low, self.high, value)
        return self.begin + (self.end - self.begin) * (at - low) / (high - low)


def linear_ticks(_, high):
    """From zero to a round figure, in five steps or so."""
    unit = 10 ** math.floor(math.log10(high))
    step = next(unit * part for part in (0.1, 0.2, 0.5, 1, 2) if unit * part * 6 >= high)
    count = math.ceil(high / step)
    return 0, step * count, [step * at for at in range(count + 1)]


def log_ticks(low, high):
    """From the power of ten below to the one above; each power is a tick."""
    first, last = math.floor(math.log10(low)), math.ceil(math.log10(high))
    last = max(last, first + 1)
    return 10.0 ** first, 10.0 ** last, [10.0 ** power for power in range(first, last + 1)]


def named(value):
    """A figure as its tick says it."""
    return f"{value:,.0f}" if value >= 1 or value == 0 else f"{value:.10f}".rstrip("0")


def scale_of(line, form, has_column):
    """The column of an axis, if it has one; whether it is logarithmic; and its words."""
    column, kind, words = line.match(r"(?:([^:]+), )?(linear|log): (.+)", form)
    if bool(column) != has_column:
        raise line.wrong(f"this isn't `{line.word}: {form}`")
    return column, kind == "log", words


class Plot:
    """A plot that is being made. Its area has the left, upper, right and lower side."""

    def __init__(self, description, page):
        description.have_only("table", "x", "y", "rows", "series", "exponent", "note")
        self.description, self.table = description, Table(description.one("table"), page)
        self.document = Document(WIDTH, description.one("title").text, description.one("about").text)
        self.document.text(EDGE, 28, self.document.title, "title")
        exponents = description.all("exponent")
        self.exponent = self.table.column(exponents[0], exponents[0].text) if exponents else None
        lines = description.all("series")
        if not 1 <= len(lines) <= len(STYLES):
            raise WrongPicture(f"{description.name}: a plot has 1 to {len(STYLES)} series")
        self.lines = lines

    def series(self, along):
        return [series_of(line, self.table, along, self.exponent) for line in self.lines]

    def mark(self, x, y, style):
        """The mark of a series at a figure."""
        name, shape, fill, _ = style
        kind = f"series {fill} {name}"
        if shape == "circle":
            self.document.add("circle", kind, cx=x, cy=y, r=4.5)
        elif shape == "square":
            self.document.rect(x - 4.5, y - 4.5, 9, 9, kind)
        else:
            corners = {"triangle": "m0 -6 l6 10.5 h-12 z", "diamond": "m0 -6.5 l6.5 6.5 l-6.5 6.5 l-6.5 -6.5 z"}[shape]
            self.document.add("path", kind, d=f"M{x:.1f} {y:.1f} {corners}")

    def legend(self, series, left, has_lines):
        y = TOP + 8
        for each, style in zip(series, STYLES):
            if has_lines:
                self.document.path([(left, y), (left + 34, y)], f"series {style[0]}", **dashes(style))
            self.mark(left + 17, y, style)
            words = wrapped(each.label, WIDTH - EDGE - left - 44)
            self.document.lines(left + 44, y + FOOT, words, step=LINE)
            y += LINE * len(words) + 12

    def foot(self, y):
        """What a reader has to know, and where the figures come from."""
        for line in self.description.all("note"):
            words = wrapped(line.text, WIDTH - 2 * EDGE, "small")
            self.document.lines(EDGE, y, words, "small", 15)
            y += 15 * len(words)
        words = wrapped(f"Figures of docs/MEASURED.md: {self.table.source}", WIDTH - 2 * EDGE, "small")
        self.document.lines(EDGE, y, words, "small quiet", 15)
        return self.document.made(y + 15 * (len(words) - 1) + EDGE)

    def along(self, scale, ticks, bottom, words):
        """The axis along the foot, with its lines up to the top."""
        for tick in ticks:
            self.document.path([(scale(tick), TOP), (scale(tick), bottom)], "grid")
            self.document.path([(scale(tick), bottom), (scale(tick), bottom + TICK)], "line")
            self.document.text(scale(tick), bottom + 19, named(tick), "small middle")
        self.document.path([(scale.begin, bottom), (scale.end, bottom)], "line")
        self.document.text((scale.begin + scale.end) / 2, bottom + 38, words, "middle")

    def up(self, scale, left, right, words):
        """The axis up the left side, and its words above it."""
        for tick in scale.ticks:
            self.document.path([(left, scale(tick)), (right, scale(tick))], "grid")
            self.document.path([(left - TICK, scale(tick)), (left, scale(tick))], "line")
            self.document.text(left - 9, scale(tick) + 4, named(tick), "small end")
        self.document.path([(left, scale.begin), (left, scale.end)], "line")
        self.document.text(EDGE, TOP - 16, words)


def dashes(style):
    return {"stroke_dasharray": style[3]} if style[3] else {}


def along_points(found, is_log, begin, end):
    """The axis along figures: each of a few is named, else round ones are."""
    scale = Scale(is_log, found, begin, end)
    if len(found) <= MOST_NAMED and found[0] >= 1:
        scale.low, scale.high, scale.ticks = found[0] if is_log else 0, found[-1], found
    return scale


def lines(description, page):
    """The picture of a description of lines."""
    plot, x_line = Plot(description, page), description.one("x")
    column, is_log, x_words = scale_of(x_line, "COLUMN, SCALE: WORDS", True)
    _, is_y_log, y_words = scale_of(description.one("y"), "SCALE: WORDS", False)
    series = plot.series(plot.table.column(x_line, column))
    points = [[(figure(x_line, x), y) for x, y in each.points] for each in series]
    bottom, right = TOP + HEIGHT, WIDTH - EDGE - LEGEND
    up = Scale(is_y_log, [y for each in points for _, y in each], bottom, TOP)
    left = EDGE + 12 + max(width_of(named(tick), "small") for tick in up.ticks)
    across = along_points(sorted({x for each in points for x, _ in each}), is_log, left + 18, right)
    plot.up(up, left, right, y_words)
    plot.along(across, across.ticks, bottom, x_words)
    for each, style in zip(points, STYLES):
        plot.document.path([(across(x), up(y)) for x, y in each], f"series {style[0]}", **dashes(style))
        for x, y in each:
            plot.mark(across(x), up(y), style)
    plot.legend(series, right + 26, True)
    return plot.foot(bottom + 64)


def dots(description, page):
    """The picture of a description of dots."""
    plot = Plot(description, page)
    x_line, row_line = description.one("x"), description.one("rows")
    _, is_log, words = scale_of(x_line, "SCALE: WORDS", False)
    column, told = row_line.match(r"([^:]+)(?:: (.+))?", "COLUMN: NAME = LABEL; ..")
    labels = dict(label.partition(" = ")[::2] for label in (told or "").split("; "))
    series = plot.series(plot.table.column(row_line, column))
    names = list(dict.fromkeys(name for each in series for name, _ in each.points))
    left, right = EDGE + 12 + max(width_of(labels.get(name, name)) for name in names), WIDTH - EDGE - LEGEND
    bottom = TOP + ROW * len(names)
    across = Scale(is_log, [value for each in series for _, value in each.points], left, right)
    plot.along(across, across.ticks, bottom, words)
    for at, name in enumerate(names):
        y = TOP + ROW * (at + 0.5)
        plot.document.path([(left, y), (right, y)], "rule dashed")
        plot.document.text(left - 10, y + FOOT, labels.get(name, name), "end")
        for each, style in zip(series, STYLES):
            for _, value in (point for point in each.points if point[0] == name):
                plot.mark(across(value), y, style)
    plot.legend(series, right + 26, False)
    return plot.foot(bottom + 64)
