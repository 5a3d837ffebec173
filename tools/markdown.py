"""Reads the pages of the repository: headings, paragraphs, lists, tables, code and pictures, each with the lines that it has."""
import re
from dataclasses import dataclass
from typing import List, Tuple

HEADING = re.compile(r"(#{1,3}) (.+)")
ITEM = re.compile(r"(-|\d+\.) (.+)")
RULE = re.compile(r"\|(?:---\|)+")
PICTURE = re.compile(r"!\[([^\]]+)\]\([^)\s]+\)")
# what would be another kind of block: a quote, a picture amid words, a tag, code that is indented, a list below a list
OTHER = re.compile(r"[><*+]|!\[|\s|-{3}|={3}|#{4}|~{3}")
SPAN = re.compile(r"`(?P<code>[^`]+)`|\*\*(?P<bold>.+?)\*\*|\[(?P<link>[^\]]+)\]\([^)\s]+\)")
MARK = re.compile(r"`|\*\*|\]\(")


@dataclass
class Heading:
    level: int
    text: str


@dataclass
class Paragraph:
    text: str


@dataclass
class Code:
    lines: List[str]


@dataclass
class Items:
    """A list; each item has its mark and its text."""
    items: List[Tuple[str, str]]


@dataclass
class Table:
    """A table; each row has the cells of the head."""
    head: List[str]
    rows: List[List[str]]


@dataclass
class Picture:
    """A picture by itself, with the words for whoever doesn't see it."""
    text: str


def taken(lines, at, goes_on):
    """The lines from one on that belong to it, and where the next one is."""
    end = at
    while end < len(lines) and goes_on(lines[end]):
        end += 1
    return lines[at:end], end


def code(lines, at):
    """The code between two fences."""
    inner, end = taken(lines, at + 1, lambda line: line != "```")
    if end == len(lines):
        raise ValueError(f"line {at + 1}: the code has no end")
    return Code(inner), end + 1


def cells(line):
    """The cells of a row."""
    if not line.endswith("|") or "\\|" in line:
        raise ValueError(f"not a row of a table: {line}")
    return [cell.strip() for cell in line[1:-1].split("|")]


def table(lines, at):
    """A table, whose second line parts its head from its rows."""
    inner, end = taken(lines, at, lambda line: line.startswith("|"))
    head, rows = cells(inner[0]), [cells(line) for line in inner[2:]]
    if len(inner) < 3 or not RULE.fullmatch(inner[1]) or any(len(row) != len(head) for row in rows):
        raise ValueError(f"line {at + 1}: the table has rows of several lengths, or none")
    return Table(head, rows), end


def items(lines, at):
    """A list, whose items may run over lines."""
    found = []
    while at < len(lines) and (begun := ITEM.fullmatch(lines[at])):
        more, at = taken(lines, at + 1, lambda line: re.match(r" {2,3}(?!```|- |[\s>|])", line))
        found.append((begun[1], " ".join([begun[2], *(line.strip() for line in more)])))
    return Items(found), at


def picture(lines, at):
    """A picture, which may run over lines, up to an empty one."""
    inner, end = taken(lines, at, bool)
    found = PICTURE.fullmatch(" ".join(inner))
    if not found:
        raise ValueError(f"line {at + 1} is of no known kind: {lines[at]}")
    return Picture(found[1]), end


def paragraph(lines, at):
    """Lines up to an empty one."""
    inner, end = taken(lines, at, bool)
    for number, line in enumerate(inner, at + 1):
        if OTHER.match(line.replace("**", "", 1)) or ITEM.match(line) or line.startswith(("```", "|")):
            raise ValueError(f"line {number} is of no known kind: {line}")
    return Paragraph(" ".join(inner)), end


def kind_of(line):
    """What reads the block that begins with a line."""
    begins = [("```", code), ("|", table), ("![", picture)]
    return next((kind for mark, kind in begins if line.startswith(mark)), items if ITEM.match(line) else paragraph)


def blocks(text):
    """The blocks of a page. What is of no known kind is a ValueError, so that nothing is left out."""
    lines, at, found = text.splitlines(), 0, []
    while at < len(lines):
        line = lines[at]
        if not line:
            at += 1
            continue
        if heading := HEADING.fullmatch(line):
            block, at = Heading(len(heading[1]), heading[2]), at + 1
        else:
            block, at = kind_of(line)(lines, at)
        found.append(block)
    return found


def plain(text):
    """A text without marks; one that is left has no other half."""
    if MARK.search(text):
        raise ValueError(f"a mark has no end: {text}")
    return "plain", text


def spans(text):
    """The parts of a text: each with its kind, which is plain, code or bold. A link is its words."""
    at = 0
    for match in SPAN.finditer(text):
        if match.start() > at:
            yield plain(text[at:match.start()])
        if match["code"]:
            yield "code", match["code"]
        elif match["bold"]:
            yield from (("bold" if kind == "plain" else kind, part) for kind, part in spans(match["bold"]))
        else:
            yield from spans(match["link"])
        at = match.end()
    if at < len(text):
        yield plain(text[at:])
