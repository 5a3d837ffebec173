"""Blocks of the repository's pages as lines of roff, for manual pages."""
import re
import textwrap

from markdown import Code, Heading, Items, Paragraph, Picture, Table, spans

# as wide as mandoc likes the lines of a page
WIDTH = 80
# signs that roff takes for others, or that it prints as others
SIGNS = {"\\": r"\e", "`": r"\(ga", "^": r"\(ha", "~": r"\(ti"}
CODE_SIGNS = {**SIGNS, "-": r"\-", "'": r"\(aq", '"': r"\(dq"}


def escaped(text, signs):
    """The text as roff prints it; a sign that ASCII hasn't is an escape as well."""
    return "".join(signs.get(sign) or (sign if sign.isascii() else rf"\[u{ord(sign):04X}]") for sign in text)


def installed(text):
    """The text with the words of an installed program, which isn't in the reader's folder."""
    return text.replace("./regtx", "regtx")


def inline(text):
    """A text with its fonts: code and what is bold are bold. A word of code isn't hyphenated, since it has to be typed."""
    done = ""
    for kind, part in spans(installed(text)):
        if kind == "plain":
            done += escaped(part, SIGNS)
        elif kind == "code":
            # the escape has to begin the word: within one it is a place where it may be parted
            begin = done.rfind(" ") + 1
            words = escaped(part, CODE_SIGNS).replace(" ", r" \%")
            done = rf"{done[:begin]}\%{done[begin:]}\fB{words}\fR"
        else:
            done += rf"\fB{escaped(part, SIGNS)}\fR"
    return done


def shielded(line):
    """A line of text; one that would be a request is none."""
    return rf"\&{line}" if line.startswith((".", "'")) else line


def filled(text):
    """The lines of a text that is filled."""
    return [shielded(line) for line in textwrap.wrap(inline(text), WIDTH, break_long_words=False, break_on_hyphens=False)]


def code(block):
    """Lines that stand as they are."""
    lines = [shielded(escaped(installed(line), CODE_SIGNS)) for line in block.lines]
    return [".PP", ".RS 4", ".EX", *lines, ".EE", ".RE"]


def row(head, cells):
    """A row of a table: its first cell, and below it the others. From the third on each has the word of its column before it."""
    lines = [".TP", shielded(inline(cells[0])), *filled(cells[1])]
    for title, cell in zip(head[2:], cells[2:]):
        if cell:
            lines += [".br", rf"\fI{inline(title)}:\fR", *filled(cell)]
    return lines


def table(block):
    """A list of the rows, with the column's words at its top."""
    head = "; ".join(block.head[1:])
    lines = [".TP", rf"\fI{inline(block.head[0])}\fR", rf"\fI{inline(head)}\fR"]
    for cells in block.rows:
        if not cells[0] or not cells[1]:
            raise ValueError(f"a row without a term or its text: {cells}")
        lines += row(block.head, cells)
    return lines


def items(block):
    """A list with bullets or numbers."""
    lines = []
    for mark, text in block.items:
        lines += [rf".IP {mark if mark != '-' else chr(92) + '(bu'} {len(mark) + 1}", *filled(text)]
    return lines


def heading(block):
    """The heading of a section below that of the page, or of a part of such a section."""
    if block.level == 2:
        return [f".SS {escaped(installed(block.text), CODE_SIGNS)}"]
    return [".PP", rf"\fB{inline(block.text)}\fR"]


def paragraph(block):
    return [".PP", *filled(block.text)]


def picture(block):
    raise ValueError(f"a manual shows no picture: {block.text}")


PRINTERS = {Heading: heading, Paragraph: paragraph, Code: code, Items: items, Picture: picture, Table: table}


def printed(block):
    """The lines of a block."""
    return PRINTERS[type(block)](block)


def all_printed(found):
    """The lines of blocks below a heading, which begins a paragraph by itself."""
    lines = [line for block in found for line in printed(block)]
    return [line for before, line in zip([".SH", *lines], lines) if line != ".PP" or not before.startswith((".SH", ".SS"))]
