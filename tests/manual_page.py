"""What is wrong with the manual pages: their form by groff and mandoc, and what they have of the pages, the usages and the headers."""
import os
import re

from installation import MANUAL, SOURCES, TOP, content, copied, environment, ran, readme
from product import usages
from scratch import are_there, expect

SECTIONS = ["NAME", "SYNOPSIS", "DESCRIPTION", "USING A STORE", "SCRIPTS", "EXIT STATUS", "FILES", "EXAMPLES", "SEE ALSO"]
PAGES, ENDS = ["docs/USING.md", "docs/SCRIPTS.md"], "How a run ends"
# the lines of scripts, as a list has them
LINES = [
    "hives N", "history N", "at M", "create P", "delete P", "set P NAME TYPE HEX", "unset P NAME", "get P NAME", "keys P, values P",
    "info P", "flush", "fold", "begin T UUID", "tx T and a request", "commit T", "rollback T", "close T", "outcome T", "kept UUID",
    "session N", "end N",
]
REFUSALS = [
    "E1 NoMemory", "E2 NotFound", "E3 HasSubkeys", "E4 BadName", "E5 TooDeep", "E6 TooLarge", "E7 Conflict", "E8 NotActive",
    "E9 NoSuchHandle", "E10 NoSeat", "E11 JournalFull", "E12 HistoryFull", "E13 DiskFault", "E14 Faulted", "E15 HiveDamaged",
    "E16 JournalDamaged", "E17 Unsupported", "E18 Fixed",
]
ALSO = "regtxd(1), regtxc(1), uuidgen(1), flock(1), hivexsh(1), hivexml(1), hivexregedit(1), reglookup(1)"
FILES = ["journal", "hive00.dat, hive01.dat, ..", "hive00.log, hive01.log, ..", "one hive more: hive02.dat in a store of 2"]
# a page's marks, and the signs that a terminal has for those of ASCII
MARKS = re.compile(r"^#+ |^(?:- |\d+\. )|^\|[-|]+\|$|^```.*$|\*\*|`|^    (?=\S)|\]\([^)\s]+\)|\[(?=[^\]]+\]\()", re.M)
SIGNS = str.maketrans("‐−’‘“”", "--''\"\"")
# pages of other forms, which can't be made into a manual: what is put where, and what is told
SPOILED = [
    ("docs/USING.md", "\n> a quote\n", "of no known kind"),
    ("docs/SCRIPTS.md", "\n| a | b |\n|---|---|\n| c |\n", "rows of several lengths"),
    ("docs/SCRIPTS.md", "\n```\ncode\n", "has no end"),
    ("docs/USING.md", "\n#### Deep\n", "of no known kind"),
    ("docs/USING.md", "\nA mark ` alone\n", "has no end"),
    ("docs/USING.md", "\n![a picture](pictures/commit.svg)\n", "shows no picture: a picture"),
    ("README.md", "\n![a picture](docs/pictures/commit.svg) amid words\n", "of no known kind"),
    ("docs/SCRIPTS.md", "\n## How a run ends\n", "2 sections are called"),
    ("docs/USING.md", "\n| file | what |\n|---|---|\n| a | b |\n", "2 tables of files"),
    ("crates/regtx/src/usages.rt", None, f"of which {len(usages()) - 1} could be read"),
]


def rendered(page):
    """The lines that groff prints of the page, its warnings, and its status."""
    # without escapes, bold letters and hyphenation, so that words are as they were written
    told, why, status = ran("groff", "-man", "-Tutf8", "-ww", "-rHY=0", "-P-cbou", page)
    return told.translate(SIGNS).splitlines(), why, status


def sections(lines):
    """The text of each section, by its title."""
    found, title = {}, None
    for line in lines[1:-1]:
        if line and not line.startswith(" "):
            title = line
            found[title] = []
        elif title:
            found[title].append(line)
    return found


def terms(lines):
    """The terms of the lists in a section, which stand at its margin; one of six letters or less has its text beside it."""
    at_margin = [line for line in lines if re.match(r" {7}\S", line)]
    return {line[7:] for line in at_margin} | {line[7:14].rstrip() for line in at_margin if line[13:14] == " "}


def solid(text):
    """A text without its blanks, which may be anywhere in lines that are filled."""
    return re.sub(r"\s", "", text)


def cells(line):
    """The parts of a line that stand together on the manual page too."""
    return line[1:-1].split("|") if line.startswith("|") else [line]


def passages(page):
    """What a page says."""
    return parts_of(content(os.path.join(TOP, page)).decode())


def parts_of(text):
    """What a text says, in parts that have to be found as they are: paragraphs, items, cells and lines of code."""
    text = text.replace("./regtx", "regtx")
    code = re.compile(r"^```.*\n((?:.*\n)*?)```$", re.M)
    for inner in code.findall(text):
        yield from inner.splitlines()
    for block in re.split(r"\n\n+", code.sub("", text)):
        for part in re.split(r"\n(?=- |\d+\. |\|)", block):
            # marks of links and code may run over lines, so they go from the whole
            yield from (MARKS.sub("", cell.strip()) for cell in cells(part.strip()) if not re.fullmatch(r"\|[-|]+\|", part.strip()))


def lost(page, text):
    """The passages of a page that the manual hasn't."""
    return [part for part in passages(page) if solid(part.lower()) not in text]


def parts():
    """The sections of the pages, of which one is the manual's EXIT STATUS."""
    titles = [title for page in PAGES for title in re.findall(r"^## (.*)$", content(os.path.join(TOP, page)).decode(), re.M)]
    return [*(title for title in titles if title != ENDS), ENDS]


def form(page, version):
    """The page as roff, its title and its sections."""
    lines, why, status = rendered(page)
    yield expect("groff", (why, status), ("", 0))
    yield expect("groff's line of the page", lines[-1].split()[:2], ["regtx", version])
    yield expect("the sections", list(sections(lines)), SECTIONS)
    yield expect("the parts", [line.strip() for line in lines if re.match(r" {3}\S", line)], parts())
    tools = are_there("manual", "mandoc", "man", "lexgrog")
    if "mandoc" in tools:
        yield expect("mandoc", ran("mandoc", "-Tlint", page), ("", "", 0))
    if "man" in tools:
        told, why, status = ran("man", "--warnings=w", "-l", page, env=environment(MANPAGER="cat", MANWIDTH="80"))
        yield expect("man", ("EXIT STATUS" in re.sub(".\b", "", told), why, status), (True, "", 0))
    if "lexgrog" in tools:
        yield expect("lexgrog", ran("lexgrog", page), (f'{page}: "regtx - {readme()[0]}"\n', "", 0))


def matter(page, commands):
    """What the page has to say."""
    lines = rendered(page)[0]
    found, text = sections(lines), solid("".join(lines).lower())
    calls = [" ".join(["regtx", name, *words]) for name, words, _ in commands]
    yield expect("the synopsis", [line.strip() for line in found["SYNOPSIS"] if line], calls)
    described = solid("".join(found["DESCRIPTION"]))
    for (name, _, does), call in zip(commands, calls):
        yield expect(f"the command {name}", solid(call + does.replace("`", "")) in described, True)
    for title, wanted in [("SCRIPTS", LINES), ("EXIT STATUS", ["0", "1", "2"]), ("FILES", FILES)]:
        yield from (expect(f"{title}: {term}", term in terms(found[title]), True) for term in wanted)
    summary, description, example = readme()
    for title, said in [("NAME", f"regtx - {summary}"), ("DESCRIPTION", description.replace("`", "")), ("EXAMPLES", example),
                        ("SEE ALSO", ALSO)]:
        yield expect(f"{title} says {said}", solid(said) in solid("".join(found[title])), True)
    refused = terms([*found["USING A STORE"], *found["SCRIPTS"]])
    for refusal in REFUSALS:
        yield expect(refusal, any(term.startswith(refusal) for term in refused), True)
    for wrong in ("./regtx", "](", "**", "```"):
        yield expect(f"the manual has {wrong}", solid(wrong) in text, False)
    for name in PAGES:
        yield expect(f"what is lost of {name}", lost(name, text), [])


def below(page, title):
    """What a page has below one of its headings."""
    text = content(os.path.join(TOP, page)).decode()
    return re.split(r"^## ", text.split(f"\n## {title}\n", 1)[1], flags=re.M)[0]


def told(header):
    """What the comments of a header say, and what it declares."""
    text = re.split(r"^static inline ", content(os.path.join(TOP, header)).decode(), flags=re.M)[0]
    found = [re.sub(r"^ ?\* ?", "", paragraph, flags=re.M) for comment in re.findall(r"^/\*(.*?)\*/", text, re.M | re.S)
             for paragraph in re.split(r"\n \*\n", comment)]
    # the last comment of regtx.h is of what the compiler alone sees
    return [part for part in found if "What follows lets" not in part] + re.findall(r"^(?!typedef)\w[\w ]*[ *]regtx_\w+\(.*?\);", text, re.M | re.S)


# the other pages: their sections, and what each has to say
OTHERS = {
    "regtxd.1": (["NAME", "SYNOPSIS", "DESCRIPTION", "SERVING A STORE", "SYSTEMD", "EXAMPLES", "SEE ALSO"], lambda: [
        *passages("docs/SERVING.md"), *parts_of(below("server/README.md", "regtxd")), *parts_of(below("server/README.md", "systemd"))]),
    "regtxc.1": (["NAME", "SYNOPSIS", "DESCRIPTION", "SEE ALSO"], lambda: parts_of(below("server/README.md", "regtxc"))),
    "regtx-replicate.1": (["NAME", "SYNOPSIS", "DESCRIPTION", "A FLEET OF STORES", "EXAMPLES", "SEE ALSO"], lambda: passages("docs/FLEET.md")),
    "regtx.3": (["NAME", "SYNOPSIS", "DESCRIPTION", "DECLARATIONS", "PROMISES", "EXAMPLES", "SEE ALSO"], lambda: [
        *told("crates/regtx_c/regtx.h"), *parts_of(below("crates/regtx_c/README.md", "What callers rely on"))]),
    "regtx_client.3": (["NAME", "SYNOPSIS", "DESCRIPTION", "STORES", "DECLARATIONS", "EXAMPLES", "SEE ALSO"], lambda: [
        *told("clients/c/regtx_client.h"), *parts_of(below("clients/README.md", "Writes")), *parts_of(below("clients/c/README.md", "Codes")),
        *parts_of(below("clients/c/README.md", "Calls"))]),
}


def other(prefix, name, version):
    """Another page than that of the program."""
    page = os.path.join(prefix, f"share/man/man{name[-1]}/{name}")
    lines, why, status = rendered(page)
    yield expect(f"groff, {name}", (why, status), ("", 0))
    yield expect(f"groff's line of {name}", lines[-1].split()[:2], ["regtx", version])
    titles, wanted = OTHERS[name]
    found = [line for line in lines[1:-1] if line and not line.startswith(" ")]
    yield expect(f"sections of {name}", found, titles)
    text, parts_wanted = solid("".join(lines).lower()), list(wanted())
    yield expect(f"what is lost of {name}", [part for part in parts_wanted if solid(part.lower().replace("`", "")) not in text], [])
    yield expect(f"what {name} has to have", len(parts_wanted) > 10, True)
    tools = are_there("manual", "mandoc", "lexgrog")
    if "mandoc" in tools:
        yield expect(f"mandoc, {name}", ran("mandoc", "-Tlint", page), ("", "", 0))
    if "lexgrog" in tools:
        begin = f'{page}: "{name[:-2]} - '
        yield expect(f"lexgrog, {name}", ran("lexgrog", page)[0].startswith(begin), True)


def spoiled(home):
    """Pages that aren't made into a manual, since something of them would be lost."""
    copy = os.path.join(home, "spoiled")
    for name, added, told in SPOILED:
        copied(SOURCES, copy)
        text = content(os.path.join(copy, name)).decode()
        with open(os.path.join(copy, name), "w", encoding="utf-8") as file:
            file.write(text + added if added else text.replace("        does:", "        does :", 1))
        printed, why, status = ran(os.path.join(copy, "tools", "manual.py"), "regtx.1")
        yield expect(f"{name} with {added}", (printed, told in why, "Traceback" in why, status), ("", True, False, 1))


def results(prefix, commands, version, home):
    page = os.path.join(prefix, MANUAL[0])
    yield from form(page, version)
    yield from matter(page, commands)
    for name in OTHERS:
        yield from other(prefix, name, version)
    yield from spoiled(home)
