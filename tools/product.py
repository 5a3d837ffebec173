"""What the sources say of the program: its version, its commands, and what it is for."""
import os
import re
import subprocess
from datetime import datetime, timezone

from graph import TOP

ABOUT, USAGES, README = "crates/regtx/src/about.rt", "crates/regtx/src/usages.rt", "README.md"
VERSION = re.compile(r'^const VERSION: &str = "([0-9]+(?:\.[0-9]+)+)";$', re.M)
COUNT = re.compile(r"^pub const USAGES: \[Usage; (\d+)\] = \[$", re.M)
USAGE = re.compile(r'^    Usage \{\n        name: "(.+)",\n        call: "(.+)",\n        does: "(.+)",\n    \},$', re.M)
TITLE = re.compile(r"\A# regtx: (?:an? )?(.+)\n\n(.+(?:\n.+)*)")
# what completes a word of a usage
KINDS = {
    "DIR": "folders", "OLD": "folders", "NEW": "folders", "FILE": "files", "SCRIPT": "files", "SOURCE": "files", "HIVE": "files",
    "LOG": "files", "OUT": "files", "BACKUPS": "folders", "TYPE": "types",
    "COMMAND": "commands", "ID": "nothing", "COUNT": "nothing", "N": "nothing", "HIVE:PATH": "nothing", "NAME": "nothing", "VALUE": "nothing",
    "PREFIX=HIVE": "nothing", "SECONDS": "nothing", "once": "nothing",
}
TYPES = ["sz", "expand", "dword", "qword", "multi", "hex"]


def source(name):
    """The text of a file of the repository."""
    with open(os.path.join(TOP, name), encoding="utf-8") as file:
        return file.read()


def found(pattern, name):
    """What the pattern finds in a file of the repository; a file of another form ends this."""
    match = pattern.search(source(name))
    if match is None:
        raise SystemExit(f"{name} has nothing of the form {pattern.pattern}")
    return match


def version():
    """The version of the program, and of all that goes with it."""
    return found(VERSION, ABOUT)[1]


def usages():
    """Each command: its name, its words, and what it does."""
    usages = USAGE.findall(source(USAGES))
    if len(usages) != int(found(COUNT, USAGES)[1]):
        raise SystemExit(f"{USAGES} has {found(COUNT, USAGES)[1]} usages, of which {len(usages)} could be read")
    return usages


def kinds(words):
    """What completes each word of a usage. A word that may be there again is there twice."""
    found = []
    for word in words:
        if word in ("..", "..]"):
            found.append(found[-1])
            continue
        name = word.strip("[]").removesuffix("..")
        if name not in KINDS:
            raise SystemExit(f"KINDS of tools/product.py doesn't say what completes {name}")
        found += [KINDS[name]] * (2 if word.endswith("..") else 1)
    return found


def is_endless(words):
    """Whether the last word of a usage may be there again."""
    return bool(words) and words[-1].endswith(("..", "..]"))


def summary():
    """What the program is, in some words."""
    return found(TITLE, README)[1]


def description():
    """What the program does, in a paragraph."""
    return " ".join(found(TITLE, README)[2].split())


def changed(*names):
    """When these files of the repository were changed last, in seconds since 1970. SOURCE_DATE_EPOCH takes its place."""
    if os.environ.get("SOURCE_DATE_EPOCH"):
        return int(os.environ["SOURCE_DATE_EPOCH"])
    try:
        told = subprocess.run(["git", "log", "-1", "--format=%ct", "--", *names], cwd=TOP, capture_output=True, text=True).stdout
    except OSError:
        told = ""
    # a copy of the files without their history has their own times
    return int(told) if told.strip() else int(max(os.stat(os.path.join(TOP, name)).st_mtime for name in names))


def day(seconds):
    """The day of a moment, in UTC."""
    return datetime.fromtimestamp(seconds, timezone.utc).strftime("%Y-%m-%d")
