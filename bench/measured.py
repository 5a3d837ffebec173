"""What the programs of bench/ share: their words, the line above a table, and the table's place in docs/MEASURED.md."""
import argparse
import os
import platform
import re
import subprocess
import sys

TOP = os.path.dirname(os.path.dirname(os.path.abspath(__file__)))
sys.path.append(f"{TOP}/tools")
from picture_files import write_plots  # noqa: E402


def program(path):
    """The whole path of a program that can be run."""
    if not os.access(path, os.X_OK):
        raise argparse.ArgumentTypeError(f"no program: {path}")
    return os.path.realpath(path)


def words(doc, *programs):
    """The words of a bench: its programs by these names, and whether its table goes into docs/MEASURED.md."""
    parser = argparse.ArgumentParser(description=doc, formatter_class=argparse.RawDescriptionHelpFormatter)
    for name in programs:
        parser.add_argument(name, type=program)
    parser.add_argument("--write", action="store_true", help="put the table into docs/MEASURED.md")
    return parser


def head(bench, commit=None):
    """The begin of the line above a table: the bench, the commit of the program, and where it ran."""
    here = subprocess.run(["git", "rev-parse", "--short", "HEAD"], cwd=TOP, stdout=subprocess.PIPE, text=True, check=True).stdout.strip()
    of = f"with the program of commit {commit}" if commit else f"at commit {here}"
    return f"`bench/{bench}.py` {of} on {platform.machine()}, {os.cpu_count()} processors"


def compiled(source, path, *flags):
    """The path of what is built of a source of bench/."""
    subprocess.run(["cc", "-O2", "-o", path, f"{TOP}/bench/{source}", *flags], check=True)
    return path


def peak(folder):
    """The program that prints the processor time of another one and the most bytes that it held resident."""
    return compiled("peak.c", f"{folder}/peak")


def spent_by(peak, runs, words, before=lambda: None):
    """The least processor seconds of some runs, and the most bytes that one held. What is to be done before each isn't counted."""
    told = []
    for _ in range(runs):
        before()
        told.append(subprocess.run([peak, *words], stdout=subprocess.PIPE, check=True).stdout.split())
    return min(int(run[0]) for run in told) / 1_000_000, max(int(run[1]) for run in told)


def held(folder):
    """The library, for LD_PRELOAD, that prints how many bytes a program holds and how many it held at most."""
    return compiled("held.c", f"{folder}/held.so", "-shared", "-fPIC")


def tell(lines, place, write):
    """Prints the lines of a table as they come, and puts them into their place in docs/MEASURED.md if they are to be written."""
    told = []
    for line in lines:
        print(line, flush=True)
        told.append(line)
    if write:
        put(place, told)


def put(place, lines):
    """Replaces what stands between `<!-- place -->` and `<!-- /place -->` in docs/MEASURED.md, and makes its pictures anew."""
    path, begin, end = f"{TOP}/docs/MEASURED.md", f"<!-- {place} -->\n", f"<!-- /{place} -->\n"
    with open(path, encoding="utf-8") as file:
        page = file.read()
    text = begin + "\n".join(lines) + "\n" + end
    page, places = re.subn(re.escape(begin) + ".*?" + re.escape(end), lambda _: text, page, flags=re.S)
    if places != 1:
        sys.exit(f"{path} has {places} places for the table: {begin}")
    with open(path, "w", encoding="utf-8") as file:
        file.write(page)
    write_plots(place)
