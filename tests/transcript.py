"""Transcripts of runs of the program: scripts with the replies and the status that are expected.

A file of runs is text (`NAME.run`), or a program that prints such text (`NAME.py`), for scripts too long to be kept.
Its lines:

    # TEXT          a comment
    command: WORD   the sub-command of the runs that follow; `play` at first
    == TITLE        a run begins: what it shows
    > LINE          a line of the script, as it stands
    >: LINE|        the same, where `\\xHH` is a byte and `\\\\` a backslash, and the `|` ends it
    >| LINE         the script's last line, without the LF that ends a line
    < PATH          the script is that of a file, by its path from the top of the repository
    TEXT            a line that is printed, beneath the line of the script that it answers
    status N        the status that the run ends with, and the end of the run
    ! LINE          a run of its own: this line, as a script's second, is not understood and ends the run
    !: LINE|        the same, spelled as behind `>:`
"""
import os
import re
import subprocess
import sys
from dataclasses import dataclass, field

TOP = os.path.dirname(os.path.dirname(os.path.abspath(__file__)))


@dataclass
class Run:
    """A script and what it is to print."""

    where: str
    title: str
    command: str
    script: list = field(default_factory=list)  # lines, each with its LF but perhaps the last
    replies: list = field(default_factory=list)  # for each line of the script, and first for none, what is printed
    status: int = 0

    def text(self):
        """The script."""
        return b"".join(self.script)

    def printed(self):
        """What the run is to print."""
        return b"".join(b"".join(lines) for lines in self.replies)


def spelled(text):
    """The bytes of a line that is spelled with escapes and ends with `|`."""
    if not text.endswith("|"):
        raise ValueError("a line behind ':' ends with '|'")
    whole = re.sub(r"\\(x[0-9a-f]{2}|\\)", lambda m: "\\" if m[1] == "\\" else chr(int(m[1][1:], 16)), text[:-1])
    return whole.encode("latin-1")


def line_of(mark, rest):
    """The bytes of a line of the script: behind `:` spelled with escapes, else as they stand behind one blank."""
    return spelled(rest[2:]) if rest.startswith(": ") else rest[1:].encode()


def not_understood(where, command, line):
    """The run in which this line, as a script's second, ends the run."""
    shown = line.decode("latin-1")
    script = [b"hives 1\n", line + b"\n", b"create 0:A\n"]
    return Run(where, f"no line: {shown!r}", command, script, [[], [b"ok\n"], [b"line 2: not understood\n"], []], 2)


def script_of(path):
    """The lines of a script in a file, by its path from the top of the repository."""
    with open(os.path.join(TOP, path), "rb") as file:
        return file.readlines()


def parse(name, lines):
    """The runs of a file's lines, in order."""
    command, run, runs = "play", None, []
    for number, line in enumerate(lines, 1):
        line = line.decode().removesuffix("\n")
        where = f"{name}:{number}"
        if run is None:
            if line.startswith("command: "):
                command = line[len("command: "):]
            elif line.startswith("== "):
                run = Run(where, line[3:], command, replies=[[]])
            elif line.startswith("!"):
                runs.append(not_understood(where, command, line_of("!", line[1:])))
            elif line and not line.startswith("#"):
                raise ValueError(f"{where}: what is this line?")
        elif line.startswith("< "):
            run.script = script_of(line[2:])
        elif line.startswith(">|"):
            run.script.append(line[3:].encode())
            run.replies.append([])
        elif line.startswith(">"):
            run.script.append(line_of(">", line[1:]) + b"\n")
            run.replies.append([])
        elif line.startswith("status "):
            run.status = int(line[len("status "):])
            runs.append(run)
            run = None
        else:
            run.replies[-1].append(line.encode() + b"\n")
    if run is not None:
        raise ValueError(f"{run.where}: the run has no status")
    return runs


def read(path):
    """The runs of the file at a path. Its lines are read one by one: a program may print some hundred megabytes."""
    name = os.path.basename(path)
    if not path.endswith(".py"):
        with open(path, "rb") as file:
            return parse(name, file)
    with subprocess.Popen([sys.executable, path], stdout=subprocess.PIPE) as made:
        runs = parse(name, made.stdout)
    if made.returncode != 0:
        raise ValueError(f"{name}: status {made.returncode}")
    return runs


def read_all(paths):
    """The runs of some files, or of all files of `runs/` where none is named."""
    folder = os.path.join(TOP, "runs")
    if not paths:
        names = sorted(name for name in os.listdir(folder) if name.endswith((".run", ".py")))
        paths = [os.path.join(folder, name) for name in names]
    return [run for path in paths for run in read(path)]


def write(title, steps, status, hives=1):
    """Prints a run over new hives, for a program that prints such text: its title, lines with their replies, and its status."""
    print(f"== {title}")
    for line, reply in [(f"hives {hives}", "ok"), *steps]:
        print(f"> {line}\n{reply}")
    print(f"status {status}\n")


def listed(word, names):
    """The reply that lists these names."""
    return " ".join([word, str(len(names)), *names])
