"""What is wrong with the completion of bash and zsh: after each word of each command the shells are asked what may follow."""
import os
import shlex

import shells
from installation import ZSH
from product import TYPES, is_endless, kinds
from scratch import expect, skip

BASH = "share/bash-completion/completions/regtx"
# what a folder has: files and folders, as names of them complete
FOLDERS, FILES = ["store one", "stores"], ["script.txt", "vendor.reg"]
# a word of each kind, to come to the next
GIVEN = {"folders": "'store one'", "files": "script.txt", "types": "dword", "commands": "run", "nothing": "'0:A B'=c"}


def matches(shell, line):
    """What a shell puts in the place of the last word of a line; without that word if nothing matches."""
    before = line[:line.rfind(" ") + 1]
    told = shell.completed(line)
    if told == line:
        return []
    return sorted(word.rstrip("/") for word in shlex.split(told.removeprefix(before)))


def named(words, begun):
    return sorted(word for word in words if word.startswith(begun))


def wanted(kind, names, begun=""):
    """What has to match a word of this kind that is begun so."""
    return named({"folders": FOLDERS, "files": FOLDERS + FILES, "types": TYPES, "commands": names, "nothing": []}[kind], begun)


def asked(shell, commands):
    """Each word of each command, and commands after `wait`."""
    names = [name for name, _, _ in commands]
    yield "regtx ", wanted("commands", names)
    # `wait` stands before a command once
    yield "regtx wait 30 ", wanted("commands", [name for name in names if name != "wait"])
    for begun in ("e", "export-", "x", "wa"):
        yield f"regtx {begun}", wanted("commands", names, begun)
    for name, words, _ in commands:
        line = f"regtx {name} "
        for kind in kinds(words) if name != "wait" else ["nothing"]:
            yield line, wanted(kind, names)
            line += f"{GIVEN[kind]} "
        if not is_endless(words):
            yield line, []
    for line, kind, begun in [
            ("regtx run sto", "folders", "sto"), ("regtx run 'store one' v", "files", "v"), ("regtx wait 5 run sto", "folders", "sto"),
            ("regtx wait 5 set stores 0:A\\\\B=c @ ", "types", ""), ("regtx set stores 0:A '' q", "types", "q"),
            ("regtx import stores 00112233-4455-6677-8899-aabbccddeeff" + " x" * 15 + " s", "files", "s"),
            ("regtx nothing ", "nothing", ""), ("regtx run none/", "nothing", "")]:
        yield line, wanted(kind, names, begun)


def results(prefix, commands, home):
    functions = os.path.join(prefix, os.path.dirname(ZSH))
    place = os.path.join(home, "completion")
    for name in FOLDERS:
        os.makedirs(os.path.join(place, name))
    for name in FILES:
        with open(os.path.join(place, name), "w", encoding="ascii"):
            pass
    for make in (shells.bash(os.path.join(prefix, BASH), place), shells.zsh(functions, place)):
        if make is None:
            skip("completion", "zsh isn't there")
            continue
        with make as shell:
            for line, words in asked(shell, commands):
                yield expect(f"{shell.words[0]}: {line}", matches(shell, line), words)
