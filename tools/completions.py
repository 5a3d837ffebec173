#!/usr/bin/env python3
"""Holds what lists the commands to crates/regtx/src/usages.rt: the completion of bash and zsh, and the help of `./regtx`:

    tools/completions.py            tells each file that isn't as this makes it
    tools/completions.py --write    writes that part of each file anew

A part begins and ends with a line that says so; the rest of a file is written by hand. Status 1 if a line is told.
"""
import re
import sys
import textwrap

sys.dont_write_bytecode = True
from graph import TOP  # noqa: E402
from product import TYPES, USAGES, is_endless, kinds, source, usages  # noqa: E402

BEGIN, END = f"# made by tools/completions.py of {USAGES}\n", "# as far as here\n"
PART = re.compile(rf"(^ *{re.escape(BEGIN)})(.*?)(^ *{re.escape(END)})", re.MULTILINE | re.DOTALL)
COMPLETED = ["commands", "types", "folders", "files"]
# where words stand of which there may be many: up to the last of 16 files of `import`
ENDLESS = "{0}:[{1}-9]", "{0}:1[0-9]"
COLUMNS = 120
# how wide the words of a command are in the help, before what it does; longer ones have a line of their own
CALL = 28


def places():
    """What completes words, and for each kind the places of such words: patterns of a command's name and a number."""
    found = {kind: [] for kind in COMPLETED}
    for name, call, _ in usages():
        words = call.split()[1:]
        # after `wait SECONDS` the words are those of another command
        wanted = kinds(words) if name != "wait" else []
        if is_endless(words):
            wanted = wanted[:-1]
        for at, kind in enumerate(wanted, 2):
            is_last = is_endless(words) and at == len(wanted) + 1
            if kind in found:
                found[kind] += [pattern.format(name, at) for pattern in ENDLESS] if is_last else [f"{name}:{at}"]
    return found


def function_of_kinds():
    """The function of a shell that says what completes a word."""
    cases = []
    for kind, patterns in places().items():
        lines = textwrap.wrap(f"{' | '.join(patterns)}) kind={kind} ;;", COLUMNS - 2, initial_indent="    ", subsequent_indent="        ",
                              break_long_words=False, break_on_hyphens=False)
        cases.append(" \\\n".join(lines) + "\n")
    return "_regtx_kind() {\n    case $1 in\n" + "".join(cases) + "    esac\n}\n"


def of_bash():
    names = " ".join(name for name, _, _ in usages())
    return f'_regtx_commands="{names}"\n_regtx_types="{" ".join(TYPES)}"\n{function_of_kinds()}'


def quoted(text):
    """A text as one word of a shell."""
    return "'" + text.replace("'", "'\\''") + "'"


def of_zsh():
    rows = "".join(f"    {quoted(name + ':' + does.replace(':', chr(92) + ':'))}\n" for name, _, does in usages())
    return f"local -a commands types\ncommands=(\n{rows})\ntypes=({' '.join(TYPES)})\n{function_of_kinds()}"


def of_launcher():
    """The usages, with the name of the launcher."""
    lines, head = [], "usage: ./regtx "
    for _, call, does in usages():
        lines += [f"{head}{call:{CALL}} {does}"] if len(call) <= CALL else [f"{head}{call}", f"{'':{len(head) + CALL}} {does}"]
        head = "       ./regtx "
    return "    cat <<'TEXT'\n" + "".join(f"{line}\n" for line in lines) + "TEXT\n"


MADE = {"completions/regtx.bash": of_bash, "completions/_regtx": of_zsh, "regtx": of_launcher}


def written(name):
    """A file of the repository, and what it has to be."""
    text, made = source(name), MADE[name]()
    new, count = PART.subn(lambda part: part[1] + made + part[3], text)
    if count != 1:
        raise SystemExit(f"{name} has {count} parts between the lines `{BEGIN.strip()}` and `{END.strip()}`")
    return text, new


def main():
    if sys.argv[1:] not in ([], ["--write"]):
        sys.exit(__doc__)
    status = 0
    for name in MADE:
        text, new = written(name)
        if text == new:
            continue
        if sys.argv[1:]:
            with open(f"{TOP}/{name}", "w", encoding="utf-8") as file:
                file.write(new)
        else:
            print(f"tools/completions.py: {name} isn't made of {USAGES} as it stands: tools/completions.py --write makes it")
            status = 1
    return status


sys.exit(main())
