#!/usr/bin/env python3
"""Tries wrong bodies, each of which the prover has to refuse:

    tools/wrong.py            tries the edits crates/NAME/wrong/*.edit, which the gate leaves out, of each crate that changed
    tools/wrong.py NAME..     tries those of these crates, and crates/NAME/must-fail/*.edit too
    tools/wrong.py --check    tries nothing: says which crates changed since their edits were tried, and which edits don't apply

The edits have the form of must-fail edits. A crate is checked over the libraries of the crates below it that `rt ci` or
tools/build.py left, first as it stands, over what its last check kept, and then with each edit over what the checks before it
proved. An edit is refused if the prover has read it and doesn't prove a goal. If each edit of crates/NAME/wrong is,
crates/NAME/wrong/tried gets the sum of the text that they were tried on: the crate's src/, specs/, proofs/ and edits. Status 0:
each edit was refused, or nothing changed and each applies; 1: not so, or a library is missing; 2: the words can't be read.
"""
import glob
import hashlib
import os
import re
import shutil
import subprocess
import sys
import tempfile
from concurrent.futures import ThreadPoolExecutor

sys.dont_write_bytecode = True
from graph import TOP, below, crates  # noqa: E402
from rlibs import PROVED, is_built, kit_folder, side_by_side, words_for  # noqa: E402

FOLDERS = ["must-fail", "wrong"]
TRIED = "wrong/tried"
# what the prover says of a text that names what isn't there, after which no contract was tried
UNREAD = re.compile("is not in scope|has no field|is no name|operand is missing|expected the end|cannot continue")
# a proof that names what the edit took away, which says little of the contract
NAMES_LOST = re.compile(r"(\./)?proofs/.*(has no field|is not in scope|has no `|was not admitted)")


def home_of(crate):
    return f"{TOP}/crates/{crate}"


def edits_of(crate, *folders):
    """The edits in these folders of a crate, by their paths in its folder."""
    return sorted(edit for folder in folders for edit in glob.glob(f"{folder}/*.edit", root_dir=home_of(crate)))


def sum_of(home):
    """The sum of the files in a crate's folder that a try depends on, their paths among them."""
    found = hashlib.sha256()
    for part in [*PROVED, "wrong"]:
        for path in sorted(glob.glob(f"{home}/{part}/**", recursive=True)):
            inside = os.path.relpath(path, home)
            if os.path.isfile(path) and inside != TRIED:
                with open(path, "rb") as file:
                    found.update(repr((inside, file.read())).encode())
    return found.hexdigest()


def has_changed(crate):
    """Whether the crate isn't what its edits were last tried on."""
    try:
        with open(f"{home_of(crate)}/{TRIED}", encoding="ascii") as file:
            return file.read().strip() != sum_of(home_of(crate))
    except FileNotFoundError:
        return True


def edited(home, edit):
    """The texts of the files that an edit changes, by their paths in the crate's folder, and why it can't be applied, or None."""
    texts, path, old, pairs = {}, None, None, 0
    with open(f"{home}/{edit}", encoding="utf-8") as file:
        lines = file.read().split("\n")
    for line in lines:
        if line.startswith("file: "):
            path = line[len("file: "):].strip()
            if os.path.normpath(path) != path or path.split("/")[0] not in PROVED or not os.path.isfile(f"{home}/{path}"):
                return texts, f"there is no file {path} of the crate"
        elif line.startswith("old: "):
            old = line[len("old: "):]
        elif line.startswith("new:"):
            if not path or not old:
                return texts, "a new: line has no file: and old: line before it"
            if path not in texts:
                with open(f"{home}/{path}", encoding="utf-8") as file:
                    texts[path] = file.read()
            count = texts[path].count(old)
            if count != 1:
                return texts, f"an old: line stands in {path} {count} times"
            texts[path] = texts[path].replace(old, line[len("new:"):].removeprefix(" "))
            old, pairs = None, pairs + 1
    return texts, None if pairs else "it has no pair of old: and new: lines"


def check(graph):
    """Says what changed and which edits don't apply, and gives the status."""
    found = [(crate, edit) for crate in graph for edit in edits_of(crate, *FOLDERS)]
    faults = [f"crates/{crate}/{edit}: {why}" for crate, edit in found if (why := edited(home_of(crate), edit)[1])]
    for fault in faults:
        print(fault)
    kept = [crate for crate in graph if edits_of(crate, "wrong")]
    changed = [crate for crate in kept if has_changed(crate)]
    count = sum(len(edits_of(crate, "wrong")) for crate in kept)
    print(f"wrong: {count} edits of {len(kept)} crates, and {len(found) - count} for the gate; don't apply: {len(faults)}; changed "
          f"since they were tried: {' '.join(changed) or 'none'}")
    return 1 if faults or changed else 0


def put(home, texts):
    """Writes these texts into a crate's folder, and gives what stood there."""
    before = {}
    for path, text in texts.items():
        with open(f"{home}/{path}", "r+", encoding="utf-8") as file:
            before[path] = file.read()
            file.seek(0)
            file.truncate()
            file.write(text)
    return before


def is_unread(line, changed):
    """Whether the prover says here that it can't read a text of the crate, or that the compiler refuses it."""
    at = re.match(r"(?:\./)?(\S+?):\d+:\d+: error: (?:(`[^`]*`): )?(.*)", line)
    if not at or at[1] not in changed and not at[1].startswith(("src/", "specs/")):
        return False
    return not at[2] or bool(UNREAD.search(re.sub("`[^`]*`", "", at[3])))


def verdict(ran, changed):
    """Whether the prover refused an edit at a goal, and what to say of it."""
    lines = ran.stdout.rstrip("\n").split("\n")
    unread = next((line for line in lines if is_unread(line, changed)), None)
    if unread:
        return False, f"BAD EDIT: it can't be read: {unread}"
    if ran.returncode == 0:
        return False, "NOT REFUSED: the crate is still proved with this edit"
    if ran.returncode != 1 or not lines[-1].startswith("logic=not-proved"):
        return False, f"BAD EDIT: it didn't reach the prover: {lines[-1]}"
    told = [line for line in lines if re.match(r"(note: \S+:\d+:\d+:|\S+:\d+:\d+: error)", line)]
    goal = next((line for line in told if not NAMES_LOST.match(line)), None)
    if not goal:
        return False, f"BAD EDIT: no goal fails, as of a proof that names what the edit takes away: {(told or lines)[0]}"
    return True, f"refused: {goal}"


def attempt(crate, edits, graph, kit):
    """Tries edits of a crate: whether each was refused and what to say of it, the sum of what they were tried on, and what the
    prover said of the crate as it stands unless it is proved."""
    with tempfile.TemporaryDirectory(prefix="regtx-wrong-") as scratch:
        home = f"{scratch}/{crate}"
        for part in [*PROVED, *FOLDERS]:
            if os.path.isdir(f"{home_of(crate)}/{part}"):
                shutil.copytree(f"{home_of(crate)}/{part}", f"{home}/{part}")
        if os.path.isdir(f"{home_of(crate)}/out/incremental"):
            shutil.copytree(f"{home_of(crate)}/out/incremental", f"{scratch}/kept")
        words = [f"{kit}/bin/rattle", "check", *words_for(crate, graph, kit), "--jobs", "1", "--incremental", f"{scratch}/kept"]
        how = {"cwd": home, "stdin": subprocess.DEVNULL, "stdout": subprocess.PIPE, "stderr": subprocess.STDOUT, "text": True,
               "errors": "replace"}
        ran, summed = subprocess.run(words, **how), sum_of(home)
        if ran.returncode:
            return [(False, "NOT TRIED: the crate isn't proved as it stands")] * len(edits), summed, ran.stdout
        found = []
        for edit in edits:
            texts, why = edited(home, edit)
            if why is None:
                before = put(home, texts)
                found.append(verdict(subprocess.run(words, **how), texts))
                put(home, before)
            else:
                found.append((False, f"BAD EDIT: {why}"))
    return found, summed, None


def tell(crate, edits, found, summed, why):
    """Prints what the edits of a crate came to, and keeps the sum if each of wrong/ was refused. Gives how many weren't."""
    for edit, (_, text) in zip(edits, found):
        print(f"{crate}/{edit}: {text}"[:240], flush=True)
    if why:
        print(why[-3000:], flush=True)
    refused = {edit for edit, (is_refused, _) in zip(edits, found) if is_refused}
    kept = edits_of(crate, "wrong")
    if kept and refused.issuperset(kept):
        with open(f"{home_of(crate)}/{TRIED}", "w", encoding="ascii") as file:
            file.write(f"{summed}\n")
    return len(edits) - len(refused)


def attempt_all(tried, graph):
    """Tries these edits of each crate, several crates side by side, and gives the status."""
    stale = sorted({name for crate in tried for name in below(crate, graph) if not is_built(name)})
    if stale:
        print(f"wrong: libraries that are missing or older than their sources: {' '.join(stale)}\n"
              "wrong: tools/build.py NAME.. builds them, and `rt ci` leaves them in a checkout that had none")
        return 1
    kit, bad = kit_folder(), 0
    with ThreadPoolExecutor(side_by_side()) as pool:
        runs = {crate: pool.submit(attempt, crate, tried[crate], graph, kit) for crate in sorted(tried, key=lambda it: -len(tried[it]))}
        for crate, run in runs.items():
            bad += tell(crate, tried[crate], *run.result())
    print(f"wrong: {bad} edits not refused" if bad else "wrong: each edit was refused")
    return 1 if bad else 0


def main():
    words, graph = sys.argv[1:], crates()
    if words == ["--check"]:
        return check(graph)
    if any(word not in graph or not edits_of(word, *FOLDERS) for word in words):
        print(__doc__, file=sys.stderr)
        return 2
    tried = {crate: edits_of(crate, *FOLDERS) for crate in words}
    if not words:
        tried = {crate: edits for crate in graph if (edits := edits_of(crate, "wrong")) and has_changed(crate)}
    if not tried:
        print("wrong: no crate changed since its edits were tried")
        return 0
    return attempt_all(tried, graph)


sys.exit(main())
