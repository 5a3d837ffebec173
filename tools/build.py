#!/usr/bin/env python3
"""Builds programs or libraries of the repository, and the libraries below them, each of which is proved first:

    tools/build.py NAME..    builds crates/NAME: its program where it has one, else its library

Parts that don't wait for one another are built side by side, as many as there are processors and memory, those first on
which the longest chain of others waits. `rt` keeps all others out of the folders of the crates below the one that it
builds, so each part is built in a folder of its own, in which the parts below are links to what was built of them. What
goes on is told on standard error.
"""
import fcntl
import os
import shutil
import subprocess
import sys
import tempfile
import time
from concurrent.futures import FIRST_COMPLETED, ThreadPoolExecutor, wait
from functools import cache

sys.dont_write_bytecode = True
sys.path.insert(0, os.path.dirname(os.path.abspath(__file__)))
from graph import TOP, is_program, own_crates  # noqa: E402
from rlibs import folder_of, side_by_side  # noqa: E402


def in_order(wanted, graph):
    """The crates wanted and all that they stand on, the longest chain of waiting crates first."""
    found, left = set(), list(wanted)
    while left:
        crate = left.pop()
        if crate not in found:
            found.add(crate)
            left += graph[crate]

    @cache
    def waiting(crate):
        return 1 + max((waiting(above) for above in found if crate in graph[above]), default=0)

    return sorted(found, key=lambda crate: (-waiting(crate), crate))


def link_or_copy(source, target):
    """A second name of a file, or a copy where the folders are not on one device."""
    try:
        os.link(source, target)
    except OSError:
        shutil.copy2(source, target)


def lay_out(crate, graph, top):
    """Lays the crate and those below it into a folder, with what was built of them."""
    shutil.copy2(f"{TOP}/HANDLES", f"{top}/HANDLES")
    here = in_order([crate], graph)
    with open(f"{TOP}/crates.txt", encoding="utf-8") as all_crates, open(f"{top}/crates.txt", "w", encoding="utf-8") as file:
        file.writelines(line for line in all_crates if line.split(":")[0].split("#")[0].split()[:1] in [[it] for it in here])
    for each in here:
        left_out = shutil.ignore_patterns("out") if each == crate else shutil.ignore_patterns("incremental")
        shutil.copytree(f"{TOP}/crates/{each}", f"{top}/crates/{each}", ignore=left_out, copy_function=link_or_copy)
    if os.path.isdir(f"{TOP}/crates/{crate}/out"):
        # what an earlier check left is read and written
        shutil.copytree(f"{TOP}/crates/{crate}/out", f"{top}/crates/{crate}/out")


def made_in(crate, top, is_alone):
    """Builds the crate that is laid out in the folder. Answers why it could not, or None."""
    folder, program = f"{top}/crates/{crate}", f"{top}/crates/{crate}/out/{crate}"
    # beside other parts a second process for one part costs more than it saves
    words = ["rt", "run"] if is_program(crate) else ["rt", "lib"] if is_alone else ["rt", "lib", "--jobs", "1"]
    # a program is built by running it; without words it ends at once, and only whether it is there counts
    if is_program(crate) and os.path.exists(program):
        os.remove(program)
    ran = subprocess.run(words, cwd=folder, stdin=subprocess.DEVNULL, capture_output=True, text=True)
    is_made = os.path.exists(program) if is_program(crate) else not ran.returncode
    return None if is_made else ran.stdout[-3000:] + ran.stderr[-3000:]


def make(crate, graph, is_alone):
    """Builds a crate whose parts below are built. Answers why it could not, or None."""
    began, home = time.time(), f"{TOP}/crates/{crate}"
    keeper = os.open(home, os.O_RDONLY)
    try:
        fcntl.flock(keeper, fcntl.LOCK_EX)
        with tempfile.TemporaryDirectory(prefix="regtx-build-") as top:
            lay_out(crate, graph, top)
            why = made_in(crate, top, is_alone)
            # what a check that failed has left serves the next one
            if os.path.isdir(f"{top}/crates/{crate}/out"):
                shutil.rmtree(f"{home}/out", ignore_errors=True)
                shutil.move(f"{top}/crates/{crate}/out", f"{home}/out")
    finally:
        os.close(keeper)
    if why is None and is_program(crate):
        subprocess.run([f"{TOP}/tools/mark.py", f"{home}/out/{crate}", "proved"], check=True)
    for made in (f"{home}/out/{crate}", f"{folder_of(crate)}/{crate}.rlib"):
        if why is None and os.path.exists(made):
            # a file that changed while it was built is newer
            os.utime(made, (began, began))
    return why


def build(wanted, graph):
    """Builds the parts in an order that they allow. Answers why it could not, or None."""
    began, parts = time.time(), in_order(wanted, graph)
    done, running = [], {}

    def tell(text):
        spent = int(time.time() - began)
        print(f"regtx: {text} ({spent // 60} min {spent % 60:02} s)", file=sys.stderr, flush=True)

    at_once = side_by_side()
    with ThreadPoolExecutor(max_workers=at_once) as pool:
        while len(done) < len(parts):
            begun = [*done, *running.values()]
            ready = [crate for crate in parts if crate not in begun and all(it in done for it in graph[crate])]
            is_alone = not running and len(ready) == 1
            for crate in ready[:at_once - len(running)]:
                running[pool.submit(make, crate, graph, is_alone)] = crate
            over, _ = wait(running, return_when=FIRST_COMPLETED)
            for each in over:
                crate = running.pop(each)
                if each.result() is not None:
                    return f"{crate} could not be built:\n{each.result()}"
                done.append(crate)
                tell(f"proved and built {crate}, {len(done)} of {len(parts)} parts")
    return None


def main():
    graph, words = own_crates(), sys.argv[1:]
    if not words or any(word not in graph for word in words):
        sys.exit(__doc__)
    print("regtx: building the program, each part of which is proved first; this takes some minutes", file=sys.stderr)
    why = build(words, graph)
    if why:
        sys.exit(f"regtx: {why}")


main()
