#!/usr/bin/env python3
"""Runs the gate, and prints what each crate took of it:

    tools/minutes.py [WORD..]       at the top of the repository; the gate is `rt ci`, or else the WORDs
    tools/minutes.py --write        puts the sums and the dearest crates of the last table into docs/MEASURED.md

While the gate runs, the processor time (user and system) of each process below it is read from /proc every half second,
and counted to the crate that the process works on: its check, its tests, or its must-fail edits. A process that ends
between two readings loses less than half a second. The table is also kept in out/minutes.md: what the gate keeps from
before has the minutes that it has there. The status is the gate's own; one that is interrupted is told as far as it came.
"""
import glob
import os
import subprocess
import sys
import threading
import time
from collections import defaultdict

sys.dont_write_bytecode = True
from graph import TOP, own_crates  # noqa: E402
sys.path.append(f"{TOP}/bench")
from measured import put  # noqa: E402

TICK = os.sysconf("SC_CLK_TCK")
KINDS = ["check", "tests", "edits"]
PAUSE = 0.5
PAGE = f"{TOP}/out/minutes.md"
# how many crates docs/MEASURED.md names
DEAREST = 12


def processes():
    """Each process: its parent, the moment it began, its processor time in ticks, its words and its folder."""
    found = {}
    for name in os.listdir("/proc"):
        if not name.isdigit():
            continue
        try:
            with open(f"/proc/{name}/stat", encoding="utf-8", errors="replace") as file:
                fields = file.read().rsplit(")", 1)[1].split()
            with open(f"/proc/{name}/cmdline", encoding="utf-8", errors="replace") as file:
                words = file.read().split("\0")
            folder = os.readlink(f"/proc/{name}/cwd")
        except OSError:
            continue  # it has ended
        found[int(name)] = (int(fields[1]), fields[19], int(fields[11]) + int(fields[12]), words, folder)
    return found


def work_of(words, folder, crates):
    """The crate and the kind of work of a process, where its words tell them."""
    if "--crate-name" not in words:
        return None
    crate = words[words.index("--crate-name") + 1]
    if "/rt-edit-" in folder:
        return crate, "edits"
    # a crate's tests are a crate that rt calls NAME_tests
    return crate if crate in crates else crate.removesuffix("_tests"), "tests" if "--test" in words else "check"


def watch(gate, crates, is_over, ticks):
    """Reads the processes below the gate until it is over; ticks has for each process its work and its time."""
    works = {}
    while not is_over.wait(PAUSE):
        found = processes()
        for pid, (_, began, spent, _, _) in found.items():
            chain, at = [], pid
            while at in found and at != gate:
                chain.append(at)
                at = found[at][0]
            if at != gate:
                continue
            known = [work_of(found[it][3], found[it][4], crates) for it in chain]
            work = next((it for it in known if it), None) or works.get((pid, began))
            works[pid, began] = work
            ticks[pid, began] = (work, spent)


def chain_of(crates, minutes):
    """The longest chain of crates that wait for one another, and what their checks and the last one's rest take."""
    longest = {}

    def to(crate):
        if crate not in longest:
            below = max((to(it) for it in crates[crate]), key=lambda it: it[0], default=(0, []))
            longest[crate] = (below[0] + minutes[crate, "check"], below[1] + [crate])
        return longest[crate]

    ends = [(to(crate)[0] + minutes[crate, "tests"] + minutes[crate, "edits"], to(crate)[1]) for crate in crates]
    return max(ends)


def has_edits(crate):
    """Whether the gate tries edits of a crate."""
    return bool(glob.glob(f"{TOP}/crates/{crate}/must-fail/*.edit"))


def rows_before(crates):
    """The minutes in the table of before, of each crate and kind, but of edits that are there no more; none if there is no
    table yet."""
    known = {}
    if not os.path.exists(PAGE):
        return known
    with open(PAGE, encoding="utf-8") as file:
        for line in file:
            name, *cells = [cell.strip(" `") for cell in line.strip("| \n").split("|")]
            if name in crates:
                there = KINDS if has_edits(name) else KINDS[:2]
                known.update({(name, kind): float(cell or 0) for kind, cell in zip(there, cells)})
    return known


def page(crates, minutes, rest, wall, last):
    """The table, with what it is of."""
    whole = sum(minutes.values()) + rest
    proved = sum(1 for crate in crates if minutes[crate, "check"])
    minutes.update({at: spent for at, spent in rows_before(crates).items() if not minutes[at]})
    length, chain = chain_of(crates, minutes)
    commit = subprocess.run(["git", "rev-parse", "--short", "HEAD"], stdout=subprocess.PIPE, text=True).stdout.strip()
    version = subprocess.run(["rt", "version"], stdout=subprocess.PIPE, text=True).stdout.strip()
    text = [
        "Processor minutes of the gate, user and system.",
        "",
        f"- Commit {commit}, {version}, {os.cpu_count()} processors.",
        f"- `{last}` in {wall:.1f} minutes by the clock, {whole:.1f} processor minutes.",
        f"- {proved} of {len(crates)} crates were proved in it. What it kept of others has the minutes of the runs that did it.",
        f"- The longest chain takes {length:.1f} processor minutes: {', '.join(chain)}.",
        "",
        "| crate | check | tests | edits | together |",
        "|---|---|---|---|---|",
    ]
    for crate in crates:
        parts = [minutes[crate, kind] for kind in KINDS]
        cells = [f"{part:.1f}" if part else "" for part in parts]
        text.append(f"| `{crate}` | {' | '.join(cells)} | {sum(parts):.1f} |")
    text.append(f"| compiling, linking and running | | | | {rest:.1f} |")
    sums = [sum(minutes[crate, kind] for crate in crates) for kind in KINDS]
    text.append(f"| **all** | {' | '.join(f'{part:.1f}' for part in sums)} | {sum(sums) + rest:.1f} |")
    return "\n".join(text) + "\n"


def write():
    """Puts the sums and the rows of the dearest crates of the last table into docs/MEASURED.md."""
    with open(PAGE, encoding="utf-8") as file:
        lines = file.read().splitlines()
    rows = [line for line in lines if line.startswith("| `")]
    dearest = sorted(rows, key=lambda row: -float(row.split("|")[-2]))[:DEAREST]
    sums = [line for line in lines if line.startswith(("| compiling", "| **all**"))]
    text = [line for line in lines if line.startswith("- ")]
    put("tools/minutes.py", [*text, "", "| crate | check | tests | edits | together |", "|---|---|---|---|---|", *dearest, *sums])


def main():
    if sys.argv[1:] == ["--write"]:
        write()
        return
    words = sys.argv[1:] or ["rt", "ci"]
    crates, began = own_crates(), time.time()
    gate = subprocess.Popen(words, stdout=subprocess.PIPE, text=True, errors="replace")
    is_over, ticks = threading.Event(), {}
    watcher = threading.Thread(target=watch, args=(gate.pid, crates, is_over, ticks))
    watcher.start()
    last = ""
    try:
        for line in gate.stdout:
            print(line, end="", flush=True)
            last = line.strip() or last
    except KeyboardInterrupt:
        last = "interrupted"
    gate.wait()
    is_over.set()
    watcher.join()
    minutes, rest = defaultdict(float), 0.0
    for work, spent in ticks.values():
        if work and work[0] in crates:
            minutes[work] += spent / TICK / 60
        else:
            rest += spent / TICK / 60
    text = page(crates, minutes, rest, (time.time() - began) / 60, last)
    print(text)
    os.makedirs(os.path.dirname(PAGE), exist_ok=True)
    with open(PAGE, "w", encoding="utf-8") as file:
        file.write(text)
    sys.exit(gate.returncode)


main()
