#!/usr/bin/env python3
"""Has the broker of server/ serve stores by a built program, and tries what clients rely on:

    tests/served.py PROGRAM [--full] [PART ..]

- two_processes, threads_of_lines: programs that commit at once; places: 31 clients, and one more.
- killed_clients, once, idle: clients that die with lines unread, in a transaction or within a commit; work that is done once.
- unread, long_lines, lines: a client that doesn't read, a line without an end, and each line that is answered otherwise than in a run.
- by_words: lines that a shell sends one by one.
- killed_program, killed_broker, stops: what is there after each end.
- full_disk, failing_syncs: what is told after a fault; stats: how full a store is.
- kept_under_way, kept_is_durable: what is told of a commit before that is answered.
- generations: a history that becomes full.
- backups, refusals, full_backups, killed_backups: copies that are made while the store is served.
- followed, watched, followed_rest and others: clients that are told of changes as these become durable.
- doors: who gets in; examples: those of the pages.
- frames_by_hand: the program without the broker.

With --full there are as many turns as make a lapse of a second or a hundredth show; without it the gate's. Parts are carried out side
by side, and each is given up after PART_SECONDS. The last line is 'N passed, N failed'; status 0 if none failed.
"""
import argparse
import os
import sys
import tempfile
from concurrent.futures import ProcessPoolExecutor

TOP = os.path.dirname(os.path.dirname(os.path.abspath(__file__)))
sys.dont_write_bytecode = True
sys.path.insert(0, os.path.join(TOP, "tests"))
import served_backups  # noqa: E402
import served_clients  # noqa: E402
import served_ends  # noqa: E402
import served_following  # noqa: E402
import served_frames  # noqa: E402
import served_generations  # noqa: E402
from parts import results_of  # noqa: E402
from scratch import finish, memory, noting_library, program_at, skip, tell  # noqa: E402
from served_store import Bench, broker_in, short_folder  # noqa: E402

MODULES = [served_clients, served_ends, served_generations, served_backups, served_following, served_frames]
PARTS = {part.__name__: part for module in MODULES for part in module.PARTS}
# these come first
LONGEST = ["generations", "followed_rest", "held_open", "backups", "killed_program", "killed_clients", "once", "stops", "kept_under_way", "unread"]
PART_SECONDS, FULL_SECONDS = 240, 1_500
# as many at a time: parts wait more than they work
WORKERS = min(4, 1 + (os.cpu_count() or 1))


def carried_out(name, program, broker, library, is_full):
    """What is wrong in a part."""
    with tempfile.TemporaryDirectory(prefix=f"{name}-", dir=program.home) as home:
        os.chmod(home, 0o755)
        return results_of(PARTS[name], Bench(program, broker, library, home, is_full), FULL_SECONDS if is_full else PART_SECONDS)


def main():
    words = argparse.ArgumentParser(description=__doc__, formatter_class=argparse.RawDescriptionHelpFormatter)
    words.add_argument("program")
    words.add_argument("--full", action="store_true")
    words.add_argument("parts", nargs="*", choices=[[], *PARTS], metavar="PART")
    given = words.parse_intermixed_args()
    if os.geteuid() != 0:
        skip("served", "places and doors of other users: this isn't root")
    names = sorted(given.parts or PARTS, key=lambda name: LONGEST.index(name) if name in LONGEST else len(LONGEST))
    with program_at(given.program, "served-", short_folder(memory())) as program, ProcessPoolExecutor(WORKERS) as pool:
        broker, library = broker_in(program), noting_library(program)
        results = {name: pool.submit(carried_out, name, program, broker, library, given.full) for name in names}
        counts = [tell(name, results[name].result()) for name in PARTS if name in results]
    finish(counts)


main()
