#!/usr/bin/env python3
"""Publishes stores that are served, and keeps replicas of them, by a built program:

    tests/replication.py PROGRAM [PART ..]

- killed: 200 kills of the publisher, of replicas and of the node of etcd that leads.
- between, publishers, stopped, behind, trimmed, large: one number once, two publishers, nodes that don't answer, replicas that come
  back late, what is removed, and long changes.
- users: TLS, certificates and users of etcd.
- folders, refused, at_rest, restored, exports, foreign: files in the place of etcd, and what isn't applied.
- readers, signals: those who read a replica, and how each ends.

Without etcd the parts that need it are skipped by name. The last line is 'N passed, N failed'; status 0 if none failed.
"""
import argparse
import os
import sys
import tempfile
from concurrent.futures import ProcessPoolExecutor

TOP = os.path.dirname(os.path.dirname(os.path.abspath(__file__)))
sys.dont_write_bytecode = True
sys.path.insert(0, os.path.join(TOP, "tests"))
import fleet_etcd  # noqa: E402
import fleet_folders  # noqa: E402
import fleet_kills  # noqa: E402
from parts import results_of  # noqa: E402
from scratch import are_there, finish, memory, program_at, tell  # noqa: E402
from served_store import Bench, broker_in, short_folder  # noqa: E402

OF_ETCD = [fleet_kills, fleet_etcd]
MODULES = [*OF_ETCD, fleet_folders]
PARTS = {part.__name__: part for module in MODULES for part in module.PARTS}
PART_SECONDS = 240
WORKERS = 2


def carried_out(name, program, broker):
    """What is wrong in a part."""
    with tempfile.TemporaryDirectory(prefix=f"{name[:8]}-", dir=program.home) as home:
        os.chmod(home, 0o755)
        return results_of(PARTS[name], Bench(program, broker, None, home), PART_SECONDS)


def main():
    words = argparse.ArgumentParser(description=__doc__, formatter_class=argparse.RawDescriptionHelpFormatter)
    words.add_argument("program")
    words.add_argument("parts", nargs="*", choices=[[], *PARTS], metavar="PART")
    given = words.parse_intermixed_args()
    need = [part.__name__ for module in OF_ETCD for part in module.PARTS]
    names = [name for name in given.parts or PARTS if name not in need or are_there(name, "etcd")]
    with program_at(given.program, "fleet-", short_folder(memory())) as program, ProcessPoolExecutor(WORKERS) as pool:
        broker = broker_in(program)
        results = {name: pool.submit(carried_out, name, program, broker) for name in names}
        counts = [tell(name, results[name].result()) for name in names]
    finish(counts or [(0, 0)])


main()
