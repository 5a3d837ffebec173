#!/usr/bin/env python3
"""Measures commits and reads of clients of a served store, beside those of the engine's threads:

    bench/served.py PROGRAM BENCH [--write] [--folder FOLDER]

PROGRAM is the built `regtx`, and BENCH is regtx_bench. The broker of server/ and clients of clients/c are compiled here; a client is a
thread with a connection of its own. A commit is a transaction of four values of 50 bytes, two in each hive, in keys of the client's own,
as regtx_bench makes it; it is answered once it is synced. Its lines are sent together, begin and writes before the commit, or each after
the last reply. A commit of one value is sent whole. A read is of one value. Of several runs the one of median speed is told; syncs
are counted in one more. `--write` puts the tables into docs/MEASURED.md.
"""
import glob
import os
import shutil
import statistics
import subprocess
import sys
import tempfile
import time

sys.dont_write_bytecode = True
import measured  # noqa: E402

sys.path.insert(0, os.path.join(measured.TOP, "tests"))
from broker_build import built  # noqa: E402
from scratch import Program, noting_library  # noqa: E402
from served_store import served  # noqa: E402

RUNS = 3
# how many clients make how many commits, and reads
CLIENTS = [(1, 1_000), (8, 4_000), (31, 12_400)]
READS = 20
STOPS, IDLE = 5, 31
WORKS = [("served, four values, lines together", "together"), ("served, four values, line by line", "lines"),
         ("served, one value, lines together", "one")]
HEADS = ["50 % us", "99 % us", "100 % us"]


def numbers_of(words):
    """The numbers of the lines that a program prints, by the words before them."""
    ended = subprocess.run(words, stdin=subprocess.DEVNULL, stdout=subprocess.PIPE, check=True, text=True)
    lines = [line.removesuffix(" us").rsplit(" ", 1) for line in ended.stdout.splitlines()]
    return {name: float(number) for name, number in lines}


def seconds_of(process):
    """The processor seconds that a process has taken."""
    with open(f"/proc/{process}/stat", encoding="ascii") as file:
        return sum(map(int, file.read().rpartition(") ")[2].split()[11:13])) / os.sysconf("SC_CLK_TCK")


class Bench:
    """A folder with all programs, and stores that are served there."""

    def __init__(self, program, engine, folder):
        self.program, self.engine, self.folder, self.count = Program(program, folder), engine, folder, 0
        self.broker, self.library = built("regtxd", folder), noting_library(self.program)
        self.load = f"{folder}/load"
        sources = sorted(glob.glob(f"{measured.TOP}/clients/c/regtx_*.c"))
        measured.compiled("served_load.c", self.load, "-std=c11", f"-I{measured.TOP}/clients/c", *sources, "-lpthread")

    def serve(self, **given):
        self.count += 1
        return served(self.program, self.broker, f"store{self.count}", hives=2, **given)

    def measure(self, work, clients, count):
        """What so many calls took, with the processor seconds of the broker and of the program."""
        with self.serve() as it:
            told = numbers_of([self.load, work, str(clients), str(count), it.path])
            told["broker"], told["program"] = seconds_of(it.process.pid), seconds_of(it.server)
            it.end()
        return told | {"speed": count / told["seconds"]}

    def syncs(self, work, clients, count):
        """How many syncs each commit had: those of a store that nothing is done with are left out."""
        def counted(load):
            report = f"{self.folder}/syncs{self.count}"
            with self.serve(before=["env", f"LD_PRELOAD={self.library}", f"SYNCS_REPORT={report}"]) as it:
                load(it)
                with open(report, encoding="ascii") as file:
                    return len(file.readlines())
        idle = counted(lambda it: numbers_of([self.load, "reads", str(clients), str(clients), it.path]))
        return (counted(lambda it: numbers_of([self.load, work, str(clients), str(count), it.path])) - idle) / count

    def threads(self, clients, count):
        shutil.rmtree(f"{self.folder}/engine", ignore_errors=True)
        told = numbers_of([self.engine, "commits-unflushed", f"{self.folder}/engine", str(clients), str(count)])
        return told | {"speed": count / told["seconds"]}

    def pipes(self, work, count):
        """The same by a run of the program, through pipes."""
        self.count += 1
        store = f"{self.folder}/store{self.count}"
        subprocess.run([self.program.path, "new", store, "00112233-4455-6677-8899-aabbccddeeff", "2"], check=True, stdout=subprocess.DEVNULL)
        told = numbers_of([self.load, work, "1", str(count), store, self.program.path])
        return told | {"speed": count / told["seconds"]}

    def stop(self):
        """How long a stop takes with many idle clients."""
        with self.serve() as it:
            clients = [it.lines() for _ in range(IDLE)]
            begun = time.perf_counter()
            it.end()
            took = time.perf_counter() - begun
            for client in clients:
                client.close()
            return took


def median_of(measure):
    """The measured run of median speed."""
    runs = sorted((measure() for _ in range(RUNS)), key=lambda run: run["speed"])
    return runs[len(runs) // 2]


def row(*cells):
    return f"| {' | '.join(cells)} |"


def table(heads, rows):
    yield row(*heads)
    yield "|---" * len(heads) + "|"
    yield from rows


def told(clients, name, run, *more):
    latencies = [f"{run[f'latency of {percent} percent']:,.1f}" for percent in (50, 99, 100)]
    return row(str(clients), name, f"{run['speed']:,.0f}", *more, *latencies)


def share_of(run):
    """What the broker takes of a processor, as a part of what the program takes."""
    return f"{run['broker'] / run['program']:.2f}" if run.get("program") else ""


def commit_rows(bench):
    for clients, count in CLIENTS:
        run = median_of(lambda: bench.threads(clients, count))
        yield told(clients, "the engine's threads", run, f"{run['syncs a commit']:.2f}", "")
        for name, work in WORKS:
            run = median_of(lambda: bench.measure(work, clients, count))
            yield told(clients, name, run, f"{bench.syncs(work, clients, count):.2f}", share_of(run))
    run = median_of(lambda: bench.pipes("lines", CLIENTS[0][1]))
    yield told(1, "a run through pipes, line by line", run, "", "")


def read_rows(bench):
    for clients, count in CLIENTS:
        run = median_of(lambda: bench.measure("reads", clients, READS * count))
        yield told(clients, "served", run, share_of(run))
    yield told(1, "a run through pipes", median_of(lambda: bench.pipes("reads", READS * CLIENTS[0][1])), "")


def page(program, engine, place):
    """All lines."""
    yield from [f"{measured.head('served')}.", ""]
    with tempfile.TemporaryDirectory(prefix="bench-", dir=place) as folder:
        os.chmod(folder, 0o755)
        bench = Bench(program, engine, folder)
        yield from table(["clients", "how", "commits a second", "syncs a commit", "broker's share", *HEADS], commit_rows(bench))
        yield from ["", "Reads of one value:", ""]
        yield from table(["clients", "how", "reads a second", "broker's share", *HEADS], read_rows(bench))
        stop = statistics.median(bench.stop() for _ in range(STOPS))
        yield from ["", f"A stop with {IDLE} idle clients takes {stop * 1e3:.0f} ms."]


def main():
    words = measured.words(__doc__, "program", "bench")
    words.add_argument("--folder", help="a folder on the device that is measured")
    given = words.parse_args()
    measured.tell(page(given.program, given.bench, given.folder), "bench/served.py", given.write)


main()
