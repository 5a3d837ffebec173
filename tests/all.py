#!/usr/bin/env python3
"""Runs the tests, as many at a time as there are processors:

    tests/all.py [--programs FOLDER] [--library FOLDER] [TEST..]     without a TEST all of them; --list names them

`make check` calls it. FOLDER has programs that are built already, such as those that were proved: FOLDER/regtx and the programs of
tests/programs.txt. Those that it hasn't are built without proofs, side by side, and each test begins once its programs are there.
The library for C is the one in the second FOLDER. If none is named it is the one in out/c, which tools/c_library.py makes if it is
missing or stale.

A line tells how each test ended, and what a failed one printed. What isn't installed is skipped, told by name and counted; nothing
is installed. The last line is 'N passed, N failed, N skipped', and the status is 0 if none failed.
"""
import argparse
import os
import re
import shutil
import signal
import subprocess
import sys
import time
from concurrent.futures import FIRST_COMPLETED, ThreadPoolExecutor, wait
from dataclasses import dataclass, field

sys.dont_write_bytecode = True
TOP = os.path.dirname(os.path.dirname(os.path.abspath(__file__)))
sys.path.insert(0, f"{TOP}/tools")
from graph import below, crates, newest  # noqa: E402

QUICK, LIBRARY, OUR_LIBRARY = f"{TOP}/out/quick", "libregtx.a", "out/c"
# no test may take longer, in seconds
LONGEST = 1_800
# what `make check` puts into the environment; tests call make themselves
OF_MAKE = {"MAKEFLAGS", "MAKELEVEL", "MFLAGS", "MAKEOVERRIDES", "PREFIX", "DESTDIR", "PROGRAM", "LIBRARY", "PROGRAMS", "TESTS"}
COUNTS = re.compile(r"^(?:\w+: )?(\d+) passed, (\d+) failed$")
SKIPPED = re.compile(r"^(?:\w+: )?skipped: (.*)$", re.MULTILINE)


@dataclass
class Test:
    """A command of the shell, in which `$regtx`, `$trials` and so on are the programs that it needs, and `$library` is the library's
    folder. The seconds are a guess, by which the longest begin first."""
    name: str
    command: str
    seconds: int
    installed: list = field(default_factory=list)

    @property
    def programs(self):
        return [name for name in ("regtx", "calls", "trials", "regtx_bench", "recoveries", "library") if f"${name}" in self.command]


TESTS = [
    Test("oom", "tools/failalloc.py each $trials oom", 60),
    Test("oom_from", 'FAILALLOC_MODE=from FAILALLOC_ACCEPT="0 1 3" tools/failalloc.py each $trials oom', 60),
    Test("launcher", "tests/launcher.py", 250),
    Test("edits", "tests/edits.py $regtx", 60),
    Test("store_reads", "tests/store_reads.py $regtx", 60),
    Test("pages", "tests/pages.py", 160),
    Test("damage", "tests/damage.py $regtx", 150),
    Test("store_runs", "tests/store_runs.py $regtx", 140),
    Test("kills", "tests/kills.py $regtx", 120),
    Test("c_library", "tests/c_library.py $regtx $library", 100),
    Test("memory", "tests/memory.py $regtx runs/memory.run runs/wide_memory.py", 70),
    Test("library_examples", "tests/library_examples.py $regtx $library", 70, ["cargo"]),
    Test("hive_bindings", "tests/hive_bindings.py $library", 50),
    Test("install", "tests/install.py $regtx $library", 90),
    Test("fresh_root", "tests/fresh_root.py $regtx $library", 140),
    Test("replication", "tests/replication.py $regtx", 100),
    Test("thread_kills", "tests/thread_kills.py $regtx_bench", 60),
    Test("stores", "tests/stores.py $regtx", 55),
    Test("dumps", "tests/dumps.py $regtx", 30),
    Test("rust_client", "tests/rust_client.py $regtx", 30, ["cargo"]),
    Test("reg_files", "tests/reg_files.py $regtx", 30),
    Test("c_client", "tests/c_client.py $regtx", 30),
    Test("client_packages", "tests/client_packages.py $regtx", 35),
    Test("versions", "tests/versions.py $regtx", 25),
    Test("runs", "tests/runs.py $regtx", 25),
    Test("progress", "tests/progress.py $regtx", 25),
    Test("broker", "tests/broker.py", 20),
    Test("served", "tests/served.py $regtx", 20),
    Test("operating", "tests/operating.py $regtx", 10),
    Test("served_examples", "tests/served_examples.py $regtx", 20, ["cargo"]),
    Test("values", "tests/values.py $regtx", 20),
    Test("file_values", "tests/file_values.py $regtx", 15),
    Test("damaged_parts", "tests/damaged_parts.py $regtx", 40),
    Test("damaged_readers", "tests/damaged_readers.py $regtx", 20),
    Test("salvaged_hives", "tests/salvaged_hives.py $regtx", 120),
    Test("log_machines", "tests/log_machines.py $recoveries", 20),
    Test("recovered_hives", "tests/recovered_hives.py $regtx", 25),
    Test("retries", "$trials retries && tools/failalloc.py each $trials retries", 5),
    Test("checks", "tests/checks.py $regtx", 12),
    Test("python_client", "tests/python_client.py $regtx", 10),
    Test("python_async", "tests/python_async.py $regtx", 20),
    Test("journal", "$trials journal <tests/trials/journal/lines.txt && "
         "FAILALLOC_STDIN=tests/trials/journal/memory.txt tools/failalloc.py each $trials journal", 3),
    Test("logs", "tests/logs.py $regtx", 10),
    Test("examples", "tests/examples.py $regtx", 10),
    Test("spoil", "$trials spoil", 8),
    Test("looks", "tests/looks.py $trials", 6),
    Test("reads", "$trials reads", 4),
    Test("style", "tests/style.py", 4),
    Test("client_tables", "tests/client_tables.py", 1),
    Test("pictures", "tests/pictures.py", 2),
    Test("hashes", "tests/hashes.py $recoveries", 3),
    Test("hints", "tests/hints.py $regtx", 3),
    Test("followed_stores", "tests/followed_stores.py $regtx", 4),
    Test("words", "tests/words $regtx", 3),
    Test("sweeps", "tests/sweeps.py $regtx", 3),
    Test("calls", "tests/each_call.py $calls", 2),
    Test("syncs", "tests/syncs.py $regtx", 2),
    Test("shared_stores", "tests/shared_stores.py $regtx", 3),
    Test("sessions", "tests/sessions.py $regtx", 2),
]


@dataclass
class Result:
    """What a test counted, what it skipped by name, and what is to be shown of it."""
    passed: int
    failed: int
    skipped: list
    shown: str = ""


def carry_out(words, environment, seconds=LONGEST):
    """Runs a command with all that it begins: what it printed, and its status; None if it took too long."""
    given = {name: text for name, text in os.environ.items() if name not in OF_MAKE} | environment
    child = subprocess.Popen(words, cwd=TOP, env=given, stdin=subprocess.DEVNULL, stdout=subprocess.PIPE, stderr=subprocess.STDOUT,
                             text=True, errors="replace", start_new_session=True)
    try:
        return child.communicate(timeout=seconds)[0], child.returncode
    except subprocess.TimeoutExpired:
        return "it took too long", None
    finally:
        try:
            os.killpg(child.pid, signal.SIGKILL)
        except ProcessLookupError:
            pass


def result_of(printed, status):
    """A test's last line counts; one without such a line is one test."""
    lines = printed.rstrip("\n").split("\n")
    counted = COUNTS.match(lines[-1])
    passed, failed = map(int, counted.groups()) if counted else (int(status == 0), 0)
    if status != 0 and not failed:
        failed = 1
    told = "\n".join(f"    {line[:400]}" for line in lines[-40:]) + f"\n    status {status}\n" if failed else ""
    return Result(passed, failed, SKIPPED.findall(printed), told)


def library_fault(folder):
    """Why the library for C in a folder can't be tried, or None."""
    path = os.path.join(TOP, folder, LIBRARY)
    if not os.path.exists(path):
        return "the library for C isn't there: tools/c_library.py makes it"
    graph = crates()
    parts = ["src", "specs", "proofs"]
    sources = max(newest(name, parts) for name in ["regtx_c", *below("regtx_c", graph)])
    return None if os.path.getmtime(path) >= sources else "the library for C is older than its sources: tools/c_library.py makes it"


def reason_to_skip(test, given):
    """Why a test can't be carried out here, or None."""
    lacking = [name for name in test.installed if not shutil.which(name)]
    if lacking:
        return f"{lacking[0]} isn't there"
    return library_fault(given.library) if "$library" in test.command else None


class Programs:
    """The programs that tests run: those in a folder, and others that are built; and the library for C, by its folder."""

    def __init__(self, folder, library):
        self.folder, self.library = folder and os.path.abspath(folder), library
        self.built = set()

    def given(self, name):
        """The path of a program that is there already, or None. A library in a folder that is named isn't built."""
        if name == "library":
            return None if self.library == OUR_LIBRARY else self.library
        path = self.folder and os.path.join(self.folder, name)
        return path if path and os.access(path, os.X_OK) else None

    def path(self, name):
        return self.given(name) or (self.library if name == "library" else f"{QUICK}/{name}")

    def are_there(self, names):
        return all(self.given(name) or name in self.built for name in names)

    def build(self, name):
        """Builds a program without proofs, or the library, if it is missing or stale: why it could not, or None."""
        words = ["tools/c_library.py", "--if-stale", self.library] if name == "library" else ["tools/build_quick.py", name]
        printed, status = carry_out(words, {})
        if status != 0:
            return printed[-3000:]
        self.built.add(name)
        return None


class Run:
    """A run of tests: those that are under way, and what came of the others."""

    def __init__(self, tests, given):
        self.left = sorted(tests, key=lambda test: -test.seconds)
        self.given, self.programs, self.results, self.wrong = given, Programs(given.programs, given.library), [], []

    def tell(self, test, result, seconds):
        self.results.append(result)
        if result.failed:
            self.wrong.append(test.name)
        skipped = f", {len(result.skipped)} skipped" if result.skipped else ""
        print(f"{test.name}: {result.passed} passed, {result.failed} failed{skipped} ({seconds:.0f} s)\n{result.shown}", end="", flush=True)

    def carry_out(self, test):
        began, why = time.monotonic(), reason_to_skip(test, self.given)
        if why:
            return test, Result(0, 0, [f"{test.name}, since {why}"]), 0.0
        environment = {name: self.programs.path(name) for name in test.programs}
        # without IFS and patterns, a path with blanks stays one word
        result = result_of(*carry_out(["bash", "-f", "-c", f"IFS=; {test.command}"], environment))
        return test, result, time.monotonic() - began

    def build(self, name):
        began, why = time.monotonic(), self.programs.build(name)
        return name, why, time.monotonic() - began

    def tell_built(self, name, why, seconds):
        """Tells that a program was built, or that the tests that need it fail."""
        print(why or f"built {name} ({seconds:.0f} s)", flush=True)
        lost = [test for test in self.left if why and name in test.programs]
        self.left = [test for test in self.left if test not in lost]
        for test in lost:
            self.tell(test, Result(0, 1, [], f"    {name} could not be built\n"), 0)

    def next(self):
        """The longest test whose programs are there, if there is one."""
        test = next((test for test in self.left if self.programs.are_there(test.programs)), None)
        if test:
            self.left.remove(test)
        return test

    def go(self):
        """Builds what is needed, and carries out each test once its programs are there."""
        needed = list(dict.fromkeys(name for test in self.left for name in test.programs if not self.programs.given(name)))
        at_once = os.cpu_count()
        with ThreadPoolExecutor(max_workers=at_once) as pool:
            running = {pool.submit(self.build, name): self.tell_built for name in needed}
            while running or self.left:
                while len(running) < at_once and (test := self.next()):
                    running[pool.submit(self.carry_out, test)] = self.tell
                for ended in wait(running, return_when=FIRST_COMPLETED).done:
                    running.pop(ended)(*ended.result())

    def close(self):
        """Tells what was skipped and what failed, and the sums."""
        skipped = [why for result in self.results for why in result.skipped]
        for why in skipped:
            print(f"skipped: {why}")
        if self.wrong:
            print(f"failed: {' '.join(self.wrong)}")
        passed, failed = (sum(getattr(result, name) for result in self.results) for name in ("passed", "failed"))
        print(f"{passed} passed, {failed} failed, {len(skipped)} skipped")
        return 1 if failed or not passed else 0


def main():
    words = argparse.ArgumentParser(description=__doc__, formatter_class=argparse.RawDescriptionHelpFormatter)
    words.add_argument("--programs", metavar="FOLDER")
    words.add_argument("--library", metavar="FOLDER", default=OUR_LIBRARY)
    words.add_argument("--list", action="store_true")
    words.add_argument("tests", metavar="TEST", nargs="*")
    given = words.parse_args()
    known = {test.name: test for test in TESTS}
    if given.list:
        print("\n".join(known))
        return 0
    unknown = [name for name in given.tests if name not in known]
    if unknown:
        print(f"tests/all.py: no test is called {unknown[0]}; --list names them", file=sys.stderr)
        return 2
    run = Run([known[name] for name in given.tests] or TESTS, given)
    run.go()
    return run.close()


if __name__ == "__main__":
    sys.exit(main())
