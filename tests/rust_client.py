#!/usr/bin/env python3
"""Builds the client of clients/rust and tries it with a built program:

    tests/rust_client.py PROGRAM

The crate is built offline, without warnings, into a folder that goes with this. Then its tests run over real stores, some of which
the broker of server/ serves. The code of its page is compiled, its example must print what its page shows, and the program or the
example is killed again and again while the example installs parts of a product: tests/client_trials.py. The last line is
'N passed, N failed'; status 0 if none failed.
"""
import os
import re
import subprocess
import sys

TOP = os.path.dirname(os.path.dirname(os.path.abspath(__file__)))
sys.dont_write_bytecode = True
sys.path.insert(0, os.path.join(TOP, "tests"))
from client_trials import bounded, kill_results, page_results  # noqa: E402
from scratch import expect, finish, memory, program_at, shown, tell  # noqa: E402
from served_store import broker_in, short_folder  # noqa: E402

CRATE = os.path.join(TOP, "clients", "rust")
TOLD = re.compile(r"^test (.+) \.\.\. (ok|FAILED)$", re.MULTILINE)
# there are so many at least, with the code of the page and of the documentation
LEAST_TESTS = 93
MOST_SECONDS = 300


def cargo(program, *words):
    """What cargo prints and its status; tests run one after another."""
    environment = dict(os.environ, CARGO_TARGET_DIR=program.at("target"), RUSTFLAGS="-D warnings", REGTX=program.path,
                       REGTXD=broker_in(program), RUST_TEST_THREADS="1", TMPDIR=program.home)
    ran = subprocess.run(bounded(MOST_SECONDS, "cargo", *words, "--offline", "--locked", "--jobs", "1"), cwd=CRATE, env=environment,
                         stdin=subprocess.DEVNULL, capture_output=True, text=True)
    return ran.stdout, ran.stderr, ran.returncode


def build_results(program):
    """What is wrong with the build."""
    _, why, status = cargo(program, "build", "--examples")
    yield f"the build: {why}" if status else None


def test_results(program):
    """What is wrong with each test of the crate."""
    printed, why, status = cargo(program, "test", "--no-fail-fast")
    told = TOLD.findall(printed)
    for name, outcome in told:
        yield expect(name, outcome, "ok")
    yield expect("the tests", (status, len(told) >= LEAST_TESTS), (0, True)) and f"{shown(len(told))} tests: {printed}{why}"


def main():
    if len(sys.argv) != 2:
        sys.exit(__doc__)
    with program_at(sys.argv[1], "rust-client-", short_folder(memory())) as program:
        counts = [tell("build", list(build_results(program)))]
        if counts == [(0, 1)]:
            finish(counts)
        counts.append(tell("tests", list(test_results(program))))
        example = program.at("target", "debug", "examples", "install")
        counts.append(tell("page", list(page_results(program, example, os.path.join(CRATE, "README.md")))))
        counts.append(tell("kills", list(kill_results(program, example))))
    finish(counts)


main()
