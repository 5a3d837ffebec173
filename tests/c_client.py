#!/usr/bin/env python3
"""Builds the client of clients/c and tries it with a built program:

    tests/c_client.py PROGRAM

The client is built without warnings into a folder that goes with this, once more for the sanitizers of addresses and of undefined
behaviour, and as one source that tools/amalgamation.py makes. Each build carries out the checks of clients/c/tests over real stores, some
of which the broker of server/ serves. The programs of the page are compiled and run twice, the example must print what the page shows,
and the program or the example is killed again and again while the example installs parts of a product: tests/client_trials.py. The last
line is 'N passed, N failed'; status 0 if none failed.
"""
import glob
import os
import re
import subprocess
import sys

TOP = os.path.dirname(os.path.dirname(os.path.abspath(__file__)))
sys.dont_write_bytecode = True
sys.path.insert(0, os.path.join(TOP, "tests"))
from client_trials import bounded, kill_results, page_results  # noqa: E402
from scratch import SECONDS, expect, finish, memory, program_at, tell  # noqa: E402
from served_store import broker_in, served, short_folder  # noqa: E402

CLIENT = os.path.join(TOP, "clients", "c")
PAGE = os.path.join(CLIENT, "README.md")
FLAGS = ["-std=c11", "-O1", "-g", "-Wall", "-Wextra", "-Wpedantic", "-Wshadow", "-Werror", f"-I{CLIENT}"]
SANITIZERS = ["-fsanitize=address,undefined", "-fno-sanitize-recover=all"]
CODE = re.compile(r"^```c\n(.*?)^```$", re.MULTILINE | re.DOTALL)
TOLD = re.compile(r"(\d+) passed, (\d+) failed")
# there are so many at least
LEAST_CHECKS = 3_700
BUILD_SECONDS, CHECK_SECONDS = 300, 120


def build(name, *words, sources=None):
    """Compiles the client with these files and flags into a program; answers what the compiler says."""
    sources = sources or sorted(glob.glob(os.path.join(CLIENT, "regtx_*.c")))
    ran = subprocess.run(["cc", *FLAGS, "-o", name, *sources, *words], capture_output=True, text=True, timeout=BUILD_SECONDS)
    return ran.stderr if ran.returncode else None


def build_results(program):
    """What is wrong with each build."""
    checks = sorted(glob.glob(os.path.join(CLIENT, "tests", "*.c")))
    with open(PAGE, encoding="utf-8") as file:
        first, connecting = CODE.findall(file.read())
    program.put("page.c", first.encode())
    program.put("connecting.c", connecting.replace("/run/regtx/app.sock", "page.d/socket").encode())
    for name, words in [("check", checks), ("sanitized", [*checks, *SANITIZERS]), ("page", [program.at("page.c")]),
                        ("connecting", [program.at("connecting.c")]), ("example", [os.path.join(CLIENT, "example.c"), *SANITIZERS])]:
        why = build(program.at(name), *words)
        yield f"{name}: {why}" if why else None
    subprocess.run([os.path.join(TOP, "tools", "amalgamation.py"), program.at("joined_source")], check=True)
    why = build(program.at("joined"), *checks, sources=[program.at("joined_source", "regtx_client.c")])
    yield f"joined: {why}" if why else None


def check_results(program, name):
    """Carries out the checks of a build; prints what failed, and answers how many passed and how many failed."""
    home = program.at(f"{name}.d")
    os.mkdir(home)
    ran = subprocess.run(bounded(CHECK_SECONDS, program.at(name), program.path, broker_in(program)), cwd=home, stdin=subprocess.DEVNULL,
                         capture_output=True, text=True)
    lines = ran.stdout.splitlines() or [""]
    told = TOLD.fullmatch(lines[-1])
    if not told or ran.returncode != (told[2] != "0") or ran.stderr or int(told[1]) < LEAST_CHECKS:
        return tell(name, [f"status {ran.returncode}: {lines[-20:]} {ran.stderr[-2000:]}"])
    for line in lines[:-1][:10]:
        print(f"{name}: {line}")
    print(f"{name}: {lines[-1]}")
    return int(told[1]), int(told[2])


def page_program_results(program):
    """What is wrong with the programs of the page. One looks for `regtx` on the path, one connects; each does its work once."""
    environment = {"PATH": f"{program.home}:{os.environ['PATH']}"}
    yield expect("new", program.run("new", "store", "00112233-4455-6677-8899-aabbccddeeff", "1"), (b"ok\n", 0))
    for _ in range(2):
        ran = subprocess.run(bounded(SECONDS, program.at("page")), cwd=program.home, env=environment, stdin=subprocess.DEVNULL,
                             capture_output=True)
        yield expect("the page's program", (ran.stdout, ran.stderr, ran.returncode), (b"ok\n", b"", 0))
    yield expect("its change", program.run("run", "store", "/dev/null"), (b"opened 1\n", 0))
    with served(program, broker_in(program), "page.d"):
        for _ in range(2):
            ran = subprocess.run(bounded(SECONDS, program.at("connecting")), cwd=program.home, stdin=subprocess.DEVNULL, capture_output=True)
            yield expect("the page's program that connects", (ran.stdout, ran.stderr, ran.returncode), (b"ok, change 1\n", b"", 0))


def main():
    if len(sys.argv) != 2:
        sys.exit(__doc__)
    with program_at(sys.argv[1], "c-client-", short_folder(memory())) as program:
        counts = [tell("builds", list(build_results(program)))]
        if counts[0][1]:
            finish(counts)
        counts += [check_results(program, name) for name in ("check", "sanitized", "joined")]
        counts.append(tell("page", [*page_program_results(program), *page_results(program, program.at("example"), PAGE)]))
        counts.append(tell("kills", list(kill_results(program, program.at("example")))))
    finish(counts)


main()
