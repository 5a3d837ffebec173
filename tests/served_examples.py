#!/usr/bin/env python3
"""Has the programs of examples/served work on one store at once, which the broker of server/ serves by a built program:

    tests/served_examples.py PROGRAM

- builds: the broker, the installer in C and the watcher in Rust, without warnings.
- together: two installers, the settings service and the watcher at once; what each prints, and what is in the store after that.
- killed: the same, and the program or the broker is killed again and again meanwhile, and started again.

The last line is 'N passed, N failed', and the status is 0 if none failed.
"""
import glob
import os
import re
import signal
import subprocess
import sys
import time

TOP = os.path.dirname(os.path.dirname(os.path.abspath(__file__)))
EXAMPLES = os.path.join(TOP, "examples", "served")
sys.dont_write_bytecode = True
sys.path.insert(0, os.path.join(TOP, "tests"))
from scratch import expect, finish, memory, program_at, tell  # noqa: E402
from served_store import SECONDS, broker_in, served, short_folder  # noqa: E402

PARTS, KILLS, FIRST_PORT = 40, 4, 8_000
WARNINGS = ["-std=c11", "-O1", "-Wall", "-Wextra", "-Wpedantic", "-Wshadow", "-Werror"]


def build_results(program):
    """What is wrong with each build."""
    client = os.path.join(TOP, "clients", "c")
    sources = sorted(glob.glob(os.path.join(client, "regtx_*.c")))
    environment = dict(os.environ, CARGO_TARGET_DIR=program.at("target"), RUSTFLAGS="-D warnings")
    for words, folder in [
            (["cc", *WARNINGS, f"-I{client}", "-o", program.at("installer"), os.path.join(EXAMPLES, "installer.c"), *sources], TOP),
            (["cargo", "build", "--offline", "--locked", "--jobs", "1"], os.path.join(EXAMPLES, "watcher"))]:
        ran = subprocess.run(words, cwd=folder, env=environment, capture_output=True, text=True, timeout=300)
        yield ran.stderr[-2_000:] if ran.returncode else None
    yield broker_in(program) and None


def begun(program, it):
    """The four programs, which work on the store from now on."""
    commands = [[program.at("installer")], [program.at("installer")], [sys.executable, "-B", os.path.join(EXAMPLES, "settings.py")],
                [program.at("target", "debug", "watcher")]]
    return [subprocess.Popen([*command, it.path, str(PARTS)], stdout=subprocess.PIPE, stderr=subprocess.PIPE, text=True)
            for command in commands]


def wrong_output(programs, may_lack):
    """What is wrong with what they print. If the server is killed, so many ports may lack, whose commits had no reply."""
    ended = [(*each.communicate(timeout=SECONDS), each.returncode) for each in programs]
    yield expect("their ends", [(told, status) for _, told, status in ended], 4 * [("", 0)])
    one, two, settings, seen = (printed.splitlines() for printed, _, _ in ended)
    told = [re.fullmatch(r"part (\d+): change (\d+)", line) for line in one]
    yield expect("the parts", [int(each[1]) for each in told if each], list(range(1, PARTS + 1)))
    yield expect("both installers tell the same", two, one)
    numbers = [int(each[2]) for each in told if each]
    yield expect("a change for each", len(set(numbers) - {0}), PARTS)
    ports = {int(line.partition(": port ")[2]) for line in settings}
    yield expect("the ports", ports - set(range(FIRST_PORT, FIRST_PORT + PARTS)), set())
    yield expect("how many", PARTS - may_lack <= len(ports) == len(settings), True)
    views = [re.fullmatch(r"revision (\d+): (\d+) parts, ports ?(.*)", line) for line in seen]
    # whatever was seen belonged together: the ports of so many changes, and of parts that were there
    torn = []
    for view in views:
        found = sorted(map(int, view[3].split()))
        if found != list(range(FIRST_PORT, FIRST_PORT + int(view[1]))) or int(view[2]) < len(found):
            torn.append(view[0])
    # one check for all: how many views there are is the schedule's
    yield expect("views of no one moment", torn, [])
    yield expect("the last view", views[-1][1], str(PARTS))


def wrong_store(it, count):
    """What is wrong with the store, as the program itself prints it."""
    names = [f"Part%0020{part}" for part in range(1, PARTS + 1)]
    opened, keys, revision, *rest = it.replies("keys 0:Vendor", "get 1:Settings Revision", *(f"get 0:Vendor\\{name} Version" for name in names),
                                               *(f"get 1:Settings {name}" for name in names))
    yield expect("the number of changes", opened, f"opened {count}")
    yield expect("the keys", sorted(keys.split(" ")[2:]), sorted(names))
    yield expect("the revision", revision, f"value 4 {PARTS.to_bytes(4, 'little').hex()}")
    yield expect("each version", rest[:PARTS], PARTS * ["value 1 31002e0030000000"])
    ports = sorted(int.from_bytes(bytes.fromhex(reply.removeprefix("value 4 ")), "little") for reply in rest[PARTS:])
    yield expect("each port", ports, list(range(FIRST_PORT, FIRST_PORT + PARTS)))


def together(program):
    with served(program, broker_in(program), "together", hives=2) as it:
        yield from wrong_output(begun(program, it), 0)
        yield expect("the stop", it.end(), (0, "", ""))
        # one change for each part, and one for its port
        yield from wrong_store(it, 2 * PARTS)


def killed(program):
    with served(program, broker_in(program), "killed", hives=2) as it:
        programs = begun(program, it)
        for kill in range(KILLS):
            time.sleep(0.05 * (kill + 1))
            os.kill(it.server if kill % 2 else it.process.pid, signal.SIGKILL)
            it.wait()
            yield expect("it starts again", it.start(), "ready\n")
        yield from wrong_output(programs, KILLS)
        yield expect("the stop", it.end()[0], 0)
        yield from wrong_store(it, 2 * PARTS)


def main():
    if len(sys.argv) != 2:
        sys.exit(__doc__)
    with program_at(sys.argv[1], "served-examples-", short_folder(memory())) as program:
        counts = [tell("builds", list(build_results(program)))]
        if counts[0][1]:
            finish(counts)
        finish([*counts, *(tell(part.__name__, list(part(program))) for part in (together, killed))])


main()
