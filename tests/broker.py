#!/usr/bin/env python3
"""Builds the broker and the client program of server/, and tries them:

    tests/broker.py [PART..]

Both are built without warnings into a folder that goes with this, and once more for the sanitizers of addresses and of undefined
behaviour; each part is carried out with each build. The program at the broker's other side is played by the tests, frame by frame
(tests/broker_frames.py, tests/broker_service.py), or is one of tests/framed_programs.py; the server that `regtxc` asks is a part of
the test too (tests/broker_client.py).

Each part is given up after PART_SECONDS, and all of this after WHOLE_SECONDS. The last line is 'broker: N passed, M failed'; status 0
if none failed.
"""
import multiprocessing
import os
import shutil
import signal
import subprocess
import sys
import tempfile
from concurrent.futures import ProcessPoolExecutor

TOP = os.path.dirname(os.path.dirname(os.path.abspath(__file__)))
sys.dont_write_bytecode = True
sys.path.insert(0, os.path.join(TOP, "tests"))
import broker_client  # noqa: E402
import broker_frames  # noqa: E402
import broker_service  # noqa: E402
from broker_bench import Bench  # noqa: E402
from broker_build import BUILD_SECONDS, SOURCES, build_result, sources_of  # noqa: E402
from parts import results_of  # noqa: E402
from scratch import skip, tell  # noqa: E402

SANITIZERS = ["-g", "-O1", "-fsanitize=address,undefined", "-fno-sanitize-recover=all"]
BUILDS = {"plain": ["-O2"], "sanitized": SANITIZERS}
PARTS = [*broker_frames.PARTS, *broker_service.PARTS, *broker_client.PARTS]
# as many at a time, since parts wait more than they work
WORKERS = min(10, 2 + 2 * (os.cpu_count() or 1))
# these come first
LONGEST = ["wrong_heads", "deaths", "noise", "stops", "order", "slow", "through", "at_random", "rest", "idle"]
# no part, and not the whole may take longer: far more than they take on a machine that does much else
PART_SECONDS, WHOLE_SECONDS = 300, 1_200
PROBES, PROBE_SECONDS = 20, 30
# the path of a socket has 107 bytes at most: a longer path of temporary folders has no room for those of this
LONGEST_FOLDER = 40


def are_sanitizers_there(folder):
    """Whether programs that are built for the sanitizers begin here, time after time. Some systems place libraries where these
    sanitizers have their own memory, now and then."""
    target, source = f"{folder}/probe", b"int main(void) { return 0; }\n"
    built = subprocess.run(["cc", *SANITIZERS, "-x", "c", "-o", target, "-"], input=source, capture_output=True, timeout=BUILD_SECONDS)
    try:
        return built.returncode == 0 and not any(
            subprocess.run([target], capture_output=True, timeout=PROBE_SECONDS).returncode for _ in range(PROBES))
    except subprocess.TimeoutExpired:
        return False


def end_all(folder):
    """Ends all of this, if a part can't even be given up."""
    for worker in multiprocessing.active_children():
        worker.kill()
    shutil.rmtree(folder, ignore_errors=True)
    print(f"broker: it took {WHOLE_SECONDS} seconds\nbroker: 0 passed, 1 failed", flush=True)
    os._exit(1)


def part_results(folder, name, part):
    """What is wrong in a part with a build."""
    with tempfile.TemporaryDirectory(prefix=f"{part.__name__}-", dir=folder) as home:
        os.chmod(home, 0o755)
        return results_of(part, Bench(folder, name, home), PART_SECONDS)


def main():
    known = {part.__name__: part for part in PARTS}
    if any(name not in known for name in sys.argv[1:]):
        sys.exit(__doc__)
    parts = [known[name] for name in sys.argv[1:]] or PARTS
    if os.geteuid() != 0:
        skip("broker", "places and sockets of other users: this isn't root")
    # a shell that runs this in the background lets it ignore SIGINT, which a broker would then ignore too
    signal.signal(signal.SIGINT, signal.default_int_handler)
    short = None if len(tempfile.gettempdir()) <= LONGEST_FOLDER else "/tmp"
    with tempfile.TemporaryDirectory(prefix="broker-", dir=short) as folder, ProcessPoolExecutor(WORKERS) as pool:
        os.chmod(folder, 0o755)
        signal.signal(signal.SIGALRM, lambda *_: end_all(folder))
        signal.alarm(WHOLE_SECONDS)
        builds = dict(BUILDS)
        if not are_sanitizers_there(folder):
            del builds["sanitized"]
            skip("broker", "the build for the sanitizers: programs of theirs can't be built, or don't begin each time")
        puppet = pool.submit(build_result, [os.path.join(TOP, "tests", "broker_puppet.c")], f"{folder}/puppet", ["-O1"])
        built = {name: [pool.submit(build_result, sources_of(program), f"{folder}/{program}.{name}", flags) for program in SOURCES]
                 for name, flags in builds.items()}
        first, run = sorted(parts, key=lambda part: part.__name__ not in LONGEST), {}
        for name, programs in built.items():
            # those of one build run while the next one is made
            if not any(each.result() for each in [puppet, *programs]):
                run |= {(name, part): pool.submit(part_results, folder, name, part) for part in first}
        counts = [tell("builds", [each.result() for each in [puppet, *(program for programs in built.values() for program in programs)]])]
        for name in builds:
            counts.append(tell(name, [result for part in parts if (name, part) in run for result in run[name, part].result()]))
    passed, failed = map(sum, zip(*counts))
    print(f"broker: {passed} passed, {failed} failed")
    sys.exit(1 if failed else 0)


main()
