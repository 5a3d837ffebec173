"""Tries a client's example, which installs parts of a product each exactly once: what the scripts that try clients share."""
import os
import random
import re
import signal
import subprocess
import threading

from scratch import SECONDS, expect, noting, noting_library, shown

ID = "00112233-4455-6677-8899-aabbccddeeff"
# the unit of work of part 0, and how many parts a life of the example installs at most
PRODUCT, MOST_NEW = 0x6ba7b8109dad11d180b400c04fd40000, 4
LIVES, SEED = 60, 20_260
# a commit makes so many calls at least, at each of which the program may be killed
CALLS_OF_COMMIT = 4
COMMAND = "$ "
BLOCK = re.compile(r"^```console\n(.*?)^```$", re.MULTILINE | re.DOTALL)


def shown_runs(page):
    """The runs of the example that a page shows: the words behind the program, and what is printed."""
    with open(page, encoding="utf-8") as file:
        lines = BLOCK.search(file.read())[1].splitlines()
    found = []
    for line in lines:
        if line.startswith(COMMAND):
            found.append([line.removeprefix(COMMAND).split(" ")[2:], ""])
        else:
            found[-1][1] += f"{line}\n"
    return [(words, printed) for words, printed in found if printed]


def bounded(seconds, *words):
    """The words of a command that is ended after so long. A run that it began ends by itself then."""
    return ["timeout", "--signal=KILL", str(seconds), *words]


def page_results(program, example, page):
    """What is wrong with the runs that a page shows."""
    runs = shown_runs(page)
    yield expect("runs on the page", len(runs), 2)
    for words, printed in runs:
        ran = subprocess.run(bounded(SECONDS, example, program.path, *words), cwd=program.home, stdin=subprocess.DEVNULL,
                             capture_output=True)
        yield expect(" ".join(words), (ran.stdout.decode(), ran.stderr, ran.returncode), (printed, b"", 0))


def installed(lines):
    """The parts whose commit was answered, each with its number."""
    found = (re.fullmatch(r"part (\d+): committed (\d+)", line) for line in lines)
    return {int(told[1]): int(told[2]) for told in found if told}


def life(program, example, count, end_at=None, most_lines=None):
    """The lines of the example and its status. The program is killed at a call, or the example behind so many lines."""
    if end_at:
        program.put("end_at", str(end_at).encode())
    child = subprocess.Popen([example, program.at("noting"), "product", str(count)], cwd=program.home, text=True,
                             stdin=subprocess.DEVNULL, stdout=subprocess.PIPE, stderr=subprocess.STDOUT, start_new_session=True)
    bound = threading.Timer(SECONDS, os.killpg, (child.pid, signal.SIGKILL))
    bound.start()
    lines = []
    while line := child.stdout.readline():
        lines.append(line.rstrip("\n"))
        if len(lines) == most_lines:
            child.kill()
    child.stdout.close()
    status = child.wait()
    bound.cancel()
    return lines, status


def wrong_store(program, count, told):
    """What is wrong with the store in the end, as the program itself prints it: each part there once, with the number that was told."""
    units = [f"{PRODUCT + part:032x}" for part in range(1, count + 1)]
    script = ["keys 0:Software\\Vendor", "get 1:Setup Parts", *[f"kept {unit}" for unit in units]]
    program.put("look", "".join(f"{line}\n" for line in script).encode())
    printed = program.run("run", "product", "look")[0].decode().splitlines()
    if len(printed) != len(script) + 1:
        yield f"the look: {shown(printed)}"
        return
    opened, keys, parts, *kept = printed
    yield expect("the number of changes", opened, f"opened {count}")
    yield expect("the keys", sorted(keys.split(" ")[2:]), sorted(f"Part%0020{part}" for part in range(1, count + 1)))
    yield expect("the count", parts, f"value 4 {count.to_bytes(4, 'little').hex()}")
    yield expect("the numbers", sorted(kept), sorted(f"committed {number}" for number in range(1, count + 1)))
    yield expect("parts that were told", [part for part, number in told.items() if kept[part - 1] != f"committed {number}"], [])
    yield expect("some commits weren't told", len(told) < count, True)


def kill_results(program, example):
    """What is wrong with each life of the example, and with the store in the end. In each the program is killed, or the example."""
    noting(program, noting_library(program))
    yield expect("new", program.run("new", "product", ID, "2"), (b"ok\n", 0))
    chance, told, count, killed = random.Random(SEED), {}, 0, 0
    for number in range(1, LIVES + 1):
        new = chance.randint(1, MOST_NEW)
        count += new
        if is_call := chance.random() < 0.7:
            lines, status = life(program, example, count, end_at=chance.randint(1, CALLS_OF_COMMIT * new))
            wrong = status != 0 or lines.count("the run ended: begin another one") != 1
        else:
            lines, status = life(program, example, count, most_lines=chance.randint(1, new + 1))
            wrong = status > 0
        killed += is_call
        again = sorted(set(installed(lines)) & set(told))
        told.update(installed(lines))
        yield f"life {number}: status {status}, again {again}, {shown(lines)}" if wrong or again else None
    print(f"the program was killed in {killed} of {LIVES} lives, else the example")
    lines, status = life(program, example, count)
    yield expect("the end", (lines[-1:], status), ([f"{count} parts are installed"], 0))
    yield from wrong_store(program, count, told)
