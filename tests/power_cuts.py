"""What a loss of power may leave of a store's files. The writes, cuts and syncs of a run are noted by tests/syncs.c; the files are
built again as they are after any of these calls.

What was synced is there. Of what was written to a file since, each write and cut may be there or not, by itself. One write may be
there in part: its last byte is another, or its first sectors alone are there; of a write of one sector, its first bytes. The first
sector of a hive comes out as a whole one, or its sum is wrong: other mixtures aren't made.
"""
import hashlib
import itertools
import os
from dataclasses import dataclass

from maker import mended

SECTOR = 512


@dataclass
class Call:
    """A call on a file: a write at an offset, a cut to a length, or a sync."""
    verb: str
    name: str
    at: int = 0
    data: bytes = b""


def traced(program, library, *words):
    """What a run prints, its status, and its calls."""
    report = program.at("calls")
    if os.path.exists(report):
        os.remove(report)
    printed, status = program.run(*words, environment={"CALLS_REPORT": report, "LD_PRELOAD": library})
    if not os.path.exists(report):
        return printed, status, []
    with open(report, "rb") as file:
        return printed, status, list(calls_in(file.read()))


def calls_in(report):
    """The calls of a report, in their order."""
    at = 0
    while at < len(report):
        end = report.index(b"\n", at)
        verb, name, *numbers = report[at:end].decode().split(" ")
        at = end + 1
        if verb == "write":
            size = int(numbers[1])
            yield Call(verb, name, int(numbers[0]), report[at:at + size])
            at += size
        else:
            yield Call(verb, name, *map(int, numbers))


def done(content, call):
    """A file after a call."""
    if call.verb == "cut":
        return content[:call.at].ljust(call.at, b"\0")
    return content[:call.at].ljust(call.at, b"\0") + call.data + content[call.at + len(call.data):]


def after(files, calls):
    """The files once all calls are done."""
    left = dict(files)
    for call in calls:
        if call.verb != "sync":
            left[call.name] = done(left.get(call.name, b""), call)
    return left


def parted(files, calls):
    """The files as they are synced, and the calls on them since, in their order."""
    synced, waiting = dict(files), []
    for call in calls:
        if call.verb != "sync":
            waiting.append(call)
            continue
        synced = after(synced, [each for each in waiting if each.name == call.name])
        waiting = [each for each in waiting if each.name != call.name]
    return synced, waiting


def torn(content, call):
    """A write of which a part is there, over a file's content before it: what may stand there then, with what it is."""
    data, old = call.data, content[call.at:call.at + len(call.data)].ljust(len(call.data), b"\0")
    yield "all but its last byte", data[:-1] + bytes([data[-1] ^ 0xff])
    if len(data) > SECTOR:
        count = len(data) // SECTOR
        sizes = {SECTOR * many for many in (1, count // 2, count - 1)} - {0}
    else:
        sizes = {size for size in (1, 5, 8, 9, 12, 20, 25, 37, 41, 193, 508, 509, 511) if size < len(data)}
    for size in sorted(sizes):
        yield f"its first {size} bytes", data[:size] + old[size:]


def is_seen(call, content, data):
    """Whether the part of a write is one that a crash may leave: a hive's first sector is whole, or its sum is wrong."""
    if call.at or not call.name.endswith(".dat") or len(data) != SECTOR:
        return True
    return data in (call.data, content[:SECTOR]) or mended(data) != data


def states(files, calls):
    """What may be left of these files if the power goes after each of the calls, and how many of them are done then."""
    seen = set()
    for count in range(len(calls) + 1):
        for title, left in states_of(*parted(files, calls[:count])):
            key = tuple((name, hashlib.sha256(left[name]).digest()) for name in sorted(left))
            if key not in seen:
                seen.add(key)
                yield f"after {count} calls, {title}", left, count


def states_of(synced, waiting):
    """What may be left of synced files, and of the calls since."""
    for there in itertools.product((False, True), repeat=len(waiting)):
        chosen = list(itertools.compress(waiting, there))
        yield f"with {list(map(int, there))} of {len(waiting)}", after(synced, chosen)
    for number, call in enumerate(waiting):
        for others in ([], waiting[:number]) if number else ([],):
            before = after(synced, others)
            content = before.get(call.name, b"")
            for title, data in torn(content, call) if call.verb == "write" else ():
                if is_seen(call, content, data):
                    part = Call("write", call.name, call.at, data)
                    yield f"of write {number} {title}, {len(others)} before it", after(before, [part])
