#!/usr/bin/env python3
"""Measures openings of a journal of 64 MiB, of small elements and of large ones, and how long a batch takes to be encoded:

    bench/journal.py PROGRAM [--write]

PROGRAM is the built `trials`, which plays lines. Of each journal: processor time of reading it alone, from the disk in memory and
from a file that the system has in memory, in pieces of 65,536 bytes of which each takes the place of the one before;
of reading that file by one call into fresh memory, as an opening keeps what it read; that of opening it, and the
ratios; the bytes that the list of elements holds which an opening answers, and how many more it held at most. Times
are the least of several runs. `--write` puts the table into docs/MEASURED.md.
"""
import os
import re
import subprocess
import sys
import tempfile
import time

sys.dont_write_bytecode = True
import measured  # noqa: E402

MAGIC, ID, PIECE, RUNS = b"KTMJRNL1", bytes(range(1, 17)), 65_536, 5
MOST_BODY_BYTES, FILE_BYTES = 8_388_608, 67_108_864
SMALL = "1f000000 0100000000000000 01000000 01 00 0200 08 536f667477617265 01 41"


def little(value, width):
    return value.to_bytes(width, "little").hex()


def large(size):
    """The text of an element of so many bytes: the root's default value is set."""
    return f"{little(size, 4)} 0100000000000000 01000000 03 00 0000 0000 03000000 {little(size - 30, 4)} 64*{size - 30}"


class File:
    """A journal of about 64 MiB whose elements all have one text, of so many bytes."""

    def __init__(self, name, text, size):
        self.name, self.size = name, size
        self.per = (MOST_BODY_BYTES - 16) // size
        left, first, words = (FILE_BYTES - 65) // size, 1, []
        self.elements, self.length = left, 65
        while left:
            count = min(left, self.per)
            words.append(f"c3 {little(16 + size * count, 4)} {little(first, 8)} {little(count, 4)} E*{count}")
            self.length += 17 + size * count
            first, left = first + count, left - count
        head = f"{MAGIC.hex()} {ID.hex()} 01000000 00*36"
        self.disk = f"let E {text}\ndisk {head} {' '.join(words)} 00\n"
        self.used = 65 + self.elements * (17 + size)

    def play(self, program, **more):
        """The microseconds of reading it alone and of opening it, and what was told of memory."""
        lines = self.disk + f"timed read > {self.length}\n" * 2 + f"timed open > 1 0 {self.used}\n"
        ran = subprocess.run([program, "journal"], input=lines, capture_output=True, text=True, env=dict(os.environ, **more))
        if ran.returncode:
            sys.exit(f"status {ran.returncode}: {ran.stdout}")
        return [int(line) for line in ran.stdout.split()], ran.stderr


def in_pieces(file, length):
    """Reads a file, each piece in the place of the one before."""
    buffer = bytearray(PIECE)
    while os.readv(file.fileno(), [buffer]):
        pass


def at_once(file, length):
    """Reads a file into fresh memory."""
    if len(os.read(file.fileno(), length)) != length:
        sys.exit("a file was read in part")


def from_file(read, length):
    """The least microseconds of reading so a file of so many bytes that the system has in memory."""
    least = None
    with tempfile.TemporaryFile(prefix="bench-") as file:
        file.write(bytes(length))
        for _ in range(RUNS):
            file.seek(0)
            start = time.process_time()
            read(file, length)
            spent = (time.process_time() - start) * 1_000_000
            least = spent if least is None else min(least, spent)
    return least


def openings(program, shim):
    """A row for each journal."""
    for file in [File("31 bytes", SMALL, 31), File("1 MiB", large(1 << 20), 1 << 20)]:
        times = [file.play(program)[0] for _ in range(RUNS)]
        alone, opening = min(it[1] for it in times), min(it[2] for it in times)
        outside, staying = from_file(in_pieces, file.length), from_file(at_once, file.length)
        told = re.findall(r"held=(\d+) most=(\d+)", file.play(program, LD_PRELOAD=shim)[1])
        before, after, most = int(told[1][0]), int(told[2][0]), int(told[2][1])
        yield (f"| {file.name} | {file.elements:,} | {alone / 1000:.1f} | {outside / 1000:.1f} | {staying / 1000:.1f} | {opening / 1000:.1f} "
               f"| {opening / alone:.1f} | {opening / outside:.1f} | {opening / staying:.1f} | {after - before:,} | {most - after:,} |")


def encoding(program, count):
    """The milliseconds of a batch's first step, with so many elements of 31 bytes, and of its other three together."""
    lines = f"let E {SMALL}\ndisk\ncreate 1 > Done\nhand E*{count}\n" + "timed step > More\n" * 3 + "timed step > Done\n"
    runs = []
    for _ in range(RUNS):
        ran = subprocess.run([program, "journal"], input=lines, capture_output=True, text=True, check=True)
        took = [int(line) / 1000 for line in ran.stdout.split()]
        runs.append((took[0], sum(took[1:])))
    return min(runs)


def main():
    given = measured.words(__doc__, "program").parse_args()
    with tempfile.TemporaryDirectory(prefix="bench-") as folder:
        shim = measured.held(folder)
        lines = [
            f"{measured.head('journal')}. Milliseconds of processor time.",
            "",
            "| journal of 64 MiB, elements of | elements | read alone, disk in memory | read alone, file | file read into memory that stays | opened "
            "| ratio to the disk | ratio to the file | ratio to memory that stays | bytes of the answer | bytes held beside it at most |",
            "|---|---|---|---|---|---|---|---|---|---|---|",
            *openings(given.program, shim),
            "",
        ]
        first, others = encoding(given.program, 100_000)
        lines.append(f"A batch of 100,000 elements of 31 bytes: {first:.1f} in its first step, which encodes and writes it, and {others:.1f} in its other three.")
    measured.tell(lines, "bench/journal.py", given.write)


main()
