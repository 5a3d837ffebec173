#!/usr/bin/env python3
"""Compares Marvin32 with published hashes and with a second program, over the built program `recoveries`:

    tests/hashes.py RECOVERIES

The second program is tests/marvin.py. The last line is 'N passed, N failed', and the status is 0 if none failed.
"""
import os
import random
import sys

sys.dont_write_bytecode = True
sys.path.insert(0, os.path.dirname(os.path.abspath(__file__)))
from marvin import SEED, marvin32  # noqa: E402
from scratch import expect, finish, program_at, tell  # noqa: E402

# the bytes, and their hashes as they are published, from each of two seeds
SEEDS = [(0x001bdbcc, 0x004fb61a), (0x001bdbcc, 0x804fb61a)]
PUBLISHED = [
    ("", 0x30ed35c100cd3c7d, 0x10a9d5d3996fd65d),
    ("af", 0x48e73fc77d75ddc1, 0x68201f91960ebf91),
    ("e70f", 0xb5f6e1fc485dbff8, 0x64b581631f6ab378),
    ("37f495", 0xf0b07c789b8cf7e8, 0xe1f2dfa6e5131408),
    ("8642dc59", 0x7008f2e87e9cf556, 0x36289d9654fb49f6),
    ("153fb79826", 0xe6c08c6da2afa997, 0x0a06114b13464dbd),
    ("0932e6246c47", 0x6f04bf1a5ea24060, 0xd6dd5e40ad1bc2ed),
    ("ab427ea8d10fc7", 0xe11847e4f0678c41, 0xe203987dba252fb3),
]


def hashes(program, seed, runs):
    """The hashes of runs of bytes, as the program prints them."""
    told, status = program.run("hash", *map(str, seed), *(data.hex() or "-" for data in runs))
    if status != 0:
        raise SystemExit(f"hash: status {status}: {told}")
    return [tuple(map(int, line.split())) for line in told.decode().splitlines()]


def published(program):
    for at, seed in enumerate(SEEDS):
        found = hashes(program, seed, [bytes.fromhex(row[0]) for row in PUBLISHED])
        for row, halves in zip(PUBLISHED, found, strict=True):
            wanted = (row[1 + at] & 0xffffffff, row[1 + at] >> 32)
            yield expect(f"published: {row[0]}", halves, wanted)
            yield expect(f"published, the second program: {row[0]}", marvin32(seed, bytes.fromhex(row[0])), wanted)
    yield expect("no bytes, from the seed of logs", hashes(program, SEED, [b""]), [(0x4bc1d208, 0x9ea0fc3e)])


def lengths(program):
    """All lengths from 0 to 64, of random bytes, of zeros and of ones, from the seed of logs and from random ones."""
    chance = random.Random(32)
    for seed in (SEED, (0, 0), (0xffffffff, 0xffffffff), (chance.getrandbits(32), chance.getrandbits(32))):
        for fill in (chance.randbytes, bytes, lambda count: b"\xff" * count):
            runs = [fill(count) for count in range(65)]
            found = hashes(program, seed, runs)
            for data, halves in zip(runs, found, strict=True):
                yield expect(f"{len(data)} bytes from {seed}", halves, marvin32(seed, data))


def main():
    if len(sys.argv) != 2:
        sys.exit(__doc__)
    with program_at(sys.argv[1], "hashes-") as program:
        finish([tell("published", list(published(program))), tell("lengths", list(lengths(program)))])


if __name__ == "__main__":
    main()
