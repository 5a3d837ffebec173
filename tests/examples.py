#!/usr/bin/env python3
"""Carries out the scripts of examples/ with a built program, and compares what each prints:

    tests/examples.py PROGRAM

Each runs in a folder of its own, some of them twice, and must end with status 0. What it is to print stands here: the replies of docs/USING.md and
docs/REGFILES.md, the keys of examples/product.reg, and of examples/software.dat, one of whose records the script spoils. The last
line is 'N passed, N failed'; status 0 if none failed.
"""
import os
import subprocess
import sys

TOP = os.path.dirname(os.path.dirname(os.path.abspath(__file__)))
sys.dont_write_bytecode = True
sys.path.insert(0, os.path.join(TOP, "tests"))
from scratch import expect, finish, program_at, tell  # noqa: E402

PRINTED = {
    "installer": """\
ok
each of 81 tries left all of the product or nothing
Windows Registry Editor Version 5.00\r
\r
[HKEY_LOCAL_MACHINE\\SOFTWARE\\Vendor]\r
\r
[HKEY_LOCAL_MACHINE\\SOFTWARE\\Vendor\\Product]\r
"Port"=dword:00001f90\r
"Version"="1.0"\r
\r
""",
    "exactly_once.py": """\
0 of 5 orders were taken before
order 1: committed 1
order 2: committed 2
order 3: committed 3
order 4: committed 4
order 5: committed 5
5 orders are taken, 9995 left
""",
    "service": """\
ok
port 8080
committed 1
port 8080
committed 2
port 443
""",
    "recovery": """\
$ regtx check damaged.dat
version 1.5, type 0, format 1
bins 4096 bytes, root at 0x1050
sum 0x711598c
numbers 2 and 2, clean
written 2024-02-29T00:01:00.0000000Z
22 cells, 1 free with 3096 bytes
E15 HiveDamaged 0 BadRecord at 0x10f8 in Software
damaged: restore a backup; other programs may read what is left
status 1
$ regtx export damaged.dat
E15 HiveDamaged 0 BadRecord
status 1
whole
$ regtx new store 00112233-4455-6677-8899-aabbccddeeff 1
ok
$ regtx apply store keys.reg HKEY_LOCAL_MACHINE\\SOFTWARE=0
applied 1
$ regtx get store 0:Software\\Vendor\\Product Version
sz 1.2
whole
""",
}
# what scripts print that are begun again over their folders
AGAIN = {"exactly_once.py": ["5 of 5 orders were taken before\n5 orders are taken, 9995 left\n"]}


def results(program, name):
    """What is wrong with what a script prints and ends with."""
    script = os.path.join(TOP, "examples", name)
    for printed in [PRINTED[name], *AGAIN.get(name, [])]:
        ran = subprocess.run([script, program.path, program.at(name)], stdin=subprocess.DEVNULL, capture_output=True, timeout=120)
        yield expect(name, ran.stdout, printed.encode())
        yield expect(f"the end of {name}", (ran.stderr, ran.returncode), (b"", 0))


def main():
    if len(sys.argv) != 2:
        sys.exit(__doc__)
    counts = []
    with program_at(sys.argv[1], "examples-") as program:
        for name in PRINTED:
            counts.append(tell(name, list(results(program, name))))
    finish(counts)


main()
