#!/usr/bin/env python3
"""Builds tests/c_library.c with the library for C, under AddressSanitizer, and compares what it tells with a built program:

    tests/c_library.py PROGRAM FOLDER     FOLDER has libregtx.a and regtx.h, as tools/c_library.py writes them

Each part tells what passed. The last line is 'N passed, N failed', and the status is 0 if none failed.

- calls: each call of the header, what it answers and what it leaves. Each hive that is read is read twice, by paths and by a cursor.
  The example of the crate's page, whose hive libregf reads too if regfinfo is there; the header as C++, if there is a compiler, and beside that of the client.
- races: threads read one hive at once, each by its cursor, while it is edited, under ThreadSanitizer; the library for that is built
  here, without proofs, if the toolchain is there.
- recoveries: hives that were not closed cleanly, opened by logs of tests/value_machine.py; what is wanted comes of the states.
- memory: calls with each of their allocations refused in turn.
- hives: hives that the program wrote, and those of other programs: the library tells the tree that `regtx dump` prints. What it
  writes of them is a hive of the same tree, also for libhivex if hivexml is there.
- heavy: a hive over the weight of a store's is read, and can be written once a value is deleted.
- trees: keys of a file go with all below them, also those past ASCII, unless one of them is marked as not deletable.
- spoiled: 10,000 copies of a hive with some bytes changed. Each is refused, and the hive that was open stays; or it opens, is read,
  edited, written, and opened again. Of a sample `regtx dump` prints the same tree, or the same refusal.

A report of the sanitizer ends the C program with a status other than 0, and so does memory that isn't given back.
"""
import glob
import gzip
import os
import re
import subprocess
import sys

TOP = os.path.dirname(os.path.dirname(os.path.abspath(__file__)))
sys.dont_write_bytecode = True
sys.path[:0] = [os.path.join(TOP, "tests"), os.path.join(TOP, "runs", "hives")]
from maker import Key, Value, hive as hive_file  # noqa: E402
from marvin import PAGE, entry  # noqa: E402
from other_readers import hivexml  # noqa: E402
from scratch import are_there, expect, finish, program_at, shown, tell  # noqa: E402
from value_machine import ValueMachine  # noqa: E402

ID = "00112233-4455-6677-8899-aabbccddeeff"
SPOILED, SEED, SECONDS = 10_000, 20_250_101, 600
FLAGS = ["-std=c11", "-pthread", "-Wall", "-Wextra", "-Wpedantic", "-Werror", "-g", "-O1", "-fno-omit-frame-pointer",
         "-fsanitize=address,undefined", "-fno-sanitize-recover=all", "-Wl,--wrap=malloc,--wrap=realloc"]
# what libregf lists of the hive that the page's example writes
LISTED = ["(key:) ROOT", "(key:) Software", "(key:) Vendor", "(value: 0) Version"]
THREADS = ["-std=c11", "-pthread", "-Wall", "-Werror", "-g", "-O1", "-fsanitize=thread", "-Wl,--wrap=malloc,--wrap=realloc"]
EXAMPLE = re.compile(r"^```c\n(.*?)^```$", re.MULTILINE | re.DOTALL)


def built(program, folder):
    """The C program, linked with the library."""
    made = program.at("c_library")
    source = os.path.join(TOP, "tests", "c_library.c")
    subprocess.run(["cc", *FLAGS, "-I", folder, "-o", made, source, os.path.join(folder, "libregtx.a")], check=True)
    return made


def told(made, *words):
    """What the C program prints of these words, its status, and what goes to standard error."""
    ended = subprocess.run([made, *words], stdin=subprocess.DEVNULL, capture_output=True, timeout=SECONDS)
    return ended.stdout, ended.returncode, ended.stderr


def wrong_run(title, run):
    """What is wrong with a run that has to find nothing."""
    printed, status, errors = run
    return f"{title}: status {status}, {shown(printed)}, {shown(errors)}" if status or errors else None


def example(program, folder):
    """What `regtx dump` prints of what the example of the page writes."""
    with open(os.path.join(TOP, "crates", "regtx_c", "README.md"), encoding="utf-8") as file:
        text = EXAMPLE.search(file.read())[1]
    source, made = program.at(program.put("example.c", text.encode())), program.at("example")
    subprocess.run(["cc", *FLAGS[:-1], "-I", folder, "-o", made, source, os.path.join(folder, "libregtx.a")], check=True)
    file, status, errors = told(made)
    return (program.run("dump", program.put("example.hive", file))[0], status, errors)


def calls(program, made, folder):
    """All calls, the example of the page, and the header in C++."""
    yield wrong_run("checks", told(made, "checks"))
    dumped = b"hive 0\nkey 0: 7\nkey 0:Software 7\nkey 0:Software\\Vendor 7\nval Version 1 31002e0030000000\n"
    yield expect("the page", example(program, folder), (dumped, 0, b""))
    if are_there("calls", "regfinfo"):
        ended = subprocess.run(["regfinfo", program.at("example.hive")], capture_output=True)
        listed = [line.strip() for line in ended.stdout.decode(errors="replace").splitlines() if re.match(r" *\((?:key:|value: \d+)\) ", line)]
        yield expect("the page for libregf", (listed, ended.returncode), (LISTED, 0))
    if are_there("calls", "c++"):
        words = ["c++", "-std=c++11", "-Wall", "-Wextra", "-Werror", "-fsyntax-only", "-x", "c++", os.path.join(folder, "regtx.h")]
        yield expect("the header in C++", subprocess.run(words, capture_output=True).stderr, b"")
    headers = ["regtx.h", "regtx_client.h"]
    for names in (headers, headers[::-1]):
        source = "".join(f'#include "{name}"\n' for name in names) + "int refused = REGTX_NOT_OPEN + REGTX_COMMIT_UNKNOWN + REGTX_FIXED;\n"
        words = ["cc", *FLAGS[:6], "-I", folder, "-I", os.path.join(TOP, "clients", "c"), "-fsyntax-only", "-x", "c", "-"]
        yield expect(f"{names[0]} first", subprocess.run(words, input=source.encode(), capture_output=True).stderr, b"")


def races(program):
    """What ThreadSanitizer says of threads that read one hive."""
    folder, made = program.at("races"), program.at("c_races")
    subprocess.run([os.path.join(TOP, "tools", "c_library.py"), "--races", folder], stderr=subprocess.DEVNULL, check=True)
    source = os.path.join(TOP, "tests", "c_library.c")
    subprocess.run(["cc", *THREADS, "-I", folder, "-o", made, source, os.path.join(folder, "libregtx.a")], check=True)
    yield wrong_run("readers", told(made, "readers"))


def script():
    """Keys and values of all kinds of cells: many subkeys, data in a record, in a cell, and in segments."""
    yield "at 132000000000000000"
    for at in range(30):
        yield f"create 0:Software\\Vendor\\Product%0020{at}"
        yield f"set 0:Software\\Vendor\\Product%0020{at} Version {at % 12} {'%02x' % at * at or '-'}"
    yield "set 0:Software @ 1 " + "61006200" * 20
    yield "create 0:System\\Select\\" + "\\".join("L%d" % at for at in range(20))
    yield "set 0:System\\Select Current 4 01000000"


def long_script():
    """A value whose data lie in segments, and a list of lists of subkeys."""
    yield from script()
    yield "set 0:System Large 3 " + "00112233445566778899aabbccddeeff" * 2_000
    for at in range(1_200):
        yield f"create 0:Services\\S{at}"


def hive_of(program, name, lines):
    """The file of a hive that the program wrote."""
    script = program.put(f"{name}.txt", "\n".join(lines).encode() + b"\n")
    for words in (["new", name, ID, "1"], ["run", name, script]):
        printed, status = program.run(*words)
        if status:
            sys.exit(f"{words}: {printed}")
    return program.at(name, "hive00.dat")


def hives_of_others(program):
    """Hives of other programs, those of them that are clean and of a version that is read."""
    for path in sorted(glob.glob(os.path.join(TOP, "runs", "hives", "*.hive.gz"))):
        with gzip.open(path) as file:
            yield program.at(program.put(os.path.basename(path)[:-3], file.read()))


def hive_of_names(program):
    """The file of a hive with names past ASCII, and a key of more units than a call that edits may name."""
    values = [Value("\u03a9", 4, b"1234"), Value("\U0001d11e \u00e4", 1, b"a\0\0\0"), Value("", 3, b"\1")]
    keys = [Key("\u00e4\u20ac", 5, keys=[Key("Below", 6, values=values)]), Key("\U0001d11e", 7, values=values[:1]),
            Key("n" * 256, 8, keys=[Key("x\u00df", 9)])]
    return program.at(program.put("names.hive", hive_file(Key("", 4, keys=keys))[0]))


def wrong_hive(program, made, readers, path):
    """What is wrong with what the library tells and writes of a hive, also for the programs of others that read it."""
    dumped, new = program.run("dump", path)[0], program.at("new.hive")
    wrong = expect(path, told(made, "dump", path), (dumped, 0, b""))
    wrong = wrong or wrong_run(f"{path} written", told(made, "rewrite", path, new))
    wrong = wrong or expect(f"{path} written", program.run("dump", new)[0], dumped)
    if not wrong and readers:
        wrong = expect(f"{path} for hivexml", hivexml(new), hivexml(path))
    return wrong


def heavy(program, made):
    """What is wrong with what the library does with a hive whose tree has more than 16,777,216 bytes of data alone."""
    values = [Value(f"v{number:02}", 3, bytes([number]) * 1_000_000) for number in range(17)]
    path, new = program.at(program.put("heavy.hive", hive_file(Key("", 7, keys=[Key("Big", 8, values=values)]))[0])), program.at("lighter.hive")
    lines = [b"val %s 3 %s\n" % (value.name.encode(), value.data.hex().encode()) for value in values]
    yield expect("a heavy hive for the program", program.run("dump", path), (b"E6 TooLarge\n", 1))
    yield expect("a heavy hive", told(made, "dump", path), (b"hive 0\nkey 0: 7\nkey 0:Big 8\n" + b"".join(lines), 0, b""))
    yield wrong_run("a heavy hive edited", told(made, "heavy", path, new))
    yield expect("a lighter hive", program.run("dump", new), (b"hive 0\nkey 0: 7\nkey 0:Big 9\n" + b"".join(lines[1:]), 0))


def trees(program, made):
    """What is wrong with what the library does with trees of keys of a file."""
    gone = Key("\u00e4", 4, values=[Value("\u03a9", 4, b"1234")], keys=[Key("\u20ac", 5, keys=[Key("\U0001d11e", 6)])])
    kept = Key("Kept", 7, keys=[Key("Below", 5, keys=[Key("Fixed", 6, flags=8)]), Key("Other", 8)])
    path, new = program.at(program.put("trees.hive", hive_file(Key("", 4, keys=[gone, kept, Key("Last", 9)]))[0])), program.at("pruned.hive")
    yield wrong_run("trees", told(made, "trees", path, new))
    dumped = b"hive 0\nkey 0: 9\nkey 0:Kept 8\nkey 0:Kept\\Below 5\nkey 0:Kept\\Below\\Fixed 6\nkey 0:Last 9\n"
    yield expect("a pruned hive", program.run("dump", new), (dumped, 0))


def unclean_files(program):
    """A hive that was not closed cleanly, and its log."""
    machine = ValueMachine()
    return program.put("unclean.hive", machine.primary(0)), program.put("log", machine.log(machine.entries))


def recoveries(program, made):
    """What the library makes of hives and their logs."""
    machine = ValueMachine()
    entries, cut = machine.entries, machine.log(machine.entries)[:-1]
    torn = b"gerf" + machine.primary(1)[4:]
    not_clean, bad_log, bad_base = machine.primary(0), b"E15 HiveDamaged 0 BadLog\n", b"E15 HiveDamaged 0 BadBase\n"
    spoilt = machine.log([entry(100, len(machine.states[1]), [(0, b"x" * PAGE)])])
    for title, primary, logs, wanted in [
            ("a log", not_clean, [machine.log(entries)], machine.text(4)), ("from a later state", machine.primary(2), [machine.log(entries)], machine.text(4)),
            ("two logs", not_clean, [machine.log(entries[2:]), machine.log(entries[:2])], machine.text(4)), ("a log that is cut", not_clean, [cut], machine.text(3)),
            ("a log of no bytes", not_clean, [b"", machine.log(entries)], machine.text(4)), ("a log of pages", not_clean, [machine.pages(1)], machine.text(1)),
            ("a torn first sector", torn, [machine.log(entries)], machine.text(4)), ("a closed hive", machine.primary(2, True), [machine.log(entries)], machine.text(2)),
            ("no log", not_clean, [], bad_log), ("a missing entry", not_clean, [machine.log(entries[1:])], bad_log), ("no hive", b"x" * 5_000, [machine.log([])], bad_base),
            ("nine logs", not_clean, [b""] * 8 + [machine.log(entries)], machine.text(4)), ("no whole hive", not_clean, [spoilt], b"E15 HiveDamaged 0 BadBin\n")]:
        names = [program.at(program.put(f"log{at}", log)) for at, log in enumerate(logs)]
        yield expect(title, told(made, "recover", program.at(program.put("unclean.hive", primary)), *names), (wanted, wanted[:1] == b"E", b""))


def spoiled(program, made, hive):
    """All spoiled copies, and each of the sample."""
    os.mkdir(program.at("sample"))
    run = told(made, "mutate", hive, str(SEED), str(SPOILED), program.at("sample"))
    print(f"spoiled: {run[0].decode(errors='replace').splitlines()[-1:]}")
    yield from [wrong_run("spoiled", run)] * SPOILED
    for path in sorted(glob.glob(program.at("sample", "*.hive"))):
        with open(f"{path[:-5]}.text", "rb") as file:
            yield expect(path, file.read(), program.run("dump", path)[0])


def main():
    if len(sys.argv) != 3:
        sys.exit(__doc__)
    folder = os.path.abspath(sys.argv[2])
    with program_at(sys.argv[1], "c_library-") as program:
        made, hive, readers = built(program, folder), hive_of(program, "small", script()), are_there("hives", "hivexml")
        files = [hive, hive_of(program, "large", long_script()), hive_of_names(program), *hives_of_others(program)]
        finish([
            tell("calls", list(calls(program, made, folder))),
            *([tell("races", list(races(program)))] if are_there("races", "rt") else []),
            tell("recoveries", list(recoveries(program, made))),
            tell("memory", [wrong_run("failing", told(made, "failing", hive, *map(program.at, unclean_files(program))))]),
            tell("hives", [wrong_hive(program, made, readers, path) for path in files]),
            tell("heavy", list(heavy(program, made))),
            tell("trees", list(trees(program, made))),
            tell("spoiled", list(spoiled(program, made, hive))),
        ])


main()
