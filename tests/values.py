#!/usr/bin/env python3
"""Reads, lists, writes and deletes values of stores by words of the command line:

    tests/values.py PROGRAM [SEED]

- spelled: TYPE and VALUE beside the type and bytes that they stand for. `set` writes them, and `dump` shows them.
- shown: types and bytes that a script wrote, beside the words that `get` and `ls` print. What they print is set again, and is the
  same value then. Some are random, and their words come from rules that are written out here.
- listed: the lines of `ls`, names with blanks and other units, and keys that `set` creates and `del` and `del-tree` delete.
- again: what is so already is set and created again, which changes nothing, not even a key's time.
- raw: bytes that `set-raw` takes from a file or from standard input, and that `get-raw` prints; up to 1,048,576 of them.
- created: keys that `create` makes, with all that are missing above them.
- wrong: words that are none, and what is refused. Each prints its line with its status, and the store stays as it was.
- locked: commands that wait for a store in use, or don't, and reads of a store that can't be written.
- others: `hivexget` reads what `set` wrote, if it is installed; it says whether it is.

The seed is printed. The last line is 'N passed, N failed', and the status is 0 if none failed.
"""
import os
import random
import shutil
import subprocess
import sys
import time

TOP = os.path.dirname(os.path.dirname(os.path.abspath(__file__)))
sys.dont_write_bytecode = True
sys.path[:0] = [os.path.join(TOP, "tests")]
from scratch import SECONDS, are_there, as_other, expect, finish, program_at, tell  # noqa: E402

ID = "00112233-4455-6677-8899-aabbccddeeff"
BEFORE = ["create 0:A\\B\\C", "create 0:A\\D", "set 0:A v 3 07"]

# a type word, the text of data, the type's number, and the bytes
SPELLED = [
    ("sz", "", 1, "0000"),
    ("sz", "ab", 1, "610062000000"),
    ("sz", "a\\0b", 1, "61005c00300062000000"),
    ("sz", "ä€", 1, "e400ac200000"),
    ("sz", "\U0001d11e", 1, "34d81edd0000"),
    ("sz", "-x y", 1, "2d00780020007900" + "0000"),
    ("sz", "a\nb", 1, "61000a0062000000"),
    ("expand", "%A%", 2, "2500410025000000"),
    ("dword", "0", 4, "00000000"),
    ("dword", "4294967295", 4, "ffffffff"),
    ("dword", "0xFfffffff", 4, "ffffffff"),
    ("dword", "0x2a", 4, "2a000000"),
    ("dword", "000000000000000000000042", 4, "2a000000"),
    ("qword", "18446744073709551615", 11, "ffffffffffffffff"),
    ("qword", "0x0123456789abcdef", 11, "efcdab8967452301"),
    ("multi", "", 7, "0000"),
    ("multi", "a", 7, "610000000000"),
    ("multi", "a\\0b", 7, "61000000620000000000"),
    ("multi", "\\0", 7, "000000000000"),
    ("multi", "a\\\\0b", 7, "61005c000000620000000000"),
    ("multi", "\\1\\00\\", 7, "5c00310000003000" + "5c0000000000"),
    ("hex", "", 3, ""),
    ("hex", "00", 3, "00"),
    ("hex", "aB,cD", 3, "abcd"),
    ("hex", "0102,03", 3, "010203"),
    ("hex", "01,0203,04", 3, "01020304"),
    ("hex(0)", "", 0, ""),
    ("hex(b)", "01", 11, "01"),
    ("hex(B)", "01", 11, "01"),
    ("hex(00000004)", "2a000000", 4, "2a000000"),
    ("hex(fFfF0012)", "ff", 0xffff0012, "ff"),
    ("hex(1)", "41", 1, "41"),
]

# a type, bytes, and the words that are printed
SHOWN = [
    (1, "0000", "sz "),
    (1, "", "hex(1) "),
    (1, "6100", "hex(1) 6100"),
    (1, "610000", "hex(1) 610000"),
    (1, "61000000", "sz a"),
    (1, "2000610020000000", "sz  a "),
    (1, "6100000062000000", "hex(1) 6100000062000000"),
    (1, "0a000000", "hex(1) 0a000000"),
    (1, "1f000000", "hex(1) 1f000000"),
    (1, "7e000000", "sz ~"),
    (1, "7f000000", "hex(1) 7f000000"),
    (1, "9f000000", "hex(1) 9f000000"),
    (1, "a0000000", "sz \u00a0"),
    (1, "27200000", "sz \u2027"),
    (1, "28200000", "hex(1) 28200000"),
    (1, "2e200000", "hex(1) 2e200000"),
    (1, "2f200000", "sz \u202f"),
    (1, "65200000", "sz \u2065"),
    (1, "66200000", "hex(1) 66200000"),
    (1, "69200000", "hex(1) 69200000"),
    (1, "6a200000", "sz \u206a"),
    (1, "34d81edd0000", "sz \U0001d11e"),
    (1, "ffdbffdf0000", "sz \U0010ffff"),
    (1, "00d800dc0000", "sz \U00010000"),
    (1, "34d80000", "hex(1) 34d80000"),
    (1, "1edd0000", "hex(1) 1edd0000"),
    (1, "34d861000000", "hex(1) 34d861000000"),
    (1, "1edd34d80000", "hex(1) 1edd34d80000"),
    (1, "ffd70000", "sz \ud7ff"),
    (1, "00e00000", "sz \ue000"),
    (1, "ffff0000", "sz \uffff"),
    (1, "5c0030000000", "sz \\0"),
    (2, "2500410025000000", "expand %A%"),
    (2, "41", "hex(2) 41"),
    (3, "", "hex "),
    (3, "00ff", "hex 00ff"),
    (4, "2a000000", "dword 42"),
    (4, "ffffffff", "dword 4294967295"),
    (4, "2a0000", "hex(4) 2a0000"),
    (4, "2a00000000", "hex(4) 2a00000000"),
    (5, "0000002a", "hex(5) 0000002a"),
    (7, "0000", "multi "),
    (7, "", "hex(7) "),
    (7, "00000000", "hex(7) 00000000"),
    (7, "000000000000", "multi \\0"),
    (7, "610000000000", "multi a"),
    (7, "61000000", "hex(7) 61000000"),
    (7, "61000000620000000000", "multi a\\0b"),
    (7, "5c00300000000000", "hex(7) 5c00300000000000"),
    (7, "5c0000003000" + "00000000", "multi \\\\00"),
    (7, "5c00310000000000", "multi \\1"),
    (7, "0a0000000000", "hex(7) 0a0000000000"),
    (7, "34d800000000", "hex(7) 34d800000000"),
    (11, "0100000000000000", "qword 1"),
    (11, "ffffffffffffffff", "qword 18446744073709551615"),
    (11, "01000000", "hex(b) 01000000"),
    (0, "", "hex(0) "),
    (6, "61000000", "hex(6) 61000000"),
    (0xffff0012, "ab", "hex(ffff0012) ab"),
]

# words after the folder, what is printed, and the status
WRONG = [
    *((["set", "0:A", "w", kind, text], "wrong words", 2) for kind, text in [
        ("SZ", "a"), ("str", "a"), ("reg_sz", "a"), ("", "a"), ("1", "a"), ("none", ""), ("dword", ""), ("dword", "-1"), ("dword", "+1"),
        ("dword", "1 "), ("dword", "4294967296"), ("dword", "0x100000000"), ("dword", "0x"), ("dword", "0X1"), ("dword", "2a"),
        ("dword", "0xg"), ("dword", "١"), ("qword", "18446744073709551616"), ("qword", "0x10000000000000000"), ("hex", "a"), ("hex", "abc"),
        ("hex", "ag"), ("hex", ","), ("hex", "ab,"), ("hex", ",ab"), ("hex", "ab,,cd"), ("hex", "a,b"), ("hex", "ab cd"), ("hex", "0xab"),
        ("hex()", "ab"), ("hex(", "ab"), ("hex(g)", "ab"), ("hex(1", "ab"), ("hex(1)x", "ab"), ("hex(000000001)", "ab"), ("hex(-1)", "ab"),
        ("Hex", "ab"), ("hex)", "ab")]),
    *((["set", *words], "wrong words", 2) for words in ([], ["0:A"], ["0:A", "w"], ["0:A", "w", "sz"], ["0:A", "w", "sz", "a", "b"],
                                                        ["0:A", "", "sz", "a"], ["A", "w", "sz", "a"], [":A", "w", "sz", "a"],
                                                        ["+0:A", "w", "sz", "a"], ["256:A", "w", "sz", "a"], ["0:%", "w", "sz", "a"],
                                                        ["0:A", "%004", "sz", "a"])),
    *(([command, *words], "wrong words", 2) for command in ("get", "del") for words in ([], ["0"], ["0:A", ""], ["0:A", "v", "w"], ["0:%zzzz"])),
    *((["ls", *words], "wrong words", 2) for words in ([], ["0"], ["0:A", "v"], ["x:A"])),
    *(([command, *words], "E2 NotFound", 1) for command in ("get", "del") for words in (["0:A", "w"], ["0:No", "v"], ["1:A", "v"], ["255:", "v"], ["0:A\\B", "v"])),
    (["get", "0:A"], "E2 NotFound", 1),
    *(([command, key], "E2 NotFound", 1) for command in ("del", "del-tree") for key in ("0:No", "1:A", "255:A", "0:A\\B\\C\\D")),
    *((["del-tree", *words], "wrong words", 2) for words in ([], ["0"], ["0:A", "v"], ["0:A", ""], ["0:%zzzz"])),
    # a name that is left out by mistake deletes nothing: neither no word nor an empty one
    *((["del", key], "E3 HasSubkeys", 1) for key in ("0:A", "0:A\\B", "0:a\\b")),
    (["del", "0:A", ""], "wrong words", 2),
    (["ls", "0:No"], "E2 NotFound", 1),
    (["ls", "1:"], "E2 NotFound", 1),
    (["set", "1:A", "v", "sz", "a"], "E2 NotFound", 1),
    (["del", "0:"], "E18 Fixed", 1),
    (["del-tree", "0:"], "E18 Fixed", 1),
    *(([*words], "E4 BadName", 1) for words in (["get", "0:ä", "v"], ["get", "0:A\\\\B", "v"], ["get", "0:A", "ä"], ["ls", "0:%0001"],
                                                ["set", "0:A\\ä", "v", "sz", "a"], ["set", "0:A", "%0000", "sz", "a"],
                                                ["set", "0:" + "k" * 256, "v", "sz", "a"], ["set", "0:A", "n" * 16_384, "sz", "a"],
                                                ["del", "0:\\A"], ["del", "0:A", "é"], ["del-tree", "0:\\A"])),
    (["set", "0:" + "\\".join("abcdefgh" * 5), "v", "sz", "a"], "E5 TooDeep", 1),
    (["set", "0:" + "\\".join("k" * 33), "v", "sz", "a"], "E5 TooDeep", 1),
    (["ls", "0:" + "\\".join("k" * 513)], "E5 TooDeep", 1),
]


def store(program, name, hives, lines=()):
    """A new store in which these lines were run."""
    shutil.rmtree(program.at(name), ignore_errors=True)
    program.run("new", name, ID, str(hives))
    if lines:
        program.put("script", "".join(f"{line}\n" for line in ["at 7", *lines]).encode())
        printed, status = program.run("run", name, "script")
        assert status == 0, printed
    return name


def dump(program, name, hive=0):
    """The lines of a hive of a store, as texts; its times only if they are not zero."""
    printed, status = program.run("dump", f"{name}/hive{hive:02}.dat")
    assert status == 0, printed
    return printed.decode().splitlines()


def value_lines(program, name):
    """The values of a store's first hive: name, type and bytes."""
    return [line.split(" ")[1:] for line in dump(program, name) if line.startswith("val ")]


def is_plain(text):
    """Whether each character of a text can be shown on a line."""
    return not any(c <= "\x1f" or "\x7f" <= c <= "\x9f" or "\u2028" <= c <= "\u202e" or "\u2066" <= c <= "\u2069" for c in text)


def text_of(data):
    """The text of UTF-16 units, or None."""
    try:
        return data.decode("utf-16-le")
    except UnicodeDecodeError:
        return None


def words_of(kind, data):
    """The words that a value is printed as, by the rules."""
    if kind in (1, 2) and len(data) % 2 == 0 and data.endswith(b"\0\0"):
        text = text_of(data[:-2])
        if text is not None and is_plain(text):
            return ("sz " if kind == 1 else "expand ") + text
    if kind == 7 and data == b"\0\0":
        return "multi "
    if kind == 7 and len(data) % 2 == 0 and len(data) > 4 and data.endswith(b"\0\0\0\0"):
        text = text_of(data[:-4])
        if text is not None and all(is_plain(part) and "\\0" not in part for part in text.split("\0")):
            return "multi " + text.replace("\0", "\\0")
    if (kind, len(data)) in ((4, 4), (11, 8)):
        return f"{'dword' if kind == 4 else 'qword'} {int.from_bytes(data, 'little')}"
    return f"{'hex' if kind == 3 else f'hex({kind:x})'} {data.hex()}"


def spelled(program):
    results = []
    store(program, "spelled", 1)
    for number, (word, text, kind, data) in enumerate(SPELLED):
        results.append(expect(f"{word} {text!r}", program.run("set", "spelled", "0:A", f"n{number:02}", word, text), (f"committed {number + 1}\n".encode(), 0)))
    wanted = [[f"n{number:02}", str(kind), data or "-"] for number, (_, _, kind, data) in enumerate(SPELLED)]
    return results + [expect("the values", value_lines(program, "spelled"), wanted)]


def random_data(chances):
    """A type and bytes, often near to what has a word."""
    kind = chances.choice([1, 1, 1, 2, 7, 7, 7, 7, 3, 4, 11, 5, 0xffff0012])
    units = chances.choices(["a", "\\", "0", "\0", " ", "\u00e4", "\u4e2d", "\U0001d11e", "\n", "\u202d"], [9, 5, 5, 5, 2, 2, 2, 2, 0.1, 0.1], k=chances.randrange(7))
    data = "".join(units).encode("utf-16-le") + chances.choice([b"", b"\0", b"\0\0", b"\0\0", b"\0\0\0\0", b"\0\0\0\0", b"\0\xd8\0\0"])
    return kind, chances.randbytes(chances.choice([4, 8])) if kind in (4, 11) and chances.random() < 0.8 else data


def shown_values(program, seed):
    chances, results = random.Random(seed), []
    rows = [(kind, bytes.fromhex(data), words) for kind, data, words in SHOWN]
    results += [expect(f"the rule for {words!r}", words_of(kind, data), words) for kind, data, words in rows]
    for _ in range(300):
        kind, data = random_data(chances)
        rows.append((kind, data, words_of(kind, data)))
    lines = [f"set 0:K n{number:03} {kind} {data.hex() or '-'}" for number, (kind, data, _) in enumerate(rows)]
    store(program, "shown", 1, ["create 0:K", *lines])
    store(program, "copy", 1)
    listed = "".join(f"value n{number:03} {words}\n" for number, (_, _, words) in enumerate(rows))
    results.append(expect("ls", program.run("ls", "shown", "0:K"), (listed.encode("utf-8"), 0)))
    for number, (kind, data, words) in enumerate(rows):
        if number >= len(SHOWN) + 60:
            break
        name = f"n{number:03}"
        results.append(expect(f"get {kind} {data.hex()}", program.run("get", "shown", "0:K", name), (f"{words}\n".encode("utf-8"), 0)))
        word, text = words.split(" ", 1)
        program.run("set", "copy", "0:K", name, word, text)
    some = len(SHOWN) + 60
    return results + [expect("the values that were set again", value_lines(program, "copy"), value_lines(program, "shown")[:some])]


def listed(program):
    store(program, "listed", 2)
    deepest = "0:" + "\\".join("k" * 32)
    steps = [
        (["ls", "0:"], "", 0),
        (["set", "0:Soft Ware\\b", "my name", "sz", "x"], "committed 1\n", 0),
        (["set", "0:soft%0020ware\\B", "MY NAME", "dword", "1"], "committed 2\n", 0),
        (["set", "0:Soft Ware\\A", "@", "sz", "d"], "committed 3\n", 0),
        (["set", "0:Soft Ware", "%0040", "hex", "01"], "committed 4\n", 0),
        (["set", "0:Soft Ware", "a%b"[:1], "hex", "02"], "committed 5\n", 0),
        (["set", "0:", "r", "dword", "7"], "committed 6\n", 0),
        (["ls", "0:"], "key Soft%0020Ware\nvalue r dword 7\n", 0),
        (["ls", "0:Soft Ware"], "key A\nkey b\nvalue %0040 hex 01\nvalue a hex 02\n", 0),
        (["ls", "0:SOFT WARE\\B"], "value my%0020name dword 1\n", 0),
        (["get", "0:Soft Ware\\A"], "sz d\n", 0),
        (["get", "0:Soft Ware\\A", "@"], "sz d\n", 0),
        (["get", "0:Soft Ware\\b", "My Name"], "dword 1\n", 0),
        (["wait", "1", "get", "0:", "r"], "dword 7\n", 0),
        (["set", deepest, "v", "sz", ""], "committed 7\n", 0),
        (["get", deepest, "v"], "sz \n", 0),
        (["del", "0:k\\k\\k"], "E3 HasSubkeys\n", 1),
        (["del-tree", "0:k\\k\\k"], "committed 8\n", 0),
        (["ls", "0:k\\k"], "", 0),
        (["del", "0:Soft Ware\\b", "my name"], "committed 9\n", 0),
        (["ls", "0:Soft Ware\\b"], "", 0),
        (["wait", "1", "del-tree", "0:Soft Ware"], "committed 10\n", 0),
        (["ls", "0:"], "key k\nvalue r dword 7\n", 0),
        (["set", "1:A", "-h", "sz", "--help"], "committed 11\n", 0),
        (["get", "1:A", "-h"], "sz --help\n", 0),
        (["set", "1:A", "--", "sz", "-x"], "committed 12\n", 0),
        (["get", "1:A", "--"], "sz -x\n", 0),
        (["get", "1:A"], "E2 NotFound\n", 1),
        (["set", "1:A", "v", "sz", "--"], "committed 13\n", 0),
        (["get", "1:A", "v"], "sz --\n", 0),
        (["del", "1:A", "--"], "committed 14\n", 0),
        (["del", "1:A", "--"], "E2 NotFound\n", 1),
        (["ls", "1:A"], "value -h sz --help\nvalue v sz --\n", 0),
        (["set", "1:A", "--", "-h", "sz", "a"], "wrong words\n", 2),
        (["ls", "1:A", "--"], "wrong words\n", 2),
        (["ls", "1:"], "key A\n", 0),
    ]
    results = []
    for words, printed, status in steps:
        at = 3 if words[0] == "wait" else 1
        given = [*words[:at], "listed", *words[at:]]
        results.append(expect(" ".join(given), program.run(*given), (printed.encode(), status)))
    # a blank in a key's word stands for itself in an export, too
    program.run("set", "listed", "1:B C\\D", "@", "sz", "x")
    blank, escaped = (program.run("export-tsv", "listed", word) for word in ("1:B C", "1:B%0020C"))
    results.append(expect("an export of a key with a blank", (blank, blank[0].count(b"\n"), blank[1]), (escaped, 3, 0)))
    # the hives' files have what was set, without a further opening
    hive = [line for line in dump(program, "listed") if not line.startswith("key")]
    return results + [expect("the first hive's file", hive, ["hive 0", "val r 4 07000000"])]


def again(program):
    """Values that are set again: only those of another type or other bytes are written."""
    store(program, "again", 1, ["create 0:A", "set 0:A Name 1 61000000"])
    wanted = dump(program, "again")
    results = []
    for words in (["0:A", "Name", "sz", "a"], ["0:a", "NAME", "hex(1)", "61000000"]):
        results.append(expect(f"set {words}", program.run("set", "again", *words), (b"committed 0\n", 0)))
    # the key's time stays, and the spelling of its names
    results.append(expect("the hive after that", dump(program, "again"), wanted))
    for number, (words, line) in enumerate([(["0:A", "NAME", "expand", "a"], "val Name 2 61000000"), (["0:A", "name", "expand", "b"], "val Name 2 62000000"),
                                            (["0:A", "name", "hex(2)", ""], "val Name 2 -"), (["0:A", "@", "sz", ""], "val @ 1 0000")]):
        results.append(expect(f"set {words}", program.run("set", "again", *words), (f"committed {number + 3}\n".encode(), 0)))
        results.append(expect(f"set {words} again", program.run("set", "again", *words), (b"committed 0\n", 0)))
        results.append(expect(f"the value of {words}", dump(program, "again").count(line), 1))
    times = [lines[2] for lines in (wanted, dump(program, "again"))]
    return results + [expect("the key's time after other bytes", (times[0], times[1] == times[0]), ("key 0:A 7", False))]


def fed(program, content, *words):
    """What is printed of a command that gets this from standard input, and the status."""
    ended = subprocess.run([program.path, *words], cwd=program.home, input=content, capture_output=True, timeout=SECONDS, check=False)
    return ended.stdout + ended.stderr, ended.returncode


def raw(program):
    store(program, "raw", 1, BEFORE)
    results, number = [], 3
    for word, kind, data in (("sz", 1, b"a"), ("expand", 2, b""), ("multi", 7, b"\0"), ("dword", 4, b"\n"), ("qword", 11, bytes(range(256))), ("hex", 3, b"x" * 1_048_576),
                             ("hex(0)", 0, b"hex"), ("hex(fFfF0012)", 0xffff0012, b"\r\n")):
        number += 1
        program.put("bytes", data)
        results += [expect(f"set-raw {word}", program.run("set-raw", "raw", "0:A\\New", word, word, "bytes"), (f"committed {number}\n".encode(), 0)),
                    expect(f"set-raw {word} again", fed(program, data, "set-raw", "raw", "0:A\\New", word, word, "-"), (b"committed 0\n", 0)),
                    expect(f"get-raw {word}", program.run("get-raw", "raw", "0:A\\New", word), (data, 0)),
                    expect(f"the value {word}", [line[1:] for line in value_lines(program, "raw") if line[0] == word], [[str(kind), data.hex() or "-"]])]
    results += [expect("the default value", fed(program, b"@", "set-raw", "raw", "0:A", "@", "hex", "-"), (f"committed {number + 1}\n".encode(), 0)),
                expect("its bytes", program.run("get-raw", "raw", "0:A"), (b"@", 0))]
    before = dump(program, "raw")
    program.put("long", bytes(1_048_577))
    for words, printed, status in (
            (["set-raw", "raw", "0:A", "v", "hex", "long"], b"E6 TooLarge\n", 1), (["set-raw", "raw", "0:A", "v", "hex", "/dev/zero"], b"E6 TooLarge\n", 1),
            (["set-raw", "raw", "0:A", "v", "hex", "none"], b"cannot read file\n", 1), (["set-raw", "raw", "0:A", "v", "hex", "."], b"cannot read file\n", 1),
            (["set-raw", "raw", "0:A", "v", "none", "bytes"], b"wrong words\n", 2), (["set-raw", "raw", "0:A", "", "hex", "bytes"], b"wrong words\n", 2),
            (["set-raw", "raw", "0:A", "v", "hex"], b"wrong words\n", 2), (["set-raw", "raw", "1:A", "v", "hex", "bytes"], b"E2 NotFound\n", 1),
            (["get-raw", "raw", "0:A", "w"], b"E2 NotFound\n", 1), (["get-raw", "raw", "0:No"], b"E2 NotFound\n", 1),
            (["get-raw", "raw", "0:A", ""], b"wrong words\n", 2), (["get-raw", "raw", "0:A", "v", "w"], b"wrong words\n", 2)):
        results.append(expect(" ".join(words), program.run(*words), (printed, status)))
    # what never ends isn't read to its end
    endless = subprocess.run(f"yes | '{program.path}' set-raw raw 0:A v hex -", shell=True, cwd=program.home, capture_output=True, timeout=SECONDS, check=False)
    return results + [expect("an endless pipe", (endless.stdout, endless.returncode), (b"E6 TooLarge\n", 1)),
                      expect("the store after what was refused", dump(program, "raw"), before)]


def created(program):
    store(program, "created", 2)
    deepest = "0:" + "\\".join("k" * 32)
    results = []
    for words, printed, status in (
            (["create", "0:A b\\C"], "committed 1\n", 0), (["create", "0:a%0020B\\c"], "committed 0\n", 0), (["create", "0:"], "committed 0\n", 0),
            (["ls", "0:"], "key A%0020b\n", 0), (["ls", "0:A b"], "key C\n", 0), (["ls", "0:A b\\C"], "", 0), (["create", "1:X"], "committed 2\n", 0),
            (["create", deepest], "committed 3\n", 0), (["create", f"{deepest}\\k"], "committed 4\n", 0), (["create", "0:" + "\\".join("j" * 33)], "E5 TooDeep\n", 1),
            (["create", "2:X"], "E2 NotFound\n", 1), (["create", "0:ä"], "E4 BadName\n", 1), (["create"], "wrong words\n", 2), (["create", "0"], "wrong words\n", 2),
            (["create", "0:A", "v"], "wrong words\n", 2)):
        given = [words[0], "created", *words[1:]]
        results.append(expect(" ".join(given), program.run(*given), (printed.encode(), status)))
    return results


def wrong(program):
    results = []
    store(program, "wrong", 1, BEFORE)
    wanted = dump(program, "wrong")
    for words, line, status in WRONG:
        given = [words[0], "wrong", *words[1:]]
        title = " ".join(given)
        results.append(expect(title if len(title) < 80 else f"{title[:80]}..", program.run(*given), (f"{line}\n".encode(), status)))
    results.append(expect("the store after all of them", dump(program, "wrong"), wanted))
    for words in (["get", "nowhere", "0:A", "v"], ["ls", "nowhere", "0:"], ["set", "nowhere", "0:A", "v", "sz", "a"], ["del", "nowhere", "0:A"],
                  ["del-tree", "nowhere", "0:A"]):
        results.append(expect(" ".join(words), program.run(*words), (b"E16 JournalDamaged\n", 1)))
    # 1,048,576 bytes are the most data of a value; a word of the command line has at most 131,071 bytes, so a script writes those
    program.put("script", f"set 0:A big 3 {'00' * 1_048_576}\n".encode())
    program.run("run", "wrong", "script")
    results.append(expect("a value of a megabyte", program.run("get", "wrong", "0:A", "big"), (b"hex " + b"00" * 1_048_576 + b"\n", 0)))
    fill = [f"set 0:A v{number} 3 {'00' * 1_048_576}" for number in range(14)]
    program.put("script", "".join(f"{line}\n" for line in fill).encode())
    program.run("run", "wrong", "script")
    results.append(expect("a hive that is full", [program.run("set", "wrong", "0:A", f"w{number}", "hex", "00" * 60_000) for number in range(20)][-1],
                          (b"E6 TooLarge\n", 1)))
    return results


def locked(program):
    store(program, "locked", 1, BEFORE)
    os.mkfifo(program.at("held"))
    holder = subprocess.Popen([program.path, "run", "locked", "held"], cwd=program.home, stdin=subprocess.DEVNULL, stdout=subprocess.PIPE)
    with open(program.at("held"), "wb"):
        time.sleep(1)
        results = [expect(f"{words[0]} of a store in use", program.run(*words), (b"cannot open store\n", 1))
                   for words in (["get", "locked", "0:A", "v"], ["ls", "locked", "0:"], ["set", "locked", "0:A", "w", "sz", "a"], ["del", "locked", "0:A", "v"],
                                 ["del-tree", "locked", "0:A"])]
        waiting = subprocess.Popen([program.path, "wait", "20", "set", "locked", "0:A", "w", "sz", "a"], cwd=program.home, stdout=subprocess.PIPE)
        time.sleep(0.5)
    holder.communicate()
    results.append(expect("a command that waits", (waiting.communicate()[0], waiting.returncode), (b"committed 4\n", 0)))
    subprocess.run(["chmod", "-R", "a-w,a+rX", program.at("locked"), program.home], check=True)
    results += [expect("a value of a store that can't be written", program.run("get", "locked", "0:A", "w", **as_other()), (b"sz a\n", 0)),
                expect("a key of it", program.run("ls", "locked", "0:A", **as_other()), (b"key B\nkey D\nvalue v hex 07\nvalue w sz a\n", 0))]
    subprocess.run(["chmod", "-R", "u+w", program.home], check=True)
    return results


def others(program):
    """Values that `hivexget` reads from the hive's file after `set`."""
    if not are_there("others", "hivexget"):
        return []
    store(program, "others", 1)
    results = []
    for name, word, text, printed in (("s", "sz", "a b", "a b\n"), ("e", "expand", "%A%", "%A%\n"), ("d", "dword", "42", "42\n"),
                                      ("q", "qword", "1", "1\n"), ("m", "multi", "a\\0b", "a\nb\n\n")):
        program.run("set", "others", "0:A\\B", name, word, text)
        found = subprocess.run(["hivexget", program.at("others", "hive00.dat"), "\\A\\B", name], capture_output=True, check=False)
        results.append(expect(f"hivexget of {word} {text}", found.stdout.decode(), printed))
    return results


def main():
    if len(sys.argv) not in (2, 3):
        sys.exit(__doc__)
    seed = int(sys.argv[2]) if len(sys.argv) == 3 else random.randrange(1 << 32)
    print(f"seed {seed}")
    with program_at(sys.argv[1], "regtx-values-") as program:
        finish([tell("spelled", spelled(program)), tell("shown", shown_values(program, seed)), tell("listed", listed(program)),
                tell("again", again(program)), tell("raw", raw(program)), tell("created", created(program)), tell("wrong", wrong(program)), tell("locked", locked(program)), tell("others", others(program))])


main()
