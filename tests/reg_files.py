#!/usr/bin/env python3
"""Applies registration files to stores, and exports them:

    tests/reg_files.py PROGRAM [SEED]

- rows: files beside the script lines that say the same, and the words for prefixes. Both stores have to be dumped alike, but for
  times.
- faults: files with a wrong line, words that are wrong, and statements that are refused. Each prints its line with its status,
  and the store stays as it was.
- exports: what `export` and `export-utf8` print of a random store, and of a hive that reged wrote, is applied to new stores, which
  have the same keys, names, types and bytes; the export of these is the same text. TSV and JSON have the same keys and values, also of
  hives whose names no call may have. A key is exported alone, a store that can't be written is exported, and what no file can show is
  refused.
- names: names past ASCII in UTF-16, in UTF-8 and in TSV, byte for byte; half of a pair of surrogates, which UTF-8 can't show.
- units: a file with a unit of work, what `kept` tells of such, files that are applied once, one without an operation, files that
  are applied again, and the longest change.
- checked: the lines that `apply-check` prints, beside the first of them, which `apply` tells.
- stacks: commands on trees of 512 levels, with as much stack as docs/USING.md says is enough.
- kills: `apply` is ended by SIGKILL at 200 random moments. Of a file over two hives the store has all or nothing then.
- others: files that hivexregedit and reged write are applied, and these read ours, if they are installed; it says which are.
- wine: HKEY_LOCAL_MACHINE of a new prefix of Wine, with texts past ASCII, goes into a store, and from there back over one from which
  some of it was deleted. It is as before then, but for values that Wine writes anew at each start.

The seed is printed. The last line is 'N passed, N failed', and the status is 0 if none failed.
"""
import gzip
import json
import os
import random
import re
import resource
import shutil
import subprocess
import sys
import time

TOP = os.path.dirname(os.path.dirname(os.path.abspath(__file__)))
sys.dont_write_bytecode = True
sys.path[:0] = [os.path.join(TOP, "tests"), os.path.join(TOP, "runs", "hives")]
from maker import Key, Value, hive as made_hive  # noqa: E402
from scratch import are_there, as_other, expect, finish, limited, program_at, shown, tell  # noqa: E402

ID = "00112233-4455-6677-8899-aabbccddeeff"
UNIT = "936da01f-9abd-4d9d-80c7-02af85c822a8"
V5, V4 = "Windows Registry Editor Version 5.00\n", "REGEDIT4\n"
# what each store of rows and faults has in hive 0 before
BEFORE = ["create 0:A\\B\\C", "create 0:A\\D", "set 0:A v 3 07"]
KILLS, MOST_SECONDS = 200, 120
# how deep a tree may be, and the bytes of stack that are enough for it
LEVELS, STACK = 512, 786_432
# how many keys stand beside each key of a deep tree that leads on: more than the 16 that a leaf of a map holds
BESIDE = 17
# the names of the types from 0 on
TYPES = ("REG_NONE REG_SZ REG_EXPAND_SZ REG_BINARY REG_DWORD REG_DWORD_BIG_ENDIAN REG_LINK REG_MULTI_SZ REG_RESOURCE_LIST "
         "REG_FULL_RESOURCE_DESCRIPTOR REG_RESOURCE_REQUIREMENTS_LIST REG_QWORD").split()

# the words that print a registration file, and how it is encoded
ENCODINGS = {"export": "utf-16-le", "export-utf8": "ascii"}
# a hive with names past ASCII, as a file shows its keys; and what TSV shows of them, without times
PAST_ASCII = [("", []), ("Gr\u00f6\u00dfe 100%", ["\u65e5\u672c", "tab\there"]), ("\U0001f30e", ["\ufffd", "@", ""])]
LINES = "".join(f"[HIVE0{chr(92) + key if key else ''}]\r\n" + "".join(f'"{name}"=dword:00000001\r\n' if name else "@=dword:00000001\r\n"
                for name in sorted(names)) + "\r\n" for key, names in PAST_ASCII)
FIELDS = ["0:\t\t\t\t", "0:Gr\u00f6\u00dfe 100%0025\t\t\t\t", "0:Gr\u00f6\u00dfe 100%0025\ttab%0009here\tREG_DWORD\t01000000\t1",
          "0:Gr\u00f6\u00dfe 100%0025\t\u65e5\u672c\tREG_DWORD\t01000000\t1", "0:\U0001f30e\t\t\t\t",
          "0:\U0001f30e\t@\tREG_DWORD\t01000000\t1", "0:\U0001f30e\t%0040\tREG_DWORD\t01000000\t1",
          "0:\U0001f30e\t\ufffd\tREG_DWORD\t01000000\t1"]
# what the bytes from 0x80 on stand for in code page 1252: five have no character, and stand for the control of the same number
HIGH = bytes(range(0x80, 0x100))
HIGH_TEXT = "".join(bytes([byte]).decode("cp1252") if byte not in (0x81, 0x8d, 0x8f, 0x90, 0x9d) else chr(byte) for byte in HIGH)
HIGH_DATA = HIGH_TEXT.encode("utf-16-le").hex()

# a file, and the script lines that ask for the same
ROWS = [
    ('[H\\A]\n@="d"\n"p\\\\q"="\\"x"\n"e"=""\n"n"=dword:2A\n',
     ["create 0:A", "set 0:A @ 1 64000000", "set 0:A p\\q 1 220078000000", "set 0:A e 1 0000", "set 0:A n 4 2a000000"]),
    ('[h\\a b]\n"b"=hex:\n"@"=hex(ffff0012):01\n', ["create 0:a%0020b", "set 0:a%0020b b 3 -", "set 0:a%0020b %0040 4294901778 01"]),
    ('[H\\A]\n"x" = hex(2):41,00, \\ \n  00,\\\n00\n; C:\\\n"y"="z"\n', ["create 0:A", "set 0:A x 2 41000000", "set 0:A y 1 7a000000"]),
    ("[H\\]\n[-H\\A]\n[-H\\No]\n", ["create 0:", "delete 0:A\\D", "delete 0:A\\B\\C", "delete 0:A\\B", "delete 0:A"]),
    ('[H\\A]\n"v"="1"\n"V"="2"\n"v"=-\n"v"=-\n', ["create 0:A", "set 0:A v 1 31000000", "set 0:A V 1 32000000", "unset 0:A v"]),
    ("\ufeff" + V5 + '[H\\A]\n"v"="ä\r\nb"\n', ["create 0:A", "set 0:A v 1 e4000d000a0062000000"]),
    (V5.replace("\n", "\r\n") + '\r\n[HIVE0\\A\\E]\r\n"q"=hex(b):01,02,03,04,05,06,07,08\r\n', ["create 0:A\\E", "set 0:A\\E q 11 0102030405060708"]),
    (V4 + '[H\\A]\n"a"="b"\n"c"=dword:1\n', ["create 0:A", "set 0:A a 1 62000000", "set 0:A c 4 01000000"]),
    ("; a remark\n\n \t\n[H\\x;y]\n[H\\x]y]\n", ["create 0:x;y", "create 0:x]y"]),
    ('[H\\A] ; a key\n"a"="b;c" ; a text\n"d"=dword:0000000a;ten\n"e"=hex:01,02 ; x\n@=hex: ; none\n"v"=-\t; gone\n',
     ["create 0:A", "set 0:A a 1 62003b0063000000", "set 0:A d 4 0a000000", "set 0:A e 3 0102", "set 0:A @ 3 -", "unset 0:A v"]),
    ('[H\\A]\n"x"=hex(2):41,00,\\ ; goes on\n  00,00;x\n"y"="1\n2" ; x\n', ["create 0:A", "set 0:A x 2 41000000", "set 0:A y 1 31000a0032000000"]),
    ("[H\\x];y]\n[-H\\A] ;\n[H\\z] ; [w]\n[H\\z;]]\r\n",
     ["create 0:x];y", "delete 0:A\\D", "delete 0:A\\B\\C", "delete 0:A\\B", "delete 0:A", "create 0:z]%0020;%0020[w", "create 0:z;]"]),
    (V4.encode() + b'[H\\A]\n"w"="' + HIGH + b'"\n"x"="a\r\n\x80"\n', ["create 0:A", f"set 0:A w 1 {HIGH_DATA}0000", "set 0:A x 1 61000d000a00ac200000"]),
    (V4.encode() + b'[H\\A]\n"w"=hex(1):' + HIGH.hex(",").encode() + b',00\n"x"=hex(2):61,\\\n80\n"m"=hex(7):61,00,e4,00,00\n"b"=hex:80\n"c"=hex(3):80\n',
     ["create 0:A", f"set 0:A w 1 {HIGH_DATA}0000", "set 0:A x 2 6100ac20", "set 0:A m 7 61000000e40000000000", "set 0:A b 3 80", "set 0:A c 3 80"]),
    (V4.encode() + '[H\\A]\n"w"="ä"\n'.encode(), ["create 0:A", "set 0:A w 1 c300a4000000"]),
    (b"\xef\xbb\xbf" + V4.encode() + '[H\\A]\n"w"="ä"\n"x"=hex(2):80\n'.encode(), ["create 0:A", "set 0:A w 1 e4000000", "set 0:A x 2 ac20"]),
    ("\ufeff" + V4 + '[H\\A]\n"w"="ä"\n"x"=hex(2):80\n', ["create 0:A", "set 0:A w 1 e4000000", "set 0:A x 2 ac20"]),
]

# words for prefixes, a file, and the script lines that ask for the same
PREFIX_ROWS = [
    (["HKCR=0:Classes"], '[HKCR]\n@="r"\n[hkcr\\.txt]\n[HKCR\\x y\\z]\n[HIVE0\\HKCR]\n',
     ["create 0:Classes", "set 0:Classes @ 1 72000000", "create 0:Classes\\.txt", "create 0:Classes\\x%0020y\\z", "create 0:HKCR"]),
    (["K=0:A\\B"], "[-K\\C]\n[-K]\n[K\\E]\n", ["delete 0:A\\B\\C", "delete 0:A\\B", "create 0:A\\B\\E"]),
    (["HKLM\\SYSTEM=1", "HKLM\\SYSTEM\\CurrentControlSet=1:ControlSet001"],
     "[HKLM\\SYSTEM\\Select]\n[HKLM\\SYSTEM\\CurrentControlSet\\Services\\X]\n[HKLM\\SYSTEM\\CurrentControlSets]\n[HKLM\\System\\currentcontrolset]\n",
     ["create 1:Select", "create 1:ControlSet001\\Services\\X", "create 1:CurrentControlSets", "create 1:ControlSet001"]),
    (["HKLM\\SYSTEM\\CurrentControlSet=1:ControlSet001", "HKLM=0:", "HKLM\\SYSTEM=1:"],
     "[HKLM\\SYSTEM\\CurrentControlSet\\X]\n[HKLM\\SYSTEM\\X]\n[HKLM\\X]\n[HKLM\\SYSTEMX]\n",
     ["create 1:ControlSet001\\X", "create 1:X", "create 0:X", "create 0:SYSTEMX"]),
    (["hive0\\A=1:a b", "P=Q=0", "R=0:=1:%41"], "[HIVE0\\A\\X]\n[HIVE0\\AX]\n[P=Q\\Y]\n[R\\Z]\n",
     ["create 1:a%0020b\\X", "create 0:AX", "create 0:Y", "create 0:=1:%002541\\Z"]),
]

# a file, the words after it, what is printed, and the status
FAULTS = [
    (b"", [], "line 1: no header", 2),
    (b"Windows Registry Editor Version 4.00\n", [], "line 1: no header", 2),
    (V5.encode("utf-16-le"), [], "line 1: no header", 2),
    (b"\xfe\xff" + V5.encode("utf-16-be"), [], "line 1: not text", 2),
    (V5.encode("utf-16-be"), [], "line 1: no header", 2),
    (V5.encode() + b"[H\\B]\n\xff\n", ["H=0"], "line 3: not text", 2),
    (b"\xff\xfe" + (V5 + "[H\\B]\n").encode("utf-16-le") + b";", ["H=0"], "line 3: not text", 2),
    (V4.encode() + b'[H\\A]\n"\xe4"="x"\n', ["H=0"], "line 3: E4 BadName", 1),
    (V4.encode() + b"[H\\B]\n[H\\\x80]\n", ["H=0"], "line 3: E4 BadName", 1),
    (b"\xef\xbb\xbf" + V4.encode() + b'[H\\A]\n"w"="\xe4"\n', ["H=0"], "line 3: not text", 2),
    (V4.encode() + b'[H\\A]\n"w"="\0"\n', ["H=0"], "line 3: not understood", 2),
    (V4 + '[H\\B]\n"v"=hex(2):' + ",".join(["61"] * 524_289) + "\n", ["H=0"], "line 3: E6 TooLarge", 1),
    (V5 + "[H\\A]\n[HKEY_CURRENT_USER\\A]\n", ["H=0"], "line 3: no hive", 2),
    (V5 + "[HIVE1\\A]\n", [], "line 2: no hive", 2),
    (V5 + '[H\\B]\n"v"="a\\nb"\n', ["H=0"], "line 3: not understood", 2),
    (V5 + '[H\\B]\n"v"=hex:1,2\n', ["H=0"], "line 3: not understood", 2),
    (V5 + '[H\\B]\n"v"=hex:01,\\', ["H=0"], "line 3: not understood", 2),
    (V5 + '[H\\B]\n"v"=hex:01,\n', ["H=0"], "line 3: not understood", 2),
    (V5 + '[H\\B]\n"v"=hex:01, ; a remark\n', ["H=0"], "line 3: not understood", 2),
    (V5 + '[H\\B]\n"v"=hex:01,\\ x ; a remark\n02\n', ["H=0"], "line 3: not understood", 2),
    (V5 + '[H\\B]\n"v"=hex:01,\\\n; a remark\n02\n', ["H=0"], "line 3: not understood", 2),
    (V5 + '[H\\B]\n"v"=dword:1 2 ; a remark\n', ["H=0"], "line 3: not understood", 2),
    (V5 + '[H\\B]\n"v"="1" "2" ; a remark\n', ["H=0"], "line 3: not understood", 2),
    (V5 + '[H\\B]\n"v" ; a remark\n', ["H=0"], "line 3: not understood", 2),
    (V5 + "[H\\B] x ; a remark\n", ["H=0"], "line 2: not understood", 2),
    (V5.rstrip("\n") + " ; a remark\n", ["H=0"], "line 1: no header", 2),
    (V5 + '[H\\B]\n"v"=str:"a"\n', ["H=0"], "line 3: not understood", 2),
    (V5 + '[H\\B]\n"v"="a\n"w"=dword:1\n', ["H=0"], "line 3: not understood", 2),
    (V5 + "[H\\B\n", ["H=0"], "line 2: not understood", 2),
    (V5 + '"v"="1"\n', ["H=0"], "line 2: no key", 2),
    (V5 + '[-H\\B]\n"v"="1"\n', ["H=0"], "line 3: no key", 2),
    (V5 + "[H\\B]\n[H\\ä]\n", ["H=0"], "line 3: E4 BadName", 1),
    (V5 + "[H\\B]\n[-H]\n", ["H=0"], "line 3: E18 Fixed", 1),
    (V5 + "[H\\B]\n[H\\\\C]\n", ["H=0"], "line 3: E4 BadName", 1),
    (V5 + "[H\\" + "\\".join("abcdefgh" * 5) + "]\n", ["H=0"], "line 2: E5 TooDeep", 1),
    (V5 + "[H\\" + "\\".join("k" * 513) + "]\n", ["H=0"], "line 2: E5 TooDeep", 1),
    (V5 + '[H\\B]\n"' + "n" * 16_384 + '"="1"\n', ["H=0"], "line 3: E4 BadName", 1),
    (V5 + '[H\\B]\n"v"=hex:' + ",".join(["00"] * 1_048_577) + "\n", ["H=0"], "line 3: E6 TooLarge", 1),
    (V5 + "[H\\B]\n" + "".join(f'"v{number}"=hex:' + ",".join(["00"] * 1_048_576) + "\n" for number in range(4)), ["H=0"], "line 6: E6 TooLarge", 1),
    (V5 + '[H\\B]\n"v"="' + "t" * 4_194_300 + '"\n', ["H=0"], "line 3: E6 TooLarge", 1),
    (V5, ["H"], "wrong words", 2),
    (V5, ["H=16"], "wrong words", 2),
    (V5, ["H=0", "h=0"], "wrong words", 2),
    (V5, ["H\\A=0", "h\\a=0:B"], "wrong words", 2),
    (V5, ["hive3=0"], "wrong words", 2),
    (V5, ["H=16:A"], "wrong words", 2),
    (V5, ["H=:A"], "wrong words", 2),
    (V5, ["H=0A"], "wrong words", 2),
    (V5, ["H=0:\\A"], "wrong words", 2),
    (V5, ["H=0:A\\"], "wrong words", 2),
    (V5, ["H=0:A\\\\B"], "wrong words", 2),
    (V5, ["H=0:ä"], "wrong words", 2),
    (V5, ["-H=0"], "wrong words", 2),
    (V5, ["H\\=0"], "wrong words", 2),
    (V5, ["=0"], "wrong words", 2),
    (V5, ["H=+1"], "wrong words", 2),
]


def encoded(text):
    """A file's bytes: UTF-16 if the text begins with the mark."""
    if isinstance(text, bytes):
        return text
    if text.startswith("\ufeff"):
        return text.encode("utf-16-le")
    return text.encode()


def store(program, name, hives, lines=()):
    """A new store in which these lines were run."""
    shutil.rmtree(program.at(name), ignore_errors=True)
    program.run("new", name, ID, str(hives))
    if lines:
        program.put("script", "".join(f"{line}\n" for line in ["at 7", *lines]).encode())
        printed, status = program.run("run", name, "script")
        assert status == 0, printed
    return name


def dump(program, name, hive=0, with_times=False):
    """The lines of a hive of a store, without times."""
    printed, status = program.run("dump", f"{name}/hive{hive:02}.dat")
    lines = [line.split(b" ") for line in printed.splitlines()]
    return status, [line if with_times or line[0] != b"key" else line[:2] for line in lines]


def rows(program):
    results = []
    for number, (text, lines) in enumerate(ROWS):
        if isinstance(text, str) and not text.startswith(("\ufeff", "Windows", "REGEDIT4")):
            text = V5 + text
        store(program, "by_file", 1, BEFORE)
        store(program, "by_lines", 1, BEFORE)
        program.put("file.reg", encoded(text))
        program.put("script", "".join(f"{line}\n" for line in [f"begin t {UNIT}", *(f"tx t {line}" for line in lines), "commit t"]).encode())
        results.append(expect(f"row {number}", program.run("apply", "by_file", "file.reg", "H=0"), (b"applied 4\n", 0)))
        program.run("run", "by_lines", "script")
        results.append(expect(f"row {number}, the store", dump(program, "by_file"), dump(program, "by_lines")))
    return results


def prefixes(program):
    results = []
    for number, (words, text, lines) in enumerate(PREFIX_ROWS):
        store(program, "by_file", 2, BEFORE)
        store(program, "by_lines", 2, BEFORE)
        program.put("file.reg", encoded(V5 + text))
        program.put("script", "".join(f"{line}\n" for line in [f"begin t {UNIT}", *(f"tx t {line}" for line in lines), "commit t"]).encode())
        results.append(expect(f"prefixes {number}", program.run("apply", "by_file", "file.reg", *words), (b"applied 4\n", 0)))
        program.run("run", "by_lines", "script")
        results += [expect(f"prefixes {number}, hive {hive}", dump(program, "by_file", hive), dump(program, "by_lines", hive)) for hive in range(2)]
    program.put("file.reg", encoded(V5 + "[KX]\n"))
    results.append(expect("a prefix within a name", program.run("apply", "by_file", "file.reg", "K=0:A"), (b"line 2: no hive\n", 2)))
    results.append(expect("a hive that isn't there", program.run("apply", "by_file", "file.reg", "KX=2:A"), (b"line 2: no hive\n", 2)))
    results += [expect(f"a word that calls take no path of: {len(name)}", program.run("apply", "by_file", "file.reg", word), (b"wrong words\n", 2))
                for name in ("k" * 256, "\\".join("k" * 513)) for word in (f"KX=0:{name}", f"{name}=0")]
    results += [expect(f"an export by {words}", program.run("export", "by_file", *words), (b"wrong words\n", 2))
                for words in (["K=0:A"], ["H=0", "H\\A=1"], ["H=0", "h=1"], ["HIVE0\\A=1"])]
    results.append(expect("an export by a root", program.run("export-utf8", "by_file", "0:A\\D", "K=0:"),
                          (f"{V5}\n[K\\A\\D]\n\n".replace("\n", "\r\n").encode(), 0)))
    return results


def faults(program):
    results = []
    store(program, "faulty", 1, BEFORE)
    wanted = dump(program, "faulty", with_times=True)
    for number, (text, words, line, status) in enumerate(FAULTS):
        program.put("file.reg", encoded(text))
        results.append(expect(f"fault {number}", program.run("apply", "faulty", "file.reg", *words), (f"{line}\n".encode(), status)))
    results.append(expect("the store after all faults", dump(program, "faulty", with_times=True), wanted))
    results.append(expect("a file that isn't there", program.run("apply", "faulty", "no.reg"), (b"cannot read file\n", 1)))
    results.append(expect("a store that isn't there", program.run("apply", "nowhere", "file.reg"), (b"E16 JournalDamaged\n", 1)))
    return results


def units(program):
    store(program, "units", 2, BEFORE)
    program.put("file.reg", encoded(V5 + "[HIVE1\\A]\n"))
    program.put("nothing.reg", encoded(V5 + '[HIVE1\\A]\n[-HIVE0\\No]\n"v"=-\n'))
    program.put("none.reg", encoded(V5))
    return [expect("a unit of work", program.run("apply", "units", "file.reg", UNIT), (b"applied 4\n", 0)),
            expect("no statement", program.run("apply", "units", "none.reg"), (b"applied 0\n", 0)),
            expect("a value without a key", program.run("apply", "units", "nothing.reg"), (b"line 4: no key\n", 2)),
            expect("what is so already", program.run("apply", "units", "file.reg"), (b"applied 0\n", 0)), *kept(program), *once(program), *again(program), *longest(program)]


def kept(program):
    """Units of work, asked for while nothing is written: the store's files stay as they are, and may be those of another user."""
    store(program, "kept", 1, BEFORE)
    other = UNIT.replace("936d", "936e")
    results = []
    for number, (unit, marker) in enumerate([(UNIT, "1"), (other, "2"), (UNIT.upper(), "3")]):
        program.put("kept.reg", encoded(V5 + f'[HIVE0\\A]\n"kept"="{marker}"\n'))
        results += [expect(f"kept before {marker}", program.run("kept", "kept", other), (b"committed 5\n", 0) if number == 2 else (b"E2 NotFound\n", 3)),
                    expect(f"applied for {unit}", program.run("apply", "kept", "kept.reg", unit), (f"applied {number + 4}\n".encode(), 0))]
    before = files_of(program, "kept")
    # each spelling of a UUID names the same unit, and its last commit counts
    for unit, printed, status in ((UNIT, b"committed 6\n", 0), (UNIT.upper(), b"committed 6\n", 0), (f"{{{UNIT}}}", b"committed 6\n", 0), (UNIT.replace("-", ""), b"committed 6\n", 0),
                                  (f"urn:uuid:{UNIT}", b"committed 6\n", 0), (other, b"committed 5\n", 0), (ID, b"E2 NotFound\n", 3), (UNIT[:-1], b"wrong words\n", 2), ("", b"wrong words\n", 2)):
        results.append(expect(f"kept {unit}", program.run("kept", "kept", unit), (printed, status)))
    for words, printed, status in ((["kept"], b"wrong words\n", 2), (["kept", "kept"], b"wrong words\n", 2), (["kept", "kept", UNIT, UNIT], b"wrong words\n", 2),
                                   (["kept", "nowhere", UNIT], b"E16 JournalDamaged\n", 1), (["kept", "kept.reg", UNIT], b"cannot open store\n", 1),
                                   (["kept", first_layout(program, "first"), UNIT], b"E17 Unsupported\n", 1)):
        results.append(expect(f"{words}", program.run(*words), (printed, status)))
    subprocess.run(["chmod", "-R", "a-w,a+rX", program.at("kept"), program.home], check=True)
    results.append(expect("a unit of a store that can't be written", program.run("kept", "kept", UNIT, **as_other()), (b"committed 6\n", 0)))
    subprocess.run(["chmod", "-R", "u+w", program.home], check=True)
    return results + [expect("the store's files", files_of(program, "kept"), before)]


def once(program):
    """Files that are applied once: each unit's first file is applied, and those after it aren't even judged."""
    store(program, "once", 1, BEFORE)
    other = ID
    program.put("one.reg", encoded(V5 + '[H\\A]\n"once"="1"\n'))
    program.put("two.reg", encoded(V5 + '[H\\A]\n"once"="2"\n'))
    program.put("bad.reg", encoded(V5 + "[H\\A]\n?\n"))
    program.put("none.reg", encoded(V5))
    results = []
    for file, words, printed, status in (
            ("bad.reg", ["once", UNIT], b"line 3: not understood\n", 2), ("none.reg", ["once", UNIT], b"applied 0\n", 0), ("one.reg", ["once", UNIT], b"applied 4\n", 0),
            ("one.reg", ["once", UNIT], b"applied 4\n", 0), ("two.reg", ["once", UNIT.upper()], b"applied 4\n", 0), ("bad.reg", ["once", UNIT], b"applied 4\n", 0),
            ("two.reg", ["once", other], b"applied 5\n", 0), ("one.reg", ["once", UNIT], b"applied 4\n", 0), ("two.reg", [UNIT], b"applied 0\n", 0),
            ("one.reg", [UNIT], b"applied 6\n", 0), ("two.reg", ["once", UNIT], b"applied 6\n", 0), ("one.reg", ["once"], b"wrong words\n", 2),
            ("one.reg", ["ONCE", UNIT], b"wrong words\n", 2), ("one.reg", [UNIT, "once"], b"wrong words\n", 2), ("one.reg", ["once", "once", UNIT], b"wrong words\n", 2),
            ("one.reg", ["once", "x"], b"wrong words\n", 2)):
        results.append(expect(f"{file} {words}", program.run("apply", "once", file, "H=0", *words), (printed, status)))
    results.append(expect("the value", [line for line in dump(program, "once")[1] if line[1] == b"once"], [[b"val", b"once", b"1", b"31000000"]]))
    store(program, "word", 1, BEFORE)
    program.put("word.reg", encoded(V5 + "[once\\B]\n"))
    results += [expect("a prefix `once`", program.run("apply", "word", "word.reg", "once=0", "once", UNIT), (b"applied 4\n", 0)),
                expect("a store without outcomes", program.run("apply", first_layout(program, "first"), "one.reg", "H=0", "once", UNIT), (b"E17 Unsupported\n", 1)),
                expect("the same, not once", program.run("apply", "first", "one.reg", "H=0", UNIT), (b"applied 1\n", 0))]
    return results


# a file, the lines that `apply-check` prints, and its status
CHECKED = [
    ("", [], 0),
    ('[H\\B]\n"v"="1"\n[-H\\A]\n[H\\A\\B]\n', [], 0),
    # each line is tried after those before it that were taken: the key is gone, and made again
    ('[-H\\A]\n[H\\C]\n"v"=-\n[H\\A\\B\\C\\D]\n', [], 0),
    ('[H\\B]\n[X\\A]\n"v"="1"\n[H\\B]\n"v"="1"\n', ["line 3: no hive", "line 4: no key"], 2),
    ('[H\\\u00e4]\n"v"="1"\n"w"=-\n[-H]\n"x"="1"\n[H\\B]\n"v"="1"\n',
     ["line 2: E4 BadName", "line 3: no key", "line 4: no key", "line 5: E18 Fixed", "line 6: no key"], 1),
    # what is refused changes nothing: neither the key that is too deep, nor what is deleted below the root
    ("[H\\" + "\\".join("k" * 33) + ']\n"v"="1"\n[H\\k]\n[H\\' + "\\".join("k" * 33) + "]\n", ["line 2: E5 TooDeep", "line 3: no key"], 1),
    ('[H\\A]\n"' + "n" * 16_384 + '"="1"\n"v"="1"\n', ["line 3: E4 BadName"], 1),
    ('[H\\A]\n"v"=hex:' + ",".join(["00"] * 1_048_577) + '\n"w"=hex:00\n', ["line 3: E6 TooLarge"], 1),
    # a value that makes the change too long is left out, and a shorter one behind it isn't
    ("[H\\B]\n" + "".join(f'"v{number}"=hex:' + ",".join(["00"] * 1_048_576) + "\n" for number in range(4)) + '"v4"=hex:00\n"v5"=hex:' + ",".join(["00"] * 1_048_576) + "\n",
     ["line 6: E6 TooLarge", "line 8: E6 TooLarge"], 1),
    # a line that isn't understood ends the file
    ('[X\\B]\n[H\\A]\n"v"\n[X\\B]\n', ["line 2: no hive", "line 4: not understood"], 2),
    ('[H\\\u00e4]\n?\n', ["line 2: E4 BadName", "line 3: not understood"], 1),
    ('"v"="1"\n', ["line 2: no key"], 2),
]


def checked(program):
    """Which lines are refused; the store stays as it is, and may be one that can't be written."""
    store(program, "checked", 1, BEFORE)
    before, results = files_of(program, "checked"), []
    for number, (text, lines, status) in enumerate(CHECKED):
        program.put("check.reg", encoded(V5 + text))
        printed = "".join(f"{line}\n" for line in lines or ["ok"]).encode()
        results.append(expect(f"check {number}", program.run("apply-check", "checked", "check.reg", "H=0"), (printed, status)))
        # `apply` tells the first of them, or applies
        store(program, "applied", 1, BEFORE)
        first, ended = program.run("apply", "applied", "check.reg", "H=0")
        results.append(expect(f"check {number}, applied", (first, ended != 0) if lines else (first[:8], ended), (f"{lines[0]}\n".encode(), True) if lines else (b"applied ", 0)))
    for number, (text, words, line, status) in enumerate(FAULTS):
        program.put("check.reg", encoded(text))
        printed, ended = program.run("apply-check", "checked", "check.reg", *words)
        results.append(expect(f"check of fault {number}", (printed.splitlines()[:1], ended), ([line.encode()], status)))
    program.put("check.reg", encoded(V5 + "[HIVE0\\A]\n"))
    for words, printed, status in (([], b"wrong words\n", 2), (["checked"], b"wrong words\n", 2), (["checked", "check.reg", UNIT], b"wrong words\n", 2),
                                   (["checked", "check.reg", "once", UNIT], b"wrong words\n", 2), (["checked", "none.file"], b"cannot read file\n", 1),
                                   (["nowhere", "check.reg"], b"E16 JournalDamaged\n", 1), (["check.reg", "check.reg"], b"cannot open store\n", 1),
                                   ([first_layout(program, "first"), "check.reg"], b"ok\n", 0)):
        results.append(expect(f"apply-check {words}", program.run("apply-check", *words), (printed, status)))
    subprocess.run(["chmod", "-R", "a-w,a+rX", program.at("checked"), program.home], check=True)
    results.append(expect("a check on a store that can't be written", program.run("apply-check", "checked", "check.reg", **as_other()), (b"ok\n", 0)))
    subprocess.run(["chmod", "-R", "u+w", program.home], check=True)
    return results + [expect("the store's files", files_of(program, "checked"), before)]


def files_of(program, name):
    """The bytes of each file of a store."""
    found = {}
    for file in sorted(os.listdir(program.at(name))):
        with open(program.at(name, file), "rb") as content:
            found[file] = content.read()
    return found


def again(program):
    """A file that is applied again asks for nothing, unless a value has another type or other bytes."""
    store(program, "again", 1, BEFORE)
    text = V5 + '[HIVE0\\A\\B]\n@="d"\n"v"=dword:1\n[HIVE0\\A]\n"V"=hex:07\n[-HIVE0\\No]\n'
    program.put("again.reg", encoded(text))
    results = [expect("a file of values", program.run("apply", "again", "again.reg"), (b"applied 4\n", 0))]
    wanted = dump(program, "again", with_times=True)
    results += [expect("the same again", program.run("apply", "again", "again.reg"), (b"applied 0\n", 0)),
                expect("the store and its times", dump(program, "again", with_times=True), wanted)]
    for number, (old, new) in enumerate([("dword:1", "hex(4):01,00,00"), ("hex(4):01,00,00", "hex(3):01,00,00"), ('@="d"', '@="D"')]):
        text = text.replace(old, new)
        program.put("again.reg", encoded(text))
        results += [expect(f"{new} for {old}", program.run("apply", "again", "again.reg"), (f"applied {number + 5}\n".encode(), 0)),
                    expect(f"{new} again", program.run("apply", "again", "again.reg"), (b"applied 0\n", 0))]
    # the spelling of a name that is there stays, and the last of two writes counts
    program.put("twice.reg", encoded(V5 + '[HIVE0\\A]\n"W"="1"\n"w"="1"\n"w"="2"\n"W"="1"\n'))
    results += [expect("writes of one value", program.run("apply", "again", "twice.reg"), (b"applied 8\n", 0)),
                expect("the value", [line for line in dump(program, "again")[1] if line[1].lower() in (b"v", b"w")],
                       [[b"val", b"v", b"3", b"07"], [b"val", b"W", b"1", b"31000000"], [b"val", b"v", b"3", b"010000"]]),
                expect("the writes again", program.run("apply", "again", "twice.reg"), (b"applied 9\n", 0))]
    return results


def first_layout(program, name):
    """A new store of one hive, made one of the first layout: its journal says so, and it has no hive of outcomes."""
    store(program, name, 1)
    with open(program.at(name, "journal"), "r+b") as journal:
        journal.seek(7)
        journal.write(b"1")
    os.remove(program.at(name, "hive01.dat"))
    return name


def longest(program):
    """The longest change. 16 bytes begin it, the key takes 6, a value 18 and its data; a store with outcomes sets aside 100."""
    most, results = 4_194_304, []
    for title, make, aside in (("with outcomes", lambda name: store(program, name, 1), 100), ("without", lambda name: first_layout(program, name), 0)):
        last = most - aside - 16 - 6 - 3 * (18 + 1_048_576) - 18
        for count, printed, status in ((last + 1, "line 6: E6 TooLarge", 1), (last, "applied 1", 0)):
            data = [",".join(["00"] * length) for length in (1_048_576, 1_048_576, 1_048_576, count)]
            program.put("long.reg", encoded(V5 + "[HIVE0\\E]\n" + "".join(f'"v{number}"=hex:{text}\n' for number, text in enumerate(data)) + '"no"=-\n[HIVE0]\n'))
            results.append(expect(f"a change of {most - last + count} bytes, {title}", program.run("apply", make("long"), "long.reg"), (f"{printed}\n".encode(), status)))
    return results


def hive_of_others(program, name):
    """A hive that another program wrote, of runs/hives."""
    with gzip.open(os.path.join(TOP, "runs", "hives", f"{name}.hive.gz")) as file:
        return program.put(f"{name}.dat", file.read())


def hive_dump(program, file, hive=0):
    """The lines of a hive's file, without times; its paths as those of this hive."""
    printed, status = program.run("dump", file)
    assert status == 0, printed
    lines = (line.split(b" ") for line in printed.splitlines()[1:])
    return [[b"key", b"%d" % hive + line[1][1:]] if line[0] == b"key" else line for line in lines]


def spelling(text):
    """A text as a script writes it: each unit that isn't a printable one of ASCII by its four digits."""
    return "".join(c if "!" <= c <= "~" and c not in '%"' else f"%{ord(c):04x}" for c in text)


def random_lines(chances):
    """Lines that make keys and values of three hives, with all that a call's names may have."""
    letters = "abAB01 ;]\"@[=%~-"
    lines, paths = [], {hive: [] for hive in range(3)}
    for _ in range(120):
        hive = chances.randrange(3)
        above = chances.choice([""] + paths[hive])
        path = "\\".join(part for part in (above, spelling("".join(chances.choices(letters, k=chances.randint(1, 9))))) if part)
        paths[hive].append(path)
        lines.append(f"create {hive}:{path}")
        for _ in range(chances.randrange(5)):
            name = "".join(chances.choices(letters + "\\", k=chances.randrange(8)))
            kind = chances.choice([*range(13), 0xffff0012])
            data = bytes(chances.choices(b"\0\0ab\x22\x5c\r\n\xd8\x41", k=chances.choice([0, 1, 2, 4, 4, 8, 8, 30, 31, 400])))
            spelled = "%0040" if name == "@" else spelling(name) or "@"
            lines.append(f"set {hive}:{path} {spelled} {kind} {data.hex() or '-'}")
    return lines


def wild_hive(chances):
    """A hive with names that no call may have, but for a zero and a line's end."""
    letters = "ab \";\x01\t\x7f\u00e4\u0141\u4e2d\ud800\udfff\uffff"

    def key(depth):
        names = {"".join(chances.choices(letters, k=chances.randint(1, 6))) for _ in range(6)}
        values = [Value(name, chances.randrange(13), b"\xd8\0") for name in names]
        return [Key(name, values=values, keys=key(depth - 1) if depth else []) for name in names]
    return made_hive(Key("ROOT", keys=key(2)))[0]


def read_name(name):
    """The text of a name in a reply or in TSV: UTF-8, with `%` and four digits for a unit."""
    units = re.sub("%([0-9a-f]{4})", lambda match: chr(int(match[1], 16)), name.decode())
    return units.encode("utf-16-le", "surrogatepass").decode("utf-16-le", "surrogatepass")


def rows_of_tsv(program, source):
    """The lines of `dump`, as `export-tsv` has them: names are texts here."""
    rows = []
    for line in program.run("export-tsv", source)[0].split(b"\n")[:-1]:
        path, _, name, kind, data, _ = line.split(b"\t")
        known = kind.decode()
        rows.append([read_name(path)] if not kind else ["" if name == b"@" else read_name(name), TYPES.index(known) if known in TYPES else int(known, 16),
                                                        "" if data == b"-" else data.decode()])
    return rows


def rows_of_json(program, source):
    """The lines of `dump`, as `export-json` has them: names are texts there."""
    rows = []
    for line in program.run("export-json", source)[0].splitlines():
        found = json.loads(line)
        if "name" in found:
            known = found["type"]
            rows.append([found["name"], TYPES.index(known) if known in TYPES else int(known, 16), found["data"]])
        else:
            rows.append([f"{found['hive']}:{found['key']}"])
    return rows


def as_text(row):
    """A line of `dump` with its names as texts."""
    if row[0] == b"key":
        return [read_name(row[1])]
    return ["" if row[1] == b"@" else read_name(row[1]), int(row[2]), "" if row[3] == b"-" else row[3].decode()]


def there_and_back(program, title, source, hives, wanted):
    """Exports applied to new stores: their lines, and their own exports."""
    texts, results = {}, []
    flat = [line for lines in wanted for line in lines]
    for word in ENCODINGS:
        texts[word], status = program.run(word, source)
        if status:
            return [f"{title}: {shown(texts[word])}, {status}"]
        program.put("export.reg", texts[word])
        store(program, "copy", hives)
        applied = program.run("apply", "copy", "export.reg")
        found = [line for hive in range(hives) for line in hive_dump(program, f"copy/hive{hive:02}.dat", hive)]
        results += [expect(f"{title}, {word}, applied", applied, (b"applied 1\n", 0)), expect(f"{title}, {word}, the copy", found, flat),
                    expect(f"{title}, {word}, the copy's export", program.run(word, "copy")[0], texts[word])]
    same = [text.decode(ENCODINGS[word]) for word, text in texts.items()]
    return [*results, expect(f"{title}, the same text", same[0], "\ufeff" + same[1]), *as_lines(program, title, source, flat)]


def as_lines(program, title, source, wanted):
    """TSV and JSON beside the lines of `dump`."""
    texts = [as_text(line) for line in wanted]
    return [expect(f"{title}, TSV", rows_of_tsv(program, source), texts), expect(f"{title}, JSON", rows_of_json(program, source), texts)]


def tagged_hive(chances):
    """A hive whose keys have flags, classes and descriptors at random, and rows of these by paths."""
    rows, classes = {}, [b"", b"a", "Class".encode("utf-16-le"), '"\\\n\u00e4\u4e2d'.encode("utf-16-le"), b"\0\xd8", bytes(range(31))]

    def key(path, depth):
        flags = chances.choice([0, 2, 4, 8, 0x10, 0x4f80 & ~0x40])
        its = Key(path[-1] if path else "ROOT", flags=flags, class_bytes=chances.choice(classes),
                  descriptor=chances.choice([b"", b"one", bytes(range(200))]))
        rows[":".join(["0", "\\".join(path)])] = (flags, its.class_bytes, its.descriptor)
        its.keys = [key((*path, name), depth - 1) for name in "abc"] if depth else []
        return its
    return made_hive(key((), 3))[0], rows


def class_of(found):
    """The bytes of a class, from a line of JSON."""
    return found["class"].encode("utf-16-le", "surrogatepass") if "class" in found else bytes.fromhex(found.get("class_hex", ""))


def tags(program, seed):
    """Flags, classes and descriptors in lines of JSON, beside those that the hive was made with. Lines of values have none."""
    file, rows = tagged_hive(random.Random(seed))
    found = [json.loads(line) for line in program.run("export-json", program.put("tagged.dat", file))[0].splitlines()]
    as_told = {f"{each['hive']}:{each['key']}": (each["flags"], class_of(each), bytes.fromhex(each.get("descriptor", ""))) for each in found}
    odd = [each for each in found if len(class_of(each)) % 2 == 0 and "class_hex" in each or "" in (each.get("class"), each.get("descriptor"))]
    values = [json.loads(line) for line in program.run("export-json", hive_of_others(program, "reged"))[0].splitlines()]
    return [expect("flags, classes, descriptors", as_told, rows), expect("fields without bytes, or of whole units", odd, []),
            expect("fields of values", {field for each in values if "name" in each for field in each} & {"flags", "class", "descriptor"}, set())]


def wild(program, title, file):
    """A hive with names that no call may have: each is printed, and `apply` refuses the file."""
    wanted = hive_dump(program, file)
    text, status = program.run("export", file)
    program.put("export.reg", text)
    store(program, "copy", 1)
    lines = text.decode("utf-16-le", "surrogatepass").split("\r\n")
    _, applied = program.run("apply", "copy", "export.reg")
    return [expect(f"{title}, status", (status, applied), (0, 1)), *as_lines(program, title, file, wanted),
            expect(f"{title}, keys", [line[7:-1].lstrip("\\") for line in lines if line.startswith("[HIVE0")],
                   [as_text(line)[0][2:] for line in wanted if line[0] == b"key"])]


def parts(program, source):
    """A key alone is those blocks of the whole that begin with its path."""
    whole = program.run("export-utf8", source)[0].decode().split("\r\n\r\n")
    alone = program.run("export-utf8", source, "0:A\\B", "H\\X=0")
    wanted = [whole[0], *(block.replace("[HIVE0", "[H\\X") for block in whole if re.match(r"\[HIVE0\\A\\B[\]\\]", block))]
    return [expect("a key alone", alone, ("\r\n\r\n".join([*wanted, ""]).encode(), 0))]


def exports(program, seed):
    chances = random.Random(seed)
    store(program, "source", 3, random_lines(chances))
    results = there_and_back(program, "a store", "source", 3,
                             [hive_dump(program, f"source/hive{hive:02}.dat", hive) for hive in range(3)])
    file = hive_of_others(program, "reged")
    results += there_and_back(program, "reged", file, 1, [hive_dump(program, file)])
    results += wild(program, "hivex", hive_of_others(program, "hivex"))
    results += wild(program, "a wild hive", program.put("wild.dat", wild_hive(chances)))
    results += tags(program, seed)
    store(program, "plain", 1, [*BEFORE, "create 0:A\\BB", "set 0:A\\B w 4 01000000"])
    results += parts(program, "plain")
    results += [expect(f"refused: {words}", program.run(kind, "plain", *words), wanted)
                for kind in (*ENCODINGS, "export-json", "export-tsv")
                for words, wanted in ((["0:A\\No"], (b"E2 NotFound\n", 1)), (["1:A"], (b"E2 NotFound\n", 1)))]
    for ending in "\r\n\0":
        program.put("odd.dat", made_hive(Key("ROOT", keys=[Key("A"), Key("B", values=[Value(f"a{ending}b")])]))[0])
        results += [expect(f"{word}: a name with {ending!r}", program.run(word, "odd.dat"), (b"E4 BadName\n", 1)) for word in ENCODINGS]
    before = program.run("export", "plain")
    subprocess.run(["chmod", "-R", "a-w,a+rX", program.at("plain"), program.home], check=True)
    results.append(expect("a store that can't be written", program.run("export", "plain", **as_other()), before))
    subprocess.run(["chmod", "-R", "u+w", program.home], check=True)
    return results


def names(program):
    """Names past ASCII in each form; and half of a pair of surrogates."""
    def key(name, names=()):
        return Key(name, values=[Value(value, 4, b"\1\0\0\0") for value in names])
    file = program.put("past.dat", made_hive(Key("ROOT", keys=[key(*its) for its in PAST_ASCII[1:]]))[0])
    text = "Windows Registry Editor Version 5.00\r\n\r\n" + LINES
    results = [expect("UTF-16", program.run("export", file), (("\ufeff" + text).encode("utf-16-le"), 0)),
               expect("UTF-8", program.run("export-utf8", file), (text.encode(), 0))]
    lines, status = program.run("export-tsv", file)
    found = ["\t".join([*line.split("\t")[:1], *line.split("\t")[2:]]) for line in lines.decode().split("\n")]
    results.append(expect("TSV", (found, status), ([*FIELDS, ""], 0)))
    for half, title in (("\ud83c", "a high surrogate"), ("a\udf0e", "a low one"), ("\udf0e\ud83c", "a pair the wrong way")):
        odd = program.put("half.dat", made_hive(Key("ROOT", keys=[key("A"), key("B", [half])]))[0])
        results += [expect(f"{title}: export", program.run("export", odd)[1], 0),
                    expect(f"{title}: export-utf8", program.run("export-utf8", odd), (b"E4 BadName\n", 1)),
                    expect(f"{title}: a key without it", program.run("export-utf8", odd, "0:A")[1], 0)]
    return results


def stacks(program):
    """Commands on the deepest trees, of long names, of short ones and of many, each with little stack."""
    bound, results = limited(resource.RLIMIT_STACK, STACK), []
    for name, beside in (("n" * 255, 0), ("k", 0), ("k", BESIDE)):
        key = Key(name)
        for _ in range(LEVELS - 1):
            others = [Key(f"a{number:02}") for number in range(beside)]
            key = Key(name, values=[Value("v", 4, b"\1\0\0\0")], keys=[*others, key])
        file = program.put("deep.dat", made_hive(Key("ROOT", keys=[key]))[0])
        shutil.rmtree(program.at("deep"), ignore_errors=True)
        path = "\\".join([name] * LEVELS)
        program.put("script", f"set 0:{path} w 4 02000000\nget 0:{path} w\nkeys 0:{path}\n".encode())
        commands = [[word, file] for word in (*ENCODINGS, "export-json", "export-tsv", "check", "dump")]
        commands += [["import", "deep", ID, file], ["run", "deep", "script"]]
        commands += [[word, "deep"] for word in (*ENCODINGS, "export-json", "export-tsv", "check")]
        if name == "k":
            commands += [["set", "deep", f"0:{path}", "x", "dword", "3"], ["get", "deep", f"0:{path}", "x"], ["ls", "deep", f"0:{path}"]]
            commands += [["export", "deep", f"0:{path}"], ["del-tree", "deep", "0:k"], ["apply", "deep", "deep.reg"], ["apply", "deep", "no_k.reg"]]
            keys = ("\\".join(["k"] * level) for level in range(16, LEVELS + 1, 16))
            program.put("deep.reg", (V5 + "".join(f'[HIVE0\\{key}]\n"v"="1"\n' for key in keys)).encode())
            program.put("no_k.reg", (V5 + "[-HIVE0\\k]\n").encode())
        for words in commands:
            # nine thousand paths of up to 512 names are too large for one change
            refused = beside and (words[0] == "del-tree" or words[-1] == "no_k.reg")
            told, status = program.run(*words, **bound)
            found = (told.endswith(b"E6 TooLarge\n"), status)
            results.append(expect(f"{words[0]} of names of {len(name)}, {beside} beside", found, (bool(refused), int(bool(refused)))))
    return results


def others(program):
    """Registration files of other programs, and ours read by them."""
    hive, results = hive_of_others(program, "reged"), []
    wanted = hive_dump(program, hive)
    program.put("ours.reg", program.run("export-utf8", hive, "HKEY_X=0")[0])
    for name, writes, reads in (("hivexregedit", [["hivexregedit", "--export", hive, "\\", "--prefix", "HKEY_X"], "stdout"],
                                 ["hivexregedit", "--merge", "new.dat", "ours.reg", "--prefix", "HKEY_X"]),
                                ("reged", [["reged", "-x", hive, "HKEY_X", "\\", "theirs.reg"], "file"],
                                 ["reged", "-C", "-I", "new.dat", "HKEY_X", "ours.reg"])):
        if not are_there("others", name):
            continue
        printed = subprocess.run(writes[0], cwd=program.home, stdout=subprocess.PIPE, check=True).stdout
        if writes[1] == "stdout":
            program.put("theirs.reg", printed)
        store(program, "theirs", 1)
        results.append(expect(f"a file of {name}", program.run("apply", "theirs", "theirs.reg", "HKEY_X=0"), (b"applied 1\n", 0)))
        results.append(expect(f"a file of {name}, the store", hive_dump(program, "theirs/hive00.dat"), wanted))
        store(program, "empty", 1)
        shutil.copy(program.at("empty", "hive00.dat"), program.at("new.dat"))
        subprocess.run(reads, cwd=program.home, stdout=subprocess.DEVNULL, stderr=subprocess.DEVNULL)
        results.append(expect(f"our file read by {name}", hive_dump(program, "new.dat"), wanted))
    return results


def listed(text):
    """A text's bytes in a list, without a terminator."""
    return ",".join(f"{byte:02x}" for byte in text.encode("utf-16-le"))


# what Wine is given first: a value of each type that holds text, past ASCII and within, and others
EXPANDED, TEXTS = listed("%PATH%; Gr\u00f6\u00dfe"), listed("one\0\u65e5\u672c\0\0")
TYPED = "\ufeff" + V5.replace("\n", "\r\n") + f"""\r
[HKEY_LOCAL_MACHINE\\Software\\Typed]\r
@="the default one"\r
"ascii"="a \\"text\\" with C:\\\\"\r
"past"="Gr\u00f6\u00dfe, \u65e5\u672c, \U0001f30e"\r
"empty"=""\r
"expand"=hex(2):{EXPANDED},00,00\r
"texts"=hex(7):{TEXTS}\r
"binary"=hex:00,ff,0a,0d\r
"number"=dword:0000002a\r
"wide"=hex(b):01,02,03,04,05,06,07,08\r
"none"=hex(0):\r
"""
# what is deleted of it before the store's export comes in
LOST = "\ufeff" + V5.replace("\n", "\r\n") + "\r\n[-HKEY_LOCAL_MACHINE\\Software\\Typed]\r\n\r\n[-HKEY_LOCAL_MACHINE\\Software\\Classes]\r\n"
WINE_SECONDS = 600
# what Wine writes anew as it starts, beside values that differ from start to start: devices, and ids that they report
ANEW = re.compile(r"HKEY_LOCAL_MACHINE\\System\\CurrentControlSet\\(Control\\Video\\|Enum\\ROOT\\WINE\\)")


def content(text):
    """The types and bytes of values by the names of their keys and their own, and no value for each key, of a file in UTF-16."""
    found, key = {}, None
    whole = re.sub(r",\\\r\n *", ",", text.decode("utf-16"))
    for line in re.finditer(r'^(?:\[([^\r\n]*)\]|(@|"(?:[^"\\]|\\.)*")=(?:"((?:[^"\\]|\\.)*)"|dword:(\w{8})|hex(?:\((\w+)\))?:([\w,]*)))\r$', whole, re.M | re.S):
        path, name, quoted, number, kind, data = line.groups()
        if path is not None:
            key = path
            found[key, None] = None
        elif quoted is not None:
            found[key, name] = 1, (re.sub(r"\\(.)", r"\1", quoted) + "\0").encode("utf-16-le")
        elif number is not None:
            found[key, name] = 4, int(number, 16).to_bytes(4, "little")
        else:
            found[key, name] = int(kind or "3", 16), bytes.fromhex(data.replace(",", ""))
    return found


def differences(one, other):
    return {row for row in one.keys() | other.keys() if one.get(row, ()) != other.get(row, ())}


def wine(program):
    """A registry of Wine into a store and back, if Wine is installed."""
    if not are_there("wine", "wine", "wineserver"):
        return []
    environment = {name: text for name, text in os.environ.items() if name != "DISPLAY"}
    environment |= {"WINEPREFIX": program.at("prefix"), "WINEDEBUG": "-all", "WINEDLLOVERRIDES": "mscoree,mshtml=", "HOME": program.home}

    def regedit(*words):
        """Wine's regedit, and the end of what it began; what it wrote if it exports."""
        for run in (["wine", "regedit", *words], ["wineserver", "-k", "-w"]):
            subprocess.run(run, cwd=program.home, env=environment, stdin=subprocess.DEVNULL, stdout=subprocess.DEVNULL,
                           stderr=subprocess.DEVNULL, timeout=WINE_SECONDS)
        if words[0] == "/E":
            with open(program.at(words[1]), "rb") as file:
                return file.read()
    program.put("typed.reg", TYPED.encode("utf-16-le"))
    program.put("lost.reg", LOST.encode("utf-16-le"))
    regedit("typed.reg")
    machine = "HKEY_LOCAL_MACHINE"
    first, before = (content(regedit("/E", f"{name}.reg", machine)) for name in ("first", "before"))
    anew = differences(first, before)
    store(program, "wined", 1)
    results = [expect("a file of wine", program.run("apply", "wined", "before.reg", f"{machine}=0"), (b"applied 1\n", 0))]
    text, status = program.run("export", "wined", "0:", f"{machine}=0")
    results += [expect("its export", (status, differences(before, content(text))), (0, set())),
                expect("types of text", {kind for kind, _ in filter(None, before.values())} >= {1, 2, 7}, True)]
    program.put("back.reg", text)
    regedit("lost.reg")
    lost = content(regedit("/E", "lost_now.reg", machine))
    regedit("back.reg")
    after = content(regedit("/E", "after.reg", machine))
    typed = {row for row in before if row[0].endswith("\\Typed")}
    return [*results, expect("what was deleted", (len(typed), typed & lost.keys()), (11, set())),
            expect("what came back", {row for row in differences(before, after) - anew if not ANEW.match(row[0])}, set())]


def product(marker):
    """A file that changes two hives."""
    lines = [V5.rstrip("\n")]
    for hive in range(2):
        for key in range(40):
            lines.append(f"[HIVE{hive}\\Product\\K{key}]")
            lines += [f'"v{value}"="{marker}"' for value in range(5)]
    return "\n".join(lines) + "\n"


def kills(program, seed):
    chances = random.Random(seed)
    store(program, "killed", 2)
    results, torn, last, took = [], 0, -1, 0.02
    ends = time.monotonic() + MOST_SECONDS
    for turn in range(KILLS):
        if time.monotonic() > ends:
            results.append(f"only {turn} kills in {MOST_SECONDS} seconds")
            break
        program.put("file.reg", product(turn).encode())
        began = time.monotonic()
        child = subprocess.Popen([program.path, "apply", "killed", "file.reg"], cwd=program.home, stdout=subprocess.PIPE)
        try:
            printed, _ = child.communicate(timeout=chances.random() * took * 1.5)
            took = time.monotonic() - began
        except subprocess.TimeoutExpired:
            child.kill()
            printed, _ = child.communicate()
            torn += 1
            took *= 1.05
        program.put("none", b"")
        _, status = program.run("run", "killed", "none")
        results.append(expect("the store opens", status, 0))
        found = set()
        for hive in range(2):
            found |= {line[3] for line in dump(program, "killed", hive)[1] if line[0] == b"val"}
        wanted = [{b"".join(f"{ord(c):02x}00".encode() for c in f"{number}") + b"0000"} for number in (last, turn) if number >= 0] or [set()]
        if last < 0 and not found:
            continue
        results.append(None if found in wanted and not (printed.startswith(b"applied") and found != wanted[-1])
                       else f"kill {turn}: {shown(found)}")
        if found == wanted[-1]:
            last = turn
    print(f"kills: {torn} of {KILLS} runs were ended")
    return results


def main():
    seed = sys.argv[2] if len(sys.argv) > 2 else str(random.randrange(10 ** 6))
    print(f"seed {seed}")
    with program_at(sys.argv[1], "regtx_reg_files_") as program:
        counts = [tell("rows", rows(program)), tell("prefixes", prefixes(program)), tell("faults", faults(program)),
                  tell("units", units(program)), tell("checked", checked(program)), tell("exports", exports(program, seed)),
                  tell("names", names(program)), tell("stacks", stacks(program)), tell("kills", kills(program, seed)), tell("others", others(program)),
                  tell("wine", wine(program))]
        finish(counts)


if __name__ == "__main__":
    main()
