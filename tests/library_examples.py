#!/usr/bin/env python3
"""Builds examples/hive_edit.c, hive_edit_rust and hive_edit.py with the library for C, and compares them with a built program:

    tests/library_examples.py PROGRAM FOLDER     FOLDER is what tools/c_library.py writes

Each part tells what passed. The last line is 'N passed, N failed', and the status is 0 if none failed.

- library: what libregtx.so.0 exports, and what it needs; that it gives each number the name that regtx.h gives it.
- builds: the three, without warnings; the one in C also under AddressSanitizer and over libregtx.so.0.
- hives: each prints what `regtx dump` prints of a hive, spelled as the head of hive_edit.c says. What each writes is the same tree
  with the one value, and the key's time: new values, values in another spelling, OUT over IN.
- refusals: keys that aren't there, names that no call takes, damaged files, files and folders that can't be read or written, full
  disks if there may be mounts: the text, status 1, and OUT as it was.
- syncs: OUT is synced before it has its name, and its folder after it; and runs that are ended at each write and before the sync.
- words: lines that are no command: the usage, and status 2.
- memory: the one in C with each of its allocations refused in turn.

The one in C makes the calls of regtx.h. The others use bindings/, which tests/hive_bindings.py tries.
"""
import ctypes
import os
import re
import resource
import shutil
import signal
import subprocess
import sys
import time
from contextlib import suppress

TOP = os.path.dirname(os.path.dirname(os.path.abspath(__file__)))
EXAMPLES = os.path.join(TOP, "examples")
sys.dont_write_bytecode = True
sys.path[:0] = [os.path.join(TOP, "tests"), os.path.join(TOP, "runs", "hives")]
from maker import Key, Value, hive  # noqa: E402
from scratch import expect, finish, limited, mounted, noting_library, program_at, refusal_shim, shown, tell  # noqa: E402

ID = "00112233-4455-6677-8899-aabbccddeeff"
SECONDS, OLD = 120, b"what was there before"
USAGE = b"usage: hive_edit IN OUT KEY NAME NUMBER\n"
WARNINGS = ["-Wall", "-Wextra", "-Werror"]
SANITIZED = ["-g", "-O1", "-fno-omit-frame-pointer", "-fsanitize=address,undefined", "-fno-sanitize-recover=all"]
LINE = re.compile(rb"key 0:(?P<path>.*) (?P<time>\d+)|val (?P<name>\S+) (?P<kind>\d+) (?P<data>\S+)")
ESCAPE = re.compile(r"%([0-9a-f]{4})")
# 1601 to 1970 in units of 100 nanoseconds
EPOCH = 116_444_736_000_000_000


class Example:
    """One of the three, as it is begun."""

    def __init__(self, title, *command, **environment):
        self.title, self.command, self.environment = title, command, dict(os.environ, **environment)
        # a library may come before a sanitizer's only if it is told so
        self.is_plain = "," not in title

    def run(self, program, *words, **given):
        """What it prints, what goes to standard error, and its status."""
        given.setdefault("stdout", subprocess.PIPE)
        environment = dict(self.environment, **given.pop("environment", {}))
        ended = subprocess.run([*self.command, *words], cwd=program.home, env=environment, stdin=subprocess.DEVNULL,
                               stderr=subprocess.PIPE, timeout=SECONDS, **given)
        return ended.stdout, ended.stderr, ended.returncode


def content_of(path):
    """The bytes of a file; none if it isn't there."""
    try:
        with open(path, "rb") as file:
            return file.read()
    except FileNotFoundError:
        return b""


def remove(path):
    """Removes a file, if it is there."""
    with suppress(FileNotFoundError):
        os.remove(path)


# ---- the library

def lines_of(*command):
    return subprocess.run(command, stdout=subprocess.PIPE, text=True, check=True).stdout.splitlines()


def names(so, header):
    """What is wrong with the names of numbers, and with which of them are damage."""
    library, named = ctypes.CDLL(so), {int(number): name for name, number in re.findall(r"^    (REGTX_\w+) = (\d+)", header, re.MULTILINE)}
    library.regtx_is_damage.restype = ctypes.c_bool
    yield expect("numbers with names", (len(named), min(named), max(named)), (34, 0, 1513))
    for number in [*range(2_000), 2**16, 2**31, 2**32 - 1]:
        name, length = (ctypes.c_uint8 * 32)(), ctypes.c_size_t()
        code = library.regtx_code_name(number, name, ctypes.c_size_t(32), ctypes.byref(length))
        found = (code, bytes(name[:length.value]).decode(), library.regtx_is_damage(number))
        yield expect(f"number {number}", found, (0, named.get(number, ""), 1501 <= number <= 1513))


def library(folder):
    """What is wrong with the symbols of the shared object, and with what it needs."""
    so = os.path.join(folder, "libregtx.so.0")
    with open(os.path.join(folder, "regtx.h"), encoding="utf-8") as file:
        header = file.read()
    declared = re.findall(r"^(?:uint32_t|void|bool) (regtx_\w+)\(", header, re.MULTILINE)
    symbols = [line.split()[-2:] for line in lines_of("nm", "-D", so)]
    exported = sorted(name for kind, name in symbols if kind not in "Uw")
    yield expect("exports", exported, sorted(["REGTX_0.9", *(f"{name}@@REGTX_0.9" for name in declared)]))
    yield from names(so, header)
    yield expect("of others", [name for kind, name in symbols if kind == "U" and "@GLIBC_" not in name], [])
    told = [line.split() for line in lines_of("objdump", "-p", so)]
    yield expect("its name", [line[1] for line in told if line[:1] == ["SONAME"]], ["libregtx.so.0"])
    yield expect("what it needs", [line[1] for line in told if line[:1] == ["NEEDED"]], ["libc.so.6"])
    loaded = {os.path.basename(line.split()[0]).split(".")[0] for line in lines_of("ldd", so)}
    yield expect("what is loaded with it", loaded - {"linux-vdso", "ld-linux-x86-64"}, {"libc"})


# ---- builds

def compiled(program, folder, name, *words):
    """The C program, linked with these words."""
    made = program.at(name)
    ran = subprocess.run(["cc", *WARNINGS, "-I", folder, "-o", made, os.path.join(EXAMPLES, "hive_edit.c"), *words],
                         capture_output=True)
    return made, expect(f"cc {shown(words)}", (ran.stderr, ran.returncode), (b"", 0))


def packaged(program, folder):
    """The program of the cargo package; Cargo.lock stays as it is."""
    target = program.at("rust")
    environment = dict(os.environ, CARGO_TARGET_DIR=target, CARGO_ENCODED_RUSTFLAGS=f"-Dwarnings\x1f-Lnative={folder}")
    ran = subprocess.run(["cargo", "build", "--offline", "--locked", "--jobs", "1"], cwd=os.path.join(EXAMPLES, "hive_edit_rust"),
                         env=environment, stdin=subprocess.DEVNULL, capture_output=True)
    return os.path.join(target, "debug", "hive_edit"), f"cargo: {shown(ran.stderr)}" if ran.returncode else None


def builds(program, folder):
    """The examples as they are begun, and what is wrong with their builds."""
    archive = os.path.join(folder, "libregtx.a")
    plain = compiled(program, folder, "in_c", archive)
    sanitized = compiled(program, folder, "sanitized", *SANITIZED, archive)
    loading = compiled(program, folder, "loading", "-L", folder, "-l:libregtx.so.0")
    rust = packaged(program, folder)
    python = [sys.executable, "-B", os.path.join(EXAMPLES, "hive_edit.py")]
    examples = [
        Example("C", plain[0]),
        Example("C, sanitized", sanitized[0]),
        Example("C over the shared object", loading[0], LD_LIBRARY_PATH=folder),
        Example("Rust", rust[0]),
        # the interpreter's own buffers are those that it has by itself
        Example("Python", *python, REGTX_LIBRARY=folder, PYTHONUNBUFFERED=""),
        Example("Python, in ASCII", *python, LD_LIBRARY_PATH=folder, REGTX_LIBRARY="", LC_ALL="C", PYTHONUTF8="0",
                PYTHONCOERCECLOCALE="0"),
    ]
    return examples, [wrong for _, wrong in (plain, sanitized, loading, rust)]


# ---- what is printed

def unescaped(name):
    """The text of a name of `regtx dump`, whose units are joined to letters."""
    text = ESCAPE.sub(lambda unit: chr(int(unit[1], 16)), name.decode("ascii"))
    return text.encode("utf-16-le", "surrogatepass").decode("utf-16-le", "surrogatepass")


def spelled(text):
    """The text as the examples print it."""
    def is_hidden(letter):
        return letter < " " or "\x7f" <= letter < "\xa0" or letter == "%" or "\ud800" <= letter < "\ue000"
    return "".join(f"%{ord(letter):04x}" if is_hidden(letter) else letter for letter in text).encode()


def printed(dump):
    """What the examples print of a hive, by what `regtx dump` prints of it."""
    lines = []
    for line in dump.splitlines()[1:]:
        told = LINE.fullmatch(line)
        if told["path"] is not None:
            lines.append(b"[%s]\n" % spelled(unescaped(told["path"])))
        else:
            name = told["name"] if told["name"] in (b"@", b"%0040") else spelled(unescaped(told["name"]))
            lines.append(b"  %s %s %s\n" % (name, told["kind"], told["data"]))
    return b"".join(lines)


# ---- hives

def odd_hive():
    """The file of a hive with names of all kinds of units, and what the examples print of it."""
    # the buffer of half a pair had a whole pair before
    values = [Value("", 1, b"a\0\0\0"), Value("@", 1), Value("\ud834\udd1e", 3, b"\1"), Value("\ud834", 3, b"\2"),
              Value("\udd1e\ud834", 3, b"\3"), Value("\ud833\udd1e", 3, b"\4"), Value("a b%", 7),
              Value("\u00e4\u20ac", 0xffff_ffff, b"12345"), Value("\0\x1f\x7f\x9f", 4, b"1234"), Value("Start", 4, b"\3\0\0\0")]
    root = Key("root", keys=[Key("Plain", values=values, keys=[Key("x")]), Key("\u00e4\u20ac", keys=[Key("below")]),
                             Key("\ud834\udd1e"), Key("half\ud834"), Key("a b%20[x]", keys=[Key("@")]),
                             Key("n" * 256, keys=[Key("x")]), Key("n" * 255)])
    lines = ["[]", "[a b%002520[x]]", "[a b%002520[x]\\@]", "[half%d834]", f"[{'n' * 255}]", f"[{'n' * 256}]", f"[{'n' * 256}\\x]",
             "[Plain]", "  @ 1 61000000", "  %0000%001f%007f%009f 4 31323334", "  %0040 1 -", "  a b%0025 7 -",
             "  Start 4 03000000", "  \u00e4\u20ac 4294967295 3132333435", "  \U0001cd1e 3 04", "  %d834 3 02", "  \U0001d11e 3 01",
             "  %dd1e%d834 3 03", "[Plain\\x]", "[\u00e4\u20ac]", "[\u00e4\u20ac\\below]", "[\U0001d11e]"]
    return hive(root)[0], "".join(f"{line}\n" for line in lines).encode()


def script():
    """Names with signs, long data, many subkeys and many levels."""
    yield "at 132000000000000000"
    yield "create 0:System\\Services\\Disk%0020%0025%005b1]"
    for name, kind, data in [("@", 1, "61000000"), ("%0040", 1, "-"), ("Start", 4, "03000000"), ("%0022'", 3, "00"),
                             ("Long", 3, "5a" * 100_000), ("v" * 16_383, 11, "0102030405060708")]:
        yield f"set 0:System\\Services\\Disk%0020%0025%005b1] {name} {kind} {data}"
    for at in range(1_000):
        yield f"create 0:Services\\S{at}"
    for levels in range(32, 513, 32):
        yield "create 0:" + "\\".join("d" * levels)


def made(program, name, *command):
    """The file of a hive in a store that the program makes by a command, and to which it adds the script's keys."""
    for words in (command, ["run", name, program.put("script", "\n".join(script()).encode() + b"\n")]):
        told, status = program.run(*words)
        if status:
            sys.exit(f"{words}: {told}")
    return program.at(name, "hive00.dat")


# a path of a key, a value's name and a number that are asked for; then the key's path, the value's name and its data as
# `regtx dump` prints them, and the line of the value before which the new one stands: None if one is replaced
SERVICE = "System\\Services\\Disk %[1]"
EDITS = [
    (SERVICE, "Start", 0, b"System\\Services\\Disk%0020%0025[1]", b"Start", b"00000000", None),
    (SERVICE.upper(), "sTART", 4_294_967_295, b"System\\Services\\Disk%0020%0025[1]", b"Start", b"ffffffff", None),
    (SERVICE, "", 1, b"System\\Services\\Disk%0020%0025[1]", b"@", b"01000000", None),
    (SERVICE, "@", 16_909_060, b"System\\Services\\Disk%0020%0025[1]", b"%0040", b"04030201", None),
    (SERVICE, "Mid", 7, b"System\\Services\\Disk%0020%0025[1]", b"Mid", b"07000000", b"Start"),
    ("services\\s999", "a %", 10, b"Services\\S999", b"a%0020%0025", b"0a000000", b""),
    ("", "Root", 258, b"", b"Root", b"02010000", b""),
]


def edited(dump, edit, moment):
    """What `regtx dump` prints after an edit, by what it prints before."""
    _, _, _, path, name, data, before = edit
    lines, here, is_done = [], False, False
    value = b"val %s 4 %s" % (name, data)
    for line in dump.splitlines():
        told = LINE.fullmatch(line)
        is_key = told is not None and told["path"] is not None
        is_place = before is not None and (is_key if not before else told is not None and told["name"] == before)
        if here and not is_done and (is_place or told["name"] == name):
            lines.append(value)
            is_done = True
            here = not is_key
            if told["name"] == name:
                continue
        if is_key:
            here = told["path"] == path
            line = b"key 0:%s %d" % (path, moment) if here else line
        lines.append(line)
    return b"".join(line + b"\n" for line in lines)


def time_of(dump, path):
    """When a key was last written, by what `regtx dump` prints; 0 if it prints no such key."""
    return next((int(told["time"]) for told in map(LINE.fullmatch, dump.splitlines()[1:]) if told["path"] == path), 0)


def now():
    return EPOCH + time.time_ns() // 100


def wrong_edit(program, example, source, out, edit):
    """What is wrong with what an example prints and writes for an edit."""
    before, begun = program.run("dump", source)[0], now()
    ran = example.run(program, source, out, edit[0], edit[1], str(edit[2]))
    ended, title = now(), f"{example.title}, {os.path.basename(source)}, {edit[0]} {edit[1]}"
    if ran != (printed(before), b"", 0):
        return expect(title, ran, (printed(before), b"", 0))
    after = program.run("dump", out)[0]
    moment = time_of(after, edit[3])
    # a clock is read by steps of its own
    if not begun - 1_000_000 <= moment <= ended + 1_000_000:
        return f"{title}: the key's time is {moment}, and not from {begun} to {ended}"
    return expect(title, after, edited(before, edit, moment)) or expect(title, os.path.exists(f"{out}.new"), False)


def hives(program, examples):
    """Each example over each hive."""
    file, text = odd_hive()
    odd = program.at(program.put("odd.dat", file))
    files = [made(program, "new", "new", "new", ID, "1"), made(program, "imported", "import", "imported", ID, odd)]
    small = os.path.join(EXAMPLES, "software.dat")
    vendor = ("Software\\Vendor", "Start", 3, b"Software\\Vendor", b"Start", b"03000000", b"")
    flags = ("software\\VENDOR\\product", "flags", 6, b"Software\\Vendor\\Product", b"Flags", b"06000000", None)
    plain = ("Plain", "start", 6, b"Plain", b"Start", b"06000000", None)
    for example in examples:
        for source, edit in [(small, vendor), (small, flags), (odd, plain), *((path, edit) for path in files for edit in EDITS)]:
            yield wrong_edit(program, example, source, program.at("out.dat"), edit)
        yield expect(f"{example.title}, odd names", example.run(program, odd, "out.dat", "Plain", "n", "1"), (text, b"", 0))
        # a name of a file that is no text
        found = example.run(program, small.encode(), b"\xff.dat", b"Software", b"v", b"1")
        begun = content_of(program.at("\udcff.dat"))[:4]
        yield expect(f"{example.title}, to a name of bytes", (*found[1:], begun), (b"", 0, b"regf"))
        # over itself, and twice: the second run prints what the first one wrote
        both = shutil.copy(small, program.at("both.dat"))
        for edit in (vendor, (*vendor[:2], 4, *vendor[3:5], b"04000000", None)):
            yield wrong_edit(program, example, both, both, edit)


# ---- refusals

def refused_runs(program):
    """Words, the text that is told of them, and what bounds the run."""
    small = os.path.join(EXAMPLES, "software.dat")
    content = content_of(small)
    program.put("cut.dat", content[:-4_096])
    program.put("text.dat", b"no hive" * 1_000)
    program.put("empty.dat", b"")
    program.put("spoiled.dat", content.replace(b"vk", b"kv", 1))
    program.put("taken.dat", OLD)
    program.put("taken.dat.new", OLD)
    os.mkdir(program.at("folder"))
    os.mkdir(program.at("closed"))
    asked = ["Software", "Start", "1"]
    for name in ("cut.dat", "text.dat", "empty.dat", "spoiled.dat"):
        yield [name, "out.dat", *asked], f"{name}: {program.run('dump', name)[0].decode().strip()}", {}
    for key, name, text in [("Software\\None", "Start", "E2 NotFound"), ("Software\\\\Vendor", "v", "E4 BadName"),
                            ("\u00e4", "v", "E4 BadName"), ("\U0001d11e", "v", "E4 BadName"), ("Software", "\u20ac", "E4 BadName"),
                            ("Software", "v" * 16_384, "E4 BadName"), ("\\".join("k" * 513), "v", "E5 TooDeep")]:
        yield [small, "out.dat", key, name, "1"], f"{key}: {text}", {}
    yield ["none.dat", "out.dat", *asked], "none.dat: No such file or directory", {}
    yield ["folder", "out.dat", *asked], "folder: Is a directory", {}
    yield [small, "none/out.dat", *asked], "none/out.dat.new: No such file or directory", {}
    yield [small, "folder", *asked], "folder: Is a directory", {}
    yield [small, "taken.dat", *asked], "taken.dat.new: File exists", {}
    yield [small, "out.dat", *asked], "out.dat.new: File too large", limited(resource.RLIMIT_FSIZE, 4_096)
    # root writes into any folder that can be written: for root there is a disk below that can't
    if os.geteuid():
        program.put("closed/out.dat", OLD)
        os.chmod(program.at("closed"), 0o555)
        yield [small, "closed/out.dat", *asked], "closed/out.dat.new: Permission denied", {}


def wrong_refusal(program, example, words, text, given):
    """What is wrong with a run that is refused, and with what it leaves."""
    out = program.at(words[1])
    is_file = os.path.isdir(os.path.dirname(out)) and not os.path.isdir(out)
    if is_file and not (os.path.exists(out) and content_of(out) == OLD):
        program.put(words[1], OLD)
    before = sorted(os.listdir(os.path.dirname(out))) if is_file else None
    _, errors, status = example.run(program, *words, **given)
    title = f"{example.title}, {shown(words[0])} to {words[1]}"
    # an error of the system has its number too in Rust
    told = re.sub(rb" \(os error \d+\)\n\Z", b"\n", errors)
    wrong = expect(title, (told, status), (f"hive_edit: {text}\n".encode(), 1))
    if is_file:
        wrong = wrong or expect(f"{title}: OUT", (content_of(out), sorted(os.listdir(os.path.dirname(out)))), (OLD, before))
    return wrong


def full(program, examples):
    """Disks without room for OUT, and that can't be written, and a standard output without room for the tree."""
    small = os.path.join(EXAMPLES, "software.dat")
    words = [small, "full/out.dat", "Software", "Start", "1"]
    with mounted(program, 16_384) as folder:
        if folder:
            program.put("full/fill", bytes(8_192))
        for example in examples if folder else []:
            yield wrong_refusal(program, example, words, "full/out.dat.new: No space left on device", {})
        if folder:
            subprocess.run(["mount", "-o", "remount,ro", program.at(folder)], check=True)
        for example in examples if folder else []:
            yield wrong_refusal(program, example, words, "full/out.dat.new: Read-only file system", {})
    # what a buffer holds, and more
    for source in (small, program.at("new", "hive00.dat")):
        for example in examples:
            with open("/dev/full", "wb") as device:
                yield wrong_refusal(program, example, [source, "out.dat", "Software", "Start", "1"],
                                    "standard output: No space left on device", {"stdout": device})


def heavy(program, examples):
    """A hive that weighs more than one that is edited: it is printed, and the edit is refused."""
    values = [Value(f"v{at:02}", 3, bytes([at]) * 1_048_576) for at in range(17)]
    program.put("heavy.dat", hive(Key("root", values=values))[0])
    text = b"[]\n" + b"".join(b"  v%02d 3 %s\n" % (at, b"%02x" % at * 1_048_576) for at in range(17))
    for example in examples:
        found = example.run(program, "heavy.dat", "heavy.out", "", "Start", "1")
        found = (found[0] == text, os.path.exists(program.at("heavy.out")), *found[1:])
        yield expect(f"{example.title}: a heavy hive", found, (True, False, b"hive_edit: : E6 TooLarge\n", 1))


def refusals(program, examples):
    for words, text, given in list(refused_runs(program)):
        for example in examples:
            # the module of Python looks the key up first, which may have any name there
            is_sought = example.title.startswith("Python") and words[2:3] and not words[2].isascii()
            yield wrong_refusal(program, example, words, text.replace("E4 BadName", "E2 NotFound") if is_sought else text, dict(given))
    yield expect("a file that was there", content_of(program.at("taken.dat.new")), OLD)
    yield from full(program, examples)
    yield from heavy(program, examples)


# ---- calls on files

def syncs(program, example):
    """The new hive is synced beside OUT, after all of it was written, and then the folder; and what is left if a run is ended at one of its writes, or
    before the sync."""
    report, library = program.at("report"), noting_library(program)
    words = [os.path.join(EXAMPLES, "software.dat"), "out.dat", "Software", "Start", "1"]
    for name, last in [("SYNCS_REPORT", b"file out.dat.new\nfolder\n"), ("CALLS_REPORT", b"sync out.dat.new\n")]:
        found = example.run(program, *words, environment={"LD_PRELOAD": library, name: report})
        yield expect(f"{example.title}, {name}", (*found[1:], content_of(report)[-len(last):]), (b"", 0, last))
        remove(report)
    ends = 0
    while ends < 100:
        program.put("out.dat", OLD)
        found = example.run(program, *words, environment={"LD_PRELOAD": library, "CALLS_END_AT": str(ends + 1)})
        if found[2] == 0:
            break
        ends += 1
        yield expect(f"{example.title}, ended at {ends}", (found[2], content_of(program.at("out.dat"))), (-signal.SIGKILL, OLD))
        remove(program.at("out.dat.new"))
    yield expect(f"{example.title}: ends", (ends > 0, content_of(program.at("out.dat"))[:4]), (True, b"regf"))


# ---- words

NO_NUMBERS = ["", "-1", "+1", " 1", "1 ", "0x10", "1.0", "1_0", "4294967296", "99999999999", "00000000001", "\u0661", "one"]
NO_UTF_8 = [b"\xff", b"a\x80", b"\xc0\xaf", b"\xed\xa0\x80", b"\xf4\x90\x80\x80", b"\xe2\x82", b"\xf8\x88\x80\x80\x80"]


def words(program, examples):
    """Lines that are no command, and numbers at the bounds."""
    small = os.path.join(EXAMPLES, "software.dat").encode()
    asked = [small, b"words.dat", b"Software", b"Start", b"1"]
    lines = [[], asked[:4], [*asked, b"1"], *([*asked[:4], number.encode()] for number in NO_NUMBERS),
             *([small, b"words.dat", key, b"v", b"1"] for key in NO_UTF_8), [small, b"words.dat", b"Software", b"\xff", b"1"]]
    for example in examples:
        for line in lines:
            found = (*example.run(program, *line), os.path.exists(program.at("words.dat")))
            yield expect(f"{example.title}, {shown(line)}", found, (b"", USAGE, 2, False))
        found = example.run(program, *asked[:4], b"0000000010")
        yield expect(f"{example.title}, a long number", found[1:], (b"", 0))
        remove(program.at("words.dat"))


# ---- memory

def memory(program, example):
    """The same run with each allocation refused in turn: it is refused and OUT stays, or all is done without that one."""
    small, report = os.path.join(EXAMPLES, "software.dat"), program.at("report")
    plain, at, is_refused = example.run(program, small, "whole.dat", "Software", "Start", "1")[0], 0, True
    while is_refused and at < 5_000:
        at += 1
        remove(report)
        program.put("out.dat", OLD)
        found = example.run(program, small, "out.dat", "Software", "Start", "1",
                            environment={"LD_PRELOAD": refusal_shim(), "FAILALLOC_AT": str(at), "FAILALLOC_REPORT": report})
        is_refused = b"refused=0" not in content_of(report)
        content = content_of(program.at("out.dat"))
        is_done = found == (plain, b"", 0) and content[:4] == b"regf"
        is_whole = found[2] == 1 and re.search(rb": (E1 NoMemory|Cannot allocate memory)\n\Z", found[1]) and content == OLD
        is_whole = is_whole and not os.path.exists(program.at("out.dat.new"))
        yield None if is_done or is_refused and is_whole else f"allocation {at}: {shown(found)}"
    print(f"memory: {at - 1} allocations refused")


def main():
    if len(sys.argv) != 3:
        sys.exit(__doc__)
    folder = os.path.abspath(sys.argv[2])
    with program_at(sys.argv[1], "library_examples-") as program:
        counts = [tell("library", list(library(folder)))]
        examples, wrong = builds(program, folder)
        counts.append(tell("builds", wrong))
        if not any(wrong):
            counts += [
                tell("hives", list(hives(program, examples))),
                # what isn't ASCII is told by escapes there
                tell("refusals", list(refusals(program, [each for each in examples if "ASCII" not in each.title]))),
                tell("syncs", [wrong for each in examples if each.is_plain for wrong in syncs(program, each)]),
                tell("words", list(words(program, examples))),
                tell("memory", list(memory(program, examples[0]))),
            ]
    finish(counts)


main()
