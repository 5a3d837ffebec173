#!/usr/bin/env python3
"""Installs the repository, and tries what is installed:

    tests/install.py PROGRAM FOLDER     FOLDER has libregtx.a, libregtx.so.0 and regtx.h, as tools/c_library.py writes them

- version: each version that is told is the one of crates/regtx/src/about.rt.
- files: `make install` and `make uninstall`: which files with which modes, what is refused, and what is left.
- works: the program, the libraries with pkg-config, the three clients, the two bindings, the broker and its units, a replica, each from the place
  where it is installed.
- manual: the manual pages have no warning of groff or mandoc, and all that the pages, the usages and the headers have.
- completion: what bash and zsh complete after each word of each command.
- package: the Debian packages, their fields and files, and what lintian says; they are installed by dpkg, tried and removed, if this
  is root.

What can't be tried here is told, and counts neither as passed nor as failed. The last line is 'N passed, N failed', and the status is 0
if none failed.
"""
import ctypes
import itertools
import os
import re
import shutil
import signal
import subprocess
import sys

TOP = os.path.dirname(os.path.dirname(os.path.abspath(__file__)))
sys.dont_write_bytecode = True
sys.path[:0] = [os.path.join(TOP, "tests"), os.path.join(TOP, "tools"), os.path.join(TOP, "runs", "hives")]
import completion  # noqa: E402
import debian_package  # noqa: E402
import manual_page  # noqa: E402
from installation import (MANUAL, SOURCES, Make, content, copied, dead_links, differences, environment, expected_files, folders,  # noqa: E402
                          modes, printed, ran, source_of)
from programs_of_c import READ, READER, SHOP  # noqa: E402
from scratch import are_there, expect, finish, program_at, tell  # noqa: E402

ID = "00112233-4455-6677-8899-aabbccddeeff"
UNPROVED = "regtx: the program that is installed isn't proved: regtx about says what it is\n"
UNPROVED_LIBRARY = "regtx: the library for C that is installed isn't proved, as its regtx_version says\n"
# what a store prints of examples/vendor.txt
VENDOR = "opened 0\nok\ncreated 2\nok\ncreated 2\ncommitted 1\n"
# folders that other programs use too
SHARED = ["bin", "include", "lib", "lib/pkgconfig", "lib/systemd", "lib/systemd/system", "libexec", "share", "share/bash-completion", "share/bash-completion/completions",
          "share/doc", "share/man", "share/man/man1", "share/man/man3", "share/zsh", "share/zsh/site-functions"]
# a word after a command, such as `[PREFIX=HIVE` and `..]`
WORD = re.compile(r"[][A-Z:=.]+|\[once\]")
PYTHON = re.compile(r"^```python\n(.*?)^```$", re.MULTILINE | re.DOTALL)


def version():
    """The version in the source of the program."""
    return re.search(r'^const VERSION: &str = "(.*)";$', content(os.path.join(TOP, "crates/regtx/src/about.rt")).decode(), re.M)[1]


def versions(make, home):
    """Each version that something tells."""
    prefix, wanted = os.path.join(home, "versions"), version()
    make.install(PREFIX=prefix)
    yield expect("the form", bool(re.fullmatch(r"\d+\.\d+\.\d+", wanted)), True)
    yield expect("about", printed(os.path.join(prefix, "bin/regtx"), "about").splitlines()[0], f"regtx {wanted}")
    client_folder = os.path.join(prefix, "share/regtx/clients/python")
    for name in ("regtx", "regtx-client"):
        told = printed("pkg-config", "--modversion", name, env=environment(PKG_CONFIG_PATH=os.path.join(prefix, "lib/pkgconfig")))
        yield expect(f"pkg-config, {name}", told, f"{wanted}\n")
    project = content(os.path.join(client_folder, "pyproject.toml")).decode()
    yield expect("pyproject.toml", re.findall(r'^version = "(.*)"$', project, re.M), [wanted])
    newest = content(os.path.join(TOP, "docs", "changelog")).decode().splitlines()[0]
    yield expect("the changelog", newest, f"regtx ({wanted}) unstable; urgency=medium")
    client = os.path.join(prefix, "share/regtx/clients")
    told = printed(sys.executable, "-Bc", "import regtx; print(regtx.__version__)", cwd=os.path.join(client, "python"))
    yield expect("the client for Python", told, f"{wanted}\n")
    bindings = os.path.join(prefix, "share/regtx/bindings")
    told = printed(sys.executable, "-Bc", "import regtx_hive; print(regtx_hive.__version__)", cwd=os.path.join(bindings, "python"))
    yield expect("the module of Python", told, f"{wanted}\n")
    for crate, place in [("regtx-client", client), ("regtx-hive", bindings)]:
        for name in ("Cargo.toml", "Cargo.lock"):
            found = re.findall(rf'^name = "{crate}"\nversion = "(.*)"$', content(os.path.join(place, "rust", name)).decode(), re.M)
            yield expect(f"{name} of {crate}", found, [wanted])
    numbers = [int(number) for number in wanted.split(".")]
    number = sum(number * weight for number, weight in zip(numbers, (10_000, 100, 1)))
    header = content(os.path.join(prefix, "include/regtx.h")).decode()
    yield expect("regtx.h", re.findall(r"^#define REGTX_VERSION (\d+)$", header, re.M), [str(number)])
    yield expect("regtx_version", library_told(os.path.join(prefix, "lib"))[0], number)
    # what pages and tests show of `regtx about` and of the package
    found = printed("git", "grep", "-hoE", r"regtx[ _][0-9]+(\.[0-9]+)+", cwd=TOP).split()
    yield expect("pages and tests", {name.removeprefix("regtx").removeprefix("_") for name in found} - {""}, {wanted})
    for page in MANUAL:
        title = content(os.path.join(prefix, page)).decode().splitlines()[1]
        yield expect(page, re.findall(r'"regtx (.*?)"', title), [wanted])


def library_told(folder):
    """What `regtx_version` of the library in a folder tells: the version, and whether it was proved."""
    is_proved = ctypes.c_bool()
    number = ctypes.CDLL(os.path.join(folder, "libregtx.so.0")).regtx_version(ctypes.byref(is_proved))
    return number, is_proved.value


def unproved(make, program=UNPROVED):
    """What standard error is told of this program and of the library."""
    return program if library_told(make.library)[1] else program + UNPROVED_LIBRARY


def wrong_contents(root, make):
    """Files that aren't what they are copies of."""
    sources = ((name, source_of(name, make)) for name in expected_files())
    return [name for name, source in sources if source and content(os.path.join(root, name)) != content(source)]


def built(folder):
    """Each file of a folder, with when it was written. The system of tests/fresh_root.py may be made at the same time."""
    found = {}
    for at, folders, names in os.walk(folder):
        folders[:] = [name for name in folders if name != "fresh"]
        found.update({os.path.join(at, name): os.stat(os.path.join(at, name)).st_mtime_ns for name in names})
    return found


def staged(make, home):
    """What is installed below a DESTDIR, and what is left of it."""
    for destination, prefix in [("root", "/usr"), ("a blank, it's $(here)", "/opt/regtx-0"), ("slash", "/")]:
        base = os.path.join(home, destination)
        # make itself takes one dollar of two
        given = {"DESTDIR": base.replace("$", "$$"), "PREFIX": prefix}
        root = base + prefix
        yield expect(f"{destination}: make install", make("install", **given), ("", unproved(make), 0))
        yield expect(f"{destination}: the files", differences(modes(root), expected_files()), ([], [], []))
        yield expect(f"{destination}: the folders", set(folders(base).values()), {0o755})
        yield expect(f"{destination}: other contents", wrong_contents(root, make), [])
        dead, count = dead_links(os.path.join(root, "share"))
        yield expect(f"{destination}: links", (dead, count > 60), ([], True))
        yield expect(f"{destination}: make uninstall", make("uninstall", **given), ("", "", 0))
        yield expect(f"{destination}: what is left", [*modes(base), *folders(base)], [])
    yield expect("nothing is there", make("uninstall", DESTDIR=os.path.join(home, "none"), PREFIX="/usr"), ("", "", 0))


def shared(make, home):
    """What others have in the same folders stays, and so do those folders if there is no DESTDIR."""
    prefix = os.path.join(home, "shared")
    others = ["bin/other", "share/regtx/store/journal", "share/doc/regtx/notes", "lib/pkgconfig/other.pc"]
    for name in others:
        os.makedirs(os.path.dirname(os.path.join(prefix, name)), exist_ok=True)
        with open(os.path.join(prefix, name), "w", encoding="ascii") as file:
            file.write("other")
    os.chmod(os.path.join(prefix, "lib"), 0o700)
    for _ in range(2):
        make.install(PREFIX=prefix)
    yield expect("a folder's mode", folders(prefix)["lib"], 0o700)
    yield expect("make uninstall", make("uninstall", PREFIX=prefix), ("", "", 0))
    yield expect("files of others", sorted(modes(prefix)), sorted(others))
    for name in others[1:3]:
        os.remove(os.path.join(prefix, name))
    os.rmdir(os.path.join(prefix, "share/regtx/store"))
    make.install(PREFIX=prefix)
    make("uninstall", PREFIX=prefix)
    yield expect("folders of others", sorted(folders(prefix)), SHARED)


def elsewhere(make, home):
    """Libraries and modules of Python in the folders that are named; what Python and pip have written there goes, too."""
    prefix, modules = os.path.join(home, "elsewhere"), "lib/python3/dist-packages"
    given = {"PREFIX": prefix, "LIBRARIES": "lib64", "PYTHON_MODULES": modules}
    os.makedirs(os.path.join(prefix, modules, "others"))
    make.install(**given)
    found = environment(PYTHONPATH=os.path.join(prefix, modules), PYTHONDONTWRITEBYTECODE="")
    told = ran(sys.executable, "-c", "import regtx.aio, importlib.metadata; print(importlib.metadata.version('regtx'))", env=found, cwd=home)
    yield expect("import regtx", told, (f"{version()}\n", "", 0))
    told = printed("pkg-config", "--variable=libdir", "regtx-client", env=environment(PKG_CONFIG_PATH=os.path.join(prefix, "lib64/pkgconfig")))
    yield expect("pkg-config", told, f"{prefix}/lib64\n")
    told = ran(os.path.join(prefix, "bin/regtx-replicate"), "--help", cwd=home)
    yield expect("regtx-replicate", (told[0].startswith("usage: regtx-replicate"), told[1:]), (True, ("", 0)))
    yield expect("byte code", os.path.exists(os.path.join(prefix, modules, "regtx", "aio", "__pycache__")), True)
    yield expect("make uninstall", make("uninstall", **given), ("", "", 0))
    yield expect("what is left", (modes(prefix), os.path.exists(os.path.join(prefix, modules, "regtx"))), ({}, False))
    make.install(PREFIX=prefix)
    place = os.path.join(prefix, "share/regtx/clients/python")
    told = ran(sys.executable, "-c", "import wheels", cwd=place, env=environment(PYTHONDONTWRITEBYTECODE=""))
    yield expect("import wheels", (told, os.path.exists(os.path.join(place, "__pycache__"))), (("", "", 0), True))
    yield expect("make uninstall after pip", make("uninstall", PREFIX=prefix), ("", "", 0))
    yield expect("what is left of that", modes(prefix), {})


def refused(make, home):
    """What can't be installed; nothing is written then."""
    base, empty = os.path.join(home, "refused"), os.path.join(home, "empty")
    os.mkdir(empty)
    for title, told, given in [
            ("a blank", "PREFIX must begin with /", {"PREFIX": "/usr/my programs"}),
            ("a quote", "PREFIX must begin with /", {"PREFIX": "/usr/it's"}),
            ("a relative path", "PREFIX must begin with /", {"PREFIX": "usr"}),
            ("a blank in LIBRARIES", "LIBRARIES must have no blanks", {"PREFIX": "/usr", "LIBRARIES": "my lib"}),
            ("no program", "No such file", {"PREFIX": "/usr", "PROGRAM": os.path.join(home, "missing")}),
            ("no library", "has no regtx.h", {"PREFIX": "/usr", "LIBRARY": empty})]:
        _, why, status = make("install", DESTDIR=base, **given)
        yield expect(title, (status, told in why, os.path.exists(base)), (2, True, False))
    for name in ("regtx.h", "libregtx.a"):
        shutil.copy(os.path.join(make.library, name), empty)
    _, why, status = make("install", DESTDIR=base, PREFIX="/usr", LIBRARY=empty)
    yield expect("half a library", (status, "has no libregtx.so.0" in why, os.path.exists(base)), (2, True, False))


def defaults(make, home):
    """Without PROGRAM and LIBRARY the program that tools/build_quick.py names is installed, and what tools/c_library.py makes if it
    is asked for what is stale."""
    copy, base = os.path.join(home, "copy"), os.path.join(home, "defaults")
    copied([*SOURCES, "docs", "clients", "bindings", "completions", "examples", "server", "Makefile", "crates/regtx_c/README.md", "out/client"], copy)
    for name, text in [("build_quick.py", f"echo '{make.program}'"),
                       ("c_library.py", f"mkdir -p $2 && cp {make.library}/regtx.h {make.library}/libregtx.* $2 && echo $* >>made")]:
        with open(os.path.join(copy, "tools", name), "w", encoding="ascii") as file:
            file.write(f"#!/bin/sh\n{text}\n")
    told = ran("make", "--silent", "-C", copy, "install", f"DESTDIR={base}", "PREFIX=/usr")
    # it tells that every library is proved
    yield expect("make install", told, ("", UNPROVED, 0))
    yield expect("how the library is asked for", content(os.path.join(copy, "made")), b"--if-stale out/c\n--is-proved out/c\n")
    yield expect("the files", differences(modes(os.path.join(base, "usr")), expected_files()), ([], [], []))
    yield expect("the program", content(os.path.join(base, "usr/libexec/regtx")) == content(make.program), True)


def stale(make, home):
    """tools/c_library.py makes what is missing or older than a source, and nothing else: here by a toolchain that only tells it."""
    library, tools, told = (os.path.join(home, name) for name in ("library", "tools", "told"))
    os.mkdir(tools)
    with open(os.path.join(tools, "rt"), "w", encoding="ascii") as file:
        file.write(f"#!/bin/sh\necho asked >{told}\nexit 1\n")
    os.chmod(os.path.join(tools, "rt"), 0o755)
    words = [os.path.join(TOP, "tools", "c_library.py"), "--if-stale", library]
    given = {"env": environment(PATH=f"{tools}:{os.environ['PATH']}")}
    names = ("libregtx.a", "libregtx.so.0", "regtx.h")
    gone = [(f"without {name}", lambda name=name: os.remove(os.path.join(library, name))) for name in names]
    old = [(f"with an old {name}", lambda name=name: os.utime(os.path.join(library, name), (0, 0))) for name in names]
    for title, change in [("as it is", None), *gone, *old]:
        shutil.rmtree(library, ignore_errors=True)
        # copies are newer than the sources
        shutil.copytree(make.library, library, symlinks=True, copy_function=shutil.copyfile)
        if change:
            change()
        status = ran(*words, **given)[2]
        yield expect(f"a library {title}", (os.path.exists(told), status != 0), (bool(change), bool(change)))
        if os.path.exists(told):
            os.remove(told)


def files(make, home):
    """What is installed and removed; which programs are told to be unproved; and that nothing is built."""
    yield from staged(make, home)
    yield from shared(make, home)
    yield from elsewhere(make, home)
    yield from refused(make, home)
    yield from defaults(make, home)
    yield from stale(make, home)
    proved = shutil.copy(make.program, os.path.join(home, "proved"))
    subprocess.run([os.path.join(TOP, "tools", "mark.py"), proved, "proved"], check=True)
    given = {"DESTDIR": os.path.join(home, "marked"), "PREFIX": "/usr"}
    yield expect("a proved program", make("install", PROGRAM=proved, **given), ("", unproved(make, ""), 0))
    before = built(os.path.join(TOP, "out"))
    yield expect("make", make("all"), ("regtx is built; make install PREFIX=FOLDER installs it\n", "", 0))
    make.install(**given)
    yield expect("what was built", differences(built(os.path.join(TOP, "out")), before), ([], [], []))


def shell(command, **given):
    """What a shell prints of a command, its complaints, and its status."""
    return ran("sh", "-c", command, **given)


def library(prefix, home):
    """A C program that is linked by pkg-config, with either library, reads a hive."""
    source, hive = os.path.join(home, "reader.c"), os.path.join(TOP, "examples", "software.dat")
    with open(source, "w", encoding="ascii") as file:
        file.write(READER)
    config = environment(PKG_CONFIG_PATH=os.path.join(prefix, "lib/pkgconfig"))
    cc = "cc -std=c11 -Wall -Wextra -Wpedantic -Werror"
    command = f"{cc} -o by_library reader.c $(pkg-config --cflags --libs regtx)"
    yield expect("cc with pkg-config", shell(command, cwd=home, env=config), ("", "", 0))
    found = environment(LD_LIBRARY_PATH=os.path.join(prefix, "lib"))
    yield expect("the shared library", ran(os.path.join(home, "by_library"), hive, env=found), (READ, "", 0))
    linked = shell("readelf -d by_library | grep -c 'NEEDED.*libregtx\\.so\\.0'", cwd=home)[0]
    yield expect("what it is linked with", linked, "1\n")
    command = f"{cc} -o by_archive reader.c $(pkg-config --cflags regtx) {prefix}/lib/libregtx.a"
    yield expect("cc with the archive", shell(command, cwd=home, env=config), ("", "", 0))
    yield expect("the archive", ran(os.path.join(home, "by_archive"), hive), (READ, "", 0))


def clients(prefix, home):
    """The clients, from their places. Nothing is written there."""
    place, program = os.path.join(prefix, "share/regtx/clients"), os.path.join(prefix, "bin/regtx")
    before = modes(place)
    with open(os.path.join(place, "python/README.md"), encoding="utf-8") as file:
        example = PYTHON.search(file.read())[1]
    found = environment(PYTHONPATH=os.path.join(place, "python"), PYTHONDONTWRITEBYTECODE="1",
                        PATH=f"{os.path.dirname(program)}:{os.environ['PATH']}")
    os.mkdir(os.path.join(home, "python"))
    yield expect("Python", ran(sys.executable, "-c", example, cwd=os.path.join(home, "python"), env=found), ("1 1.0\n", "", 0))
    config = environment(PKG_CONFIG_PATH=os.path.join(prefix, "lib/pkgconfig"))
    for title, sources in [("one source", f"-I{place}/c {place}/c/example.c {place}/c/regtx_*.c"),
                           ("regtx-client.pc", f"{place}/c/example.c $(pkg-config --cflags --libs regtx-client)")]:
        told = shell(f"cc -std=c11 -Wall -Wextra -Werror -o c_client {sources}", cwd=home, env=config)
        yield expect(f"the client for C, {title}", told, ("", "", 0))
        yield expect(f"C, {title}", ran(os.path.join(home, "c_client"), program, f"c_{title[0]}_shop", cwd=home), (SHOP, "", 0))
    if are_there("works", "cargo"):
        given = environment(CARGO_TARGET_DIR=os.path.join(home, "target"), RUSTFLAGS="-D warnings")
        words = ["build", "--quiet", "--examples", "--offline", "--locked", "--jobs", "1"]
        words += ["--manifest-path", os.path.join(place, "rust/Cargo.toml")]
        yield expect("the client for Rust", ran("cargo", *words, env=given), ("", "", 0))
        yield expect("Rust", ran(os.path.join(home, "target/debug/examples/install"), program, "rust_shop", cwd=home), (SHOP, "", 0))
    yield expect("what the clients write", differences(modes(place), before), ([], [], []))


def bindings(prefix, home):
    """The module and the crate over the installed library, from their places. Nothing is written there."""
    place, lib = os.path.join(prefix, "share/regtx/bindings"), os.path.join(prefix, "lib")
    before, hive = modes(place), os.path.join(TOP, "examples", "software.dat")
    code = f"from regtx_hive import Hive; print(Hive.open({hive!r})['Software/Vendor/Product'.replace('/', chr(92))].values['Version'].value)"
    found = environment(PYTHONPATH=os.path.join(place, "python"), PYTHONDONTWRITEBYTECODE="1", LD_LIBRARY_PATH=lib)
    yield expect("the module of Python", ran(sys.executable, "-c", code, env=found), ("1.2\n", "", 0))
    if are_there("works", "cargo"):
        given = environment(CARGO_TARGET_DIR=os.path.join(home, "bindings"), CARGO_ENCODED_RUSTFLAGS=f"-Dwarnings\x1f-Lnative={lib}",
                            LD_LIBRARY_PATH=lib)
        words = ["run", "--quiet", "--example", "print", "--offline", "--locked", "--jobs", "1"]
        words += ["--manifest-path", os.path.join(place, "rust/Cargo.toml"), "--", hive]
        told, why, status = ran("cargo", *words, env=given)
        yield expect("the crate", ('  "Version" REG_SZ 31002e0032000000\n' in told, why, status), (True, "", 0))
    yield expect("what the bindings write", differences(modes(place), before), ([], [], []))


def server(prefix, home):
    """The broker serves a store by the installed program, to its client; and the units name both."""
    bin_folder, place = os.path.join(prefix, "bin"), os.path.join(home, "served")
    program, broker, client = (os.path.join(bin_folder, name) for name in ("regtx", "regtxd", "regtxc"))
    os.mkdir(place, 0o755)
    printed(program, "new", "store", ID, "1", cwd=place)
    with subprocess.Popen([broker, "socket", program, "serve", "store"], cwd=place, stdout=subprocess.PIPE, text=True) as served:
        yield expect("regtxd", served.stdout.readline(), "ready\n")
        yield expect("regtxc", shell(f"echo 'create 0:A' | {client} socket", cwd=place), ("opened 0\ncreated 1 accepted 1\n", "", 0))
        served.send_signal(signal.SIGTERM)
        yield expect("its end", served.wait(60), 0)
    yield expect("what is there", printed(program, "ls", "store", "0:", cwd=place), "key A\n")
    unit = content(os.path.join(prefix, "lib/systemd/system/regtx@.service")).decode()
    words = re.findall(r"^ExecStart=(.*)$", unit, re.M)
    yield expect("the unit", words, [f"{broker} -s /var/lib/regtx/%i /run/regtx/%i.sock {program} wait 60 serve /var/lib/regtx/%i"])


def fleet(prefix, home):
    """The installed command publishes a store at rest, and applies its changes to a replica."""
    bin_folder, place = os.path.join(prefix, "bin"), os.path.join(home, "fleet")
    command, words = os.path.join(bin_folder, "regtx-replicate"), ["--program", os.path.join(bin_folder, "regtx")]
    os.makedirs(os.path.join(place, "changes"), 0o755)
    printed(words[1], "new", "store", ID, "1", cwd=place)
    publish = [command, "publish", "store", "--to", "changes", "--once", *words]
    yield expect("publish", ran(*publish, cwd=place), ("published 0\n", f"regtx-replicate: publishes store {ID} after 0\n", 0))
    printed(command, "begin", "replica", "--of", "store", "--from", "changes", *words, cwd=place)
    with subprocess.Popen([os.path.join(bin_folder, "regtxd"), "-s", "store", "socket", words[1], "serve", "store"], cwd=place,
                          stdout=subprocess.PIPE, text=True) as served:
        served.stdout.readline()
        printed(os.path.join(bin_folder, "regtxc"), "socket", "create", "0:A", cwd=place)
        told, _, status = ran(*publish, cwd=place)
        yield expect("publish, served", (told, status), ("published 1\n", 0))
        served.terminate()
    told, _, status = ran(command, "subscribe", "replica", "--from", "changes", "--once", *words, cwd=place)
    yield expect("subscribe", (told, status), ("applied 1\n", 0))
    yield expect("the replica", printed(words[1], "ls", "replica", "0:", cwd=place), "key A\n")


def works(make, home):
    """The installed program makes a store; the library and the clients are used from their places."""
    prefix = os.path.join(home, "works")
    make.install(PREFIX=prefix)
    program = os.path.join(prefix, "bin/regtx")
    yield expect("about", printed(program, "about"), printed(make.program, "about"))
    for words, same in [("--version", "about"), ("-V", "about"), ("--help", "usage"), ("-h", "usage")]:
        yield expect(words, ran(program, words), (printed(make.program, same), "", 0))
    yield expect("the program's status", ran(program, "ls", os.path.join(home, "nothing"), "0:"), ("E16 JournalDamaged\n", "", 1))
    for words, told in [
            (["new", "store", ID, "2"], "ok\n"), (["run", "store", os.path.join(TOP, "examples/vendor.txt")], VENDOR),
            (["get", "store", "0:Software\\Vendor", "Version"], "sz 1.0\n"), (["ls", "store", "1:Services"], "key Vendor\n")]:
        yield expect(words[0], ran(program, *words, cwd=home), (told, "", 0))
    yield from server(prefix, home)
    yield from fleet(prefix, home)
    yield from library(prefix, home)
    yield from clients(prefix, home)
    yield from bindings(prefix, home)


def usages(program):
    """Each command with its words and what it does, as the program prints them."""
    found = []
    for line in printed(program, "usage").splitlines():
        name, *rest = line.removeprefix("usage: regtx ").split()
        words = list(itertools.takewhile(WORD.fullmatch, rest))
        found.append((name, words, " ".join(rest[len(words):])))
    return found


def collected(results):
    """What is wrong with each step of a part; a step without which the others can't be tried ends it."""
    found = []
    try:
        found.extend(results)
    except (OSError, subprocess.SubprocessError, AttributeError, IndexError, KeyError, TypeError) as error:
        found.append(f"{type(error).__name__}: {error}")
    return found


def ended(number, _):
    """Ends this by a signal as by an error, so that nothing is left."""
    sys.exit(f"ended by signal {number}")


def main():
    if len(sys.argv) != 3:
        sys.exit(__doc__)
    for number in (signal.SIGINT, signal.SIGTERM, signal.SIGHUP):
        signal.signal(number, ended)
    with program_at(sys.argv[1], "install-") as program:
        make, home = Make(program.path, os.path.abspath(sys.argv[2])), program.home
        # what a command leaves that is ended goes with this too
        os.environ["TMPDIR"] = home
        # it is told to be unproved, whichever it is
        subprocess.run([os.path.join(TOP, "tools", "mark.py"), program.path, "unproved"], check=True)
        commands, prefix = usages(program.path), os.path.join(home, "prefix")
        # what is made in the repository, tests/debian_package.py reads as another user
        told, why, status = make("install", umask=0o022, PREFIX=prefix)
        if status:
            finish([tell("install", [f"make install: status {status}: {told}{why}"])])
        finish([tell(title, collected(results)) for title, results in [
            ("version", versions(make, home)),
            ("files", files(make, home)),
            ("works", works(make, home)),
            ("manual", manual_page.results(prefix, commands, version(), home)),
            ("completion", completion.results(prefix, commands, home)),
            ("package", debian_package.results(make, version(), READER, READ, home)),
        ]])


main()
