#!/usr/bin/env python3
"""Takes the clients as their languages' tools do, without a network:

    tests/client_packages.py PROGRAM

- pip: the package for Python is installed into a new environment from its folder and from its archive, used, and removed.
- types: mypy finds nothing wrong with the package and its example, and what a user does wrong.
- cargo: the crates are packaged, and a new project takes the client by `cargo add --path`. It runs the programs of the client's page.
- c: the client as one header and one source, which compilers take without a warning, and what it exports.

What isn't installed is told, and counts neither as passed nor as failed. The last line is 'N passed, N failed', and the status is 0 if
none failed.
"""
import itertools
import os
import re
import select
import shutil
import subprocess
import sys
import zipfile

TOP = os.path.dirname(os.path.dirname(os.path.abspath(__file__)))
sys.dont_write_bytecode = True
sys.path.insert(0, os.path.join(TOP, "tests"))
from client_trials import bounded  # noqa: E402
from scratch import are_there, expect, finish, program_at, skip, tell  # noqa: E402
from served_store import broker_in, served, short_folder, until  # noqa: E402

PYTHON, RUST, HIVES = (os.path.join(TOP, *parts) for parts in (("clients", "python"), ("clients", "rust"), ("bindings", "rust")))
SECONDS = 200
USED = """
import sys, uuid, regtx
regtx.Store.create("by_pip", uuid.UUID(int=1), program=sys.argv[1])
with regtx.Store("by_pip", sys.argv[1]) as store:
    print(store.once(uuid.UUID(int=2), lambda t: t.create_key("0:A")), store.subkeys("0:"), regtx.__version__)
"""
# a user's program, and what is wrong with it by its line
TYPED = """import uuid
import regtx
store = regtx.Store("store")
number: int = store.once(uuid.uuid4(), lambda t: t.create_key("0:A"))
text: str = store.get_value("0:A", "v").text
data: str = store.get_value("0:A", "v").data
store.set_value("0:A", "v", "text")
with store.transaction() as t:
    t.comit()
"""
WRONG = {6: "assignment", 7: "arg-type", 9: "attr-defined"}
# what cargo misses until the owner has chosen a licence, and a place where the repository is
LACKING = "warning: manifest has no license, license-file, documentation, homepage or repository"
FLAGS = ["-O2", "-Wall", "-Wextra", "-Wpedantic", "-Wshadow", "-Werror"]
CODE = re.compile(r"^```rust,no_run\n(.*?)^```$", re.MULTILINE | re.DOTALL)


def ran(program, *words, **more):
    """What a command prints, its complaints and its status. It finds the program, and asks nobody over a network."""
    path = f"{program.home}:{os.environ['PATH']}"
    given = dict(os.environ, PATH=path, PIP_NO_INDEX="1", PIP_DISABLE_PIP_VERSION_CHECK="1", PIP_ROOT_USER_ACTION="ignore",
                 PYTHONDONTWRITEBYTECODE="1", CARGO_TARGET_DIR=program.at("target"), CARGO_NET_OFFLINE="true", **more.pop("environment", {}))
    ended = subprocess.run(bounded(SECONDS, *words), stdin=subprocess.DEVNULL, capture_output=True, text=True, env=given,
                           **{"cwd": program.home, **more})
    return ended.stdout, ended.stderr, ended.returncode


def files_below(folder):
    return {os.path.relpath(os.path.join(at, name), folder) for at, _, names in os.walk(folder) for name in names if not name.endswith(".pyc")}


def written(folder):
    """The files of the repository's folder, which a build may not add to."""
    return {name for name in files_below(folder) if "__pycache__" not in name and ".mypy_cache" not in name}


def archive_results(program):
    """The wheel, the archive of the sources, and what is written without pip have the same package."""
    code = "import sys, wheels; print(wheels.build_wheel(sys.argv[1]), wheels.build_sdist(sys.argv[1]))"
    names = []
    for folder in ("wheel", "again"):
        os.mkdir(program.at(folder))
        told, why, status = ran(program, sys.executable, "-c", code, program.at(folder), cwd=PYTHON)
        names = told.split()
        yield expect("wheels", (why, status, len(names)), ("", 0, 2))
    contents = [open(program.at(folder, names[0]), "rb").read() for folder in ("wheel", "again")]
    yield expect("the same wheel again", contents[0] == contents[1], True)
    yield expect("unpacked", ran(program, os.path.join(PYTHON, "wheels.py"), "--unpacked", program.at("unpacked")), ("", "", 0))
    with zipfile.ZipFile(program.at("wheel", names[0])) as wheel:
        yield expect("what is in the wheel", files_below(program.at("unpacked")), set(wheel.namelist()))
    sources = {os.path.join("regtx", name) for name in written(os.path.join(PYTHON, "regtx"))}
    yield expect("the package's files", sources - files_below(program.at("unpacked")), set())


def pip_results(program):
    """The package is installed from its folder, and from the archive of its sources."""
    before = written(PYTHON)
    yield from archive_results(program)
    python = program.at("environment", "bin", "python")
    _, why, status = ran(program, sys.executable, "-m", "venv", program.at("environment"))
    if status:
        skip("pip", f"no environment can be made: {why.strip().splitlines()[-1:]}")
        return
    empty = files_below(program.at("environment"))
    archive = next(program.at("wheel", name) for name in os.listdir(program.at("wheel")) if name.endswith(".tar.gz"))
    for title, source in [("the folder", PYTHON), ("the archive", archive)]:
        _, why, status = ran(program, python, "-m", "pip", "install", "--quiet", source)
        yield expect(f"pip install, {title}", (why, status), ("", 0))
        shutil.rmtree(program.at("by_pip"), ignore_errors=True)
        told, why, status = ran(program, python, "-c", USED, program.path)
        yield expect(f"used, {title}", (told, why, status), ("1 ['A'] 0.9.0\n", "", 0))
        told, why, status = ran(program, program.at("environment", "bin", "regtx-replicate"), "--help")
        yield expect(f"regtx-replicate, {title}", (told.startswith("usage: regtx-replicate"), why, status), (True, "", 0))
        yield expect(f"pip check, {title}", ran(program, python, "-m", "pip", "check")[2], 0)
        _, why, status = ran(program, python, "-m", "pip", "uninstall", "--quiet", "--yes", "regtx")
        yield expect(f"pip uninstall, {title}", (why, status), ("", 0))
        yield expect(f"what is left, {title}", files_below(program.at("environment")) - empty, set())
    yield expect("what is written beside the sources", written(PYTHON) - before, set())


def mypy_results(program):
    """The package has types throughout, and gives them to those who install it."""
    if not are_there("types", "mypy"):
        return
    cache = f"--cache-dir={program.at('mypy')}"
    told = ran(program, "mypy", cache, "--strict", "--python-version", "3.9", "-p", "regtx", cwd=PYTHON)
    yield expect("the package", (told[0].startswith("Success: no issues found"), told[2]), (True, 0)) and told[0][-2000:]
    told = ran(program, "mypy", cache, "--strict", os.path.join(PYTHON, "example.py"), environment={"MYPYPATH": PYTHON})
    yield expect("the example", (told[0], told[2]), ("Success: no issues found in 1 source file\n", 0))
    # as an installed package, whose `py.typed` says that it has types
    python = program.at("environment", "bin", "python")
    if not os.path.exists(python):
        skip("types", "no environment can be made")
        return
    _, why, status = ran(program, python, "-m", "pip", "install", "--quiet", PYTHON)
    yield expect("pip install", (why, status), ("", 0))
    program.put("user.py", TYPED.encode())
    told, _, status = ran(program, "mypy", cache, "--strict", "--python-executable", python, "--show-error-codes", "user.py")
    found = {int(line): code for line, code in re.findall(r"^user\.py:(\d+): error: .*\[([a-z-]+)\]$", told, re.MULTILINE)}
    yield expect("a user's program", (found, status), (WRONG, 1)) and told


def package_results(program):
    """cargo packages each crate, builds what it has packaged, and makes its pages."""
    for name, crate, flags in [("regtx-client", RUST, "-D warnings"), ("regtx-hive", HIVES, "-D warnings")]:
        words = ["cargo", "package", "--offline", "--locked", "--allow-dirty", "--jobs", "1"]
        _, why, status = ran(program, *words, cwd=crate, environment={"RUSTFLAGS": flags})
        warnings = [line for line in why.splitlines() if line.startswith(("warning", "error"))]
        yield expect(f"cargo package, {name}", (warnings, status), ([LACKING], 0)) and why[-2000:]
        words = ["cargo", "doc", "--quiet", "--no-deps", "--offline", "--locked", "--jobs", "1"]
        yield expect(f"cargo doc, {name}", ran(program, *words, cwd=crate, environment={"RUSTDOCFLAGS": "-D warnings"}), ("", "", 0))


def page_programs(socket):
    """The programs of the client's page: one opens a store, one connects, one follows, and one shares a pool."""
    with open(os.path.join(RUST, "README.md"), encoding="utf-8") as file:
        opening, connecting, following, pooled = (code.replace("/run/regtx/app.sock", socket) for code in CODE.findall(file.read()))
    main = "\nfn main() {\n    print_changes().unwrap()\n}\n"
    return {"opening": opening, "connecting": connecting, "following": following + main, "pooled": pooled}


def project_results(program):
    """A new project takes the client by its folder, and runs what the page shows."""
    project = program.at("project")
    _, why, status = ran(program, "cargo", "new", "--quiet", "--vcs", "none", "--lib", project)
    yield expect("cargo new", (why, status), ("", 0))
    _, why, status = ran(program, "cargo", "add", "--quiet", "--offline", "--path", RUST, cwd=project)
    yield expect("cargo add", (why, status), ("", 0))
    with served(program, broker_in(program), "page") as it:
        codes = page_programs(it.path)
        os.mkdir(os.path.join(project, "src", "bin"))
        for name, code in codes.items():
            program.put(f"project/src/bin/{name}.rs", code.encode())
        told = ran(program, "cargo", "build", "--quiet", "--offline", "--jobs", "1", cwd=project, environment={"RUSTFLAGS": "-D warnings"})
        yield expect("cargo build", told, ("", "", 0))
        if told[2]:
            return
        program.run("new", "store", "00112233-4455-6677-8899-aabbccddeeff", "1")
        for name, wanted in [("opening", "Some(\"1.0\")\n"), ("connecting", "change Some(1)\n"), ("pooled", "")]:
            for _ in range(2):
                yield expect(name, ran(program, program.at("target", "debug", name)), (wanted, "", 0))
        with subprocess.Popen(bounded(SECONDS, program.at("target", "debug", "following")), stdout=subprocess.PIPE, text=True) as follower:
            with it.lines() as lines:
                keys = itertools.count()

                def is_told():
                    lines.ask(f"create 0:Later{next(keys)}", "flush")
                    return select.select([follower.stdout], [], [], 0.1)[0]
                # it may not have connected as the first ones are made
                until(is_told)
            yield expect("following", bool(re.fullmatch(r'\d+ \["create 0:Later\d+"\]\n', follower.stdout.readline())), True)
            it.end()
            follower.stdout.read()
            yield expect("its end", follower.wait(SECONDS), 0)


def c_results(program):
    """The client as one source: each compiler takes it, as C and its header as C++, and it exports what the header declares."""
    told = ran(program, os.path.join(TOP, "tools", "amalgamation.py"), program.at("joined"))
    yield expect("tools/amalgamation.py", told, ("", "", 0))
    source, made = program.at("joined", "regtx_client.c"), program.at("joined", "regtx_client.o")
    for compiler in are_there("c", "gcc", "clang"):
        for optimized in ("-O0", "-O2"):
            told = ran(program, compiler, "-std=c11", *FLAGS, optimized, "-c", "-o", made, source)
            yield expect(f"{compiler} {optimized}", told, ("", "", 0))
    for compiler in are_there("c", "g++"):
        program.put("joined/user.cc", b'#include "regtx_client.h"\nint main() { return regtx_close(nullptr); }\n')
        # a struct and a call of one name are a shadow in C++ alone
        flags = [flag for flag in FLAGS if flag != "-Wshadow"]
        yield expect(compiler, ran(program, compiler, *flags, "-o", program.at("user"), program.at("joined", "user.cc"), made), ("", "", 0))
        yield expect("the program", ran(program, program.at("user")), ("", "", 0))
    with open(program.at("joined", "regtx_client.h"), encoding="utf-8") as file:
        declared = set(re.findall(r"^(?!typedef)\w[\w ]*[ *](regtx_\w+)\(", file.read(), re.MULTILINE))
    told, _, _ = ran(program, "nm", "--defined-only", "--extern-only", made)
    yield expect("what it exports", {line.split()[2] for line in told.splitlines()}, declared)


def main():
    if len(sys.argv) != 2:
        sys.exit(__doc__)
    with program_at(sys.argv[1], "client-packages-", short_folder(None)) as program:
        counts = [tell("pip", list(pip_results(program))), tell("types", list(mypy_results(program)))]
        if are_there("cargo", "cargo"):
            counts.append(tell("cargo", [*package_results(program), *project_results(program)]))
        counts.append(tell("c", list(c_results(program))))
    finish(counts)


main()
