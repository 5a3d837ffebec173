"""What is wrong with the crate of bindings/rust: its tests, its package, and what its example reads; a part of tests/hive_bindings.py."""
import os
import re
import subprocess

import regtx_hive
from hive_rows import of_example
from scratch import TOP, are_there, expect

CRATE = os.path.join(TOP, "bindings", "rust")
TOLD = re.compile(r"^test (.+) \.\.\. (ok|FAILED)$", re.MULTILINE)
BLOCK = re.compile(r"^```rust,no_run\n(.*?)^```$.*?^```text\n(.*?)^```$", re.MULTILINE | re.DOTALL)
# there are so many at least, with the code of the pages
LEAST_TESTS, SECONDS, EXPORTS = 20, 300, re.compile(r"^\s*(?:pub )?fn (regtx_\w+)\(", re.MULTILINE)
MANIFEST = """[package]
name = "{name}"
version = "0.0.0"
edition = "2021"

[dependencies]
regtx-hive = {{ path = "{crate}" }}
"""
# what stands in the package
PACKAGE = {".cargo_vcs_info.json", "Cargo.lock", "Cargo.toml", "Cargo.toml.orig", "README.md"}


def cargo(program, folder, *words, place=CRATE, flags=("-Dwarnings",)):
    """What cargo prints and its status. The linker is told of the library's folder as the crate's page says."""
    library = f"-Lnative={folder}"
    given = {**os.environ, "CARGO_TARGET_DIR": program.at("target"), "CARGO_ENCODED_RUSTFLAGS": "\x1f".join([library, *flags]),
             "CARGO_ENCODED_RUSTDOCFLAGS": library, "RUST_TEST_THREADS": "1", "TMPDIR": program.home}
    ran = subprocess.run(["timeout", "--signal=KILL", str(SECONDS), "cargo", *words, "--offline"], cwd=place, env=given,
                         stdin=subprocess.DEVNULL, capture_output=True, text=True)
    return ran.stdout, ran.stderr, ran.returncode


def crate_tests(program, folder):
    """Each test of the crate, and the code of its pages."""
    printed, why, status = cargo(program, folder, "test", "--no-fail-fast", "--locked", "--jobs", "1")
    told = TOLD.findall(printed)
    for name, outcome in told:
        yield expect(name, outcome, "ok")
    yield None if status == 0 and len(told) >= LEAST_TESTS else f"{len(told)} tests, status {status}: {printed[-600:]}{why[-600:]}"


def package(program, folder):
    """The crate's package has the files of the repository; and no unsafe code is outside one module."""
    printed, why, status = cargo(program, folder, "package", "--list", "--allow-dirty", "--locked")
    # the repository states no license and no place
    others = [line for line in why.splitlines() if line.startswith(("warning", "error")) and "manifest has no license" not in line]
    yield expect("cargo package --list", (others, status), ([], 0))
    tracked = subprocess.run(["git", "ls-files"], cwd=CRATE, stdout=subprocess.PIPE, text=True, check=True).stdout.split()
    sources = {name for name in tracked if name.endswith(".rs")}
    yield expect("the package", set(printed.split()) - {".cargo_vcs_info.json"}, (PACKAGE | sources) - {".cargo_vcs_info.json"})
    for name in sorted(name for name in sources if name.startswith("src/")):
        text = content(os.path.join(CRATE, name))
        has_unsafe = re.search(r"\bunsafe\s*(?:\{|impl|fn|extern)", text) is not None
        yield expect(f"{name}: unsafe code", has_unsafe, name == "src/ffi.rs")
        blocks, reasons = len(re.findall(r"\bunsafe (?:\{|impl)", text)), text.count("// SAFETY: ")
        yield expect(f"{name}: reasons for unsafe code", reasons, blocks)


def declared(folder):
    """Each call that the crate declares is one of the library."""
    names = EXPORTS.findall(content(os.path.join(CRATE, "src", "ffi.rs")))
    header = set(re.findall(r"^(?:uint32_t|void|bool) (regtx_\w+)\(", content(os.path.join(folder, "regtx.h")), re.MULTILINE))
    yield expect("the calls that are declared", (len(names) > 15, set(names) - header), (True, set()))


def content(path):
    with open(path, encoding="utf-8") as file:
        return file.read()


def project(program, name, code):
    """The folder of a program that uses the crate."""
    place = program.at(name)
    os.makedirs(os.path.join(place, "src"))
    for path, text in (("Cargo.toml", MANIFEST.format(name=name, crate=CRATE)), ("src/main.rs", code)):
        with open(os.path.join(place, path), "w", encoding="utf-8") as file:
            file.write(text)
    return place


def rounds(program, folder):
    """A program whose hives go from thread to thread: what it prints, what it holds, and two that must not be compiled."""
    place = project(program, "rounds", content(os.path.join(TOP, "tests", "hive_crate.rs")))
    _, why, status = cargo(program, folder, "build", place=place, flags=())
    yield expect("rounds: the build", (why[-600:] if status else "", status), ("", 0))
    held = program.at("held.so")
    # this library tells how many bytes are held, at each line that is printed
    subprocess.run(["cc", "-O2", "-shared", "-fPIC", "-o", held, os.path.join(TOP, "bench", "held.c")], check=True)
    words = [program.at("target", "debug", "rounds"), os.path.join(TOP, "examples", "software.dat")]
    ran = subprocess.run(words, env=dict(os.environ, LD_PRELOAD=held), capture_output=True, timeout=SECONDS)
    yield expect("rounds", (ran.stdout, ran.returncode), (b"round\n" * 20 + b"done\n", 0))
    counts = [int(count) for count in re.findall(rb"held=(\d+)", ran.stderr)][5:20]
    # blocks have a few bytes more or less; a hive has thousands
    yield expect("bytes held after rounds", (len(counts), max(counts) - min(counts) < 1_000), (15, True)) and f"held: {counts}"
    for word, wanted in [("is_copied", "Hive: Clone` is not satisfied"), ("is_shared", "cannot be shared between threads safely")]:
        _, why, status = cargo(program, folder, "check", place=place, flags=("--cfg", word))
        yield expect(word, (status, wanted in why), (101, True))


def page(program, folder):
    """The example of the crate's page prints what the page shows."""
    code, wanted = BLOCK.search(content(os.path.join(CRATE, "README.md"))).groups()
    place = project(program, "page", code)
    printed, why, status = cargo(program, folder, "run", "--quiet", place=place)
    yield expect("the example of the page", (printed, why, status), (wanted, "", 0))
    yield expect("what it writes", os.path.getsize(os.path.join(place, "vendor.hive")) % 4_096, 0)


def read(program, trees, spoiled):
    """What the example `print` reads of trees that are known; of spoiled files it says what the module of Python says."""
    example = program.at("target", "debug", "examples", "print")

    def printed(file):
        program.put("hive.dat", file)
        ran = subprocess.run([example, "hive.dat"], cwd=program.home, capture_output=True, text=True, timeout=SECONDS)
        return ran.stdout, ran.stderr, ran.returncode

    for title, (file, rows) in trees.items():
        told, why, status = printed(file)
        found = of_example(told)
        apart = next((pair for pair in zip(found, rows) if pair[0] != pair[1]), None)
        yield expect(f"print, {title}", (apart, len(found), why, status), (None, len(rows), "", 0))
    for number, file in enumerate(spoiled):
        told, why, status = printed(file)
        try:
            regtx_hive.Hive.open(file).close()
            yield expect(f"print, copy {number}", (told[:3], why, status), ('"" ', "", 0))
        except regtx_hive.HiveError as error:
            yield expect(f"print, copy {number}", (told, why, status), (f"hive.dat: {error}\n", "", 3))


def rust(program, folder, trees, spoiled):
    if not are_there("rust", "cargo"):
        return
    _, why, status = cargo(program, folder, "build", "--examples", "--locked", "--jobs", "1")
    yield expect("the build", (why[-600:] if status else "", status), ("", 0))
    if status == 0:
        yield from crate_tests(program, folder)
        yield from package(program, folder)
        yield from declared(folder)
        yield from page(program, folder)
        yield from rounds(program, folder)
        yield from read(program, trees, spoiled)
