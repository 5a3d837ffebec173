#!/usr/bin/env python3
"""Makes Debian packages of all that `make install` installs:

    tools/package.py FOLDER [NAME=VALUE ..]     writes them to a folder, and prints their paths

They are regtx, libregtx0, libregtx-dev and python3-regtx, and each file is in one of them. NAME=VALUE are variables of the Makefile,
such as PROGRAM=FILE and LIBRARY=FOLDER, whose paths begin at the top of the repository.
"""
import os
import re
import shutil
import subprocess
import sys
import tempfile
from dataclasses import dataclass, field

sys.dont_write_bytecode = True
from debian import compress, control, doc_folder, least_libc, output, put, put_all_sums, strip, symbols  # noqa: E402
from graph import TOP  # noqa: E402
from product import changed, description, summary, version  # noqa: E402

CHANGELOG, MODULES, SHARED = f"{TOP}/docs/changelog", "lib/python3/dist-packages", "libregtx.so.0"
VARIABLE = re.compile(r"[A-Z_]+=.*")
# byte code is made for Python as the package comes, and goes before it
COMPILE = """#!/bin/sh
set -e
if [ "$1" = configure ] && command -v py3compile >/dev/null 2>&1; then
    py3compile -p python3-regtx
fi
"""
CLEAN = f"""#!/bin/sh
set -e
if command -v py3clean >/dev/null 2>&1; then
    py3clean -p python3-regtx
else
    find /usr/{MODULES}/regtx -depth -name __pycache__ -exec rm -r {{}} +
    rm -f /usr/{MODULES}/__pycache__/regtx_hive.*.pyc
fi
"""


@dataclass
class Package:
    """A package: its fields, which files below /usr it has, and the texts that dpkg reads of it. `{version}` is its own version, and
    `{libc}` the version of the C library that its files need."""
    name: str
    files: str
    section: str
    summary: str
    text: str
    fields: list = field(default_factory=list)
    architecture: str = ""
    texts: dict = field(default_factory=dict)
    scripts: dict = field(default_factory=dict)


def packages(architecture, multiarch):
    """All packages. A file is in the first one whose pattern it has."""
    library = re.escape(f"lib/{multiarch}/")
    return [
        Package("libregtx0", rf"{library}libregtx\.so\.0", "libs", "Windows registry hives in memory (library)",
                "This is the library for programs that read, edit or make hives in memory. It needs the C library alone.",
                [("Multi-Arch", "same"), ("Depends", "{libc}")],
                texts={"triggers": "activate-noawait ldconfig\n", "shlibs": f"libregtx 0 libregtx0 (>= {version()})\n"}),
        Package("libregtx-dev", rf"{library}.*|include/.*|share/man/man3/.*|share/regtx/(?:clients/(?:c|rust)|bindings/rust)/.*", "libdevel",
                "Windows registry hives and stores, from C and Rust",
                "The package has the headers and libraries by which C programs use hives in memory (pkg-config calls them regtx), and "
                "stores of regtx (regtx-client); and crates of Rust over both, as sources.",
                [("Multi-Arch", "same"), ("Depends", "libregtx0 (= {version})"), ("Suggests", "regtx")]),
        Package("python3-regtx", rf"{re.escape(MODULES)}/.*|share/regtx/.*\.py|bin/regtx-replicate|share/man/man1/regtx-replicate\.1", "python", "Windows registry hives and stores, from Python",
                "The package has regtx, by which programs use stores of the program or the server of that name; and regtx_hive, hives in "
                "memory; and regtx-replicate, which carries a store's changes to many machines.",
                [("Depends", "python3 (>= 3.9), libregtx0 (>= {version})"), ("Recommends", "regtx (>= {version})")], "all",
                scripts={"postinst": COMPILE, "prerm": CLEAN}),
        Package("regtx", ".*", "database", summary(),
                f"{description()}\n\nThe package has the program, the broker that serves a store to several programs, its units for systemd, "
                "pages and examples.",
                [("Depends", "{libc}"), ("Suggests", "python3-regtx, libregtx-dev")]),
    ]


def share_out(whole, found):
    """Moves each file and link of a root into that of the package that has it."""
    for folder, _, names in os.walk(whole):
        for path in (os.path.join(folder, name) for name in sorted(names)):
            name = os.path.relpath(path, whole)
            package = next(each for each in found if re.fullmatch(each.files, name.removeprefix("usr/")))
            target = os.path.join(os.path.dirname(whole), package.name, name)
            os.makedirs(os.path.dirname(target), mode=0o755, exist_ok=True)
            os.rename(path, target)


def write_package(package, root, architecture, folder, environment):
    """Makes a package of its root; answers its path."""
    put(root, f"usr/{doc_folder(package.name)}/changelog", content(CHANGELOG))
    compress(root, [r"usr/share/man/.*", r"usr/share/doc/[^/]*/changelog"])
    for name, text in package.texts.items():
        put(root, f"DEBIAN/{name}", text)
    for name, text in package.scripts.items():
        put(root, f"DEBIAN/{name}", text, 0o755)
    if package.name == "libregtx0":
        put(root, "DEBIAN/symbols", symbols(root, SHARED, package.name, version()))
    libc = f"libc6 (>= {least_libc(root)})" if "{libc}" in str(package.fields) else ""
    fields = [(name, text.format(version=version(), libc=libc)) for name, text in package.fields]
    put_all_sums(root)
    architecture = package.architecture or architecture
    put(root, "DEBIAN/control", control(root, package, architecture, version(), fields))
    made = os.path.join(folder, f"{package.name}_{version()}_{architecture}.deb")
    subprocess.run(["dpkg-deb", "--root-owner-group", "--build", root, made], stdout=sys.stderr, check=True, env=environment)
    return made


def content(path):
    with open(path, encoding="utf-8") as file:
        return file.read()


def build(folder, variables):
    """Makes the packages; answers their paths."""
    architecture = output("dpkg", "--print-architecture").strip()
    # dpkg-dev knows the name of the system's own folder of libraries, and so does the compiler, which has to be there anyway
    multiarch = output("cc", "-print-multiarch").strip() or f"{os.uname().machine}-linux-gnu"
    found = packages(architecture, multiarch)
    environment = {**os.environ, "SOURCE_DATE_EPOCH": str(changed("."))}
    with tempfile.TemporaryDirectory(prefix="regtx-package-") as home:
        whole = os.path.join(home, "whole")
        words = [f"DESTDIR={whole}", "PREFIX=/usr", f"LIBRARIES=lib/{multiarch}", f"PYTHON_MODULES={MODULES}",
                 # where the zsh of Debian looks for completions of packages
                 "ZSH_FUNCTIONS=share/zsh/vendor-completions"]
        subprocess.run(["make", "--silent", "-C", TOP, "install", *variables, *words], stdout=sys.stderr, check=True)
        strip(whole)
        share_out(whole, found)
        shutil.rmtree(whole)
        os.makedirs(folder, exist_ok=True)
        return [write_package(package, os.path.join(home, package.name), architecture, folder, environment) for package in found]


def main():
    if len(sys.argv) < 2 or not all(map(VARIABLE.fullmatch, sys.argv[2:])):
        sys.exit(__doc__)
    os.umask(0o022)
    try:
        print("\n".join(build(sys.argv[1], sys.argv[2:])))
    except subprocess.CalledProcessError as failed:
        sys.exit(f"regtx: {failed.cmd[0]} ended with status {failed.returncode}")


main()
