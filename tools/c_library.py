#!/usr/bin/env python3
"""Makes the library for programs in C:

    tools/c_library.py FOLDER                writes libregtx.a, libregtx.so.0 and regtx.h to a folder
    tools/c_library.py --quick FOLDER        the same in a minute, without proving anything
    tools/c_library.py --races FOLDER        writes libregtx.a and regtx.h so, for a program that is linked by cc -fsanitize=thread
    tools/c_library.py --if-stale FOLDER     does so if one of them is missing, or older than a file that it is made of: without
                                             proofs, unless `rt ci` has proved the crates below
    tools/c_library.py --is-proved FOLDER    ends with status 0 if the library there was proved, by what its regtx_version tells

The code is the static library crates/regtx_c. It is proved and compiled over the libraries of the crates below it that `rt ci` left
in crates/NAME/out/rlib. If one isn't there or is older than its crate's files, `rt lib` proves and builds them all first. Without
proofs tools/quick_library.py compiles it, with the checks that unproved code needs: one that fails ends the caller by a signal.

The toolchain's calls of malloc, realloc and free are put beside it, so that a program links with libregtx.a alone. `cc` links the
same into a shared object, for languages that load one: it exports the calls of regtx.h, and needs the C library alone. The number in
its name rises if a program that was linked with it no longer fits it. Its calls have a version, by which a program that needs a
later one is refused as it is loaded.
"""
import ctypes
import os
import shutil
import subprocess
import sys
import tempfile
import time

sys.dont_write_bytecode = True
from graph import TOP, below, crates, newest  # noqa: E402
from quick_library import quick_object  # noqa: E402
from rlibs import PROVED, is_built, kit_folder, words_for  # noqa: E402

CRATE = "regtx_c"
ARCHIVE = f"{TOP}/crates/{CRATE}/out/lib{CRATE}.a"
SHARED = "libregtx.so.0"
HEADER = f"{TOP}/crates/{CRATE}/regtx.h"
# the version since which the calls are there; what a later one adds gets a node of its own, after this one
VERSIONS = "REGTX_0.9 { global: regtx_*; local: *; };\n"


def written(folder):
    """The files that are written to a folder."""
    return [f"{folder}/{name}" for name in ("libregtx.a", SHARED, "regtx.h")]


def is_fresh(folder, own):
    """Whether all is written there, and as new as the files of the crate and of those below it."""
    sources = max(os.path.getmtime(HEADER), *(newest(crate, PROVED) for crate in [CRATE, *own]))
    return all(os.path.exists(path) and os.path.getmtime(path) >= sources for path in written(folder))


def build(kit, graph, own):
    """Proves and compiles the library over those of the crates below it. Answers the line by which `ar` takes it."""
    if all(is_built(crate) for crate in own):
        os.makedirs(os.path.dirname(ARCHIVE), exist_ok=True)
        subprocess.run([f"{kit}/bin/rattle", "build", *words_for(CRATE, graph, kit), "--toolchain", f"{kit}/toolchain", "--jobs", "1",
                        "-o", ARCHIVE], cwd=f"{TOP}/crates/{CRATE}", check=True)
    else:
        subprocess.run(["rt", "lib"], cwd=f"{TOP}/crates/{CRATE}", check=True)
    return f"addlib {ARCHIVE}"


def build_quick(kit, graph, folder, races=False):
    """Compiles the library in a folder without proofs, for ThreadSanitizer if that is asked. Answers the line by which `ar` takes it."""
    print("regtx: building the library for C without its proofs; this takes a minute, or three beside other work", file=sys.stderr, flush=True)
    made, why = quick_object(CRATE, graph, kit, folder, races)
    if made is None:
        sys.exit(f"regtx: the library for C could not be built without its proofs:\n{why[-3000:]}")
    return f"addmod {made}"


def link(folder):
    """Makes the shared object of the archive. A symbol that the C library doesn't have ends this."""
    subprocess.run(["cc", "-shared", "-o", f"{folder}/{SHARED}", f"-Wl,-soname,{SHARED}", "-Wl,-z,defs",
                    "-Wl,--version-script=/dev/stdin", "-Wl,--whole-archive", f"{folder}/libregtx.a", "-Wl,--no-whole-archive"],
                   input=VERSIONS, text=True, check=True)


def write(to, kit, added):
    """Writes the archive and the header to a folder, of what `ar` takes by a line."""
    os.makedirs(to, exist_ok=True)
    lines = [f"create {to}/libregtx.a", added, f"addlib {kit}/c/liblibc_c.a", "save", "end"]
    subprocess.run(["ar", "-M"], input="\n".join(lines) + "\n", text=True, check=True)
    shutil.copyfile(HEADER, f"{to}/regtx.h")


def is_proved(folder):
    """Whether the library in a folder tells that it was proved."""
    told = ctypes.c_bool()
    ctypes.CDLL(os.path.abspath(f"{folder}/{SHARED}")).regtx_version(ctypes.byref(told))
    return told.value


def main():
    words = sys.argv[1:]
    how = words.pop(0) if words[:1] in (["--quick"], ["--races"], ["--if-stale"], ["--is-proved"]) else None
    if len(words) != 1 or words[0].startswith("-"):
        print(__doc__, file=sys.stderr)
        return 2
    to, graph = words[0], crates()
    own = below(CRATE, graph)
    if how == "--is-proved":
        return 0 if is_proved(to) else 1
    if how == "--if-stale" and is_fresh(to, own):
        return 0
    if not shutil.which("rt"):
        sys.exit("regtx: the library for C isn't built yet, and the Rattle toolchain that builds it is missing: no rt on the path")
    began, kit = time.time(), kit_folder()
    with tempfile.TemporaryDirectory(prefix="regtx-library-") as folder:
        if how == "--races":
            write(to, kit, build_quick(kit, graph, folder, True))
            return 0
        is_quick = how == "--quick" or how == "--if-stale" and not all(is_built(crate) for crate in own)
        write(to, kit, build_quick(kit, graph, folder) if is_quick else build(kit, graph, own))
    link(to)
    for path in written(to):
        # a file that changed while it was built is newer
        os.utime(path, (began, began))
    return 0


sys.exit(main())
