"""What was built of the crates, and the words by which rattle checks or builds another crate over it."""
import os
import subprocess

from graph import TOP, below, is_program, newest, static_libraries

# the folders of a crate that its proof depends on
PROVED = ["src", "specs", "proofs"]
GIBIBYTES_A_CHECK = 4


def kit_folder():
    """The folder of the toolchain."""
    return os.path.dirname(subprocess.run(["rt", "doc"], stdout=subprocess.PIPE, text=True, check=True).stdout.split()[-1])


def folder_of(crate):
    return f"{TOP}/crates/{crate}/out/rlib"


def is_built(crate):
    """Whether the crate's library is there, and as new as its files."""
    rlib = f"{folder_of(crate)}/{crate}.rlib"
    return os.path.exists(rlib) and os.path.getmtime(rlib) >= newest(crate, PROVED)


def words_for(crate, graph, kit):
    """The words for `rattle check` or `rattle build` of a crate over the libraries of those below it: the ones that `rt` gives."""
    words = ["--crate-name", crate, "src/main.rt" if is_program(crate) else "src/lib.rt"]
    for name in ["std", *graph[crate]]:
        rlib = f"{folder_of(name)}/{name}.rlib" if name in graph else f"{kit}/rlibs/{name}.rlib"
        words += ["--extern", f"{name}={rlib}"]
    for folder in [f"{kit}/rlibs", *map(folder_of, below(crate, graph))]:
        words += ["-L", f"dependency={folder}"]
    words += ["--antt-project", f"{kit}/rattle/logic/antt-project.json", "--logic-built", f"{kit}/logic_built"]
    return [*words, "--links", f"{crate}=", *(["--crate-type", "staticlib"] if crate in static_libraries() else [])]


def side_by_side():
    """How many checks fit the processors and the memory that is there."""
    with open("/proc/meminfo", encoding="ascii") as file:
        there = next(int(line.split()[1]) for line in file if line.startswith("MemAvailable"))
    return max(1, min(os.cpu_count(), there // (GIBIBYTES_A_CHECK << 20)))
