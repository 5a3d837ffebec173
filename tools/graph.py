"""The crates of crates.txt and the programs of tests/programs.txt, what each stands on, and whether what was built is as new as its
files."""
import os

TOP = os.path.dirname(os.path.dirname(os.path.abspath(__file__)))
CRATES, PROGRAMS = f"{TOP}/crates.txt", f"{TOP}/tests/programs.txt"


def lines_of(path):
    """The names of a list, each with the crates and the libraries of the toolchain that its line names."""
    with open(path, encoding="utf-8") as file:
        lines = [line.split("#")[0].strip() for line in file]
    named = [line.split(":", 1) for line in lines if line]
    return {head.split()[0]: tail.split() for head, tail in named}


def crates():
    """The crates of the repository, each of which is proved."""
    return lines_of(CRATES)


def programs():
    """The programs that only try or measure the crates, and are built without proofs."""
    return lines_of(PROGRAMS)


def folder_of(name):
    """The folder of a crate, or of a program of tests/programs.txt."""
    places = [f"{TOP}/{place}/{name}" for place in ("crates", "tests", "bench")]
    return next(place for place in places if os.path.isdir(place))


def static_libraries():
    """The crates that programs in other languages link, and no crate uses."""
    with open(f"{TOP}/crates.txt", encoding="utf-8") as file:
        heads = [line.split("#")[0].partition(":")[0].split() for line in file]
    return {head[0] for head in heads if "staticlib" in head[1:]}


def own_crates():
    """The crates of the repository, each with those of them on which it stands."""
    graph = crates()
    return {crate: [name for name in names if name in graph] for crate, names in graph.items()}


def below(crate, graph):
    """The crates of the repository on which one stands, each after those on which it stands."""
    found = {}

    def add_below(above):
        for name in graph[above]:
            if name in graph and name not in found:
                add_below(name)
                found[name] = None

    add_below(crate)
    return list(found)


def is_program(crate):
    return os.path.exists(f"{TOP}/crates/{crate}/src/main.rt")


def newest(name, parts):
    """When a file in these folders of a crate, or in the folder of a program, was last changed, put there or taken away."""
    moments, home = [0.0], folder_of(name)
    for top in [f"{home}/{part}" for part in parts] if home.startswith(f"{TOP}/crates/") else [home]:
        for folder, _, files in os.walk(top):
            moments += [os.stat(folder).st_mtime, *(os.stat(os.path.join(folder, file)).st_mtime for file in files)]
    return max(moments)


def is_fresh(made, program, graph, parts):
    """Whether this file is there and as new as these folders of the program and of all crates below it."""
    if not os.access(made, os.X_OK):
        return False
    sources = max(newest(crate, parts) for crate in [program, *below(program, graph)])
    lists = [CRATES] if program in crates() else [CRATES, PROGRAMS]
    return os.stat(made).st_mtime >= max(sources, *(os.stat(path).st_mtime for path in lists))
