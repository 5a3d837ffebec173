"""Runs a built program in scratch folders, and tells what passed: what the scripts that try it on files share."""
import os
import resource
import shutil
import subprocess
import sys
import tempfile
from contextlib import contextmanager

TOP = os.path.dirname(os.path.dirname(os.path.abspath(__file__)))
SECONDS = 60
NOBODY = 65_534
# where files lie in memory, and what stores may take of it
MEMORY, ROOM = "/dev/shm", 268_435_456


class Program:
    """The program, run in a folder of its own."""

    def __init__(self, path, home):
        self.path, self.home = path, home

    def run(self, *words, **given):
        """What is printed, and the status; or what goes to standard error."""
        environment = dict(os.environ, **given.pop("environment", {}))
        ended = subprocess.run([self.path, *words], cwd=self.home, stdin=subprocess.DEVNULL, capture_output=True,
                               timeout=SECONDS, env=environment, **given)
        return (ended.stdout, ended.returncode) if not ended.stderr else (ended.stderr, ended.returncode)

    def status_to(self, device, *words):
        """The status of a run whose replies go to a device."""
        with open(device, "wb") as file:
            return subprocess.run([self.path, *words], cwd=self.home, stdin=subprocess.DEVNULL, stdout=file,
                                  timeout=SECONDS).returncode

    def at(self, *names):
        return os.path.join(self.home, *names)

    def put(self, name, content):
        with open(self.at(name), "wb") as file:
            file.write(content)
        return name


def expect(title, found, wanted):
    return None if found == wanted else f"{title}: wanted {shown(wanted)}, found {shown(found)}"


def shown(thing):
    text = repr(thing)
    return text if len(text) <= 160 else f"{text[:160]}.. ({len(text)})"


def refusal_shim():
    """The path of the library that refuses allocations, for LD_PRELOAD; tools/failalloc.py says by which variables."""
    built = subprocess.run([os.path.join(TOP, "tools", "failalloc.py"), "library"], stdout=subprocess.PIPE, check=True)
    return built.stdout.decode().strip()


def noting_library(program):
    """The path of the library that notes calls on files, for LD_PRELOAD; tests/syncs.c says by which variables."""
    path = program.at("syncs.so")
    subprocess.run(["cc", "-O2", "-shared", "-fPIC", "-o", path, os.path.join(TOP, "tests", "syncs.c")], check=True)
    return path


def noting(program, library):
    """A program that writes down its process and is the program from then on; one that ends itself at a call, if so asked."""
    path = program.at("noting")
    with open(path, "w", encoding="ascii") as file:
        file.write(f"""#!/bin/sh
cd '{program.home}' && echo $$ > pid
if mv end_at used 2>/dev/null; then export LD_PRELOAD='{library}' CALLS_END_AT="$(cat used)"; fi
exec '{program.path}' "$@"
""")
    os.chmod(path, 0o755)


def as_other():
    """What makes a run one of a user who isn't root; nothing where this isn't root either."""
    return {"user": NOBODY} if os.geteuid() == 0 else {}


def limited(kind, most):
    """What bounds a run; a file over its size is an error then and ends nothing, as on a full device: the signal is ignored."""
    return {"preexec_fn": lambda: resource.setrlimit(kind, (most, most)), "restore_signals": False}


def ended_at(size):
    """What ends a run by SIGXFSZ as it writes behind so many bytes of a file, as `ulimit -f` does in a shell."""
    def bound():
        resource.setrlimit(resource.RLIMIT_FSIZE, (size, size))
        resource.setrlimit(resource.RLIMIT_CORE, (0, 0))
    return {"preexec_fn": bound, "restore_signals": True}


@contextmanager
def mounted(program, size):
    """A folder that has so many bytes; or None where none can be mounted."""
    os.mkdir(program.at("full"))
    made = subprocess.run(["mount", "-t", "tmpfs", "-o", f"size={size}", "tmpfs", program.at("full")], capture_output=True)
    try:
        yield "full" if made.returncode == 0 else None
    finally:
        if made.returncode == 0:
            subprocess.run(["umount", program.at("full")], check=True)


def memory():
    """The folder whose files lie in memory, where there is one with room for stores; or None."""
    if not os.access(MEMORY, os.W_OK):
        return None
    told = os.statvfs(MEMORY)
    return MEMORY if told.f_bavail * told.f_frsize >= ROOM else None


@contextmanager
def program_at(path, prefix, where=None):
    """The program of this path, copied into a folder that goes with the run; in another folder if so asked."""
    with tempfile.TemporaryDirectory(prefix=prefix, dir=where) as home:
        os.chmod(home, 0o755)
        program = Program(shutil.copy(os.path.realpath(path), os.path.join(home, "regtx")), home)
        os.chmod(program.path, 0o755)
        yield program


def skip(part, why):
    """Says that something can't be tried here; tests/all.py counts these lines."""
    print(f"{part}: skipped: {why}")


def are_there(part, *names):
    """Those of these programs of others that are installed; the others are skipped by name."""
    found = [name for name in names if shutil.which(name)]
    for name in names:
        if name not in found:
            skip(part, f"{name} isn't there")
    return found


def tell(part, results):
    """Prints how a part went; answers how many passed and how many failed."""
    wrong = [why for why in results if why]
    for why in wrong[:10]:
        print(f"{part}: {why}")
    print(f"{part}: {len(results) - len(wrong)} passed, {len(wrong)} failed")
    return len(results) - len(wrong), len(wrong)


def finish(counts):
    """Prints how all parts went, and ends this."""
    passed, failed = (sum(count) for count in zip(*counts))
    print(f"{passed} passed, {failed} failed")
    sys.exit(1 if failed or not passed else 0)
