"""Installs the repository into scratch folders, and lists what is there: what the parts of tests/install.py share."""
import os
import re
import shutil
import signal
import stat
import subprocess
from contextlib import suppress

TOP = os.path.dirname(os.path.dirname(os.path.abspath(__file__)))
SECONDS = 120
# pages that are installed, beside those of clients, of bindings and of examples
PAGES = ["README.md", *[f"docs/{name}.md" for name in (
    "ERRORS", "FLEET", "FORMATS", "HEADLINE", "INSTALLING", "LAB", "OPERATING", "PICTURES", "RECOVERING", "REGFILES", "SCRIPTS", "SERVING", "SWEEP",
    "USING",
)], "server/README.md", "crates/regtx_c/README.md"]
UNITS = [f"lib/systemd/system/regtx@.{kind}" for kind in ("service", "socket")]
ZSH, VENDOR_ZSH = "share/zsh/site-functions/_regtx", "share/zsh/vendor-completions/_regtx"
LIBRARIES = {"libregtx.a": 0o644, "libregtx.so.0": 0o644, "libregtx.so": None, "libregtx_client.a": 0o644, "pkgconfig/regtx.pc": 0o644,
             "pkgconfig/regtx-client.pc": 0o644}
MANUAL = [f"share/man/man{page[-1]}/{page}" for page in ("regtx.1", "regtxd.1", "regtxc.1", "regtx-replicate.1", "regtx.3", "regtx_client.3")]
# what has no client, binding or example among it, with the modes
FILES = {**dict.fromkeys(["bin/regtx", "bin/regtxd", "bin/regtxc", "bin/regtx-replicate", "libexec/regtx"], 0o755), **dict.fromkeys([
    *UNITS, "include/regtx.h", "include/regtx_client.h", *MANUAL, ZSH, "share/bash-completion/completions/regtx",
    *[f"share/doc/regtx/{page}" for page in PAGES], *[f"share/regtx/clients/c/regtx_client.{ending}" for ending in "ch"],
], 0o644)}
# a link of a page
LINK = re.compile(r"\]\(([^)#\s]+)")
# what the manual pages are made of
SOURCES = ["tools", "README.md", "docs/USING.md", "docs/SCRIPTS.md", "docs/SERVING.md", "docs/FLEET.md", "server/README.md", "clients/README.md",
           "clients/c/README.md", "clients/c/regtx_client.h", "crates/regtx_c/README.md", "crates/regtx_c/regtx.h",
           "crates/regtx/src/usages.rt", "crates/regtx/src/about.rt"]
# what a caller may have set for a make of its own
VARIABLES = ["PREFIX", "DESTDIR", "PROGRAM", "LIBRARY", "LIBRARIES", "PYTHON_MODULES", "ZSH_FUNCTIONS", "MAKEFLAGS", "MFLAGS", "MAKELEVEL"]


def environment(**more):
    """The variables of a command, without those that a make around this has set."""
    return {**{name: value for name, value in os.environ.items() if name not in VARIABLES}, "LC_ALL": "C.UTF-8", **more}


def ran(*words, **given):
    """What a command prints, what goes to standard error, and its status. What it has started ends with it."""
    child = subprocess.Popen(words, stdin=subprocess.DEVNULL, stdout=subprocess.PIPE, stderr=subprocess.PIPE, text=True,
                             start_new_session=True, **{"env": environment(), **given})
    try:
        told, why = child.communicate(timeout=SECONDS)
    except BaseException:
        with suppress(ProcessLookupError):
            os.killpg(child.pid, signal.SIGKILL)
        # all of them have let go of what they print into; so none writes a file any more
        child.communicate()
        raise
    return told, why, child.returncode


def printed(*words, **given):
    """What a command prints that has to end well."""
    told, why, status = ran(*words, **given)
    if status:
        raise ChildProcessError(f"{' '.join(words)}: status {status}: {told[-1000:]}{why[-1000:]}")
    return told


class Make:
    """The Makefile with a program and a library that are built."""

    def __init__(self, program, library):
        self.program, self.library = program, library

    def __call__(self, target, umask=0o077, **variables):
        """What make prints, what goes to standard error, and its status. By the mask a new file is its owner's alone."""
        given = {"PROGRAM": self.program, "LIBRARY": self.library, **variables}
        return ran("make", "--silent", "-C", TOP, target, *(f"{name}={value}" for name, value in given.items()), umask=umask)

    def install(self, **variables):
        """Installs, which has to end well."""
        told, why, status = self("install", **variables)
        if status:
            raise ChildProcessError(f"make install: status {status}: {told}{why}")


def tracked(*names):
    """Files of the repository, each with whether it can be executed."""
    lines = printed("git", "ls-files", "-s", *names, cwd=TOP).splitlines()
    return {line.split("\t")[1]: line.startswith("100755") for line in lines}


def is_source(name):
    """Whether a file of clients, bindings or examples is installed as it is. Pages are among the other pages, but for those that are a
    part of a crate or of what pip reads; the client for C is installed as one file."""
    parts, is_page = name.split("/"), name.endswith(".md")
    if "tests" in parts or parts[-1] == ".gitignore" or is_page and parts[1] not in ("python", "rust") or name == "bindings/python/README.md":
        return False
    return not name.startswith("clients/c/") or name == "clients/c/example.c"


def sources():
    """The files of clients, bindings and examples that are installed as they are, with their modes."""
    found = tracked("clients", "bindings", "examples")
    return {name: 0o755 if may_run else 0o644 for name, may_run in found.items() if is_source(name)}


def pages():
    """The pages that are installed, by their names in the repository."""
    return [*PAGES, *(name for name in tracked("clients", "bindings", "examples") if name.endswith(".md"))]


def expected_files(libraries="lib"):
    """Each file that is installed below PREFIX, with its mode; a link has the mode None."""
    return {**FILES, **{f"{libraries}/{name}": mode for name, mode in LIBRARIES.items()},
            **dict.fromkeys([f"share/doc/regtx/{name}" for name in [*pages(), *tracked("docs/pictures/*.svg")]], 0o644),
            **{f"share/regtx/{name}": mode for name, mode in sources().items()}}


def source_of(name, make):
    """The file that an installed one is a copy of; None if it is made for its place, as pages are."""
    client = os.path.join(TOP, "out", "client")
    named = {
        "bin/regtx": None, "bin/regtx-replicate": None, "libexec/regtx": make.program, **{page: os.path.join(TOP, "out", os.path.basename(page)) for page in MANUAL},
        ZSH: os.path.join(TOP, "completions", "_regtx"),
        "share/bash-completion/completions/regtx": os.path.join(TOP, "completions", "regtx.bash"),
        "lib/pkgconfig/regtx.pc": None, "lib/pkgconfig/regtx-client.pc": None, "lib/libregtx_client.a": os.path.join(client, "libregtx_client.a"),
        "bin/regtxd": os.path.join(TOP, "out", "regtxd"), "bin/regtxc": os.path.join(TOP, "out", "regtxc"), **dict.fromkeys(UNITS),
        # a link that the installation makes
        "lib/libregtx.so": os.path.join(make.library, "libregtx.so.0"), "include/regtx_client.h": os.path.join(TOP, "clients/c/regtx_client.h"),
        "share/regtx/clients/c/regtx_client.h": os.path.join(TOP, "clients/c/regtx_client.h"),
        "share/regtx/clients/c/regtx_client.c": os.path.join(client, "regtx_client.c"),
    }
    if name in named or name.endswith(".md"):
        return named.get(name)
    if name.startswith(("include/", "lib/")):
        return os.path.join(make.library, os.path.basename(name))
    return os.path.join(TOP, name.removeprefix("share/doc/regtx/").removeprefix("share/regtx/"))


def dead_links(root):
    """Each link of a page below a folder that leads nowhere; and how many links lead somewhere."""
    dead, count = [], 0
    for name in (name for name in modes(root) if name.endswith(".md")):
        text = re.sub(r"^(```|~~~).*?^\1[ \t]*$", "", content(os.path.join(root, name)).decode(), flags=re.MULTILINE | re.DOTALL)
        for link in (link for link in LINK.findall(text) if "://" not in link):
            leads = os.path.exists(os.path.join(root, os.path.dirname(name), link))
            dead, count = [*dead, *([] if leads else [f"{name}: {link}"])], count + leads
    return dead, count


def modes(root):
    """Each file below a folder, with its mode; a link has the mode None."""
    found = {}
    for folder, folders, names in os.walk(root):
        for name in [*names, *(each for each in folders if os.path.islink(os.path.join(folder, each)))]:
            path = os.path.join(folder, name)
            told = os.lstat(path).st_mode
            found[os.path.relpath(path, root)] = stat.S_IMODE(told) if stat.S_ISREG(told) else None
    return found


def folders(root):
    """Each folder below one, with its mode."""
    return {os.path.relpath(folder, root): stat.S_IMODE(os.stat(folder).st_mode) for folder, _, _ in os.walk(root) if folder != root}


def differences(found, wanted):
    """What is there and shouldn't be, what isn't there, and what is another."""
    return (sorted(set(found) - set(wanted)), sorted(set(wanted) - set(found)),
            sorted(name for name in set(found) & set(wanted) if found[name] != wanted[name]))


def copied(names, folder):
    """Copies files and folders of the repository into another folder, as they stand there."""
    shutil.rmtree(folder, ignore_errors=True)
    for name in names:
        source, target = os.path.join(TOP, name), os.path.join(folder, name)
        os.makedirs(os.path.dirname(target), exist_ok=True)
        if os.path.isdir(source):
            shutil.copytree(source, target, ignore=shutil.ignore_patterns("__pycache__"), dirs_exist_ok=True)
        else:
            shutil.copy2(source, target)


def readme():
    """What README.md begins with: what the program is, what it does, and its first example."""
    with open(os.path.join(TOP, "README.md"), encoding="utf-8") as file:
        title, text, *_ = (page := file.read()).split("\n\n")
    return re.sub(r"^# regtx: (?:an? )?", "", title), " ".join(text.split()), page.split("```\n")[1].replace("./regtx", "regtx")


def content(path):
    """The bytes of a file; None if there is none."""
    try:
        with open(path, "rb") as file:
            return file.read()
    except FileNotFoundError:
        return None
