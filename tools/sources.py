"""The texts of the repository's crates, programs and pages, for the tools that read them."""
import functools
import os
import re
import subprocess

from graph import TOP, crates

COMMENT = re.compile(r"^\s*(?://|--).*$", re.MULTILINE)


def read(path):
    with open(path, encoding="utf-8", errors="replace") as file:
        return file.read()


@functools.lru_cache(maxsize=None)
def tracked(*patterns):
    """The files that git knows, or would take up, of these patterns; by their paths below the top."""
    words = ["git", "-C", TOP, "ls-files", "--cached", "--others", "--exclude-standard", "--deduplicate", "--", *patterns]
    named = subprocess.run(words, stdout=subprocess.PIPE, text=True, check=True).stdout.splitlines()
    return [name for name in named if os.path.isfile(f"{TOP}/{name}")]


def files_of(crate, part, ending):
    """The files of a folder of a crate, such as `src`, by their paths below the top."""
    for folder, _, names in sorted(os.walk(f"{TOP}/crates/{crate}/{part}")):
        yield from (os.path.relpath(os.path.join(folder, name), TOP) for name in sorted(names) if name.endswith(ending))


@functools.lru_cache(maxsize=None)
def code(path):
    """A file's text without the lines that are comments."""
    return COMMENT.sub("", read(f"{TOP}/{path}"))


def crate_files(part, ending):
    """Each crate with a file of it."""
    for crate in crates():
        yield from ((crate, path) for path in files_of(crate, part, ending))
