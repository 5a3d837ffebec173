"""What a Debian package is made of: its fields, sums and texts, and files in the form that Debian has them."""
import gzip
import hashlib
import os
import re
import subprocess
import textwrap

MAINTAINER = "Nojaldreg <nojaldreg@example.invalid>"
NEEDED, DEFINED = re.compile(r"\bGLIBC_(\d+(?:\.\d+)+)\b"), re.compile(r"^[0-9a-f]+ g .* (REGTX_[\d.]+) +(?:0x\w+ )?(\w+)$", re.MULTILINE)
# what tools/mark.py puts at the end of the program
MARK = 256


def output(*words):
    return subprocess.run(words, stdout=subprocess.PIPE, text=True, check=True).stdout


def doc_folder(name):
    """The folder below /usr in which a package tells of itself."""
    return f"share/doc/{name}"


def packed(root):
    """The files below the root, without links, and without those of the package's own folder."""
    for folder, folders, names in os.walk(root):
        folders[:] = sorted(name for name in folders if name != "DEBIAN")
        for path in (os.path.join(folder, name) for name in sorted(names)):
            if not os.path.islink(path):
                yield path


def begins(path, mark):
    with open(path, "rb") as file:
        return file.read(len(mark)) == mark


def executables(root):
    """The programs and shared libraries below a root."""
    return [path for path in packed(root) if begins(path, b"\x7fELF")]


def least_libc(root):
    """The least version of the C library that has all symbols which the files need."""
    found = {version for path in executables(root) for version in NEEDED.findall(output("objdump", "-T", path))}
    return max(found, key=lambda version: [int(part) for part in version.split(".")])


def strip(root):
    """Takes out of programs and libraries what is for debuggers alone. The program's mark at its end stays."""
    for path in packed(root):
        if begins(path, b"!<arch>\n"):
            subprocess.run(["strip", "--strip-debug", "--enable-deterministic-archives", path], check=True)
    for path in executables(root):
        with open(path, "rb") as file:
            mark = file.read()[-MARK:]
        how = ["--strip-unneeded"] if ".so" in os.path.basename(path) else []
        subprocess.run(["strip", "--remove-section=.comment", "--remove-section=.note", *how, path], check=True)
        if mark.startswith(b"\nregtx build\n"):
            with open(path, "ab") as file:
                file.write(mark)


def symbols(root, shared, package, version):
    """What dpkg-shlibdeps reads of a shared library: each of its symbols, with the version since which it is there."""
    path = next(path for path in executables(root) if os.path.basename(path) == shared)
    found = [(name, node) for node, name in DEFINED.findall(output("objdump", "-T", path))]
    lines = sorted({*(f" {name}@{node} {version}\n" for name, node in found), *(f" {node}@{node} {version}\n" for _, node in found)})
    return f"{shared} {package} #MINVER#\n{''.join(lines)}"


def installed_size(root):
    """How many KiB the package takes: each file and each folder in whole ones."""
    folders = sum(len(folders) for _, folders, _ in os.walk(root))
    return folders + sum(-(-os.stat(path).st_size // 1024) for path in packed(root))


def control(root, package, architecture, version, fields):
    """The text of the package's fields."""
    all_fields = [
        ("Package", package.name), ("Source", "regtx"), ("Version", version), ("Architecture", architecture), ("Maintainer", MAINTAINER),
        ("Installed-Size", installed_size(root)), *fields, ("Section", package.section), ("Priority", "optional"),
        ("Description", package.summary),
    ]
    paragraphs = (textwrap.wrap(text, 76, break_long_words=False, break_on_hyphens=False) for text in package.text.split("\n\n"))
    text = "\n .\n".join("\n".join(f" {line}" for line in lines) for lines in paragraphs)
    told = [(name, value) for name, value in all_fields if (name, value) != ("Source", package.name)]
    return "".join(f"{name}: {value}\n" for name, value in told) + text.replace("`", "") + "\n"


def put(root, name, text, mode=0o644):
    """Writes a file of a package, or one that tells of it."""
    path = os.path.join(root, name)
    os.makedirs(os.path.dirname(path), mode=0o755, exist_ok=True)
    with open(path, "w", encoding="utf-8") as file:
        file.write(text)
    os.chmod(path, mode)


def put_all_sums(root):
    """Writes the sum of each file, as md5sum prints it."""
    def line(path):
        with open(path, "rb") as file:
            return f"{hashlib.md5(file.read()).hexdigest()}  {os.path.relpath(path, root)}\n"
    put(root, "DEBIAN/md5sums", "".join(line(path) for path in packed(root)))


def compress(root, patterns):
    """Puts compressed files in the place of those whose names have one of the patterns. They have no times, so that equal files stay equal."""
    for path in list(packed(root)):
        if not any(re.fullmatch(pattern, os.path.relpath(path, root)) for pattern in patterns):
            continue
        with open(path, "rb") as file, open(f"{path}.gz", "wb") as made:
            made.write(gzip.compress(file.read(), 9, mtime=0))
        os.chmod(f"{path}.gz", 0o644)
        os.remove(path)
