#!/usr/bin/env python3
"""Makes the wheel of the package `regtx`, for pip, with Python alone:

    pip install FOLDER                    this folder: pip calls `build_wheel`, as pyproject.toml says
    FOLDER/wheels.py --unpacked TARGET    writes the same files into a folder that is on Python's path

What is told of the package stands in pyproject.toml, of which the lines `name = "text"` of its parts `project` and `project.scripts` are read: Python knows
TOML since 3.11 alone.
"""
import base64
import hashlib
import io
import os
import re
import sys
import tarfile
import zipfile

HERE, PACKAGE = os.path.dirname(os.path.abspath(__file__)), "regtx"
FIELD = re.compile(r'^([\w-]+) = "(.*)"$', re.MULTILINE)
# the parts of pyproject.toml that tell of the package, and of its commands
PROJECT, SCRIPTS = "project", "project.scripts"
# each file is of this time, so that equal sources make equal wheels
MOMENT, SECONDS = (1980, 1, 1, 0, 0, 0), 315_532_800


def read(name):
    with open(os.path.join(HERE, name), "rb") as file:
        return file.read()


def project(part=PROJECT):
    """The fields of a part of pyproject.toml."""
    return dict(FIELD.findall(read("pyproject.toml").decode().split(f"[{part}]\n")[1].split("\n[")[0]))


def sources():
    """The files of the package."""
    found = (os.path.relpath(os.path.join(folder, name), HERE) for folder, _, names in os.walk(os.path.join(HERE, PACKAGE)) for name in names)
    return sorted(name for name in found if name.endswith((".py", ".typed")))


def metadata(told):
    return (f"Metadata-Version: 2.1\nName: {told['name']}\nVersion: {told['version']}\nSummary: {told['description']}\n"
            f"Requires-Python: {told['requires-python']}\n").encode()


def commands():
    """Which commands pip makes, and what each calls."""
    return "".join(["[console_scripts]\n", *(f"{name} = {call}\n" for name, call in project(SCRIPTS).items())]).encode()


def record(files, name):
    """The list of the files, each with its hash and its size."""
    hashes = ((path, base64.urlsafe_b64encode(hashlib.sha256(content).digest()).rstrip(b"=").decode(), len(content))
              for path, content in files.items())
    return "".join([*(f"{path},sha256={digest},{size}\n" for path, digest, size in hashes), f"{name},,\n"]).encode()


def wheel_files(told):
    """Each file of the wheel, with its content."""
    about = f"{told['name']}-{told['version']}.dist-info"
    files = {name: read(name) for name in sources()}
    files[f"{about}/METADATA"] = metadata(told)
    files[f"{about}/WHEEL"] = b"Wheel-Version: 1.0\nGenerator: wheels.py\nRoot-Is-Purelib: true\nTag: py3-none-any\n"
    files[f"{about}/entry_points.txt"] = commands()
    return {**files, f"{about}/RECORD": record(files, f"{about}/RECORD")}


def build_wheel(wheel_directory, config_settings=None, metadata_directory=None):
    """Writes the wheel into a folder; answers its name. pip calls it so."""
    told = project()
    made = f"{told['name']}-{told['version']}-py3-none-any.whl"
    with zipfile.ZipFile(os.path.join(wheel_directory, made), "w", zipfile.ZIP_DEFLATED) as wheel:
        for name, content in wheel_files(told).items():
            entry = zipfile.ZipInfo(name, MOMENT)
            entry.external_attr, entry.compress_type = 0o100644 << 16, zipfile.ZIP_DEFLATED
            wheel.writestr(entry, content)
    return made


def build_sdist(sdist_directory, config_settings=None):
    """Writes an archive of the sources into a folder; answers its name."""
    told = project()
    made = f"{told['name']}-{told['version']}"
    files = {name: read(name) for name in [*sources(), "pyproject.toml", "wheels.py", "README.md"]}
    with tarfile.open(os.path.join(sdist_directory, f"{made}.tar.gz"), "w:gz", format=tarfile.PAX_FORMAT) as archive:
        for name, content in {**files, "PKG-INFO": metadata(told)}.items():
            entry = tarfile.TarInfo(f"{made}/{name}")
            entry.size, entry.mtime = len(content), SECONDS
            archive.addfile(entry, io.BytesIO(content))
    return f"{made}.tar.gz"


def unpack(folder):
    """Writes what the wheel has into a folder."""
    for name, content in wheel_files(project()).items():
        path = os.path.join(folder, name)
        os.makedirs(os.path.dirname(path), exist_ok=True)
        with open(path, "wb") as file:
            file.write(content)


if __name__ == "__main__":
    if len(sys.argv) != 3 or sys.argv[1] != "--unpacked":
        sys.exit(__doc__)
    unpack(sys.argv[2])
