#!/usr/bin/env python3
"""Installs the Debian packages in a fresh system by dpkg, runs the clients' examples there, and removes the packages:

    tests/fresh_root.py PROGRAM FOLDER     FOLDER has libregtx.a, libregtx.so.0 and regtx.h, as tools/c_library.py writes them

The system has Debian's packages of priority required and python3, by debootstrap, which fetches them once. They are kept in out/fresh.
Programs of C and Rust are compiled by this system's compilers, with what the fresh system has of regtx alone, and run there.

- installed: dpkg takes the packages, all of their files are there, and links of pages lead somewhere.
- examples: those of the three clients, and of what stands over the library for C; and a store that is served.
- purged: the fresh system is as it was.

It needs root. What can't be tried here is told, and counts neither as passed nor as failed. The last line is 'N passed, N failed', and
the status is 0 if none failed.
"""
import hashlib
import os
import re
import shutil
import subprocess
import sys
import tempfile

TOP = os.path.dirname(os.path.dirname(os.path.abspath(__file__)))
sys.dont_write_bytecode = True
sys.path[:0] = [os.path.join(TOP, "tests"), os.path.join(TOP, "tools")]
from debian_package import PACKAGES, build, expected, multiarch, paths  # noqa: E402
from installation import Make, content, dead_links, environment, printed, ran  # noqa: E402
from product import version  # noqa: E402
from programs_of_c import READ, READER, SHOP  # noqa: E402
from scratch import expect, finish, program_at, skip, tell  # noqa: E402

KEPT = os.path.join(TOP, "out", "fresh")
NEEDED = ["debootstrap", "unshare", "chroot", "dpkg-deb", "dpkg", "tar", "cc", "pkg-config"]
# how long debootstrap may take, in seconds
LONGEST = 900
# where the test puts its own things in the fresh system
WORK = "mnt"
# what dpkg, ldconfig and logs write anew, whatever is installed; the files themselves stay or go as all others
WRITTEN = re.compile(r"var/lib/dpkg/.*|var/log/.*|var/cache/ldconfig/aux-cache|etc/ld\.so\.cache")
# what dpkg keeps for itself once it has run
OWN = re.compile(r"var/lib/dpkg/(?:status-old|lock.*|triggers/(?:Lock|Unincorp|File))|var/log/dpkg\.log")
SERVED = """
import subprocess, uuid, regtx
subprocess.run(["regtx", "new", "app", str(uuid.uuid4()), "1"], check=True, stdout=subprocess.DEVNULL)
with subprocess.Popen(["regtxd", "app.sock", "regtx", "serve", "app"], stdout=subprocess.PIPE) as served:
    print(served.stdout.readline().decode().strip())
    with regtx.Store.connect("app.sock") as store:
        print(store.once(uuid.UUID(int=7), lambda t: t.create_key("0:A")))
    print(subprocess.run(["regtxc", "app.sock", "keys", "0:"], stdout=subprocess.PIPE, text=True).stdout.strip())
    served.terminate()
print(served.returncode)
"""
HIVES = r"from regtx_hive import Hive; print(Hive.open('software.dat')[r'Software\Vendor\Product'].values['Version'].value)"


def suite():
    """Debian's name of this system, or None."""
    told = dict(line.split("=", 1) for line in (content("/etc/os-release") or b"").decode().splitlines() if "=" in line)
    return told.get("VERSION_CODENAME", "").strip('"') if told.get("ID") == "debian" else None


def reason():
    """Why this can't be tried here, or None."""
    lacking = [name for name in NEEDED if not shutil.which(name)]
    if lacking:
        return f"{lacking[0]} isn't there"
    if os.geteuid():
        return "this isn't root"
    if not suite():
        return "this isn't Debian"
    return "no name space of mounts is granted" if ran("unshare", "--mount", "--pid", "--fork", "true")[2] else None


def kept_system():
    """The archive of a fresh system, which is made if it isn't kept; None if it can't be made."""
    archive = os.path.join(KEPT, f"{suite()}.tar")
    if os.path.exists(archive):
        return archive
    os.makedirs(KEPT, exist_ok=True)
    with tempfile.TemporaryDirectory(prefix="root-", dir=KEPT) as folder:
        # what it mounts goes with it, also if it is killed: nothing of this system may lie in the folder as that is removed
        words = ["unshare", "--mount", "--pid", "--fork", "--kill-child", "debootstrap", "--variant=minbase", "--include=python3", suite(),
                 os.path.join(folder, "root")]
        try:
            subprocess.run(words, stdout=subprocess.DEVNULL, stderr=subprocess.DEVNULL, stdin=subprocess.DEVNULL, timeout=LONGEST,
                           env=environment(), check=True)
        except (subprocess.CalledProcessError, subprocess.TimeoutExpired):
            return None
        words = ["tar", "-C", os.path.join(folder, "root"), "--numeric-owner", "--exclude=./var/cache/apt/*", "-cf", f"{archive}.part", "."]
        subprocess.run(words, check=True)
    os.replace(f"{archive}.part", archive)
    return archive


class Fresh:
    """A fresh system in a folder."""

    def __init__(self, root):
        self.root = root

    def at(self, *names):
        return os.path.join(self.root, *names)

    def run(self, *words):
        """What a command prints there, its complaints and its status. Its /proc goes with it."""
        mounted = 'mount -t proc proc "$0/proc" && exec chroot "$0" sh -c \'cd /mnt && exec "$@"\' sh "$@"'
        given = {"PATH": "/usr/sbin:/usr/bin:/sbin:/bin", "DEBIAN_FRONTEND": "noninteractive", "HOME": "/root", "LC_ALL": "C.UTF-8"}
        return ran("unshare", "--mount", "--pid", "--fork", "--kill-child", "sh", "-c", mounted, self.root, *words, env=given)

    def files(self):
        """All that is there, each with what tells it from another."""
        found = {}
        for folder, folders, names in os.walk(self.root):
            for name in [*folders, *names]:
                path = os.path.join(folder, name)
                within = os.path.relpath(path, self.root)
                if within.split("/")[0] not in (WORK, "proc") and not OWN.fullmatch(within):
                    found[within] = self.told(path, within)
        return found

    @staticmethod
    def told(path, within):
        """A file's mode and owner, and its content or where it leads."""
        told = os.lstat(path)
        what = None
        if os.path.islink(path):
            what = os.readlink(path)
        elif os.path.isfile(path) and not WRITTEN.fullmatch(within):
            what = hashlib.sha256(content(path)).digest()
        return told.st_mode, told.st_uid, told.st_gid, what


def installed(fresh, made):
    """The packages, as dpkg installs them."""
    for path in made.values():
        shutil.copy(path, fresh.at(WORK))
    told, why, status = fresh.run("dpkg", "-i", *(f"/mnt/{os.path.basename(path)}" for path in made.values()))
    yield expect("dpkg -i", (why, status), ("", 0)) and f"{told[-1000:]}{why[-1000:]}"
    wanted = [name for package in PACKAGES for name in expected(package, version())]
    yield expect("what is missing", [name for name in wanted if not os.path.lexists(fresh.at(name))], [])
    yield expect("dpkg --verify", fresh.run("dpkg", "--verify", *PACKAGES), ("", "", 0))
    dead, count = dead_links(fresh.at("usr", "share"))
    yield expect("links of pages", (dead, count > 60), ([], True))
    yield expect("regtx --version", fresh.run("regtx", "--version")[0].splitlines()[0], f"regtx {version()}")


def compiled(fresh, name, source, library):
    """Compiles a program of C for the fresh system: by its headers and libraries of regtx alone."""
    folder = fresh.at("usr", "lib", multiarch(), "pkgconfig")
    given = environment(PKG_CONFIG_SYSROOT_DIR=fresh.root, PKG_CONFIG_LIBDIR=folder)
    flags = printed("pkg-config", "--cflags", "--libs", library, env=given).split()
    return ran("cc", "-std=c11", "-Wall", "-Werror", "-o", fresh.at(WORK, name), source, *flags)


def built_crate(fresh, folder, example, flags=""):
    """Compiles an example of a crate that the fresh system has, and puts it there."""
    given = environment(CARGO_TARGET_DIR=fresh.at(WORK, "target"), RUSTFLAGS=f"-D warnings {flags}")
    words = ["build", "--quiet", "--example", example, "--offline", "--locked", "--jobs", "1", "--manifest-path"]
    told = ran("cargo", *words, fresh.at("usr", "share", "regtx", folder, "Cargo.toml"), env=given)
    if told == ("", "", 0):
        shutil.copy(fresh.at(WORK, "target", "debug", "examples", example), fresh.at(WORK))
    return told


def of_python(fresh):
    """The clients' page says what the example prints; this is root, who may write byte code."""
    page = content(fresh.at("usr/share/doc/regtx/clients/python/README.md")).decode()
    session = re.search(r"^\$ clients/python/example.py \S+ \S+\n(.*?)^```$", page, re.MULTILINE | re.DOTALL)[1]
    yield expect("Python", fresh.run("python3", "/usr/share/regtx/clients/python/example.py", "python_shop"), (session, "", 0))
    yield expect("Python, hives", fresh.run("python3", "-c", HIVES), ("1.2\n", "", 0))
    yield expect("Python, replicas", fresh.run("regtx-replicate", "--help")[1:], ("", 0))
    yield expect("Python, served", fresh.run("python3", "-c", SERVED), ("ready\n1\nkeys 1 A\n0\n", "", 0))


def of_c(fresh):
    with open(fresh.at(WORK, "reader.c"), "w", encoding="ascii") as file:
        file.write(READER)
    yield expect("cc, regtx-client", compiled(fresh, "install_c", fresh.at("usr/share/regtx/clients/c/example.c"), "regtx-client"), ("", "", 0))
    yield expect("C", fresh.run("./install_c", "regtx", "c_shop"), (SHOP, "", 0))
    yield expect("cc, regtx", compiled(fresh, "reader", fresh.at(WORK, "reader.c"), "regtx"), ("", "", 0))
    yield expect("C, hives", fresh.run("./reader", "software.dat"), (READ, "", 0))


def of_rust(fresh):
    if not shutil.which("cargo"):
        skip("examples", "cargo isn't there")
        return
    yield expect("cargo, regtx-client", built_crate(fresh, "clients/rust", "install"), ("", "", 0))
    yield expect("Rust", fresh.run("./install", "regtx", "rust_shop"), (SHOP, "", 0))
    library = fresh.at("usr", "lib", multiarch())
    yield expect("cargo, regtx-hive", built_crate(fresh, "bindings/rust", "print", f"-Lnative={library}"), ("", "", 0))
    told, why, status = fresh.run("./print", "software.dat")
    yield expect("Rust, hives", ('  "Version" REG_SZ 31002e0032000000\n' in told, why, status), (True, "", 0))


def examples(fresh):
    shutil.copy(os.path.join(TOP, "examples", "software.dat"), fresh.at(WORK))
    yield from of_python(fresh)
    yield from of_c(fresh)
    yield from of_rust(fresh)


def purged(fresh, before):
    """The packages are removed, and nothing is left."""
    for word in ("--remove", "--purge"):
        _, why, status = fresh.run("dpkg", word, *PACKAGES)
        # what was removed whole is unknown to dpkg then, and it says so
        yield expect(f"dpkg {word}", (why if word == "--remove" else "", status), ("", 0))
    after = fresh.files()
    yield expect("what is left", sorted(set(after) - set(before)), [])
    yield expect("what is gone", sorted(set(before) - set(after)), [])
    yield expect("what is another", sorted(name for name in set(before) & set(after) if before[name] != after[name]), [])


def tried(program, library, archive):
    """Tries the packages in a system that goes with this."""
    with tempfile.TemporaryDirectory(prefix="packages-", dir=program.home) as folder:
        made, root = paths(version(), os.path.join(folder, "made")), os.path.join(folder, "root")
        os.mkdir(os.path.dirname(made["regtx"]))
        counts = [tell("packages", [expect("tools/package.py", build(Make(program.path, library), os.path.dirname(made["regtx"]))[1], 0)])]
        os.mkdir(root)
        subprocess.run(["tar", "-C", root, "--numeric-owner", "-xpf", archive], check=True)
        fresh = Fresh(root)
        before = fresh.files()
        counts.append(tell("installed", list(installed(fresh, made))))
        counts.append(tell("examples", list(examples(fresh))))
        counts.append(tell("purged", list(purged(fresh, before))))
    return counts


def main():
    if len(sys.argv) != 3:
        sys.exit(__doc__)
    why = reason()
    archive = None if why else kept_system()
    if archive is None:
        skip("fresh_root", why or "debootstrap can't fetch Debian's packages")
        print("0 passed, 0 failed")
        return
    with program_at(sys.argv[1], "fresh-") as program:
        os.environ["TMPDIR"] = program.home
        subprocess.run([os.path.join(TOP, "tools", "mark.py"), program.path, "unproved"], check=True)
        finish(tried(program, os.path.abspath(sys.argv[2]), archive))


main()
