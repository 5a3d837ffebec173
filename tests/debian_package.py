"""What is wrong with the Debian packages: their fields, their files, what lintian says, and what dpkg makes of them."""
import gzip
import os
import re
import shutil
import subprocess
import tempfile
import time

from installation import (MANUAL, TOP, VENDOR_ZSH, ZSH, content, dead_links, differences, environment, expected_files, folders, modes, printed,
                          ran, readme, sources)
from scratch import are_there, as_other, expect, skip

SYMBOL = re.compile(r"@GLIBC_([\d.]+)")
# each package with its architecture, its section, what it depends on beside the C library, and its other fields
PACKAGES = {
    "libregtx0": ("any", "libs", [], {"Multi-Arch": "same", "Source": "regtx"}),
    "libregtx-dev": ("any", "libdevel", ["libregtx0 (= {version})"], {"Multi-Arch": "same", "Source": "regtx", "Suggests": "regtx"}),
    "python3-regtx": ("all", "python", ["python3 (>= 3.9)", "libregtx0 (>= {version})"], {"Source": "regtx", "Recommends": "regtx (>= {version})"}),
    "regtx": ("any", "database", [], {"Suggests": "python3-regtx, libregtx-dev"}),
}
# the programs and libraries that need the C library
LINKED = {"regtx": ["usr/libexec/regtx", "usr/bin/regtxd", "usr/bin/regtxc"], "libregtx0": ["usr/lib/{multiarch}/libregtx.so.0"]}
# what dpkg reads of each beside its fields and the sums, with the modes
TOLD = {"libregtx0": {"triggers": 0o644, "shlibs": 0o644, "symbols": 0o644}, "python3-regtx": {"postinst": 0o755, "prerm": 0o755}}
MODULES = "lib/python3/dist-packages"
# folders of the system to which a package may add, and what other programs may add there at the same time
SYSTEM, PASSING = ["/usr", "/etc", "/var/lib/dpkg/info"], "__pycache__"
LOCK_SECONDS = 120
# dpkg asks nothing, and finds the programs that it needs
QUIET = {"DEBIAN_FRONTEND": "noninteractive", "PATH": f"{os.environ['PATH']}:/usr/sbin:/sbin"}
# the time of the package's files at most, in seconds since 1970
MOMENT = 1_700_000_000


def multiarch():
    """The system's own folder of libraries."""
    return printed("cc", "-print-multiarch").strip()


def moved(version):
    """The files of all packages below /usr with their modes: those of `make install`, with what Debian has in other places."""
    names = {**{page: f"{page}.gz" for page in MANUAL}, ZSH: VENDOR_ZSH}
    of_python = [name for name in sources() if name.startswith(("clients/python/", "bindings/python/")) and not name.endswith("/example.py")]
    modules = [name.split("/", 2)[2] for name in of_python if name.startswith(("clients/python/regtx/", "bindings/"))]
    found = {names.get(name, name): mode for name, mode in expected_files(f"lib/{multiarch()}").items()
             if name.removeprefix("share/regtx/") not in of_python}
    about = [f"regtx-{version}.dist-info/{name}" for name in ("METADATA", "RECORD", "WHEEL", "entry_points.txt")]
    return {**found, **dict.fromkeys([f"{MODULES}/{name}" for name in [*modules, *about]], 0o644)}


def owner(name):
    """The package that has a file."""
    if name.endswith(".py") or name.startswith((f"{MODULES}/", "bin/regtx-replicate", "share/man/man1/regtx-replicate.")):
        return "python3-regtx"
    if name == f"lib/{multiarch()}/libregtx.so.0":
        return "libregtx0"
    of_c = ("include/", f"lib/{multiarch()}/", "share/man/man3/")
    of_sources = tuple(f"share/regtx/{folder}/" for folder in ("clients/c", "clients/rust", "bindings/rust"))
    return "libregtx-dev" if name.startswith((*of_c, *of_sources)) else "regtx"


def expected(package, version):
    """The files of a package with their modes."""
    own = {name: mode for name, mode in moved(version).items() if owner(name) == package}
    return {f"usr/{name}": mode for name, mode in {**own, f"share/doc/{package}/changelog.gz": 0o644}.items()}


def paths(version, folder):
    """The packages' files, by their names."""
    own = printed("dpkg", "--print-architecture").strip()
    return {name: os.path.join(folder, f"{name}_{version}_{'all' if told[0] == 'all' else own}.deb") for name, told in PACKAGES.items()}


def build(make, folder, **given):
    """Makes the packages; answers what is printed, and the status."""
    words = [os.path.join(TOP, "tools", "package.py"), folder, f"PROGRAM={make.program}", f"LIBRARY={make.library}"]
    told, _, status = ran(*words, umask=0o077, env=environment(SOURCE_DATE_EPOCH=str(MOMENT), TMPDIR=folder), **given)
    return told, status


def builder():
    """What makes a command one of a user who isn't root, if such a one can use the repository and what is made in it."""
    other = as_other()
    words = [os.path.join(TOP, "tools", "pkgconfig.py"), "regtx", "/usr", "lib"], ["test", "-r", os.path.join(TOP, "out", "regtx.1")]
    return other if all(ran(*each, **other)[2] == 0 for each in words) else {}


def builds(make, made, again):
    """The packages are made by this user and by another one."""
    other = builder()
    if not other:
        skip("package", "it isn't made by another user than this one, who can't use the repository or isn't there")
    for found, given in [(made, {}), (again, other)]:
        folder = os.path.dirname(found["regtx"])
        os.mkdir(folder)
        os.chmod(folder, 0o777)
        yield expect("tools/package.py", build(make, folder, **given), ("".join(f"{path}\n" for path in found.values()), 0))
    for name in made:
        yield expect(f"the same {name} again", content(made[name]) == content(again[name]), True)


def least_libc(root, names):
    """The greatest version of a symbol of the C library that the files need, as readelf tells them."""
    told = "".join(printed("readelf", "-W", "--dyn-syms", os.path.join(root, name)) for name in names)
    return max(SYMBOL.findall(told), key=lambda version: [int(part) for part in version.split(".")])


def shlibdeps(root, names, home):
    """What dpkg-shlibdeps says that the files depend on; None if it isn't there."""
    if not shutil.which("dpkg-shlibdeps"):
        return None
    with tempfile.TemporaryDirectory(dir=home) as place:
        os.makedirs(os.path.join(place, "debian"))
        with open(os.path.join(place, "debian", "control"), "w", encoding="ascii") as file:
            file.write("Source: regtx\n\nPackage: regtx\nArchitecture: any\n")
        words = [f"-e{os.path.join(root, name)}" for name in names]
        return printed("dpkg-shlibdeps", "-O", *words, cwd=place).strip().removeprefix("shlibs:Depends=")


def linked(name):
    return [path.format(multiarch=multiarch()) for path in LINKED.get(name, [])]


def fields(name, package, root, version, home):
    """The fields of a package."""
    def field(title):
        return printed("dpkg-deb", "-f", package, title).rstrip("\n")
    architecture, section, depends, others = PACKAGES[name]
    own = printed("dpkg", "--print-architecture").strip()
    depends = [each.format(version=version) for each in depends]
    if linked(name):
        depends.insert(0, f"libc6 (>= {least_libc(root, linked(name))})")
        told = shlibdeps(root, linked(name), home)
        if told is None:
            skip("package", "dpkg-shlibdeps isn't there")
        else:
            yield expect(f"{name}: Depends, by dpkg-shlibdeps", field("Depends"), told)
    wanted = {
        "Package": name, "Version": version, "Architecture": own if architecture == "any" else architecture, "Section": section,
        "Priority": "optional", "Maintainer": "Nojaldreg <nojaldreg@example.invalid>", "Depends": ", ".join(depends),
        **{title: text.format(version=version) for title, text in others.items()},
    }
    for title, text in wanted.items():
        yield expect(f"{name}: {title}", field(title), text)
    names = sorted(line.split(":")[0] for line in printed("dpkg-deb", "-f", package).splitlines() if not line.startswith(" "))
    yield expect(f"{name}: the fields", names, sorted([*wanted, "Installed-Size", "Description"]))
    lines = field("Description").split("\n")[1:]
    yield expect(f"{name}: lines of its description", [line for line in lines if not re.fullmatch(r" (\.|\S.{0,77})", line)], [])
    size, parts = sum(os.lstat(os.path.join(root, name)).st_size for name in modes(root)), len(modes(root)) + len(folders(root))
    yield expect(f"{name}: Installed-Size", size / 1024 <= int(field("Installed-Size")) <= size / 1024 + parts, True)


def description(package):
    """The description of the program's package, which README.md begins with."""
    short, *long = printed("dpkg-deb", "-f", package, "Description").split("\n")
    summary, text, _ = readme()
    yield expect("the short description", short, summary)
    yield expect("the long description", " ".join(line[1:] for line in long[:long.index(" .")]), text.replace("`", ""))


def contents(name, package, root, version):
    """The files of a package, as dpkg-deb lists and unpacks them."""
    wanted = expected(name, version)
    yield expect(f"{name}: the files", differences(modes(root), wanted), ([], [], []))
    yield expect(f"{name}: the folders", set(folders(root).values()), {0o755})
    owners = {line.split()[1] for line in printed("dpkg-deb", "-c", package).splitlines()}
    yield expect(f"{name}: the owners", owners, {"root/root"})
    for path in (path for path in wanted if path.endswith(".gz")):
        page = content(os.path.join(root, path))
        # the head of a file by `gzip -9n`: no name, no time, the most compression
        yield expect(f"the head of {path}", page[:9], b"\x1f\x8b\x08\0\0\0\0\0\x02")
        plain = os.path.join(TOP, "docs", "changelog") if "changelog" in path else os.path.join(TOP, "out", os.path.basename(path)[:-3])
        yield expect(path, gzip.decompress(page), content(plain))
    control = f"{root}.control"
    printed("dpkg-deb", "-e", package, control)
    yield expect(f"{name}: files of its own", modes(control), {"control": 0o644, "md5sums": 0o644, **TOLD.get(name, {})})
    sums = os.path.join(control, "md5sums")
    yield expect(f"{name}: md5sums", ran("md5sum", "--check", "--strict", "--quiet", sums, cwd=root), ("", "", 0))
    named = sorted(line.split("  ", 1)[1] for line in content(sums).decode().splitlines())
    yield expect(f"{name}: the files with sums", named, sorted(path for path, mode in wanted.items() if mode))


def exported(root, version):
    """What others read of the shared library: its name, and each call with the version since which it is there."""
    control = f"{root}.control"
    yield expect("triggers", content(os.path.join(control, "triggers")), b"activate-noawait ldconfig\n")
    yield expect("shlibs", content(os.path.join(control, "shlibs")).decode(), f"libregtx 0 libregtx0 (>= {version})\n")
    if not are_there("package", "dpkg-gensymbols"):
        return
    with tempfile.TemporaryDirectory(dir=os.path.dirname(root)) as place:
        os.makedirs(os.path.join(place, "debian"))
        with open(os.path.join(place, "debian", "control"), "w", encoding="ascii") as file:
            file.write("Source: regtx\n\nPackage: libregtx0\nArchitecture: any\n")
        words = [f"-v{version}", "-plibregtx0", f"-P{root}", "-Osymbols", f"-e{os.path.join(root, linked('libregtx0')[0])}"]
        printed("dpkg-gensymbols", *words, cwd=place)
        yield expect("symbols", content(os.path.join(control, "symbols")), content(os.path.join(place, "symbols")))


def by_lintian(made):
    """What lintian calls an error: the file of the copyright is missing, until the owner has chosen a licence."""
    if not are_there("package", "lintian"):
        return
    told, _, _ = ran("lintian", "--fail-on", "none", "--tag-display-limit", "0", "--allow-root", *made.values())
    yield expect("lintian", sorted(line for line in told.splitlines() if line.startswith("E:")), sorted(f"E: {name}: no-copyright-file" for name in made))


def system_files():
    """All files of the system's folders."""
    found = set()
    for top in SYSTEM:
        for folder, _, names in os.walk(top):
            if PASSING not in folder:
                found.update(os.path.join(folder, name) for name in [*names, ""])
    return found


def carried_out(words):
    """Runs dpkg to its end, also if this is to end: else packages of others may be left half configured."""
    with tempfile.TemporaryFile("w+") as told:
        child = subprocess.Popen(["dpkg", *words], stdin=subprocess.DEVNULL, stdout=subprocess.DEVNULL, stderr=told,
                                 env=environment(**QUIET), start_new_session=True)
        try:
            child.wait()
        finally:
            status = child.wait()
        told.seek(0)
        return told.read() if status else "", status


def dpkg(*words):
    """What dpkg complains of, and its status. If another program has its lock, it is tried again."""
    end = time.monotonic() + LOCK_SECONDS
    while True:
        why, status = carried_out(words)
        if status == 0 or "lock" not in why or time.monotonic() > end:
            return why, status
        time.sleep(2)


def is_known(name):
    """Whether dpkg knows a package, installed or not."""
    return ran("dpkg-query", "-s", name)[2] == 0


def used(version, reader, read, home):
    """The packages as they are installed: the program on the path, its manual, its completion, the library and the module."""
    path = environment(PATH="/usr/sbin:/usr/bin:/sbin:/bin")
    yield expect("regtx on the path", ran("sh", "-c", "command -v regtx && regtx about | head -n 1", env=path),
                 (f"/usr/bin/regtx\nregtx {version}\n", "", 0))
    yield expect("dpkg --verify", ran("dpkg", "--verify", *PACKAGES), ("", "", 0))
    with open(os.path.join(home, "packaged.c"), "w", encoding="ascii") as file:
        file.write(reader)
    hive = os.path.join(TOP, "examples", "software.dat")
    for name, flags in [("plain", "-lregtx"), ("configured", "$(pkg-config --cflags --libs regtx)")]:
        command = f"cc -std=c11 -Wall -Werror -o {name} packaged.c {flags} && ./{name} {hive}"
        yield expect(flags, ran("sh", "-c", command, cwd=home, env=path), (read, "", 0))
    told = ran("/usr/bin/python3", "-Bc", "import regtx, regtx_hive; print(regtx.__version__, regtx.__file__)", env=path, cwd=home)
    yield expect("import regtx", told, (f"{version} /usr/{MODULES}/regtx/__init__.py\n", "", 0))
    dead, count = dead_links("/usr/share/doc/regtx")
    yield expect("links", (dead, count > 60), ([], True))
    tools = are_there("package", "man", "zsh")
    if "man" in tools:
        for page in MANUAL:
            name, number = os.path.basename(page).split(".")
            yield expect(f"man {number} {name}", ran("man", "-w", number, name, env=path), (f"/usr/{page}.gz\n", "", 0))
    if "zsh" in tools:
        yield expect("zsh", ran("zsh", "-fc", "autoload -Uz compinit && compinit -u -D && print $_comps[regtx]"), ("_regtx\n", "", 0))


def installed(made, version, reader, read, home):
    """The packages are installed, used and removed; in the end the system has the files that it had."""
    before = system_files()
    try:
        # a small system may be set up to leave out pages
        yield expect("dpkg -i", dpkg("--path-include=/usr/*", "-i", *made.values()), ("", 0))
        new = {path for path in system_files() - before if not path.endswith("/") and not path.startswith("/var/lib/dpkg/info/")}
        wanted = {f"/{name}" for package in PACKAGES for name in expected(package, version)}
        yield expect("what is missing", sorted(wanted - new), [])
        yield from used(version, reader, read, home)
        yield expect("dpkg -r", dpkg("-r", *PACKAGES), ("", 0))
        yield expect("the program after dpkg -r", os.path.exists("/usr/bin/regtx"), False)
        yield expect("dpkg --purge", dpkg("--purge", *PACKAGES), ("", 0))
    finally:
        left = [name for name in PACKAGES if is_known(name)]
        if left:
            dpkg("--force-remove-reinstreq", "--purge", *left)
    yield expect("dpkg knows the packages", [name for name in PACKAGES if is_known(name)], [])
    after = system_files()
    yield expect("the system's files", (sorted(after - before), sorted(before - after)), ([], []))


def reason(version):
    """Why the packages can't be installed here, or None."""
    if os.geteuid():
        return "this isn't root"
    if any(map(is_known, PACKAGES)) or any(os.path.lexists(f"/{name}") for package in PACKAGES for name in expected(package, version)):
        return "regtx is installed already"
    return None if is_known("python3") else "Debian's python3 isn't there"


def results(make, version, reader, read, home):
    if not are_there("package", "dpkg-deb"):
        return
    made, again = (paths(version, os.path.join(home, folder)) for folder in ("packages", "again"))
    yield from builds(make, made, again)
    os.mkdir(os.path.join(home, "unpacked"))
    for name, package in made.items():
        root = os.path.join(home, "unpacked", name)
        printed("dpkg-deb", "-x", package, root)
        yield from fields(name, package, root, version, home)
        yield from contents(name, package, root, version)
    yield from exported(os.path.join(home, "unpacked", "libregtx0"), version)
    yield from description(made["regtx"])
    yield from by_lintian(made)
    why = reason(version)
    if why:
        skip("package", f"they aren't installed by dpkg, since {why}")
    else:
        yield from installed(made, version, reader, read, home)
