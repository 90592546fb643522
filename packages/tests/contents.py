#!/usr/bin/env python3
"""Compares the packages with what docs/INSTALL.md says of them: their names, files, symbols and versions. The last line is
`N passed, M failed`.

    contents.py FOLDER    where tools/dist left the packages

It needs binutils and, for the package of Debian, dpkg-deb. It takes the folder for one that tools/dist has just written."""
import gzip
import hashlib
import pathlib
import re
import shutil
import subprocess
import sys
import tarfile
import tempfile
import zipfile

ROOT = pathlib.Path(__file__).resolve().parent.parent.parent
INSTALL = (ROOT / "docs/INSTALL.md").read_text()
VERSION = re.search(r'^version = "(.*)"', (ROOT / "embed/rust/Cargo.toml").read_text(), re.MULTILINE)[1]
NUMBERS = "zero one two three four five six seven eight nine ten eleven twelve thirteen fourteen fifteen sixteen".split()
PASSED = FAILED = 0

# What INSTALL says that the tarball and the package of Debian have, by the paths in the tarball.
COMMANDS = ("souper-draw", "souper-page")
PROGRAMS = {f"bin/{name}" for name in ("souper_fmt", "souper_items", *COMMANDS)}
WANTED = {
    *PROGRAMS,
    *(f"share/man/man1/{name}.1.gz" for name in ("souper_fmt", "souper_items", *COMMANDS)),
    *(f"share/bash-completion/completions/{name}" for name in ("souper_fmt", "souper_items")),
    *(f"share/zsh/site-functions/_{name}" for name in ("souper_fmt", "souper_items")),
    *(f"lib/{name}" for name in ("libsouper_c.a", "libsouper_heap.a", "libsouper_c.so", "libsouper_c.so.1", f"libsouper_c.so.{VERSION}")),
    *(f"lib/pkgconfig/{name}.pc" for name in ("souper", "souper-static")),
    *(f"lib/cmake/souper/{name}.cmake" for name in ("souper-config", "souper-config-version")),
    "include/souper.h", "include/souper.hpp",
    *(f"python/souper/{name}" for name in ("__init__.py", "py.typed", "page.py", "page.html", "draw.py", "libsouper_c.so")),
    *(f"rust/souper-ir-proved/{name}" for name in ("Cargo.toml", "build.rs", "src/lib.rs", "libsouper_c.a")),
    *(f"share/doc/sefgrun/{name}" for name in ("README.md", "CHANGELOG.md", "NOTICE", "COMMIT", "docs/INSTALL.md", "docs/CLI.md")),
    *(f"share/doc/sefgrun/examples/{name}" for name in ("first.souper", "format.c", "stream.c", "keys.cpp", "heap.c", "CMakeLists.txt")),
}
# Where a path of the tarball is in the package of Debian: the first prefix that fits counts.
DEBIAN = {
    "lib/": "usr/lib/x86_64-linux-gnu/",
    "python/": "usr/lib/python3/dist-packages/",
    "rust/": "usr/lib/sefgrun/",
    "share/zsh/site-functions/": "usr/share/zsh/vendor-completions/",
    "": "usr/",
}
# What one of the two has alone.
TARBALL_ALONE = {"usr/share/doc/sefgrun/LICENSE"}
DEBIAN_ALONE = {"usr/share/doc/sefgrun/copyright", "usr/share/doc/sefgrun/changelog.gz", "usr/share/lintian/overrides/sefgrun"}


def holds(label, wanted, found):
    global PASSED, FAILED
    if found == wanted:
        PASSED += 1
    else:
        FAILED += 1
        if isinstance(wanted, set):
            wanted, found = sorted(wanted - found), sorted(found - wanted)
        print(f"{label}: 1 failed\n  expected {wanted!r}\n  found    {found!r}")


def one(folder, pattern):
    found = list(folder.glob(pattern))
    return found[0] if len(found) == 1 else None


def files(folder):
    """The paths of the files and links below a folder."""
    return {str(path.relative_to(folder)) for path in folder.rglob("*") if path.is_symlink() or path.is_file()}


def printed(*words):
    return subprocess.check_output([str(word) for word in words], text=True)


def names(dist):
    listed = set(re.findall(r"^\| `([^`]+)`", INSTALL.partition("| In `dist/` |")[2].partition("\n\n")[0], re.MULTILINE))
    made = {f"{path.name}/" if path.is_dir() else path.name for path in dist.iterdir()} - {"SHA256SUMS", "roots/", "roots.log"}
    if not shutil.which("dpkg-deb"):
        print("missing: dpkg-deb, so the package of Debian is left out")
        listed = {name for name in listed if not name.endswith(".deb")}
    holds("the packages that INSTALL names", listed, made)


def sums(dist):
    rows = dict(reversed(row.split("  ")) for row in (dist / "SHA256SUMS").read_text().splitlines())
    made = {name for name in files(dist) if not name.startswith("roots")} - {"SHA256SUMS"}
    holds("the files that SHA256SUMS names", made, set(rows))
    for name in sorted(made & set(rows)):
        holds(f"the digest of {name}", rows[name], hashlib.sha256((dist / name).read_bytes()).hexdigest())


def in_debian(path):
    prefix = next(prefix for prefix in DEBIAN if path.startswith(prefix))
    return DEBIAN[prefix] + path.removeprefix(prefix)


def trees(tarball, debian, wheel, crate):
    """Which files each package has. The four have the same module and the same crate."""
    held = files(tarball)
    holds("files that the tarball lacks", set(), WANTED - held)
    if debian:
        holds("the files of the package of Debian", {in_debian(path) for path in held} - TARBALL_ALONE, files(debian) - DEBIAN_ALONE)
    part = lambda prefix: {path.removeprefix(prefix) for path in held if path.startswith(prefix)}
    holds("the module of the wheel", part("python/souper/"), {path.removeprefix("souper/") for path in files(wheel) if path.startswith("souper/")})
    holds("the crate", part("rust/souper-ir-proved/") | {"LICENSE", "NOTICE"}, files(crate))
    scripts = re.findall(r"^(\S+) = souper\.\w+:command$", one(wheel, "*.dist-info/entry_points.txt").read_text(), re.MULTILINE)
    holds("the commands of the wheel", sorted(COMMANDS), sorted(scripts))
    pages = tarball / "share/doc/sefgrun"
    named = {name for path in pages.rglob("*.md") for name in re.findall(r"(?<![\w/.])(?:embed/)?examples/[\w./-]*\w", path.read_text())}
    holds("examples that the pages name and the packages lack", [], sorted(name for name in named if not (pages / name).exists()))
    for top in filter(None, (tarball, debian)):
        links = [path for path in top.rglob("*") if path.is_symlink()]
        holds("links that lead out of a package, or nowhere", [], [path for path in links if not path.exists() or top not in path.resolve().parents])
        for name in PROGRAMS:
            path = top / (in_debian(name) if top == debian else name)
            holds(f"the mode of {name}", 0o755, path.stat().st_mode & 0o7777)


def symbols(tarball):
    declared = sorted(re.findall(r"^(?:SOUPER_CALL )?\w+ (souper_\w+)\(", (tarball / "include/souper.h").read_text(), re.MULTILINE))
    shared = tarball / "lib/libsouper_c.so"
    rows = [row.split() for row in printed("nm", "-D", "--defined-only", shared).splitlines()]
    holds("what the shared library exports", [f"{name}@@SOUPER_1" for name in declared], sorted(row[2] for row in rows if row[1] == "T"))
    holds("the versions of its symbols", ["SOUPER_1"], [row[2] for row in rows if row[1] != "T"])
    holds("its name", ["libsouper_c.so.1"], re.findall(r"SONAME.*\[(.*)\]", printed("readelf", "-dW", shared)))
    defined = {row.split()[2] for row in printed("nm", "-g", "--defined-only", tarball / "lib/libsouper_c.a").splitlines() if len(row.split()) == 3}
    holds("calls that the archive lacks", set(), set(declared) - defined)
    said = re.search(r"it exports the (\w+) calls of `souper.h`", INSTALL)
    holds("how many calls INSTALL says that it exports", NUMBERS[len(declared)], said and said[1])


def versions(tarball, debian, wheel, crate):
    """Each part says one version, and what INSTALL says of Python, Rust and the C library."""
    metadata, manifest = one(wheel, "*.dist-info/METADATA").read_text(), (crate / "Cargo.toml").read_text()
    said = [
        ("souper_items", r"^souper_items (\S+)$", printed(tarball / "bin/souper_items", "--version")),
        ("souper.h", r'^#define SOUPER_VERSION "(.*)"$', (tarball / "include/souper.h").read_text()),
        ("souper.pc", r"^Version: (.*)$", (tarball / "lib/pkgconfig/souper.pc").read_text()),
        ("souper-static.pc", r"^Version: (.*)$", (tarball / "lib/pkgconfig/souper-static.pc").read_text()),
        ("CMake", r'^set\(PACKAGE_VERSION "(.*)"\)$', (tarball / "lib/cmake/souper/souper-config-version.cmake").read_text()),
        ("METADATA", r"^Version: (.*)$", metadata),
        ("Cargo.toml", r'^version = "(.*)"$', manifest),
        ("souper.__version__", r'^__version__ = "(.*)"$', (tarball / "python/souper/__init__.py").read_text()),
        ("souper_fmt.1", r'"Sefgrun (.*?)"', page(tarball, "souper_fmt")),
        ("souper_items.1", r'"Sefgrun (.*?)"', page(tarball, "souper_items")),
        *((f"{name}.1", r'"Sefgrun (.*?)"', page(tarball, name)) for name in COMMANDS),
    ]
    control = printed("dpkg-deb", "-f", debian) if debian else ""
    if debian:
        said.append(("control", r"^Version: (.*)$", control))
    for name, pattern, text in said:
        holds(f"the version of {name}", [VERSION], re.findall(pattern, text, re.MULTILINE))
    python, rust = re.search(r"Python (\S+) or later", INSTALL)[1], re.search(r"needs Rust (\S+) or later", INSTALL)[1]
    holds("the version of Python that the wheel needs", [f">={python}"], re.findall(r"^Requires-Python: (.*)$", metadata, re.MULTILINE))
    holds("the version of Rust", [rust], re.findall(r'^rust-version = "(.*)"$', manifest, re.MULTILINE))
    if debian:
        suggested = re.search(r"^Suggests: (.*)$", control, re.MULTILINE)[1].split(", ")
        holds("what Debian's package suggests for pictures", True, {f"python3 (>= {python})", "graphviz"} <= set(suggested))
        needed = tuple(map(int, re.search(r"libc6 \(>= (\d+)\.(\d+)\)", control).groups()))
        holds("whether Debian 12 suffices and Debian 11 does not, by their C libraries", True, (2, 31) < needed <= (2, 36))


def page(tarball, name):
    """The head of a man page."""
    text = gzip.decompress((tarball / f"share/man/man1/{name}.1.gz").read_bytes()).decode()
    return next(row for row in text.splitlines() if row.startswith(".TH"))


def main():
    dist = pathlib.Path(sys.argv[1]).absolute()
    names(dist)
    sums(dist)
    with tempfile.TemporaryDirectory() as folder:
        at = pathlib.Path(folder).resolve()
        with tarfile.open(one(dist, "*.tar.gz")) as file:
            file.extractall(at)
        [tarball] = at.iterdir()
        wheel, package = at / "wheel", one(dist, "*.deb")
        with zipfile.ZipFile(one(dist, "*.whl")) as file:
            file.extractall(wheel)
        debian = at / "debian" if package else None
        if package:
            subprocess.run(["dpkg-deb", "-x", package, debian], check=True)
        crate = one(dist, "souper-ir-proved-*")
        trees(tarball, debian, wheel, crate)
        symbols(tarball)
        versions(tarball, package, wheel, crate)
    print(f"{PASSED} passed, {FAILED} failed")
    return 1 if FAILED else 0


sys.exit(main())
