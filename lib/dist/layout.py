"""The files of a release, and their paths below a prefix."""
from __future__ import annotations

import os
import pathlib
import site
import subprocess
import sys
import tempfile

from aigprove import VERSION, release
from aigprove.release import Release
from dist.completion import completions
from dist.files import File, Link, Tree, below, read
from dist.licences import notices, tools

TOP = pathlib.Path(__file__).resolve().parent.parent.parent
CRATES = TOP / "crates"
# The files from which the library is built.
ARCHIVE = TOP / "tests" / "support" / "archive.py"
PROGRAMS = ["aigtool", "aigedit", "aigcheck"]
HEADERS = ["aig.h", "aig_circuit.h", "aig.hpp"]
# Where the package for Python lies, in the repository and below a prefix, and what it has.
PACKAGE = "lib/python/aig"
MODULES = ["__init__.py", "_calls.py", "_circuits.py", "_library.py", "py.typed"]
# The name with which programs refer to the shared library. Its number changes with each
# incompatible version.
SONAME = f"libaig.so.{VERSION.partition('.')[0]}"
DOCUMENTS = "share/doc/aig"
# The prefix, in a form in which pkg-config finds it even if the folder was moved.
MOVABLE = "${pcfiledir}/../.."
# The linker's option for the path at which programs search for the shared library.
RPATH = "-Wl,-rpath,${libdir} "


def program(name: str) -> pathlib.Path:
    """Returns the path at which a program is built."""
    return CRATES / name / "out" / name


def library(name: str) -> pathlib.Path:
    """Returns the path at which a library is built."""
    return CRATES / "aig_calls" / "out" / name


def kit() -> str:
    """Returns the name of the kit whose `rt` is found, as `rt version` prints it, or an empty name
    if there is none."""
    found = tools()
    return (found / "KIT-ID").read_text(encoding="utf-8").strip() if found else ""


def current() -> Release:
    """Returns the release that this clone builds."""
    return Release(VERSION, release.tree_of(str(CRATES)), kit())


def prover(known: Release) -> Tree:
    """Returns aigprove with its package, and aigwaves."""
    package = TOP / "lib" / "aigprove"
    files = [it for it in package.rglob("*") if it.is_file() and "__pycache__" not in it.parts]
    found = {f"lib/{it.relative_to(package.parent)}": read(package, str(it.relative_to(package)))
             for it in files}
    return {**found, "lib/aigprove/release.json": File(release.written(known)),
            "bin/aigprove": read(TOP, "bin/aigprove"),
            "bin/aigwaves": read(TOP, "examples/waves.py")}


def pkg_config(prefix: str, libdir: str, rpath: str) -> File:
    """Returns the file for pkg-config."""
    text = (TOP / "lib" / "aig.pc").read_text(encoding="utf-8")
    words = {"PREFIX": prefix, "LIBDIR": libdir, "RPATH": rpath, "VERSION": VERSION}
    for name, word in words.items():
        text = text.replace(f"@{name}@", word)
    return File(text.encode())


def build_library() -> None:
    """Builds the library, if it isn't built or isn't up to date."""
    if subprocess.run([ARCHIVE]).returncode:
        sys.exit("dist: the library can't be built, as it says above")


def libraries() -> Tree:
    """Builds the library for C, C++ and Python if necessary, and returns its files."""
    build_library()
    return {
        **{f"include/{name}": read(TOP / "include", name) for name in HEADERS},
        **{f"{PACKAGE}/{name}": read(TOP / PACKAGE, name) for name in MODULES},
        "lib/libaig.a": File(library("libaig.a").read_bytes()),
        f"lib/{SONAME}": File(library("libaig.so").read_bytes()),
        "lib/libaig.so": Link(SONAME),
        "lib/pkgconfig/aig.pc": pkg_config(MOVABLE, "lib", RPATH),
    }


def environment(prefix: pathlib.Path) -> Tree:
    """Returns the links by which Python finds the package: below a prefix that is an environment
    of it, or that this Python looks below, such as /usr/local."""
    sites = {prefix / "lib/python{}.{}/site-packages".format(*sys.version_info[:2])}
    known = map(pathlib.Path, site.getsitepackages())
    sites |= {it for it in known if prefix / "lib" in it.parents}
    return {str((it / "aig").relative_to(prefix)): Link(os.path.relpath(prefix / PACKAGE, it))
            for it in sites}


def pages() -> Tree:
    """Returns the man pages."""
    with tempfile.TemporaryDirectory() as folder:
        subprocess.run([sys.executable, TOP / "docs" / "man.py", folder], check=True)
        made = pathlib.Path(folder)
        return {f"share/man/man1/{it.name}": read(made, it.name) for it in made.iterdir()}


def documents() -> Tree:
    """Returns the licences of everything in the programs, and the list of changes."""
    own = {name: read(TOP, name) for name in ["LICENSE", "CHANGELOG.md"]}
    return below({**own, **notices()}, DOCUMENTS)


def programs(known: Release) -> Tree:
    """Returns all files except the library: the programs, their documentation, and the completion
    files for shells."""
    built = {f"bin/{name}": File(program(name).read_bytes(), True) for name in PROGRAMS}
    return {**built, **prover(known), **pages(), **completions(map(program, PROGRAMS))}
