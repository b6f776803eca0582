"""The command line of ./dist."""
from __future__ import annotations

import argparse
import compileall
import os
import pathlib
import shlex
import shutil
import subprocess
import sys
from collections.abc import Iterator

from aigprove import VERSION
from aigprove.release import Release
from dist import NAME, cargo, debian, elf, prebuilt, wheel
from dist.files import Tree, archive, below, sum_of, write
from dist.layout import (CRATES, DOCUMENTS, PROGRAMS, RPATH, SONAME, TOP, build_library, current,
                         documents, environment, libraries, library, pkg_config, program, programs)
from dist.licences import LICENCE, contents, holder

ABOUT = """Makes packages of what was proved and built, in the folder OUT:

  aig-VERSION-x86_64-linux.tar.gz   a folder, to be unpacked anywhere
  aig_VERSION_amd64.deb             a Debian package
  aig-VERSION-..whl                 a wheel for pip
  aig-VERSION.crate                 a crate of Rust with the library
  aig-VERSION.spdx.json             what is in them: sums, versions and licences
  SHA256SUMS                        the sums of these files

The programs have to be built: by tests/run, ./build or rt ci. The library is
built if it isn't there, which needs a C compiler and binutils. All files have
the time of SOURCE_DATE_EPOCH, or else of the last commit, so that the same
programs make the same bytes.
"""


def git(*words: str) -> str:
    """Returns what git prints of this repository; nothing if there is no commit."""
    done = subprocess.run(["git", "-C", str(TOP), *words], capture_output=True)
    return "" if done.returncode else done.stdout.decode().strip()


def epoch() -> int:
    """Returns the time of all files, in seconds since 1970."""
    given = os.environ.get("SOURCE_DATE_EPOCH") or git("log", "-1", "--format=%ct")
    if not given:
        sys.exit("dist: SOURCE_DATE_EPOCH isn't set, and there is no commit whose time is taken")
    return int(given)


def needed() -> tuple[int, int]:
    """Returns the version of glibc that the programs and the library need. Ends the program if they
    need another library."""
    files = [*map(program, PROGRAMS), library("libaig.so")]
    for file in files:
        if (others := elf.libraries(file)) != ["libc.so.6"]:
            sys.exit(f"dist: {file} needs {' '.join(others)}, and not the C library alone")
    if (name := elf.soname(library("libaig.so"))) != SONAME:
        sys.exit(f"dist: libaig.so calls itself {name}, and not {SONAME}")
    return elf.glibc(files)


def packages(known: Release, time: int) -> Iterator[tuple[str, bytes]]:
    """Yields the names and the bytes of all packages, and of the list of their contents."""
    tree: Tree = {**programs(known), **libraries(), **documents()}
    glibc, who, stem = needed(), holder(TOP), f"{NAME}-{known.version}"
    listed = contents(tree, known, time)
    tree = {**tree, f"{DOCUMENTS}/{NAME}.spdx.json": listed}
    yield f"{stem}-x86_64-linux.tar.gz", archive(below(tree, stem), time)
    if shutil.which("dpkg-deb"):
        placed = debian.data(tree, time)
        data = debian.package(placed, debian.control(placed, known, who, glibc), time)
        yield f"{NAME}_{known.version}_{debian.ARCHITECTURE}.deb", data
    else:
        print("dist: there is no dpkg-deb, so the Debian package is left out", file=sys.stderr)
    systems = wheel.tag(glibc)
    found = wheel.files(tree, known, who, LICENCE, systems)
    yield f"{stem}-{systems}.whl", wheel.archive(found, known, time)
    told = {path: it for path, it in tree.items() if path.startswith(f"{DOCUMENTS}/")}
    yield f"{stem}.crate", cargo.package(cargo.files(told, known), known, time)
    yield f"{stem}.spdx.json", listed.data


def built() -> Release:
    """Returns the release that this clone builds. Its programs have to be built."""
    if missing := [name for name in PROGRAMS if not program(name).is_file()]:
        sys.exit(f"dist: {missing[0]} isn't built: run tests/run, ./build or rt ci first")
    return current()


def install(prefix: pathlib.Path) -> None:
    """Installs the built files below a prefix."""
    compiler = shlex.split(os.environ.get("CC") or "cc")[0]
    tree: Tree = {**programs(built()), **documents()}
    if shutil.which(compiler):
        absolute = pkg_config(str(prefix.absolute()), "lib", RPATH)
        linked = environment(prefix.absolute())
        tree = {**tree, **libraries(), **linked, "lib/pkgconfig/aig.pc": absolute}
    else:
        print("install: there is no C compiler, so the library for C is left out", file=sys.stderr)
    package = prefix / "lib" / "aigprove"
    shutil.rmtree(package, ignore_errors=True)
    write(tree, prefix)
    compileall.compile_dir(package, quiet=1)


def make(out: pathlib.Path) -> None:
    """Writes all packages into a folder, with their SHA-256 sums."""
    known = complete()
    out.mkdir(parents=True, exist_ok=True)
    sums = []
    for name, data in packages(known, epoch()):
        (out / name).write_bytes(data)
        sums.append(f"{sum_of(data)}  {name}\n")
        print(f"{name}: {len(data)} bytes", flush=True)
    (out / "SHA256SUMS").write_text("".join(sums), encoding="ascii")


def stale() -> str:
    """Returns the name of a program that is older than a file of the crates, or whose version is
    different, or None if there is no such program."""
    sources = [it for part in ["src", "specs", "proofs"] for it in CRATES.glob(f"*/{part}/**/*")]
    newest = max(it.stat().st_mtime for it in sources)
    for name in PROGRAMS:
        done = subprocess.run([program(name), "--version"], capture_output=True)
        is_other = done.returncode == 0 and done.stdout.decode() != f"{name} {VERSION}\n"
        if is_other or program(name).stat().st_mtime < newest:
            return name
    return ""


def complete() -> Release:
    """Returns the release that this clone builds. Ends the program if some of its data are unknown,
    or if a program wasn't built from these crates."""
    known = built()
    if not known.kit:
        sys.exit("dist: there is no rt, whose kit the packages tell of")
    if name := stale():
        sys.exit(f"dist: {name} isn't built of these crates: run tests/run, ./build or rt ci first")
    build_library()
    return known


def make_release() -> None:
    """Puts what was built into the repository, as the release of crates that are committed."""
    known = complete()
    if known.tree != git("rev-parse", "HEAD:crates"):
        sys.exit("dist: crates/ isn't as it is in the last commit: see git status --short crates")
    prebuilt.refresh(known, epoch())


def compare() -> int:
    """Compares the built files with the release in the repository, and returns the exit status."""
    now = current()
    if prebuilt.is_of(now):
        complete()
    is_good, said = prebuilt.compared(now)
    print(said)
    return 0 if is_good else 1


def parser() -> argparse.ArgumentParser:
    """Returns the parser of the command line."""
    made = argparse.ArgumentParser("dist", description=ABOUT,
                                   formatter_class=argparse.RawDescriptionHelpFormatter)
    what = made.add_mutually_exclusive_group(required=True)
    what.add_argument("out", metavar="OUT", type=pathlib.Path, nargs="?",
                      help="the folder of the packages")
    what.add_argument("--install", metavar="PREFIX", type=pathlib.Path,
                      help="install what was built below PREFIX, as ./install does")
    what.add_argument("--release", action="store_true",
                      help="put what was built into prebuilt/, as the release of this version")
    what.add_argument("--compare", action="store_true",
                      help="compare what was built with prebuilt/, if that is of the same crates "
                           "and kit; ends with status 1 if it differs")
    made.add_argument("--version", action="version", version=f"dist {VERSION}")
    return made


def main() -> int:
    words = parser().parse_args()
    if words.compare:
        return compare()
    if words.install:
        install(words.install)
    elif words.release:
        make_release()
    else:
        make(words.out)
    return 0
