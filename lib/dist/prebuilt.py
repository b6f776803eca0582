"""The programs of the last release, which are in the repository. Only ./dist --release writes them.
"""
from __future__ import annotations

import os
import pathlib
import shlex
import shutil
import subprocess

from aigprove import release
from aigprove.release import FILE, Release
from dist import NAME, exports
from dist.files import File, Tree, read, sum_of, sums_of, write
from dist.layout import PROGRAMS, SONAME, TOP, library, program
from dist.licences import contents, notices

FOLDER = TOP / release.PREBUILT


def linkers() -> str:
    """Returns the versions of the C compiler and the linker, which link the shared library."""
    compiler = shlex.split(os.environ.get("CC") or "cc")
    lines = []
    for words in [compiler, ["ld"]]:
        done = subprocess.run([*words, "--version"], capture_output=True, check=True)
        lines.append(done.stdout.decode().partition("\n")[0])
    return ", ".join(lines)


def built() -> dict[str, File]:
    """Returns the built files that belong to a release."""
    files = {name: File(program(name).read_bytes(), True) for name in PROGRAMS}
    return {**files, SONAME: File(library("libaig.so").read_bytes())}


def refresh(known: Release, time: int) -> None:
    """Replaces the last release by the built files with their licences and sums, and writes the
    copy of the library's interface."""
    files: Tree = {**built(), "LICENSE": read(TOP, "LICENSE"), **notices()}
    files = {**files, f"{NAME}.spdx.json": contents(files, known, time)}
    known = known._replace(linkers=linkers(), sums=sums_of(files))
    shutil.rmtree(FOLDER, ignore_errors=True)
    write({**files, FILE: File(release.written(known))}, FOLDER)
    exports.keep(known.version)


def changed(known: Release, folder: pathlib.Path) -> list[str]:
    """Returns the files of a release whose bytes don't match their sums."""
    return [name for name, wanted in known.sums.items()
            if not (folder / name).is_file() or sum_of((folder / name).read_bytes()) != wanted]


def other_than(known: Release, has_same_linkers: bool) -> list[str]:
    """Returns the built files whose bytes differ from those of the release.

    If other tools linked the shared library, it isn't compared."""
    return [name for name, it in built().items() if known.sums.get(name) != sum_of(it.data)
            and (name != SONAME or has_same_linkers)]


def is_of(now: Release) -> bool:
    """Returns whether the release in the repository was built from these crates by this kit."""
    known = release.read(str(FOLDER))
    return known is not None and (known.tree, known.kit) == (now.tree, now.kit)


def compared(now: Release) -> tuple[bool, str]:
    """Returns whether the built files match the release in the repository, and a message about
    this."""
    known = release.read(str(FOLDER))
    if not known:
        return True, "there is no prebuilt release"
    if wrong := changed(known, FOLDER):
        return False, f"prebuilt is of release {known.version}, but {wrong[0]} is another file"
    if not is_of(now):
        return True, f"prebuilt is of release {known.version}"
    is_same = known.linkers == linkers()
    if wrong := other_than(known, is_same):
        return False, f"prebuilt is of these crates and this kit, which make another {wrong[0]}"
    shared = "" if is_same else f", but for {SONAME}, which other tools linked"
    return True, f"prebuilt is what was built{shared}"
