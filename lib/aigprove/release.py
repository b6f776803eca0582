"""The release of the programs, which ./dist writes beside them, and prebuilt programs.

The folder prebuilt/ of a clone has the programs of the last release. They are used only if they
were built from the crates of the clone: if these have the same git tree hash. It is computed here,
so that neither git nor the toolchain is needed."""
import functools
import hashlib
import json
import os
import re
import sys
from collections.abc import Iterator
from typing import NamedTuple

from aigprove import VERSION
from aigprove.data import message

FILE, PREBUILT = "release.json", "prebuilt"
# What the programs of a release need: a machine, and a version of the C library.
MACHINE, GLIBC = "x86_64", (2, 34)
# What builds and tests leave in the folders of crates.
LEFT = {"out", "__pycache__"}


class Release(NamedTuple):
    """A release: its version, the tree hash of crates/, the toolchain, the linkers of the shared
    library, and the checksums of files."""

    version: str
    tree: str
    kit: str
    linkers: str = ""
    sums: dict[str, str] = {}

    def __str__(self) -> str:
        return f"release {self.version}, crates {self.tree}, {self.kit}"


def read(folder: str) -> Release | None:
    """Returns the release that is recorded in a folder, or None."""
    try:
        with open(os.path.join(folder, FILE), encoding="utf-8") as file:
            return Release(**json.load(file))
    except FileNotFoundError:
        return None


def written(release: Release) -> bytes:
    """Returns the text of a release, which `read` reads."""
    return (json.dumps(release._asdict(), indent=2) + "\n").encode()


def object_sum(kind: str, data: bytes) -> bytes:
    """Returns the git hash of an object."""
    return hashlib.sha1(f"{kind} {len(data)}\0".encode() + data, usedforsecurity=False).digest()


def entry(path: os.DirEntry[str]) -> tuple[str, bytes] | None:
    """Returns the git mode and hash of a file, a link or a folder; None for an empty folder."""
    if path.is_symlink():
        return "120000", object_sum("blob", os.fsencode(os.readlink(path)))
    if path.is_dir():
        found = tree_object(path.path)
        return ("40000", object_sum("tree", found)) if found else None
    with open(path, "rb") as file:
        data = file.read()
    return ("100755" if path.stat().st_mode & 0o100 else "100644"), object_sum("blob", data)


def tree_object(folder: str) -> bytes:
    """Returns the git tree object of a folder."""
    with os.scandir(folder) as scanned:
        found = [(path.name, it) for path in scanned
                 if path.name not in LEFT and (it := entry(path))]
    # Git sorts a folder as if its name ended with a slash.
    found.sort(key=lambda it: os.fsencode(it[0] + "/" * (it[1][0] == "40000")))
    return b"".join(f"{mode} ".encode() + os.fsencode(name) + b"\0" + it
                    for name, (mode, it) in found)


@functools.cache
def tree_of(crates: str) -> str:
    """Returns the git tree hash of the folder of crates."""
    return object_sum("tree", tree_object(crates)).hex()


def of_clone(top: str) -> Release | None:
    """Returns the release of a clone's prebuilt programs, if they were built from its crates, and
    otherwise None."""
    known = read(os.path.join(top, PREBUILT))
    return known if known and known.tree == tree_of(os.path.join(top, "crates")) else None


def unfit() -> str:
    """Returns the end of a message that the programs of a release can't run on this system. It is
    empty if they can."""
    machine, name = os.uname().machine, "CS_GNU_LIBC_VERSION"
    library = os.confstr(name) if name in os.confstr_names else None
    number = [int(it) for it in re.findall("[0-9]+", library or "")]
    if machine == MACHINE and (*number,) >= GLIBC:
        return ""
    return message("unfit_release", folder=PREBUILT, version="{}.{}".format(*GLIBC),
                   machine=machine, library=library or "another C library")


def hint(top: str, name: str, is_prebuilt: bool) -> str:
    """Returns the end of a message that says why a program in prebuilt/ of a clone isn't run. It is
    empty if there is no such folder."""
    known = read(os.path.join(top, PREBUILT))
    if not known:
        return ""
    if why := unfit():
        return why
    if is_prebuilt or of_clone(top):
        return message("no_prebuilt", folder=PREBUILT, name=name)
    return message("other_release", version=known.version)


def places(top: str, name: str, is_prebuilt: bool) -> Iterator[str]:
    """Yields the paths where a program may be, in order: installed below a folder, beside the
    running script, where it is built, in prebuilt/ if that fits the crates and runs on this system,
    and in PATH.

    Yields at most the path in prebuilt/ if `is_prebuilt`."""
    if not is_prebuilt:
        beside = os.path.dirname(os.path.realpath(sys.argv[0]))
        for folder in [os.path.join(top, "bin"), beside, os.path.join(top, "crates", name, "out")]:
            yield os.path.join(folder, name)
    if not unfit() and (is_prebuilt or of_clone(top)):
        yield os.path.join(top, PREBUILT, name)
    if not is_prebuilt:
        yield name


def programs(top: str, is_prebuilt: bool) -> str:
    """Returns which release, crates and toolchain the programs below a folder come from. If
    `is_prebuilt`, these are the programs in prebuilt/."""
    crates = os.path.join(top, "crates")
    if is_prebuilt and (known := read(os.path.join(top, PREBUILT))):
        return str(known)
    if not os.path.isdir(crates):
        return str(read(os.path.dirname(os.path.realpath(__file__))) or "of an unknown release")
    if os.path.exists(os.path.join(crates, "aigcheck", "out", "aigcheck")):
        return f"built here, crates {tree_of(crates)}"
    return str(of_clone(top) or f"not built, crates {tree_of(crates)}")


def version(top: str, is_prebuilt: bool) -> str:
    """Returns the output of `--version`."""
    return f"aigprove {VERSION}\nprograms: {programs(top, is_prebuilt)}\n"
