#!/usr/bin/env python3
"""Builds the library for C from what a run of the gate proved: archive.py [FOLDER]

Puts libaig.a and libaig.so into crates/aig_calls/out, if they aren't there of this text, and into
the folder. `aig_calls` and `aig_handles` are proved and compiled over the libraries that `rt` built
of the crates below them, as they are: so a run of `rt ci` has to come before, or `rt lib` in both.
Nothing below is proved again. Each becomes one object with what C's heap takes, whose names are
those of its header alone: so both can have the same functions of the crates below. Of include/aig.h
lib/clients.py makes what the clients in Python and Rust have.

Needs a C compiler ($CC, cc) and binutils.
"""
from __future__ import annotations

import concurrent.futures
import fcntl
import functools
import hashlib
import os
import pathlib
import re
import shlex
import shutil
import subprocess
import sys
from typing import Any

import kit
from harness import TOP, new_folder, parser

CRATES = TOP / "crates"
INCLUDE = TOP / "include"
# Each crate of exports, and the header that declares them.
HEADERS = {"aig_calls": INCLUDE / "aig.h", "aig_handles": INCLUDE / "aig_circuit.h"}
BUILT = ["libaig.a", "libaig.so"]
# By which programs ask for the shared library; its number changes with each incompatible version.
SONAME = "libaig.so.1"


def names(crate: str = "aig_calls") -> list[str]:
    """The names that a crate exports."""
    return re.findall(
        r"^(?:uint32_t|void) (\w+)\(", HEADERS[crate].read_text(encoding="utf-8"), re.M
    )


def run(*words: str | pathlib.Path, **how: Any) -> None:
    """Runs a command, which is to end well."""
    if subprocess.run(list(map(str, words)), **how).returncode:
        sys.exit(f"archive: {words[0]} failed")


def compile_crate(crate: Any, to: pathlib.Path) -> None:
    """Proves and compiles the crate over the libraries below it as they lie there."""
    if stale := kit.stale(crate):
        sys.exit(f"archive: run rt ci first: {stale[0]} isn't built as it is now, of {len(stale)}")
    if crate.compile(["--jobs", "1"], str(to)):
        sys.exit(f"archive: {crate.name} didn't build")


def one_object(crate: Any, folder: pathlib.Path) -> pathlib.Path:
    """The object of a crate, which has the names of its header alone."""
    library, whole, made = (folder / f"{crate.name}{ending}" for ending in [".a", ".whole.o", ".o"])
    compile_crate(crate, library)
    kept = folder / f"{crate.name}.names"
    kept.write_text("\n".join(names(crate.name)) + "\n", encoding="utf-8")
    run(
        "ld", "-r", "-o", whole, "--whole-archive", library, "--no-whole-archive",
        kit.tools() / "c" / "liblibc_c.a",
    )
    run("objcopy", f"--keep-global-symbols={kept}", whole, made)
    return made


def build(crates: list[Any], folder: pathlib.Path) -> None:
    """Puts both libraries into the folder. The crates are proved and compiled side by side."""
    compiler = shlex.split(os.environ.get("CC") or "cc")
    # It sets a signal's handler at its first call, which only the main thread can do.
    kit.rtlib().guarded()
    with new_folder() as made, concurrent.futures.ThreadPoolExecutor() as pool:
        objects = list(pool.map(functools.partial(one_object, folder=made), crates))
        run("ar", "rcsD", made / "libaig.a", *objects)
        run(
            *compiler, "-shared", f"-Wl,-soname,{SONAME},-z,defs,-z,noexecstack", "-o",
            made / "libaig.so",
            *objects
        )
        for name in BUILT:
            shutil.copy(made / name, folder / name)


def is_built(out: pathlib.Path, stamp: str) -> bool:
    """Whether both libraries of this text are in the folder."""
    told = out / "libaig.stamp"
    is_of_it = told.is_file() and told.read_text() == stamp
    return is_of_it and all((out / name).is_file() for name in BUILT)


def build_once(out: pathlib.Path) -> None:
    """Builds both libraries into the folder, if they aren't there of this text."""
    known: dict[str, Any] = {}
    crates = [kit.crate(CRATES / name, TOP, known) for name in HEADERS]
    for crate in crates:
        crate.out = sys.stderr
    sources = [
        *(crate.stamp() for crate in crates),
        *(hashlib.sha256(it.read_bytes()).hexdigest() for it in HEADERS.values()),
    ]
    stamp = "".join(sources)
    if not is_built(out, stamp):
        told = out / "libaig.stamp"
        told.unlink(missing_ok=True)
        build(crates, out)
        told.write_text(stamp)


def main() -> None:
    words = parser(__doc__)
    words.add_argument("folder", nargs="?", type=pathlib.Path)
    folder = words.parse_args().folder
    out = CRATES / "aig_calls" / "out"
    out.mkdir(exist_ok=True)
    # Of several that want the libraries at once one builds them, and the others take what it built.
    with open(out / "libaig.lock", "w", encoding="utf-8") as held:
        fcntl.flock(held, fcntl.LOCK_EX)
        run(TOP / "lib" / "clients.py")
        build_once(out)
        if folder:
            folder.mkdir(parents=True, exist_ok=True)
            for name in BUILT:
                shutil.copy(out / name, folder / name)


if __name__ == "__main__":
    main()
