#!/usr/bin/env python3
"""Proves a caller in a repository of its own: elsewhere.py [--proved] [--jobs N] [FOLDER]

Makes FOLDER, or a new one that goes again, copies the crates that the caller of examples/caller
stands on, with their lines of crates.txt, and the caller beside them, proves, builds and runs it
there with `rt run`, and compares what it prints with its file stdout. Says how long that took. With
--jobs N so many processors work on each crate, where rt takes two. Run by hand.

With --proved the libraries that were built here are copied too, so that the caller alone is proved:
those of `rt run`, or those of `rt ci`, which have no stamp (tests/support/kit.py), and get one in
the new repository. This fails where one isn't of the text that is here.
"""
import pathlib
import shutil
import subprocess
import sys
import time

import harness
import kit
from harness import TOP, crates, new_folder

CALLER = TOP / "examples" / "caller"
# Whose words its contracts cite, and whose items it calls.
STANDS_ON = [
    "aig", "aig_base", "aig_circuit", "aig_encode", "aig_format", "aig_reader", "aig_runs",
    "aig_unroll",
]


def needed():
    """The crates of those names and all that they stand on, by their names."""
    known = {}
    found = [kit.crate(TOP / "crates" / name, TOP, known) for name in STANDS_ON]
    return {it.name: it for crate in found for it in [*crate.below(), crate]}


def copy(folder):
    """The repository of the caller, with the files that it reads in the folder that it is run in;
    says which crates it has."""
    known = needed()
    lines = {name: line for name, line in crates().items() if name in known}
    for name in lines:
        shutil.copytree(
            TOP / "crates" / name, folder / "crates" / name, symlinks=True,
            ignore=shutil.ignore_patterns("out"),
        )
    caller = folder / "crates" / "caller"
    shutil.copytree(CALLER, caller)
    (caller / "src").mkdir()
    (caller / "main.rt.txt").rename(caller / "src" / "main.rt")
    shutil.copytree(caller / "data", caller, dirs_exist_ok=True)
    (folder / "crates.txt").write_text(
        "\n".join([*lines.values(), f"caller: {' '.join(STANDS_ON)} anyhow", ""])
    )
    shutil.copy(TOP / "HANDLES", folder)
    return caller, len(lines)


def copy_built(caller, folder):
    """Copies and stamps the libraries below the caller."""
    here = needed()
    for crate in kit.crate(caller, folder).below():
        if not kit.is_current(here[crate.name]):
            sys.exit(f"not proved here as it is now: crates/{crate.name}")
        shutil.copytree(here[crate.name].rlib, crate.rlib)
        pathlib.Path(crate.rlib).with_name("stamp").write_text(crate.stamp())


def try_in(folder, proved, jobs):
    """Makes the repository in a folder, and runs the caller. Returns the exit status."""
    caller, count = copy(folder)
    if proved:
        copy_built(caller, folder)
    print(f"{count} crates in {folder}", flush=True)
    begin = time.monotonic()
    ran = subprocess.run(
        ["rt", "run", *jobs], cwd=caller, stdin=subprocess.DEVNULL, stdout=subprocess.PIPE,
        encoding="utf-8",
    )
    same = ran.stdout == (CALLER / "stdout").read_text()
    if not same:
        print(f"printed:\n{ran.stdout}")
    minutes = (time.monotonic() - begin) / 60
    print(
        f"proved and run in {minutes:.1f} minutes, status {ran.returncode},"
        f" {'as wanted' if same else 'not as wanted'}"
    )
    return 0 if same and ran.returncode == 0 else 1


def main():
    parser = harness.parser(__doc__)
    parser.add_argument("folder", nargs="?", type=pathlib.Path)
    parser.add_argument("--proved", action="store_true")
    parser.add_argument("--jobs", type=int)
    given = parser.parse_args()
    jobs = ["--jobs", str(given.jobs)] if given.jobs else []
    if given.folder:
        given.folder.mkdir()
        return try_in(given.folder.resolve(), given.proved, jobs)
    with new_folder() as folder:
        return try_in(folder, given.proved, jobs)


if __name__ == "__main__":
    sys.exit(main())
