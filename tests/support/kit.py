"""The kit whose `rt` is found, crates as it knows them, and the libraries that it left.

`rt ci` leaves its libraries without the stamp by which other commands know the text of one, since
they fit only those that they were built over. All come from one run where each is later than its
text and than those below it.
"""
from __future__ import annotations

import functools
import importlib
import pathlib
import shutil
import sys
from typing import Any

TEXTS = ["src", "specs", "proofs"]


def tools() -> pathlib.Path:
    """The folder of the kit."""
    found = shutil.which("rt")
    return pathlib.Path(found).resolve().parent.parent if found else sys.exit("there is no rt")


def logic() -> str:
    """The sum of the logic that the kit proves by, which kits of several names share."""
    return (tools() / "KIT-ID").read_text(encoding="utf-8").split()[-1]


@functools.cache
def rtlib() -> Any:
    """The kit's own module, in which a crate's stamp, made of those below it, is made once."""
    sys.path.insert(0, str(tools() / "bin"))
    found = importlib.import_module("rtlib")
    found.Crate.stamp = functools.cache(found.Crate.stamp)
    return found


def crate(folder: pathlib.Path, top: pathlib.Path, known: dict[str, Any] | None = None) -> Any:
    """The crate of a folder in the repository at the top, with those that are known already."""
    return rtlib().Crate(str(folder), str(top), {} if known is None else known)


def time_of(*paths: str | pathlib.Path) -> float:
    """When the last of some files was written, those below a folder with it."""
    return max(
        file.stat().st_mtime
        for path in map(pathlib.Path, paths)
        for file in [path, *path.rglob("*")]
    )


def is_current(it: Any) -> bool:
    """Whether a crate's library is there, and one of its text, by its stamp or by the times of
    files."""
    library, folder = pathlib.Path(it.rlib), pathlib.Path(it.folder)
    stamp = library.with_name("stamp")
    if stamp.exists() or not all(pathlib.Path(crate.rlib).is_dir() for crate in [it, *it.deps]):
        return bool(it.is_built())
    return time_of(library) > time_of(
        *(path for part in TEXTS if (path := folder / part).is_dir()),
        *(dep.rlib for dep in it.deps),
    )


def stale(it: Any) -> list[str]:
    """The names of the crates below a crate whose libraries aren't current."""
    return [crate.name for crate in it.below() if not is_current(crate)]
