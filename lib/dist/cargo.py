"""Packs a Rust crate with the library, in the format of cargo."""
from __future__ import annotations

from aigprove.release import Release
from dist import NAME
from dist.files import File, Tree, archive, below, read
from dist.layout import DOCUMENTS, TOP, library

# The folder in which build.rs searches for the library, if the crate is outside of its repository.
NATIVE = "native"


def files(documents: Tree, known: Release) -> Tree:
    """Generates the calls from the header, and returns the files of the crate."""
    crate = TOP / "lib" / "rust"
    sources = sorted(it.relative_to(crate) for it in (crate / "src").rglob("*.rs"))
    found = {str(path): read(crate, str(path)) for path in sources}
    own = {path.removeprefix(f"{DOCUMENTS}/"): it for path, it in documents.items()}
    return {**found, **own, "Cargo.toml": read(crate, "Cargo.toml"),
            "build.rs": read(crate, "build.rs"),
            f"{NATIVE}/libaig.a": File(library("libaig.a").read_bytes())}


def package(found: Tree, known: Release, time: int) -> bytes:
    """Returns the crate of these files."""
    return archive(below(found, f"{NAME}-{known.version}"), time)
