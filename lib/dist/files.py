"""Files of a package, and archives whose bytes depend only on the files and a time."""
from __future__ import annotations

import gzip
import hashlib
import io
import pathlib
import tarfile
from collections.abc import Iterator, Mapping
from typing import NamedTuple


class File(NamedTuple):
    """The bytes of a file, and whether it is executable."""

    data: bytes
    is_program: bool = False

    @property
    def mode(self) -> int:
        return 0o755 if self.is_program else 0o644


class Link(NamedTuple):
    """A symbolic link, and the path that it leads to."""

    target: str


# Files and links, by their paths. The paths contain slashes, but don't begin with a slash.
Tree = Mapping[str, File | Link]


def read(folder: pathlib.Path, path: str) -> File:
    """Returns a file of a folder."""
    file = folder / path
    return File(file.read_bytes(), bool(file.stat().st_mode & 0o100))


def sum_of(data: bytes) -> str:
    """Returns the SHA-256 sum of bytes, in the format of sha256sum."""
    return hashlib.sha256(data).hexdigest()


def sums_of(tree: Tree) -> dict[str, str]:
    """Returns the SHA-256 sums of the files of a tree, by their paths."""
    return {path: sum_of(it.data) for path, it in sorted(tree.items()) if isinstance(it, File)}


def below(tree: Tree, folder: str) -> Tree:
    """Returns a tree with all paths moved below a folder."""
    return {f"{folder}/{path}": it for path, it in tree.items()}


def folders(tree: Tree) -> Iterator[str]:
    """Yields the folders of a tree, each after its parent folders."""
    paths = map(pathlib.PurePosixPath, tree)
    yield from sorted({str(it) for path in paths for it in path.parents} - {"."})


def packed(data: bytes, time: int) -> bytes:
    """Returns bytes compressed by gzip, with the given time and without a name."""
    made = io.BytesIO()
    with gzip.GzipFile(fileobj=made, filename="", mode="wb", compresslevel=9, mtime=time) as file:
        file.write(data)
    return made.getvalue()


def archive(tree: Tree, time: int) -> bytes:
    """Returns a tar archive of a tree, compressed by gzip. All files belong to root and have the
    given time."""
    made = io.BytesIO()
    with tarfile.open(fileobj=made, mode="w", format=tarfile.PAX_FORMAT) as tar:
        for path in sorted([*folders(tree), *tree]):
            member, it = tarfile.TarInfo(path), tree.get(path)
            member.mtime, member.uname, member.gname = time, "root", "root"
            if isinstance(it, File):
                member.size, member.mode = len(it.data), it.mode
                tar.addfile(member, io.BytesIO(it.data))
                continue
            member.type = tarfile.DIRTYPE if it is None else tarfile.SYMTYPE
            member.mode, member.linkname = 0o755, it.target if it else ""
            tar.addfile(member)
    return packed(made.getvalue(), time)


def write(tree: Tree, folder: pathlib.Path) -> None:
    """Writes a tree into a folder. An existing file is replaced by a new file, and isn't
    overwritten in place."""
    for path, it in sorted(tree.items()):
        file = folder / path
        file.parent.mkdir(parents=True, exist_ok=True)
        file.unlink(missing_ok=True)
        if isinstance(it, Link):
            file.symlink_to(it.target)
        else:
            file.write_bytes(it.data)
            file.chmod(it.mode)
