"""The files that programs get and leave: immutable copies in memory, and the folders in which
engines run."""
from __future__ import annotations

import contextlib
import fcntl
import io
import os
import resource
import stat
from collections.abc import Iterable, Iterator
from typing import IO, TYPE_CHECKING

from aigprove.circuits.aiger import LIMIT, Fault
from aigprove.output.messages import plain, tell

if TYPE_CHECKING:
    from aigprove.processes.groups import Group, Words
    from aigprove.processes.scheduler import Task

# The number of bytes that are copied at once.
BLOCK = 1 << 20
# No writing, no change of length, and no removal of these seals.
SEALS = fcntl.F_SEAL_WRITE | fcntl.F_SEAL_GROW | fcntl.F_SEAL_SHRINK | fcntl.F_SEAL_SEAL
# The number of bytes that a file may have for each node. The line of a gate has at most 33; the
# rest is for lists, names and the comment.
NODE = 64
PACKED = b"\x1f\x8b"
# The part of the free space in the temporary folder, and of all memory, that an engine may use for
# files.
PART = 4
# The number of files that an engine may write.
FILES = 1000
# The number of bytes that are passed on of a program's messages on standard error.
SAID = 4096


def path_of(program: str) -> str | None:
    """Returns the path of a program, given its name or path, or None if it doesn't exist."""
    # Importing shutil takes a while.
    for folder in os.get_exec_path() if os.path.basename(program) == program else [""]:
        path = os.path.join(folder, program)
        if os.path.isfile(path) and os.access(path, os.X_OK):
            return path
    return None


def new_folder(above: str, begin: str) -> str:
    """Creates a folder in another one that only this user can read, and returns its path. Its name
    begins with `begin`."""
    path = os.path.join(os.path.abspath(above), f"{begin}-{os.urandom(8).hex()}")
    os.mkdir(path, 0o700)
    return path


def in_memory() -> IO[bytes]:
    """Opens a new file in memory, which disappears when it is closed."""
    return open(os.memfd_create("printed"), "w+b")


class Sealed:
    """An immutable copy of bytes: a file in memory that is sealed against writing. `path` is what
    programs open.

    If a stream has more than `most` bytes, Fault is raised. `path` is its name for messages."""

    descriptor: int | None = None

    def __init__(self, data: bytes | IO[bytes] | io.BufferedIOBase, path: str = "",
                 most: int | None = None) -> None:
        self.descriptor = os.memfd_create("sealed", os.MFD_ALLOW_SEALING)
        self.path = f"/dev/fd/{self.descriptor}"
        with open(self.descriptor, "wb", closefd=False) as out:
            source = io.BytesIO(data) if isinstance(data, bytes) else data
            while block := source.read(BLOCK):
                if most is not None and out.tell() + len(block) > most:
                    raise Fault.of("many_bytes", path=path, most=most)
                out.write(block)
        fcntl.fcntl(self.descriptor, fcntl.F_ADD_SEALS, SEALS)

    def __del__(self) -> None:
        if self.descriptor is not None:
            os.close(self.descriptor)

    def fileno(self) -> int:
        """Returns its descriptor, which a program that is started has to inherit."""
        assert self.descriptor is not None
        return self.descriptor

    def data(self) -> bytes:
        """Returns all bytes."""
        with open(self.path, "rb") as file:
            return file.read()

    def blocks(self) -> Iterator[bytes]:
        """Yields all bytes, in blocks."""
        with open(self.path, "rb") as file:
            while block := file.read(BLOCK):
                yield block

    def size(self) -> int:
        """Returns the number of bytes."""
        return os.fstat(self.fileno()).st_size

    def line(self, most: int = 1 << 16) -> bytes:
        """Returns the first line, or at most a number of its first bytes."""
        with open(self.path, "rb") as file:
            return file.readline(most)

    def __str__(self) -> str:
        return self.path


# An argument of a program.
Word = str | int | Sealed


def sealed(path: str, limit: int | None = None) -> Sealed:
    """Returns an immutable copy of a regular file or a pipe, unpacked if it is compressed by gzip.

    Raises Fault if it is a device, is empty, or is too large for `limit` nodes."""
    mode, most = os.stat(path).st_mode, NODE * max(limit or LIMIT, LIMIT)
    if stat.S_ISCHR(mode) or stat.S_ISBLK(mode):
        raise Fault.of("device", path=path)
    with open(path, "rb") as file:
        found = Sealed(file, path, most)
    if found.line(2) == PACKED:
        found = unpacked(found, path, most)
    if not found.line():
        raise Fault.of("empty", path=path)
    return found


def unpacked(packed: Sealed, path: str, most: int) -> Sealed:
    """Returns what gzip compressed into a file. Raises Fault if that is malformed, or has more than
    `most` bytes."""
    # Few files are compressed.
    import gzip
    import zlib

    try:
        with gzip.open(packed.path) as file:
            return Sealed(file, path, most)
    except (gzip.BadGzipFile, EOFError, zlib.error) as why:
        raise Fault.of("of_file", path=path, why=why) from None


def opened(path: str) -> IO[bytes]:
    """Opens a file for reading, unless it is a symbolic link. Doesn't wait for a pipe."""
    flags = os.O_RDONLY | os.O_NOFOLLOW | os.O_NONBLOCK
    return open(path, "rb", opener=lambda it, _: os.open(it, flags))


def write(path: str, pieces: Iterable[bytes], mode: str = "wb") -> None:
    """Writes pieces of bytes to a file. Raises Fault if that fails."""
    try:
        with open(path, mode) as out:
            out.writelines(pieces)
    except OSError as why:
        raise Fault.of("of_file", path=path, why=why.strerror) from None


def entries_of(path: str) -> Iterator[tuple[str, os.stat_result]]:
    """Yields the path and status of each entry of a folder, as far as they can be read."""
    with contextlib.suppress(OSError), os.scandir(path) as entries:
        for entry in entries:
            yield entry.path, entry.stat(follow_symlinks=False)


class Folder:
    """A new folder for one run of an engine's program, with limits on what the program writes
    there."""

    def __init__(self, above: str) -> None:
        self.path, free = new_folder(above, "engine"), os.statvfs(above)
        memory = os.sysconf("SC_PHYS_PAGES") * os.sysconf("SC_PAGE_SIZE")
        self.limit = max(min(free.f_bavail * free.f_frsize, memory) // PART, 1 << 20)

    def __enter__(self) -> Folder:
        return self

    def __exit__(self, *_: object) -> None:
        """Removes the folder. Subfolders stay until the end of aigprove."""
        for path, _status in entries_of(self.path):
            with contextlib.suppress(OSError):
                os.unlink(path)
        with contextlib.suppress(OSError):
            os.rmdir(self.path)

    def place(self, name: str) -> str:
        """Returns the path of a file in the folder."""
        return os.path.join(self.path, name)

    def make(self, name: str) -> IO[bytes]:
        """Creates a file in the folder."""
        return open(self.place(name), "xb")

    def start(self, task: Task, words: Words) -> Group:
        """Starts a program of the engine. Its output goes into files of the folder."""
        with self.make("out") as out, self.make("err") as error:
            return task.start(words, self, stdout=out, stderr=error)

    def run(self, task: Task, words: Words) -> int:
        """Runs such a program, and returns its status."""
        return task.finish(self.start(task, words))

    def limit_process(self, process: int) -> None:
        """Limits the size of a process's files.

        The process also becomes the first that the system kills when memory runs out."""
        with contextlib.suppress(OSError):
            resource.prlimit(process, resource.RLIMIT_FSIZE, (self.limit, self.limit))
            resource.prlimit(process, resource.RLIMIT_CORE, (0, 0))
            with open(f"/proc/{process}/oom_score_adj", "w", encoding="ascii") as out:
                out.write("1000")

    def is_full(self) -> bool:
        """Returns whether there are too many files in the folder, or too many bytes."""
        total, count, folders = 0, 0, [self.path]
        while folders and total <= self.limit and count <= FILES:
            for path, status in entries_of(folders.pop()):
                total, count = total + status.st_blocks * 512, count + 1
                if stat.S_ISDIR(status.st_mode):
                    folders.append(path)
        return total > self.limit or count > FILES

    def taken(self, name: str, what: str) -> Sealed:
        """Returns an immutable copy of a regular file in the folder. Raises Fault if there is none,
        or it is too long.

        Messages call it `what`."""
        try:
            file = opened(self.place(name))
        except OSError:
            raise Fault.of("no_file", what=what) from None
        with file:
            status = os.fstat(file.fileno())
            if not stat.S_ISREG(status.st_mode):
                raise Fault.of("no_file", what=what)
            if status.st_size > self.limit:
                raise Fault.of("long_file", what=what)
            return Sealed(file)

    def text(self, name: str, what: str) -> str:
        """Returns the text of such a file."""
        return self.taken(name, what).data().decode("utf-8", "replace")

    def text_if_there(self, name: str) -> str:
        """Returns the text of such a file, or "" if there is none."""
        try:
            return self.text(name, name)
        except Fault:
            return ""

    def pass_on(self) -> None:
        """Prints the beginning of a program's messages on standard error, without control
        characters."""
        with contextlib.suppress(Fault):
            if text := plain(self.taken("err", "message").data()[:SAID]):
                tell(text.rstrip("\n"))
