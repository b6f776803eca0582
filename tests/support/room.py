"""A folder that the programs run in, where files, streams and memory fail, and the checks of what
they do there."""
from __future__ import annotations

import contextlib
import ctypes
import os
import pathlib
import struct
from collections.abc import Callable, Iterator
from typing import Any

import harness
from aiger import AND, BINARY_AND
from harness import Checks

from aigprove.circuits.aiger import differences

# The events of Linux's inotify that a file was opened and closed, without which two equal ones
# would be told as one; and the head of what tells one: watch, event, cookie, length of the name.
IN_OPEN, IN_CLOSE, IN_HEAD = 0x20, 0x18, struct.Struct("iIII")


def chain(gates: int, falling: bool = False) -> bytes:
    """A text of gates, each of which has the one before it as an operand, in this order."""
    lines = [b"%d %d 2\n" % (2 * v, 2 * v - 1) for v in range(2, gates + 2)]
    if falling:
        lines.reverse()
    return b"aag %d 1 0 1 %d\n2\n%d\n" % (gates + 1, gates, 2 * gates + 2) + b"".join(lines)


def chain_in_binary(gates: int) -> bytes:
    """The binary form of that text: each gate is one more than its greater operand, which is a
    letter behind it."""
    lines = [b"\x01" + differences([2 * v - 3]) for v in range(2, gates + 2)]
    return b"aig %d 1 0 1 %d\n%d\n" % (gates + 1, gates, 2 * gates + 2) + b"".join(lines)


class Room:
    """A folder that the program runs in, with files, and the checks of what it does there."""

    def __init__(
        self,
        programs: dict[str, pathlib.Path],
        faults: pathlib.Path,
        folder: pathlib.Path,
        checks: Checks,
    ) -> None:
        self.programs, self.shim, self.folder, self.checks = programs, faults, folder, checks
        self.tool, self.editor, self.checker = (
            programs[name] for name in ["aigtool", "aigedit", "aigcheck"]
        )
        self.env: dict[str, str] | None = None
        folder.mkdir()
        folder.chmod(0o755)
        self.write("and.aag", AND)

    def path(self, name: pathlib.Path | str) -> pathlib.Path:
        return self.folder / name

    def write(self, name: str, data: bytes, mode: int = 0o644) -> None:
        self.path(name).write_bytes(data)
        self.path(name).chmod(mode)

    def names(self, below: pathlib.Path | str = ".") -> list[str]:
        return sorted(path.name for path in self.path(below).iterdir())

    def run(
        self, *words: harness.Word, before: Callable[[], None] | None = None, **how: Any
    ) -> tuple[int | None, bytes, bytes]:
        """How the program ends with these words, and what it writes, after a call of `before` in
        its process."""
        return harness.run(
            [self.tool, *words], cwd=self.folder, env=self.env, preexec_fn=before, **how
        )

    @contextlib.contextmanager
    def faults(self, **calls: int | str) -> Iterator[None]:
        """Has calls of the system fail in what is run meanwhile."""
        self.env = {
            **os.environ,
            "LD_PRELOAD": str(self.shim), **{name: str(value) for name, value in calls.items()},
        }
        try:
            yield
        finally:
            self.env = None

    def opened(self, program: Any, *words: Any) -> Any:
        """The names of the files of the folder that a program opens, in order, as the system tells
        them."""
        system = ctypes.CDLL(None)
        watch = system.inotify_init1(os.O_NONBLOCK)
        system.inotify_add_watch(watch, bytes(self.folder), IN_OPEN | IN_CLOSE)
        found = harness.run([self.programs[program], *words], cwd=self.folder)
        self.check(found[0] == 0, f"{program} {words}: {found}")
        events, names = os.read(watch, 1 << 16), []
        os.close(watch)
        while events:
            _, event, _, length = IN_HEAD.unpack_from(events)
            name, events = (
                events[IN_HEAD.size:IN_HEAD.size + length], events[IN_HEAD.size + length:],
            )
            names += [name.rstrip(b"\0").decode()] if event & IN_OPEN else []
        return [name for name in names if name]

    def shell(self, script: str, *words: str, status: int = 0) -> None:
        """Runs a script in which `$0` is the program and `$1` the first of the words, and checks
        its status."""
        found, _, error = harness.run(
            ["sh", "-c", script, self.tool, *words], cwd=self.folder, env=self.env
        )
        self.check(found == status, f"{script}, {words}: status {found}, {error!r}")

    def check(self, holds: object, what: str) -> None:
        self.checks.check(holds, what)

    def ends(
        self,
        *words: harness.Word,
        status: int = 0,
        out: bytes = b"",
        err: bytes = b"",
        **how: Any
    ) -> None:
        """Checks how a run ends and what it writes."""
        found = self.run(*words, **how)
        self.check(
            found == (status, out, err),
            f"{words}: status {found[0]}, {found[1][:80]!r}, {found[2][:80]!r}",
        )

    def fails(self, text: bytes, *commands: list[str], **how: Any) -> None:
        """Checks that each command, by its words, is refused with this text, and writes nothing
        else."""
        for words in commands:
            self.ends(*words, status=1, err=b"aigtool: %s\n" % text, **how)

    def refuses(self, text: bytes, *outs: str, file: str = "and.aag", **how: Any) -> None:
        """Checks that `binary` is refused with this text, with each OUT."""
        self.fails(text, *(["binary", file, out] for out in outs), **how)

    def writes(
        self,
        name: str,
        file: pathlib.Path | str = "and.aag",
        **how: Any
    ) -> None:
        """Checks how `binary` ends with this name as OUT."""
        self.ends("binary", file, name, **how)

    def makes(
        self, *outs: str, file: str = "and.aag", data: bytes = BINARY_AND, **how: Any
    ) -> None:
        """Checks that `binary` writes this to each OUT."""
        for out in outs:
            self.writes(out, file, **how)
            self.holds(out, data)

    def holds(self, name: pathlib.Path | str, data: bytes) -> None:
        found = self.path(name).read_bytes() if self.path(name).is_file() else None
        self.check(found == data, f"{name!r} holds {found and found[:80]!r}")

    def has(self, *names: str, below: pathlib.Path | str = ".") -> None:
        self.check(self.names(below) == sorted(names), f"files {self.names(below)}")
