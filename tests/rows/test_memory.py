"""Refuses each request for memory in turn, and counts requests.

Every call that takes memory is made by a step of aig_script (memory/calls.tsv), once for each of
its own requests for memory, with that request refused, upwards until a run ends without a refusal.
A refused call answers that memory ran out and nothing else, and leaves its receiver as it was; the
last run answers what ample memory answers. The same of each command of aigtool, aigedit and
aigcheck, which says `out of memory` after its program's name (and of what, where there are several
files or proofs), ends with status 1, prints at most a beginning, and leaves an old OUT as it was.

Requests are counted as well: long lines and comments make none, ands that fold and changes of
entries make none, and no number of a file makes a large one, but for the room for nodes, which is
reserved within the limit.

The shim memory/refuse.c is built with the C compiler and loaded by LD_PRELOAD.
"""
from __future__ import annotations

import dataclasses
import itertools
import pathlib
import shutil
from collections.abc import Sequence
from typing import Any

import harness
import pytest
from aiger import AND
from commands import TABLES, both_forms, cases
from harness import spelled
from tables import Row, by_row

READ = harness.files(TABLES / "read.tsv")
PROGRAMS = ["aigtool", "aigedit", "aigcheck"]
# Of what a program may say that memory ran out: which file, question or proof.
SUBJECTS = [
    "other file", "witness circuit", "query", "window", "reset", "transition", "property", "base",
    "step",
]
PARTS = ["", *(f"{subject}: " for subject in SUBJECTS)]
# The steps that calls.tsv names so.
CLOSED = "read full 7 1000; keep; swap"
FILLED = "read full 7 1000; leaf; init 0 3; name 7 gate; name 16 free; keep; swap"
# Where a file has a few nodes all requests together stay below this, and room for nodes within the
# limit is reserved.
ASKED_FOR_LITTLE = 20_000


@dataclasses.dataclass
class Ended:
    """How a program ended, and what it asked for."""

    status: int | None
    out: bytes
    err: bytes
    requests: int
    greatest: int
    sum: int

    def whole(self) -> tuple[int | None, bytes, bytes]:
        return self.status, self.out, self.err


class Shim:
    """Runs programs with requests for memory that are counted and refused."""

    def __init__(self, folder: pathlib.Path) -> None:
        self.library = harness.shim("memory/refuse.c", folder)

    def run(
        self,
        words: Sequence[pathlib.Path | str],
        folder: pathlib.Path,
        refused: int = 0,
        between: tuple[str, str] | None = None,
    ) -> Ended:
        """Runs a program in a folder, with the request of this number refused; requests count
        between these lines."""
        told = folder / ".told"
        env = {"LD_PRELOAD": str(self.library), "REFUSE": str(refused), "REFUSE_TELL": str(told)}
        if between:
            env["REFUSE_AFTER"], env["REFUSE_UNTIL"] = between
        ended = harness.run(words, cwd=folder, env=env)
        counts = map(int, told.read_text().split())
        told.unlink()
        return Ended(*ended, *counts)


@dataclasses.dataclass
class Case:
    """A row of calls.tsv, whose first line says what the cells are."""

    begin: str
    step: str
    show: str = ""
    after: str = ""
    reading: str = ""
    quiet: str = ""

    def __post_init__(self) -> None:
        begin = harness.repeated(self.begin.replace("CLOSED", CLOSED).replace("FILLED", FILLED))
        self.before = list(filter(None, begin.split("; ")))
        self.show = self.show or "show"


class Steps:
    """The calls that steps make, one by one, in a folder with what steps read."""

    def __init__(
        self, shim: Shim, program: pathlib.Path, room: pathlib.Path, checks: harness.Checks
    ) -> None:
        self.shim, self.program, self.room, self.checks = shim, program, room, checks
        harness.write_files(room, READ)

    def run(self, steps: list[str], refused: int = 0) -> Ended:
        """Takes steps, and counts the requests of their calls."""
        (self.room / "steps").write_text("".join(step + "\n" for step in steps))
        (self.room / "out").write_bytes(READ["out"])
        return self.shim.run([self.program, "steps"], self.room, refused, ("call", "answer"))

    def printed(self, steps: list[str]) -> str:
        """What the last of some steps prints, with no request refused."""
        return self.run(steps).out.decode().rpartition("> ")[2].partition("\n")[2]

    def tail(self, case: Case) -> str:
        """What the refused step prints behind `Memory`: a line as it stands, or the state that a
        step prints behind its answers."""
        if case.after.startswith("simulate"):
            return self.printed([*case.before, case.after]).rpartition("()\n")[2]
        return case.after and case.after + "\n"

    def check(self, case: Case) -> None:
        """Checks a call with each of its requests refused, and with none."""
        step, steps = case.step, [*case.before, case.show, case.step, case.show]
        shown, tail = self.printed([*case.before, case.show]), self.tail(case)
        before = self.run([*case.before, case.show])
        reading = self.run([*case.before, case.reading]).requests if case.reading else 0
        ample = self.run(steps)
        for refused in range(before.requests + 1, ample.requests + 1):
            answer = "Read(Memory)" if refused <= reading else "Memory"
            told = (
                f"> {step.split()[0]}\ncall\nanswer\n{answer}\n{tail}>"
                f" {case.show.split()[0]}\n{shown}"
            )
            wanted = 0, before.out + told.encode(), b""
            self.checks.wants(
                f"{step}, request {refused}", wanted, self.run(steps, refused).whole()
            )
        ended_well = (ample.status, ample.err) == (0, b"") and b"Memory" not in ample.out
        is_quiet = ample.requests == before.requests
        self.checks.check(
            ended_well and is_quiet == bool(case.quiet),
            f"{step}: {ample}, {before.requests} requests before",
        )


class Program:
    """The commands of a program, one by one, in a folder."""

    def __init__(
        self, shim: Shim, path: pathlib.Path, room: pathlib.Path, checks: harness.Checks
    ) -> None:
        self.shim, self.path, self.room, self.checks = shim, path, room, checks

    def contents(self) -> dict[str, bytes]:
        return {path.name: path.read_bytes() for path in self.room.iterdir()}

    def fill(self, files: dict[str, bytes]) -> None:
        """Leaves these files alone in the folder."""
        shutil.rmtree(self.room, ignore_errors=True)
        self.room.mkdir()
        harness.write_files(self.room, files)

    def check(self, words: list[str], files: dict[str, bytes]) -> None:
        """Checks a command on these files with each of its requests refused, and with none."""
        self.fill(files)
        name = f"{self.path.name} {' '.join(words)}"
        status, out, _ = harness.run([self.path, *words], cwd=self.room)
        made = self.contents()
        told = [f"{self.path.name}: {part}out of memory\n".encode() for part in PARTS]
        for refused in itertools.count(1):
            self.fill(files)
            ended = self.shim.run([self.path, *words], self.room, refused)
            if ended.requests < refused:
                break
            is_told = ended.status == 1 and ended.err in told and out.startswith(ended.out)
            assert is_told, f"{name}, request {refused}: status {ended.status}, {ended.err!r}"
            self.checks.wants(f"{name}, request {refused}: files", files, self.contents())
        given = ended.status, ended.out, harness.alone(ended.err), status, self.contents()
        self.checks.wants(f"{name}, without a refusal", (0, out, b"", 0, made), given)
        assert refused > 1, f"{name}: no request"


@pytest.fixture(scope="module")
def shim(tmp_path_factory: pytest.TempPathFactory) -> Shim:
    """What counts requests for memory, and refuses them."""
    return Shim(tmp_path_factory.mktemp("shim"))


@by_row("memory/calls.tsv", command=1)
def test_call(
    shim: Shim, aig_script: pathlib.Path, folder: pathlib.Path, checks: harness.Checks, row: Row
) -> None:
    """A call answers that memory ran out, and leaves its receiver, with each of its requests
    refused."""
    Steps(shim, aig_script, folder, checks).check(Case(*row.cells))


COMMANDS = [
    pytest.param(name, words, old, id=f"{name} {' '.join(words)}{', an old OUT' if old else ''}")
    for name in PROGRAMS for words, old in cases(name)
]


@pytest.fixture(scope="module")
def files(aigtool: pathlib.Path, tmp_path_factory: pytest.TempPathFactory) -> dict[str, bytes]:
    """The files that commands read."""
    return both_forms(aigtool, tmp_path_factory.mktemp("forms"))


@pytest.mark.parametrize("name, words, old", COMMANDS)
def test_command(
    shim: Shim,
    programs: dict[str, pathlib.Path],
    files: dict[str, bytes],
    folder: pathlib.Path,
    checks: harness.Checks,
    name: str,
    words: list[str],
    old: dict[Any, Any],
) -> None:
    """A command says that memory ran out, and leaves an old OUT, with each of its requests
    refused."""
    Program(shim, programs[name], folder / "room", checks).check(words, {**files, **old})


class Reading:
    """What aigtool asks for where it reads a file."""

    def __init__(self, shim: Shim, tool: pathlib.Path, folder: pathlib.Path) -> None:
        self.shim, self.tool, self.folder = shim, tool, folder

    def of(self, data: bytes) -> Ended:
        (self.folder / "file").write_bytes(data)
        return self.shim.run([self.tool, "text", "file"], self.folder)


@pytest.fixture
def reading(shim: Shim, aigtool: pathlib.Path, folder: pathlib.Path) -> Reading:
    return Reading(shim, aigtool, folder)


@pytest.mark.parametrize("data, other", [
    pytest.param(b"aag " + b"0" * 5_000 + b" 0 0 0 0\n", b"aag 0 0 0 0 0\n", id="5,000 digits"),
    pytest.param(AND + b"c" + bytes(1_000_000), AND, id="a comment of 1,000,000 bytes"),
])
def test_pieces(reading: Reading, checks: harness.Checks, data: bytes, other: bytes) -> None:
    """What is read in pieces makes no further requests."""
    few, same = reading.of(other), reading.of(data)
    checks.check(few.status == 0 and few.whole() == same.whole(), "another answer")
    checks.wants(
        "requests", (few.requests, few.greatest, few.sum), (same.requests, same.greatest, same.sum)
    )


@by_row("memory/counts.tsv")
def test_count(reading: Reading, checks: harness.Checks, row: Row) -> None:
    """No count in a file makes a large request."""
    text, fault = row.cells
    ended = reading.of(spelled(text))
    checks.wants(text, f"aigtool: {fault}\n".encode(), ended.err)
    checks.check(
        ended.sum <= ASKED_FOR_LITTLE,
        f"{text}: asks for {ended.sum} bytes, {ended.greatest} at once",
    )
