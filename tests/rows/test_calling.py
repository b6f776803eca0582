"""Runs the programs of docs/tutorial-library.md as a user does.

The library is installed into a new folder, in place of the page's ~/aig. Each program of the page
is compiled and run there by the page's own commands, and has to print what the page says; so are
those that unroll a circuit, by the commands of the first ones. Nothing but what the page exports
says where the library lies.
"""
from __future__ import annotations

import os
import pathlib
import re
import sys
from collections.abc import Iterator
from typing import NamedTuple

import harness
import pytest
from harness import TOP, Checks

PAGE = TOP / "docs" / "tutorial-library.md"
# How many seconds the installation has, by which the library may be proved anew.
INSTALLING = 3600
BLOCK = re.compile(r"^```(\w+)\n(.*?)^```$", re.MULTILINE | re.DOTALL)
MANIFEST = """[package]
name = "circuit"
version = "0.1.0"
edition = "2021"

[dependencies]
aig = { path = "CRATE" }
"""


class Program(NamedTuple):
    """A program of the page in each of two parts: its language, the file, and what is run at the
    end."""

    language: str
    path: str
    words: tuple[str, ...] = ()


PROGRAMS = [
    pytest.param(Program("c", "circuit.c", ("./circuit",)), marks=pytest.mark.pkgconfig),
    Program("python", "circuit.py", (sys.executable, "circuit.py")),
    pytest.param(
        Program("cpp", "circuit.cpp", ("./circuit",)),
        marks=[pytest.mark.cpp, pytest.mark.pkgconfig],
    ),
    pytest.param(Program("rust", "src/main.rs"), marks=pytest.mark.cargo),
]


class Page:
    """The blocks of the page, by their kinds, and the folder in place of that of its commands."""

    def __init__(self, folder: pathlib.Path) -> None:
        self.folder, self.prefix = folder, folder / "prefix"
        text = PAGE.read_text(encoding="utf-8").replace("~/aig", str(self.prefix))
        self.blocks: list[tuple[str, str]] = BLOCK.findall(text)

    def block(self, kind: str, part: int = 0) -> str:
        """Returns the block of a kind in a part of the page."""
        return [text for name, text in self.blocks if name == kind][part]

    def command(self, kind: str) -> str:
        """Returns the commands that stand behind a program, if any do."""
        kinds = [name for name, _ in self.blocks]
        after = self.blocks[kinds.index(kind) + 1:][:1]
        return after[0][1] if after and after[0][0] == "sh" else ""

    def environment(self) -> dict[str, str]:
        """Returns the variables that the page exports, with no others about libraries."""
        hidden = ("LIBAIG", "LD_LIBRARY_PATH", "AIG_LIB")
        known = {name: value for name, value in os.environ.items() if name not in hidden}
        exported = re.search(r"^export (.*)$", self.block("sh"), re.MULTILINE)
        words = exported[1].split() if exported else []
        return {**known, "CARGO_NET_OFFLINE": "true", **dict(word.split("=") for word in words)}


@pytest.fixture(scope="module")
def page() -> Iterator[Page]:
    """The page, and a folder into which the library is installed."""
    with harness.new_folder() as folder:
        made = Page(folder)
        harness.output([sys.executable, "-m", "venv", "--without-pip", str(made.prefix)])
        installed = harness.run([TOP / "install", made.prefix], timeout=INSTALLING)
        assert installed[:2] == (0, b"")
        yield made


@pytest.mark.cpp
@pytest.mark.pkgconfig
def test_solver(checks: Checks, page: Page) -> None:
    """The commands of the page's example with a solver print what the page says."""
    place = page.folder / "solver"
    place.mkdir()
    (place / "examples").symlink_to(TOP / "examples")
    texts = [text for _, text in page.blocks]
    at = next(at for at, text in enumerate(texts) if "-lcadical" in text)
    given = harness.run(["sh", "-ec", texts[at]], cwd=place, env=page.environment())
    checks.wants("the example with a solver", (1, texts[at + 1].encode(), b""), given)


def run(checks: Checks, page: Page, program: Program, part: int) -> None:
    """Compiles and runs a program of a part, and compares what it prints."""
    place = page.folder / f"{program.language}{part}"
    (place / program.path).parent.mkdir(parents=True)
    (place / program.path).write_text(page.block(program.language, part), encoding="utf-8")
    how = {"cwd": place, "env": page.environment()}
    command = page.command(program.language)
    if program.language == "rust":
        crate = str(TOP / "lib" / "rust")
        (place / "Cargo.toml").write_text(MANIFEST.replace("CRATE", crate), encoding="utf-8")
    wanted = 0, page.block("text", part).encode(), b""
    if program.language == "python":
        # The Python of the folder, which is an environment, needs no variable.
        words = [str(page.prefix / "bin" / "python"), "-E", program.path]
        checks.wants("the program in an environment", wanted, harness.run(words, cwd=place))
    given = harness.run(["sh", "-ec", command], **how) if command else None
    if given and program.words:
        checks.wants(command, (0, b"", b""), given)
    if program.words and not (given and given[0]):
        given = harness.run(program.words, **how)
    checks.wants(f"the program in {program.language}", wanted, given)


@pytest.mark.parametrize("part", [0, 1])
@pytest.mark.parametrize("program", PROGRAMS)
def test_program(checks: Checks, page: Page, program: Program, part: int) -> None:
    """A program of the page prints what the page says."""
    run(checks, page, program, part)
