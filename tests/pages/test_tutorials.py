"""Runs the commands of every page, and compares their output with the page.

The commands of a page are run from the first block to the last, in a new folder with the examples
and with links to the folders of the repository. aigprove and aigwaves are in the PATH, as if they
were installed. A block with a language and a name, such as `verilog NAME`, is a file. If the
repository has this file, at that path or in the examples, both have to be the same. Otherwise the
test writes the file. If a page runs `cat NAME` for a Verilog file that doesn't exist, the test
writes the file with the contents that the page shows. A page needs the tools that its commands
call.
"""
from __future__ import annotations

import os
import pathlib
import re
import shutil
import subprocess

import harness
import pytest
from harness import TOP, Checks
from shown import BLOCK, commands, is_as_shown

PROGRAMS = ["aigtool", "aigedit", "aigcheck"]
SHOWN = re.compile(r"^cat (\S+\.s?v)\n$")
# The markers of the tools that commands call.
MARKERS = {
    "cadical": ["cadical"],
    "berkeley-abc": ["abc"],
    "yosys": ["yosys"],
    "iverilog": ["iverilog"],
    "aigprove": ["cadical", "yosys"],
    "pdr": ["abc"],
    "pkg-config": ["pkgconfig"],
    "g++": ["cpp"],
    "cargo": ["cargo"],
}
PAGES = [
    path.relative_to(TOP)
    for path in [TOP / "README.md", *sorted((TOP / "docs").rglob("*.md"))]
    if "```console" in path.read_text()
]


def tools_of(page: pathlib.Path) -> list[pytest.MarkDecorator]:
    """Returns the markers of the tools that the commands of a page call."""
    called = [
        command
        for kind, _, block in BLOCK.findall((TOP / page).read_text())
        if kind == "console"
        for command, _ in commands(block)
    ]
    words = set(re.findall(r"[\w+-]+", " ".join(called)))
    return [
        getattr(pytest.mark, name)
        for tool, names in MARKERS.items()
        if tool in words
        for name in names
    ]


class Reader:
    """A folder in which a reader follows a page, and the status of the last command."""

    def __init__(self, folder: pathlib.Path) -> None:
        self.folder, programs = folder / "work", folder / "bin"
        self.status: int | None = 0
        programs.mkdir()
        (programs / "aigwaves").symlink_to(TOP / "examples" / "waves.py")
        shutil.copytree(TOP / "examples", self.folder)
        for part in filter(pathlib.Path.is_dir, TOP.glob("[!.]*")):
            (self.folder / part.name).symlink_to(part)
        if not (self.folder / "prebuilt").exists():
            self.stand_in(self.folder / "prebuilt")
        folders = [*(TOP / "crates" / name / "out" for name in PROGRAMS), TOP / "bin", programs]
        path = os.pathsep.join([*map(str, folders), os.environ["PATH"]])
        self.environment = {**os.environ, "PATH": path, "LC_ALL": "C.UTF-8"}

    def stand_in(self, prebuilt: pathlib.Path) -> None:
        """Puts what was built in the place of the programs of a release, before there is one."""
        prebuilt.mkdir()
        for name in PROGRAMS:
            (prebuilt / name).symlink_to(TOP / "crates" / name / "out" / name)

    def printed(self, command: str) -> str:
        """Runs a command, and returns its output to both streams. In the command, `$?` is the
        status of the command before."""
        streams = {"stdin": subprocess.DEVNULL, "stderr": subprocess.STDOUT}
        words = ["sh", "-c", f"(exit {self.status}); {command}"]
        self.status, out, _ = harness.run(words, cwd=self.folder, env=self.environment, **streams)
        return out.decode()

    def write_shown(self, command: str, text: str) -> None:
        """Writes a design that the page prints with `cat`."""
        if (found := SHOWN.match(command)) and not (self.folder / found[1]).exists():
            (self.folder / found[1]).write_text(text)

    def take_file(self, name: str, text: str) -> bool:
        """Writes a file that the page contains. If the repository has this file, returns whether
        both are the same."""
        path = self.folder / name
        if path.exists():
            return path.read_text() == text
        path.parent.mkdir(parents=True, exist_ok=True)
        path.write_text(text)
        return True


@pytest.mark.parametrize(
    "page", [pytest.param(page, marks=tools_of(page), id=str(page)) for page in PAGES]
)
def test_page(checks: Checks, folder: pathlib.Path, page: pathlib.Path) -> None:
    """The commands of a page print the output that the page shows."""
    reader = Reader(folder)
    for kind, words, block in BLOCK.findall((TOP / page).read_text()):
        name = words.strip()
        if kind != "console":
            checks.check(
                not name or reader.take_file(name, block), f"{name} isn't what {page} shows"
            )
            continue
        for command, printed in commands(block):
            reader.write_shown(command, printed)
            given = reader.printed(command)
            checks.check(
                is_as_shown(printed, given),
                f"{command.strip()}\n  wanted {printed}\n  given  {given}",
            )
