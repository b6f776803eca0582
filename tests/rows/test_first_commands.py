"""Runs the README's commands as on a machine without toolchain: in a clone, where nothing is built.

The clone has the programs that were built here as those of a release, and no history. Commands
whose block says what it needs are run with these tools, and the others with Python alone."""
from __future__ import annotations

import os
import pathlib
import shlex
import shutil
import sys

import fresh_root
import harness
import pytest
from aigprove import VERSION, release
from aigprove.release import Release
from dist.files import File, Tree, write
from harness import TOP, Checks
from shown import BLOCK, commands, is_as_shown

# Runs each command in the clone, which nobody can write, and puts what it prints into a file.
ENTER = """mkdir clone
mount --bind given/clone clone
mount -o remount,bind,ro clone
cd clone
status=0
"""
RUN = "sh -c \"(exit $status); \"{} > ../given/{} 2>&1 && status=0 || status=$?\n"


def shown(needs: bool) -> list[tuple[str, str]]:
    """Returns the README's commands that need nothing or, if asked for, all, and what they
    print."""
    blocks = BLOCK.findall((TOP / "README.md").read_text(encoding="utf-8"))
    return [row for kind, words, block in blocks if kind == "console" and (needs or not words)
            for row in commands(block)]


@pytest.fixture
def clone(folder: pathlib.Path, programs: dict[str, pathlib.Path]) -> pathlib.Path:
    """A clone of what is here, with the programs of a release and nothing that is built."""
    made = folder / "clone"
    for part in ["bin", "crates", "examples", "lib"]:
        left = shutil.ignore_patterns(*release.LEFT)
        shutil.copytree(TOP / part, made / part, symlinks=True, ignore=left)
    known = Release(VERSION, release.tree_of(str(TOP / "crates")), "a kit")
    files = {name: File(path.read_bytes(), True) for name, path in programs.items()}
    tree: Tree = {**files, release.FILE: File(release.written(known))}
    write(tree, made / release.PREBUILT)
    return made


def test_python_alone(checks: Checks, folder: pathlib.Path, clone: pathlib.Path) -> None:
    """The commands in blocks that say nothing of what they need take Python alone."""
    (folder / "bin").mkdir()
    (folder / "bin" / "python3").symlink_to(os.path.realpath(sys.executable))
    environment = {"PATH": str(folder / "bin")}
    status: int | None = 0
    for command, wanted in shown(needs=False):
        words = ["/bin/sh", "-c", f"(exit {status}); {command}"]
        status, printed, said = harness.run(words, cwd=clone, env=environment)
        checks.wants(command, wanted, (printed + said).decode())
    assert checks.passed
    # From elsewhere, by a link.
    (folder / "link").symlink_to(clone / "bin" / "aigprove")
    words = [str(folder / "link"), "--version"]
    told = f"aigprove {VERSION}\nprograms: release {VERSION}, crates " \
        f"{release.tree_of(str(clone / 'crates'))}, a kit\n"
    checks.wants("the version", (0, told.encode(), b""),
                 harness.run(words, cwd="/", env=environment))


@pytest.mark.root
@pytest.mark.yosys
@pytest.mark.cadical
def test_fresh_root(checks: Checks, folder: pathlib.Path, clone: pathlib.Path) -> None:
    """All commands print what the README shows, in a clone that is only read."""
    if why := fresh_root.why_not():
        pytest.skip(why)
    rows = shown(needs=True)
    script = ENTER + "".join(RUN.format(shlex.quote(command), number)
                             for number, (command, _) in enumerate(rows))
    status, printed, said = fresh_root.enter(script + "cd\numount clone\n", folder)
    checks.wants("the script", (0, b"", b""), (status, printed, said))
    for number, (command, wanted) in enumerate(rows):
        given = (folder / str(number)).read_text(encoding="utf-8")
        checks.check(is_as_shown(wanted, given), f"{command}  wanted {wanted}\n  given  {given}")
    checks.wants("what is left", "", (folder / "left").read_text(encoding="utf-8"))
