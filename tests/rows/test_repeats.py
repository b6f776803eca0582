"""Builds programs in two folders, and all packages twice: the bytes have to be the same."""
from __future__ import annotations

import importlib.machinery
import importlib.util
import os
import pathlib
import shutil
from types import ModuleType
from typing import Any

import archive
import harness
import kit
import pytest
from harness import TOP, Checks

# A program that is proved fast.
PROGRAM = """#![tactic(auto)]

use std::io;

fn main(rt: HostRuntime) -> io::Result<()> {
    for line in rt.lines(rt.alloc()) {
        println!(rt; "{}", line?.len())?;
    }
    Ok(())
}
"""


def script(name: str) -> ModuleType:
    """Returns a script of the repository's top as a module."""
    loader = importlib.machinery.SourceFileLoader(name, str(TOP / name))
    spec = importlib.util.spec_from_loader(name, loader)
    assert spec
    module = importlib.util.module_from_spec(spec)
    loader.exec_module(module)
    return module


def linked(top: pathlib.Path, name: str) -> bytes:
    """Returns a program, proved and built by ./build over the libraries in a repository's folder.
    """
    folder = top / "crates" / name
    (folder / "out").mkdir(exist_ok=True)
    crate = kit.crate(folder, top)
    with open(top / "said", "w", encoding="utf-8") as crate.out:
        assert script("build").link(crate), (top / "said").read_text(encoding="utf-8")
    return (folder / "out" / name).read_bytes()


def built(top: pathlib.Path) -> bytes:
    """Returns the small program, built in a new repository at this folder."""
    (top / "crates" / "program" / "src").mkdir(parents=True)
    (top / "crates" / "program" / "src" / "main.rt").write_text(PROGRAM, encoding="utf-8")
    (top / "crates.txt").write_text("program:\n", encoding="utf-8")
    return linked(top, "program")


def link_or_copy(one: str, other: str) -> None:
    """Gives a file a second name, or copies it to where it can't have one."""
    try:
        os.link(one, other)
    except OSError:
        shutil.copy2(one, other)


@pytest.fixture
def elsewhere(folder: pathlib.Path) -> pathlib.Path:
    """A repository at another path: the crates here, with the libraries that were proved."""
    made = folder / "another folder with a longer name"

    def left(place: str, names: list[str]) -> list[str]:
        return [it for it in names if it != "rlib"] if place.endswith("/out") else []

    shutil.copytree(TOP / "crates", made / "crates", ignore=left, copy_function=link_or_copy)
    for name in ["crates.txt", "HANDLES"]:
        shutil.copy(TOP / name, made)
    return made


@pytest.mark.prover
def test_program(checks: Checks, folder: pathlib.Path) -> None:
    """A program has the same bytes wherever and whenever it is built, and no path in it."""
    places = [folder / "a", folder / "another/folder with a longer name"]
    one, other = map(built, places)
    checks.check(one == other, "the programs of both folders differ")
    checks.check(not any(str(place).encode() in one for place in places), "a path stands in it")


@pytest.mark.prover
def test_build_starts(checks: Checks) -> None:
    """./build finds what it imports."""
    status, printed, said = harness.run([TOP / "build", "--help"])
    checks.wants("its help", (0, True, b""), (status, b"--jobs" in printed, said))


def test_no_path(checks: Checks) -> None:
    """No path stands in the libraries of which programs are built, so theirs doesn't matter."""
    for library in TOP.glob("crates/*/out/rlib/*.rlib"):
        files = [it for it in library.rglob("*") if it.is_file()]
        found = [it for it in files if os.fsencode(TOP) in it.read_bytes()]
        checks.wants(library.name, [], found)
    assert checks.passed, "nothing is proved"


@pytest.mark.prover
@pytest.mark.parametrize("name", ["aigtool", "aigedit", "aigcheck"])
def test_whole_program(checks: Checks, elsewhere: pathlib.Path, name: str,
                       programs: dict[str, pathlib.Path]) -> None:
    """Each program has the same bytes if it is built anew in a folder at another path."""
    checks.check(linked(elsewhere, name) == programs[name].read_bytes(), f"{name} differs")


@pytest.mark.prover
def test_library(checks: Checks, elsewhere: pathlib.Path, library: pathlib.Path) -> None:
    """Both libraries have the same bytes if they are built anew from crates at another path."""
    made, known = elsewhere / "made", dict[str, Any]()
    made.mkdir()
    crates = [kit.crate(elsewhere / "crates" / name, elsewhere, known) for name in archive.HEADERS]
    with open(elsewhere / "said", "w", encoding="utf-8") as said:
        for crate in crates:
            crate.out = said
        archive.build(crates, made)
    for name in archive.BUILT:
        checks.check((made / name).read_bytes() == (library / name).read_bytes(), f"{name} differs")


@pytest.mark.debian
def test_packages(checks: Checks, folder: pathlib.Path, library: pathlib.Path) -> None:
    """All packages have the same bytes when they are made twice, in other zones and by other masks.
    """
    assert library
    made = []
    for number, zone in enumerate(["UTC", "Asia/Tokyo"]):
        out = folder / str(number)
        environment = {**os.environ, "TZ": zone, "SOURCE_DATE_EPOCH": "1600000000"}
        masked = f"umask 0{number}77; exec \"$@\""
        words = ["sh", "-c", masked, "sh", str(TOP / "dist"), str(out)]
        status, _, said = harness.run(words, cwd=folder, env=environment)
        assert status == 0, said.decode()
        made.append({it.name: it.read_bytes() for it in out.iterdir()})
    checks.wants("the names", sorted(made[0]), sorted(made[1]))
    for name, data in made[0].items():
        checks.check(data == made[1][name], f"{name} has other bytes")
    status, printed, said = harness.run(["sha256sum", "--check", "SHA256SUMS"], cwd=folder / "0")
    checks.wants("the sums", (0, len(made[0]) - 1, b""), (status, printed.count(b": OK\n"), said))
