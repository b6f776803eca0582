"""Versions, what the library exports, and the prebuilt programs of a release.

The trees of crates are compared with those that git makes."""
from __future__ import annotations

import argparse
import json
import os
import pathlib
import re
import shutil
import subprocess

import archive
import harness
import pytest
from aigprove import VERSION, release
from dist import elf, exports, layout, licences, prebuilt
from dist.files import File, sum_of
from harness import TOP, Checks

# A machine that is bad at step 1, and a run that shows this.
TOGGLE, RUN = b"aag 1 0 1 0 0 1\n2 3\n2\n", b"1\nb0\n0\n\n\n.\n"
REACHED = b"a bad state at step 1: b0\nstart: l0=0\nstep 0:\nstep 1:\n"
KIT, OTHER = "a-kit logic 0", "another-kit logic 0"


def text(path: str) -> str:
    return (TOP / path).read_text(encoding="utf-8")


def test_version(checks: Checks) -> None:
    """All that tells a version tells the one of aigprove, and the soname has its first number."""
    for path, pattern in {
        "crates/aig_check_commands/src/acting.rt": r'VERSION: &str = "aigcheck (.*)";',
        "crates/aig_edit_commands/src/acting.rt": r'VERSION: &str = "aigedit (.*)";',
        "lib/rust/Cargo.toml": r'(?m)^version = "(.*)"',
        "CHANGELOG.md": r"(?m)^## (.*)",
    }.items():
        found = re.search(pattern, text(path))
        checks.check(found and found[1].split()[0] == VERSION, f"{path} has another version")
    checks.wants("the soname", f"libaig.so.{VERSION.split('.')[0]}", archive.SONAME)
    checks.wants("the soname of packages", archive.SONAME, layout.SONAME)


def test_exports(checks: Checks) -> None:
    """What the last release exported is exported as it was, unless the first number is another."""
    now, kept = dict(exports.exports()), exports.kept()
    calls = [name for crate in archive.HEADERS for name in archive.names(crate)]
    checks.check(set(calls) <= now.keys(), "a call of the headers is left out")
    released = re.search(r"# What release (\d+)\.", exports.KEPT.read_text(encoding="utf-8"))
    assert released
    for name, what in kept.items() if released[1] == VERSION.split(".")[0] else ():
        checks.wants(name, what, now.get(name))


def test_exported_names(checks: Checks, library: pathlib.Path) -> None:
    """The names that the shared library has for others are those of the calls."""
    printed = harness.output(["nm", "-D", "--defined-only", library / "libaig.so"])
    names = {line.split()[2] for line in printed.splitlines()}
    wanted = {name for name, what in exports.exports() if what.endswith(")")}
    checks.wants("the names", wanted, names)


def test_linked(checks: Checks, programs: dict[str, pathlib.Path], library: pathlib.Path) -> None:
    """Each crate of the kit that this repository names, or that a program or the library has, is in
    the list of what is linked in."""
    own = {name: line.partition(":")[2].split() for name, line in harness.crates().items()}
    named = {below for line in own.values() for below in line} - own.keys()
    files = [*programs.values(), library / "libaig.so"]
    printed = "".join(harness.output(["nm", path]) for path in files)
    linked = set(re.findall(r"(?m) [tT] <?([a-z_0-9]+)::", printed)) - own.keys()
    listed = {word for part in licences.parts() for word in [part.name, *part.about.split()]}
    listed = {word.rstrip(",") for word in listed}
    checks.check({"core", "std_alloc"} <= linked, "no crate of the kit is seen in the programs")
    stated = re.findall(r"core::(?:dec2flt|str::two_way|char::(?:tables|case_tables|extends))",
                        printed)
    checks.wants("parts of core whose texts state a licence", [], stated)
    checks.wants("crates that aren't listed", set(), (named | linked) - listed)


def test_systems(checks: Checks, programs: dict[str, pathlib.Path],
                 monkeypatch: pytest.MonkeyPatch) -> None:
    """Programs of a release are for a machine and a C library, which has what they ask for."""
    checks.wants("the C library", elf.glibc(programs.values()), release.GLIBC)
    needs = "; the programs in prebuilt/ need Linux on x86-64 with glibc 2.34 or later, and this is"
    for machine, version, wanted in [
        ("x86_64", "glibc 2.34", ""), ("x86_64", "glibc 2.100", ""), ("x86_64", "glibc 3.0", ""),
        ("x86_64", "glibc 2.9", f"{needs} x86_64 with glibc 2.9"),
        ("aarch64", "glibc 2.41", f"{needs} aarch64 with glibc 2.41"),
        ("x86_64", None, f"{needs} x86_64 with another C library"),
    ]:
        monkeypatch.setattr(os, "uname", lambda: argparse.Namespace(machine=machine))
        monkeypatch.setattr(os, "confstr", lambda _: version)
        checks.wants((machine, version), wanted, release.unfit())
    monkeypatch.setattr(os, "confstr_names", {})
    checks.check("another C library" in release.unfit(), "a C library without a version")


def test_tree(checks: Checks, folder: pathlib.Path) -> None:
    """A folder has the sum that git has for it, without what is built there."""
    crates = folder / "crates"
    for path, data in {"a": "", "a.b": "1", "a-b/c": "2", "ab/c": "3", "b/é/x": "4\n",
                       "one/src/lib.rt": "x" * 70000}.items():
        file = crates / path
        file.parent.mkdir(parents=True, exist_ok=True)
        file.write_text(data, encoding="utf-8")
    (crates / "a.b").chmod(0o755)
    (crates / "link").symlink_to("a/b")
    (crates / "empty" / "folder").mkdir(parents=True)
    git = ["git", "-C", str(folder)]
    subprocess.run([*git, "init", "--quiet"], check=True)
    subprocess.run([*git, "add", "--all"], check=True)
    whole = harness.output([*git, "write-tree"]).strip()
    wanted = harness.output([*git, "rev-parse", f"{whole}:crates"])
    for left in ["one/out/one", "one/__pycache__/x.pyc"]:
        (crates / left).parent.mkdir()
        (crates / left).write_text("built")
    checks.wants("the tree", wanted.strip(), release.tree_of(str(crates)))


# ---- a clone with prebuilt programs

class Clone:
    """A folder with aigprove, a crate, and the programs of a release of this or another tree."""

    def __init__(self, folder: pathlib.Path, programs: dict[str, pathlib.Path]) -> None:
        self.folder, self.programs = folder, programs
        for path in ["bin", "lib/aigprove"]:
            shutil.copytree(TOP / path, folder / path, ignore=shutil.ignore_patterns("__pycache__"))
        self.source = folder / "crates" / "one" / "src" / "lib.rt"
        self.source.parent.mkdir(parents=True)
        self.source.write_text("fn one() {}\n")
        (folder / "t.aag").write_bytes(TOGGLE)
        (folder / "run").write_bytes(RUN)
        self.tree = release.tree_of.__wrapped__(str(folder / "crates"))

    def release(self) -> None:
        """Puts the programs there as a release of the crates."""
        made = self.folder / "prebuilt"
        made.mkdir()
        for name, path in self.programs.items():
            shutil.copy(path, made)
        (made / "release.json").write_text(json.dumps(
            {"version": "7.8.9", "tree": self.tree, "kit": KIT, "linkers": "", "sums": {}}))

    def answer(self, *words: str) -> tuple[int | None, bytes, bytes]:
        """Returns what aigprove says of the run, with no other program in PATH."""
        line = [self.folder / "bin" / "aigprove", *(words or ["--run", "run", "t.aag"])]
        environment = {**os.environ, "PATH": "/usr/bin:/bin"}
        return harness.run(line, cwd=self.folder, env=environment)

    def told(self, *words: str) -> str:
        """Returns which programs aigprove says it runs."""
        said = self.answer(*words, "--version")[1].decode()
        return said.removeprefix(f"aigprove {VERSION}\nprograms: ").rstrip("\n")


# What is said if nothing is built.
ABSENT = b"aigprove: aigtool was not found; " \
    b"./build builds aigtool, and so does `rt run` in crates/aigtool"
OLDER = b"; --prebuilt runs the programs of release 7.8.9, which were built from other crates"


def test_prebuilt_programs(checks: Checks, folder: pathlib.Path,
                           programs: dict[str, pathlib.Path]) -> None:
    """aigprove runs what was built, or else a release of the same crates; another by an option."""
    clone = Clone(folder, programs)
    checks.wants("nothing is built", (1, b"", ABSENT + b"\n"), clone.answer())
    clone.release()
    checks.wants("prebuilt", (10, REACHED, b""), clone.answer())
    released = f"release 7.8.9, crates {clone.tree}, {KIT}"
    checks.wants("the programs", released, clone.told())
    clone.source.write_text("fn other() {}\n")
    checks.wants("of other crates", (1, b"", ABSENT + OLDER + b"\n"), clone.answer())
    checks.check(clone.told().startswith("not built, crates "), "nothing is built")
    asked = clone.answer("--prebuilt", "--run", "run", "t.aag")
    checks.wants("of other crates, by the option", (10, REACHED, b""), asked)
    checks.wants("the programs of the option", released, clone.told("--prebuilt"))
    for name, path in programs.items():
        built = folder / "crates" / name / "out" / name
        built.parent.mkdir(parents=True)
        shutil.copy(path, built)
    shutil.rmtree(folder / "prebuilt")
    checks.wants("built", (10, REACHED, b""), clone.answer())
    checks.check(clone.told().startswith("built here, crates "), "built here")


def test_prebuilt_refused(checks: Checks, folder: pathlib.Path, programs: dict[str, pathlib.Path],
                          monkeypatch: pytest.MonkeyPatch) -> None:
    """Programs of a release that can't be run aren't, and it is said why."""
    clone, name = Clone(folder, programs), "aigtool"
    clone.release()
    (folder / "prebuilt" / name).chmod(0o644)
    refused = b"; prebuilt/aigtool isn't there, or may not be executed\n"
    checks.wants("no program", (1, b"", ABSENT + refused), clone.answer())
    asked = clone.answer("--prebuilt", "t.aag")
    checks.wants("no program, by the option", (1, b"", ABSENT + refused), asked)
    (folder / "prebuilt" / name).chmod(0o755)
    places = list(release.places(str(folder), name, True))
    checks.wants("the place", [str(folder / "prebuilt" / name)], places)
    monkeypatch.setattr(release, "unfit", lambda: "; another system is needed")
    for is_prebuilt in [True, False]:
        checks.wants("the hint", "; another system is needed",
                     release.hint(str(folder), name, is_prebuilt))
        checks.check(places[0] not in release.places(str(folder), name, is_prebuilt), "not run")


def test_compared(checks: Checks, folder: pathlib.Path, monkeypatch: pytest.MonkeyPatch) -> None:
    """A release in the repository has to be what its crates and its kit make."""
    now = release.Release("1.0.0", "tree", KIT)
    monkeypatch.setattr(prebuilt, "FOLDER", folder)
    monkeypatch.setattr(prebuilt, "linkers", lambda: "ld 1")
    both = ["aigcheck", layout.SONAME]
    monkeypatch.setattr(prebuilt, "built", lambda: dict.fromkeys(both, File(b"1")))
    checks.wants("none", (True, "there is no prebuilt release"), prebuilt.compared(now))
    one, two = sum_of(b"1"), sum_of(b"2")
    cases: list[tuple[dict[str, object], bytes, tuple[bool, str]]] = [
        ({}, b"1", (True, "prebuilt is what was built")),
        ({"kit": OTHER}, b"1", (True, "prebuilt is of release 0.9.0")),
        ({"tree": "other"}, b"2",
         (False, "prebuilt is of release 0.9.0, but aigcheck is another file")),
        ({"sums": {"aigcheck": two, layout.SONAME: one}}, b"2",
         (False, "prebuilt is of these crates and this kit, which make another aigcheck")),
        ({"linkers": "ld 2"}, b"1",
         (True, f"prebuilt is what was built, but for {layout.SONAME}, which other tools linked")),
    ]
    for known, data, wanted in cases:
        sums = dict.fromkeys(both, one)
        written = {"version": "0.9.0", "tree": "tree", "kit": KIT, "linkers": "ld 1", "sums": sums}
        (folder / "release.json").write_text(json.dumps({**written, **known}))
        (folder / "aigcheck").write_bytes(data)
        (folder / layout.SONAME).write_bytes(b"1")
        checks.wants(known, wanted, prebuilt.compared(now))


def test_kept_release(checks: Checks) -> None:
    """The release in the repository, if there is one, is whole, and its programs can be run."""
    known, folder = release.read(str(prebuilt.FOLDER)), prebuilt.FOLDER
    sums, found = known.sums if known else {}, [it for it in folder.rglob("*") if it.is_file()]
    names = {str(it.relative_to(folder)) for it in found} - {release.FILE}
    checks.wants("the files", set(sums), names)
    checks.wants("files that were changed", [], prebuilt.changed(known, folder) if known else [])
    for name in layout.PROGRAMS if known else ():
        checks.check(os.access(folder / name, os.X_OK), f"{name} can't be run")


def test_first_answers(checks: Checks, aigcheck: pathlib.Path) -> None:
    """What lies in examples/ shows that credits.v fails at step 3, and that it doesn't with its
    guard; the proof of the one is none of the other."""
    for words, wanted in [
        ("run credits.aag credits.witness", (0, b"b0 at step 3\n")),
        ("safe credits_guarded.aag to 0 /dev/null credits_guarded.drat",
         (0, b"no bad state at any step\n")),
        ("safe credits.aag to 0 /dev/null credits_guarded.drat", (1, b"")),
        ("run credits_guarded.aag credits.witness", (1, b"")),
    ]:
        found = harness.run([aigcheck, *words.split()], cwd=TOP / "examples")
        checks.wants(words, wanted, found[:2])
