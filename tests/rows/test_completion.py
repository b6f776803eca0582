"""Completes words of the programs in bash, fish and zsh, by the files that packages have.

What a program takes is read from its usage line, as the tests know it."""
from __future__ import annotations

import os
import pathlib
import pty
import select
import shlex
import time
from collections.abc import Iterator

import harness
import pytest
from dist import completion
from dist.completion import Words
from harness import Checks

# A line up to the word that is completed, what that word may be, and files of the folder.
ROWS = [
    ("aigtool ", ["binary", "cnf", "query", "strash", "text"]),
    ("aigtool cnf f.aag 3 r", ["raw"]),
    ("aigedit unr", ["unroll"]),
    ("aigedit miter-", ["miter-alike-by-name", "miter-alike-by-order"]),
    ("aigedit --constraints ", ["compared", "first"]),
    ("aigcheck ref", ["refuted"]),
    ("aigcheck --limit 9 --property 1 inductive f.aag 0 p.lrat ", ["distinct", "f.aag", "raw"]),
    ("aigcheck safe f.aag e", ["each"]),
    ("aigcheck equal-alike-by-name f.aag f.aag b", ["by"]),
    ("aigcheck --en", ["--endless"]),
    ("aigprove --write", ["--write-certificate"]),
    ("aigprove f.aag --starts by", ["by-name", "by-order"]),
]
# Of these one word is left, to which the line of a terminal is completed.
SINGLE = [(line, words[0]) for line, words in ROWS if len(words) == 1]


def programs() -> Iterator[Words]:
    """Yields what each program takes."""
    for name in ["aigtool", "aigedit", "aigcheck"]:
        yield completion.of_usage(name, harness.USAGE[name].decode())
    yield completion.of_parser()


@pytest.fixture
def files(folder: pathlib.Path) -> pathlib.Path:
    """A folder with a file, beside folders with the files of each shell, which have their names."""
    place = folder / "here"
    place.mkdir()
    (place / "f.aag").write_bytes(b"")
    for words in programs():
        for shell, text in completion.texts(words).items():
            path = folder / shell / os.path.basename(completion.PLACES[shell].format(words.name))
            path.parent.mkdir(exist_ok=True)
            path.write_text(text, encoding="utf-8")
    return place


BASH = """source ../bash/$1
COMP_WORDS=("$@") COMP_CWORD=$(($# - 1))
_$1
printf '%s\\n' "${COMPREPLY[@]}"
"""


def test_bash(checks: Checks, files: pathlib.Path) -> None:
    """bash gets these words."""
    for line, wanted in ROWS:
        words = shlex.split(line) + [""] * line.endswith(" ")
        status, printed, said = harness.run(["bash", "-c", BASH, "bash", *words], cwd=files)
        checks.wants(line, (0, wanted, b""), (status, sorted(printed.decode().split()), said))


@pytest.mark.fish
def test_fish(checks: Checks, files: pathlib.Path) -> None:
    """fish gets these words, of which some are described."""
    script = "source ../fish/$argv[1].fish; complete -C $argv[2]"
    environment = {**os.environ, "HOME": str(files)}
    for line, wanted in ROWS:
        words = ["fish", "-c", script, line.split()[0], line]
        status, printed, _ = harness.run(words, cwd=files, env=environment)
        found = {it.partition("\t")[0] for it in printed.decode().splitlines()}
        checks.wants(line, (0, set(wanted)), (status, found & {*wanted, "f.aag", "raw", "text"}))


class Terminal:
    """A shell in a terminal."""

    def __init__(self, words: list[str], folder: pathlib.Path) -> None:
        self.process, self.file = pty.fork()
        if self.process == 0:
            os.chdir(folder)
            os.execvpe(words[0], words, {**os.environ, "HOME": str(folder), "TERM": "dumb"})

    def until(self, wanted: str, seconds: float = 20) -> str:
        """Returns what the shell prints until these words come, or until the time is over."""
        said, end = "", time.monotonic() + seconds
        while wanted not in said and time.monotonic() < end:
            if select.select([self.file], [], [], 0.1)[0]:
                said += os.read(self.file, 4096).decode(errors="replace")
        return said

    def type(self, text: str) -> None:
        os.write(self.file, text.encode())

    def close(self) -> None:
        os.close(self.file)
        os.waitpid(self.process, 0)


@pytest.mark.zsh
def test_zsh(checks: Checks, files: pathlib.Path) -> None:
    """zsh completes a line to the only word that is left."""
    shell = Terminal(["zsh", "-f", "-i"], files)
    shell.type("PROMPT=; fpath=($PWD/../zsh $fpath); autoload -Uz compinit; compinit -u -D\n")
    shell.type("for it in aigtool aigedit aigcheck aigprove; do\n")
    shell.type("eval \"$it() { print -r -- 'got:'\\\"\\$*\\\"':' }\"; done; print rea''dy\n")
    checks.check("ready" in shell.until("ready"), "zsh is ready")
    for line, word in SINGLE:
        shell.type(f"{line}\t\n")
        given = shell.until("got:").partition("got:")[2] + shell.until(":", 2)
        wanted = " ".join([*line.split()[1:-1], word])
        checks.wants(line, wanted, given.partition(":")[0].strip())
    shell.close()
