"""Runs examples/waves.py on small files and witnesses.

A row of waves/rows.tsv is the words that the script is given in that folder, and what is printed:
the text of a file of the folder, with status 0, or a line to standard error, with status 1. The
texts were worked by hand. Each dump is also written to a file, and wrong words are tried.
"""
from __future__ import annotations

import pathlib
import sys
from collections.abc import Sequence

import harness
import pytest
from harness import TESTS, TOP
from tables import Row, by_row

FOLDER = TESTS / "waves"
WRONG_WORDS = [
    "", "named.aag", "named.aag named.txt out more", "named.aag named.txt --number 0",
    "named.aag named.txt --other",
]


def run(words: Sequence[pathlib.Path | str]) -> tuple[int | None, bytes, bytes]:
    """The status, standard output and standard error of the script."""
    return harness.run([sys.executable, TOP / "examples" / "waves.py", *words], cwd=FOLDER)


def deep(count: int) -> tuple[str, str]:
    """A file whose input has a name of so many scopes, and its dump, whose scopes are written by
    hand."""
    scopes = ["$scope module a $end\n" * count, "$upscope $end\n" * count]
    head = "$comment a time unit is a step $end\n$timescale 1 s $end\n$scope module inputs $end\n"
    rest = (
        '$upscope $end\n$scope module bads $end\n$var wire 1 " b0 $end\n$upscope'
        " $end\n$enddefinitions $end\n"
    )
    values = '#0\n$dumpvars\n1!\n1"\n$end\n#1\n'
    file = f"aag 1 1 0 0 0 1\n2\n2\ni0 {'a.' * count}d\n"
    return file, head + scopes[0] + "$var wire 1 ! d $end\n" + scopes[1] + rest + values


def deep_scopes() -> tuple[tuple[int, bytes, bytes], tuple[int | None, bytes, bytes]]:
    """What is printed for a name of 5,000 scopes, and what is wanted."""
    file, dump = deep(5000)
    with harness.new_folder() as folder:
        harness.write_files(folder, {"file": file.encode(), "witness": b"1\nb0\n\n1\n.\n"})
        return (0, dump.encode(), b""), run([folder / "file", folder / "witness"])


@by_row("waves/rows.tsv")
def test_row(folder: pathlib.Path, checks: harness.Checks, row: Row) -> None:
    """The dump of a row is printed, or written into a file; or a line says why there is none."""
    words, printed = row.cells[:2]
    if printed.startswith("waves: "):
        checks.wants(words, (1, b"", printed.encode() + b"\n"), run(words.split()))
        return
    wanted = (FOLDER / printed).read_bytes()
    checks.wants(words, (0, wanted, b""), run(words.split()))
    out = folder / "out.vcd"
    checks.wants(
        f"{words} OUT", ((0, b"", b""), wanted), (run([*words.split(), out]), out.read_bytes())
    )


def test_a_name_of_5000_scopes() -> None:
    wanted, given = deep_scopes()
    assert given == wanted


@pytest.mark.parametrize("words", WRONG_WORDS)
def test_wrong_words(words: str) -> None:
    status, out, fault = run(words.split())
    assert (status, out) == (2, b"") and fault.startswith(b"usage: waves.py ")


def test_a_full_device() -> None:
    assert run(["named.aag", "named.txt", "/dev/full"])[:2] == (1, b"")
