"""Commands of all programs on small files, as tests refuse their memory and limit their stack."""
from __future__ import annotations

import pathlib
from collections.abc import Iterator

import harness

TABLES = harness.TESTS / "memory"
FILES = harness.files(TABLES / "files.tsv")
FORMS = ["whole.aag", "whole.aig"]


def both_forms(tool: pathlib.Path, folder: pathlib.Path) -> dict[str, bytes]:
    """The files that commands read, the first in each form."""
    harness.write_files(folder, FILES)
    harness.run([tool, "binary", *FORMS], cwd=folder)
    return FILES | {FORMS[1]: (folder / FORMS[1]).read_bytes()}


def commands(program: str) -> Iterator[list[str]]:
    """The words of the commands of a program."""
    for name, words in harness.rows(TABLES / "commands.tsv"):
        for form, other in [FORMS, FORMS[::-1]] if "FORM" in words else [FORMS]:
            if name == program:
                yield words.replace("FORM", form).replace("OTHER", other).split()


def cases(program: str) -> Iterator[tuple[list[str], dict[str, bytes]]]:
    """The commands of a program, each with the files that it finds beside those that all read: with
    no old OUT, and with one."""
    for words in commands(program):
        yield words, {}
        if words[-1] == "out":
            yield words, {"out": b"old"}
