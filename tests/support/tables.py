"""Tables of hand-worked rows: `*.tsv` files whose cells are separated by tabs.

A row of a table of answers is the words of a command, the bytes of the file GIVEN, what the command
prints, and what the row is about. Lines that begin with # say what the rows below them are about.
"""
from __future__ import annotations

import dataclasses
import pathlib
from collections.abc import Iterator, Sequence

import harness
import pytest
from harness import TESTS

# How the words of each table of answers are given to which program.
TABLES = {
    "answers/aigtool.tsv": "aigtool {}",
    "answers/edits.tsv": "aigedit {}",
    "answers/clauses.tsv": "aigcheck {}",
    "answers/proofs.tsv": "aigcheck {}",
    "answers/solutions.tsv": "aigcheck {}",
    "answers/certificates.tsv": "aigcheck {}",
    "answers/simulated.tsv": "aigcheck {}",
    "answers/bounded.tsv": "aigcheck {}",
    "answers/safe.tsv": "aigcheck {}",
    "answers/justice.tsv": "aigcheck {}",
    "answers/property.tsv": "aigcheck {}",
    "answers/possible.tsv": "aigcheck {}",
    "answers/equality.tsv": "aigcheck {}",
    "answers/words.tsv": "aigcheck {}",
    "witnesses/rows.tsv": "aigcheck run {} GIVEN",
    "witnesses/lassos.tsv": "aigcheck run {} GIVEN",
}
# The folder of most tables of answers, and of the files that they name.
FILES = TESTS / "answers"
# How many letters of a row its test's name has at most.
NAME = 100


@dataclasses.dataclass(frozen=True)
class Row:
    """A row of a table: where it stands, its cells, and the comment above it."""

    table: pathlib.Path
    line: int
    cells: Sequence[str]
    comment: str

    def cell(self, place: int) -> str:
        """Returns a cell, or nothing where the row has fewer."""
        return self.cells[place] if place < len(self.cells) else ""

    def name(self, command: int) -> str:
        """Returns the name of the row's test: the table, the line, the command in this cell, and
        what the row is about."""
        about = self.cell(3) if command == 0 else ""
        return f"{self.table.name}:{self.line}: {f'{self.cell(command)} {about}'.strip()[:NAME]}"

    @property
    def keywords(self) -> list[str]:
        """Further texts by which `-k` finds the row: the comment above it, and what is printed."""
        return [self.comment, self.cell(2)[:NAME]]


def rows_of(table: pathlib.Path) -> Iterator[Row]:
    """Returns the rows of a table, but for empty lines and comments."""
    comment = ""
    for number, line in enumerate(table.read_text(encoding="utf-8").splitlines(), 1):
        if line.startswith("#"):
            comment = line[1:].strip()
        elif line:
            yield Row(table, number, line.split("\t"), comment)


def by_row(*tables: str, command: int = 0) -> pytest.MarkDecorator:
    """Makes a test of each row of tables of the folder tests, whose command stands in this cell.

    The rows are read when pytest collects tests, so a new row needs no further word.
    """
    rows = [row for table in tables for row in rows_of(TESTS / table)]
    return pytest.mark.parametrize("row", rows, ids=[row.name(command) for row in rows])


def wanted_of(program: str, printed: bytes) -> tuple[int, bytes, bytes]:
    """Returns the status, standard output and standard error that a row of answers wants."""
    if printed == b"usage":
        return 2, b"", harness.USAGE[program]
    lines = printed.splitlines(keepends=True)
    begin = program.encode() + b": "
    ours = (place for place, line in enumerate(lines) if line.startswith(begin))
    said = b"".join(lines[next(ours, len(lines)):])
    out = printed.removesuffix(said)
    return int(not out and bool(said)), out, said
