"""Holds the lines of specs/ and the clauses of src/ to 100 columns, but for imports, lines with a
string, and a few. Of these, and of proofs/, it counts the lines that are longer, which may only
become fewer.
"""
from __future__ import annotations

import re

import promises
from harness import TOP, Checks

MOST = 100
# How many longer lines proofs/ have at most, and specs/ and clauses.
PROOFS, CLAUSES = 8350, 0
CLAUSE = re.compile(r"^\s*(?:requires|ensures)\b\*?\s*\w*\s*(?=\{)", re.MULTILINE)


def is_long(line: str) -> bool:
    return len(line) > MOST and not line.startswith(("use ", "pub use "))


def clause_lines(text: str) -> list[tuple[int, str]]:
    """The lines of the clauses of a file of code, by their numbers from 1."""
    found = set()
    for clause in CLAUSE.finditer(text):
        first, last = (
            text.count("\n", 0, at) + 1
            for at in (clause.start(), promises.end_of(text, clause.end()))
        )
        found |= set(range(first, last + 1))
    return [(number, line) for number, line in enumerate(text.split("\n"), 1) if number in found]


def test_widths(checks: Checks) -> None:
    """Lines are at most 100 columns wide, and fewer lines of proofs are wider than before."""
    crates, proofs, wrong = TOP / "crates", 0, []
    for path in promises.files_below(crates, ".antt", ".rt"):
        text, place = path.read_text(), path.relative_to(crates)
        part = place.parts[1]
        if part == "proofs":
            proofs += sum(map(is_long, text.split("\n")))
        elif part != "out":
            lines = enumerate(text.split("\n"), 1) if part == "specs" else clause_lines(text)
            wrong += [
                f"{place}:{number}: {len(line)} columns"
                for number, line in lines
                if is_long(line) and '"' not in line
            ]
    checks.check(len(wrong) <= CLAUSES, "\n".join(wrong))
    checks.check(
        proofs <= PROOFS,
        f"{proofs} lines of proofs/ are longer than {MOST} columns, of at most {PROOFS}",
    )
