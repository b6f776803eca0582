"""Holds what is promised, and where it is told, against the contracts.

tests/support/promises.py, theorems.py and lines.py say what has to stand where, and write the
tables: `promises.py --mark`, `theorems.py --write`.
"""
from __future__ import annotations

import harness
import lines
import promises
import theorems


def test_who_reads_definitions(checks: harness.Checks) -> None:
    """The first line of each file of specs/ says who reads it, and two crates pass on what promises
    rest on."""
    specs, code, found = promises.layers()
    for path, text, why in promises.wanted_texts(specs, code, found):
        checks.check(path.read_text() == text, f"{path.relative_to(harness.TOP)}: {why}")


def test_rows_of_promises(checks: harness.Checks) -> None:
    """Each call and law stands in a row of docs/PROMISES.md, with its clauses."""
    needed, wrong = theorems.faults()
    assert not wrong, "\n".join(wrong)
    checks.passed += len(needed)


def test_printed_lines(checks: harness.Checks) -> None:
    """Each line that a program can print stands in tests/lines.tsv, with what carries it."""
    rows = lines.rows()
    wrong = list(lines.faults(rows, lines.sources()))
    assert not wrong, "\n".join(wrong)
    checks.passed += len(rows)
