"""Runs the steps of tests/scripts/*.steps on the program aig_script, and compares what it prints.

Each part of a file, from one title to the next, is a test. The top of support/scripts.py says how
the lines of such a file are read.
"""
from __future__ import annotations

import pathlib

import harness
import pytest
import scripts

FILES = sorted((harness.TESTS / "scripts").glob("*.steps"))
PARTS = [
    pytest.param(path.name, words, steps, id=f"{path.name}:{steps[0].number}: {title}")
    for path in FILES for title, words, steps in scripts.parts(path) if steps
]


@pytest.mark.parametrize("name, words, steps", PARTS)
def test_steps(
    aig_script: pathlib.Path,
    folder: pathlib.Path,
    checks: harness.Checks,
    name: str,
    words: list[str],
    steps: list[scripts.Step],
) -> None:
    """Each step prints what stands behind it."""
    steps = list(scripts.unrolled(words, steps))
    found, status, error = scripts.printed(steps, aig_script, folder)
    for (number, line, prints), got in zip(steps, found):
        checks.check(scripts.is_as_wanted(line, prints, got), f"{name}:{number}: {line}: {got}")
    assert (status, len(found)) == (0, len(steps)), f"{name}: {error}"
