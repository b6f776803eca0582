"""Holds lib/rust against the public surface of the Rust crate aig.

tests/clients/surface.tsv lists each public item of that crate on circuits, with the names of its
arguments in their order; an item that isn't the same here has a third cell, and has to stand in
docs/PORTING.md. tests/support/surface.py compares it with that crate's sources, where these are.
tests/clients/drop_in.rs calls each item; it is compiled and run.
"""
from __future__ import annotations

import pathlib
import re

import harness
import pytest
import surface
from harness import TESTS, TOP, Checks
from languages import rust_program

CLIENTS = TESTS / "clients"


def test_surface(checks: Checks) -> None:
    """Compares the items of the crate with the table, and what differs with the page."""
    found = surface.here()
    page = (TOP / "docs" / "PORTING.md").read_text(encoding="utf-8")
    caller = (CLIENTS / "drop_in.rs").read_text(encoding="utf-8")
    for name, (given, other) in surface.rows().items():
        member = re.split(r"\.|::|: | ", name)[-1]
        if other:
            checks.check(f"`{member}`" in page, f"{name} isn't the same, and not on the page")
        if other in ("", "read only"):
            item = found.get(name)
            checks.check(item and item.arguments == given, f"{name} isn't in the crate")
        if ": " not in name:
            checks.check(re.search(rf"\b{member}\b", caller), f"{name} isn't called")


@pytest.mark.rust
def test_caller(library: pathlib.Path) -> None:
    """A caller of each item compiles and runs."""
    program = rust_program(library, CLIENTS / "drop_in.rs")
    assert harness.run([program]) == (0, b"each item was called\n", b"")
