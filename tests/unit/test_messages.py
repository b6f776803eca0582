"""The messages of aigprove: each call names one, with its fields, and each is named by one."""
from __future__ import annotations

import ast
import string
from collections.abc import Iterator

import pytest
from harness import TOP, Checks

from aigprove.data import message, messages

# The calls whose first argument is the name of a message.
NAMING = {"message", "Fault.of", "Missing.of", "TranslationTimeout.of"}
MODULES = sorted((TOP / "lib" / "aigprove").rglob("*.py"))


def fields_of(text: str) -> set[str]:
    """Returns the fields of a message's text."""
    return {name for _, name, _, _ in string.Formatter().parse(text) if name is not None}


def calls() -> Iterator[tuple[str, str, set[str]]]:
    """Yields each call with a literal name: its place, the name, and the fields that it gives."""
    for path in MODULES:
        for node in ast.walk(ast.parse(path.read_text())):
            if isinstance(node, ast.Call) and ast.unparse(node.func) in NAMING:
                first = node.args[0]
                if isinstance(first, ast.Constant):
                    given = {it.arg or "" for it in node.keywords}
                    yield f"{path.name}:{node.lineno}", first.value, given


def test_calls(checks: Checks) -> None:
    """Each call has exactly the fields of the message that it names."""
    assert len(list(calls())) > 100
    for place, name, given in calls():
        wanted = fields_of(messages()[name].text) if name in messages() else None
        checks.wants(f"{place}: {name}", wanted, given)


def test_uses(checks: Checks) -> None:
    """Each message is named in a module."""
    named = {
        node.value
        for path in MODULES
        for node in ast.walk(ast.parse(path.read_text()))
        if isinstance(node, ast.Constant) and isinstance(node.value, str)
    }
    checks.wants("messages that no module names", set(), messages().keys() - named)


def test_filled_in() -> None:
    """Fields are filled in, and braces in their values stay."""
    assert message("several_drivers", top="t", net="{q}") == "t: {q} has several drivers"
    with pytest.raises(KeyError):
        message("several_drivers", top="t")
