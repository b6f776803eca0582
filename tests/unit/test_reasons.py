"""What the end of a run tells about why tests failed, of reports made here."""
from __future__ import annotations

from types import SimpleNamespace as Made

import reasons


def report(name: str, message: str, when: str = "setup") -> Made:
    """Returns the report of a test that failed with this message."""
    crash = Made(reprcrash=Made(message=message))
    return Made(nodeid=name, when=when, failed=True, longrepr=crash)


def skip(name: str, message: str) -> Made:
    """Returns the report of a test that was skipped."""
    told = "file", 1, f"Skipped: {message}"
    return Made(nodeid=name, when="setup", failed=False, longrepr=told)


def test_reason() -> None:
    """A reason is a message, a skip's cause, what went wrong in a module, or the last line."""
    assert reasons.reason_of(report("a", "Failed: no library")) == "no library"
    assert reasons.reason_of(skip("a", "not installed: yosys")) == "not installed: yosys"
    module = "a.py:1: in <module>\n    import b\nE   ModuleNotFoundError: b\n"
    assert reasons.reason_of(Made(longrepr=module)) == "ModuleNotFoundError: b"
    assert reasons.reason_of(Made(longrepr="first\nlast\n\n")) == "last"


def test_repeated() -> None:
    """An error in the setup of a second test is repeated; another's, or a failure, is not."""
    known = reasons.Repeated()
    first, second = report("a", "no library"), report("b", "no library")
    assert not known.is_repeated(first)
    assert known.is_repeated(second)
    # Who asks again is told the same.
    assert not known.is_repeated(first)
    assert known.is_repeated(second)
    assert not known.is_repeated(report("c", "no program"))
    assert not known.is_repeated(report("d", "no library", "call"))
    assert not known.is_repeated(skip("e", "no library"))


def test_summary() -> None:
    """Each reason is told once, with how many tests it hit; the most frequent comes first."""
    stats = {
        "failed": [report("a", "wrong\n  wanted 1\n\n  given  2", "call")],
        "error": [report("b", "no library")],
        reasons.AS_BEFORE: [report("c", "no library"), report("d", "no library")],
        "skipped": [skip(name, "no tool") for name in "efgh"],
        "passed": [Made(nodeid="i")],
    }
    assert list(reasons.summary(stats)) == [
        "ERROR 3 tests, the first b",
        "  no library",
        "FAILED 1 test a",
        "  wrong",
        "    wanted 1",
        "    given  2",
        "SKIPPED 4 tests, the first e",
        "  no tool",
    ]


def test_many_reasons() -> None:
    """Of many reasons one line each is told, and the rest is counted."""
    stats = {"failed": [report(f"t{i}", f"why {i}\nmore", "call") for i in range(reasons.MOST + 2)]}
    lines = list(reasons.summary(stats))
    assert lines[:3] == ["FAILED 1 test t0", "  why 0", "FAILED 1 test t1"]
    assert lines[-1] == "2 more reasons (2 FAILED): -ra lists each test"
    assert len(lines) == 2 * reasons.MOST + 1


def test_long_line() -> None:
    """A long line is cut."""
    lines = list(reasons.summary({"failed": [report("a", "x" * 1000, "call")]}))
    assert lines == ["FAILED 1 test a", "  " + "x" * reasons.LETTERS + ".."]
