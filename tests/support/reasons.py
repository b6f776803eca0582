"""Why tests failed or were skipped, told at the end of a run in few lines.

Where what many tests are given can't be made, each of them fails with the same error: a program
that isn't built, a library that doesn't compile. The first such error is told whole. The others are
counted apart, as "errors as before", and nothing else is printed of them.
"""
from __future__ import annotations

import collections
import dataclasses
import itertools
from collections.abc import Iterator, Mapping, Sequence
from typing import Any

# How pytest names tests of one kind of result, and how the summary begins their lines.
KINDS = {"failed": "FAILED", "error": "ERROR", "skipped": "SKIPPED"}
AS_BEFORE = "errors as before"
# How many lines all reasons have together at most, how many reasons are told one by one, and
# how many letters a line of a message has.
LINES, MOST, LETTERS = 40, 20, 300


def reason_of(report: Any) -> str:
    """Returns the message of a test that failed or was skipped, which can have several lines."""
    told = report.longrepr
    if isinstance(told, tuple):
        return str(told[2]).removeprefix("Skipped: ")
    crash = getattr(told, "reprcrash", None)
    if crash:
        return str(crash.message).removeprefix("Failed: ").strip()
    lines = [line for line in str(told).splitlines() if line.strip()]
    errors = [line[1:].strip() for line in lines if line.startswith("E ")]
    return "\n".join(errors or lines[-1:])


class Repeated:
    """Knows which errors were told before."""

    def __init__(self) -> None:
        self.first: dict[str, str] = {}

    def is_repeated(self, report: Any) -> bool:
        """Returns whether a test's setup failed for the same reason as that of another before."""
        if report.when != "setup" or not report.failed:
            return False
        name = str(report.nodeid)
        return self.first.setdefault(reason_of(report), name) != name


@dataclasses.dataclass
class Reason:
    """A reason, what became of its tests, how many they are, and the first of them."""

    kind: str
    message: str
    first: str
    tests: int = 0

    def lines(self, most: int) -> Iterator[str]:
        """Yields the lines that tell the reason, at most so many of its message."""
        tests = "1 test" if self.tests == 1 else f"{self.tests} tests, the first"
        yield f"{self.kind} {tests} {self.first}"
        lines = (line for line in self.message.splitlines() if line.strip())
        for line in itertools.islice(lines, most):
            yield f"  {line[:LETTERS]}{'..' * (len(line) > LETTERS)}"


def reasons_of(stats: Mapping[str, Sequence[Any]]) -> list[Reason]:
    """Returns the distinct reasons of a run, the most frequent first, those of skips at the end.

    `stats` has the reports by the kind of their result.
    """
    found: dict[tuple[str, str], Reason] = {}
    for kind, word in [*KINDS.items(), (AS_BEFORE, KINDS["error"])]:
        for report in stats.get(kind, []):
            message = reason_of(report)
            own = found.setdefault((word, message), Reason(word, message, report.nodeid))
            own.tests += 1
    return sorted(found.values(), key=lambda own: (own.kind == KINDS["skipped"], -own.tests))


def summary(stats: Mapping[str, Sequence[Any]]) -> Iterator[str]:
    """Yields the lines that tell the reasons of a run."""
    found = reasons_of(stats)
    for reason in found[:MOST]:
        yield from reason.lines(max(1, LINES // len(found) - 1))
    if rest := found[MOST:]:
        tests = collections.Counter[str]()
        for reason in rest:
            tests[reason.kind] += reason.tests
        counts = ", ".join(f"{count} {kind}" for kind, count in tests.items())
        yield f"{len(rest)} more reasons ({counts}): -ra lists each test"
