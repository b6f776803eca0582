"""Runs the incremental model checkers of examples/ on designs with known answers.

Other tools found at which step a bad state of a design is first reached, or that none is
(tests/designs/answers.tsv; of the example, README). An example has to print a line for each of
some steps before, up to step BOUND, and then a witness that `aigcheck run` accepts for that step.
The library checks the proofs of these lines in the example's process: one that it refuses ends the
example with another status.
"""
from __future__ import annotations

import os
import pathlib
import sys
from collections.abc import Callable, Iterator, Mapping
from typing import NamedTuple

import harness
import pytest
from harness import TOP, Checks
from languages import rust_program

EXAMPLE = {"examples/permits.aag": 2}
# The last step, and the steps for which an example has its answers checked.
BOUND, CHECKED = 6, (0, 1, 3, 6)
MOST_LINES = 80
ARCHIVE = "-l:libcadical.a"


class Example(NamedTuple):
    """An example: its language, the words that run it, and its environment."""

    language: str
    words: tuple[str, ...]
    environment: Mapping[str, str] = os.environ


def cpp(folder: pathlib.Path) -> Example:
    """Builds the example in C++."""
    program = str(folder / "incremental_cpp")
    words = ["g++", "-std=c++17", "-O2", "-Wall", "-Wextra", "-Wpedantic", "-Werror"]
    words += [f"-I{TOP / 'include'}", str(TOP / "examples" / "incremental.cpp")]
    harness.build([*words, str(folder / "libaig.a"), "-lcadical", "-o", program])
    return Example("C++", (program,))


def rust(folder: pathlib.Path) -> Example:
    """Builds the example in Rust."""
    source = TOP / "examples" / "incremental.rs"
    return Example("Rust", (rust_program(folder, source, f"-Clink-args={ARCHIVE} -lstdc++"),))


def python(folder: pathlib.Path) -> Example:
    """Builds the solver for the example in Python."""
    solver = str(folder / "libcadical.so")
    words = ["g++", "-shared", "-o", solver, "-Wl,--whole-archive", ARCHIVE]
    harness.build([*words, "-Wl,--no-whole-archive"])
    found = {"LIBAIG": str(folder / "libaig.so"), "PYTHONPATH": str(TOP / "lib" / "python")}
    words = [sys.executable, str(TOP / "examples" / "incremental.py"), solver]
    return Example("Python", tuple(words), {**os.environ, **found})


def designs() -> Iterator[tuple[pathlib.Path, int | None]]:
    """Yields the designs, and where a bad state is first reached up to step BOUND, if at all."""
    table: list[list[str]] = harness.rows(
        harness.TESTS / "designs" / "answers.tsv"
    )
    yield from ((TOP / name, step) for name, step in EXAMPLE.items())
    for name, answer in table:
        step = int(answer) if answer.isdigit() else None
        if answer != "open":
            is_reached = step is not None and step <= BOUND
            yield harness.TESTS / "designs" / f"{name}.aig", step if is_reached else None


def check(
    checks: Checks, example: Example, folder: pathlib.Path, aigcheck: pathlib.Path
) -> None:
    """Compares what an example prints of each design, and has its witnesses checked."""
    for path, step in designs():
        words = [*example.words, str(path), str(BOUND)]
        status, out, said = harness.run(words, env=example.environment)
        good = [k for k in CHECKED if step is None or k < step]
        lines, count = out.splitlines(keepends=True), len(good)
        wanted = [f"no bad state up to step {k}\n".encode() for k in good]
        ended = int(step is not None), wanted, b""
        checks.wants(f"{example.language}: {path.name}", ended, (status, lines[:count], said))
        (folder / "witness").write_bytes(b"".join(lines[count:]))
        if step is None:
            checks.wants(f"{example.language}: more of {path.name}", [], lines[count:])
            continue
        run = [str(aigcheck), "run", str(path), str(folder / "witness")]
        shown = 0, f"b0 at step {step}\n".encode()
        checks.wants(f"{example.language}: the witness of {path.name}", shown, harness.run(run)[:2])


@pytest.mark.parametrize("language", ["cpp", "rs", "py"])
def test_length(language: str) -> None:
    """An example is short."""
    text = (TOP / "examples" / f"incremental.{language}").read_text(encoding="utf-8")
    assert text.count("\n") <= MOST_LINES


@pytest.mark.cpp
@pytest.mark.parametrize("language", [cpp, python])
def test_example(
    library: pathlib.Path,
    folder: pathlib.Path,
    checks: Checks,
    aigcheck: pathlib.Path,
    language: Callable[[pathlib.Path], Example],
) -> None:
    """An example answers as other tools do."""
    check(checks, language(library), folder, aigcheck)


@pytest.mark.cpp
@pytest.mark.rust
def test_example_in_rust(
    library: pathlib.Path, folder: pathlib.Path, checks: Checks, aigcheck: pathlib.Path
) -> None:
    """The example in Rust does so, too."""
    check(checks, rust(library), folder, aigcheck)
